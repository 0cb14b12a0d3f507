/* Numbers in words, and what the reports say of a point. */
"use strict";

const counted = (number, noun) => `${d3.format(",")(number)} ${noun}${number === 1 ? "" : "s"}`;
const passWords = number => `${d3.format(",")(number)} pass${number === 1 ? "" : "es"}`;
const UNITS = [[2 ** 30, "GiB"], [2 ** 20, "MiB"], [2 ** 10, "KiB"]];

/** A number of pages as a size. */
function sizeWords(pages) {
  const bytes = pages * Number(PAGE_BYTES);
  const [unit, name] = UNITS.find(([size]) => bytes >= size) ?? [1, "bytes"];
  return `${bytes < 1000 * unit ? Number((bytes / unit).toPrecision(3)) : Math.floor(bytes / unit)} ${name}`;
}

/** The address of a page of a target; pages are counted from the first one of the target. */
function address(target, page) {
  return `0x${(BigInt(target.low + page) * PAGE_BYTES).toString(16)}`;
}

const addresses = (target, start, end) => `${address(target, start)}-${address(target, end)}`;

/** The value of a curve in words; a curve has pages, or a number of something. */
function curveWords(curve, value) {
  return Number.isNaN(value) ? "none" : curve.unit === "pages" ? sizeWords(value) : d3.format(",")(value);
}

/** The value of a curve at a tick: it holds since the tick before its own. */
function curveAt(curve, tick) {
  const place = firstAbove(curve.ticks, Math.ceil(tick) - 1, 0, curve.ticks.length);
  return place < curve.ticks.length ? curve.values[place] : NaN;
}

/** A run of a scheme in words. */
function runWords(report, run) {
  return `slot ${report.runs.slot[run]} ${report.meta.actions[report.runs.action[run]]}, score ${report.runs.score[run]}`;
}

/** What a report says of a page at a tick, by the names of the lines; null if it has no column there. */
function answer(report, target, number, tick, page) {
  const snapshot = report.at(tick);
  if (snapshot < 0) return null;
  const row = report.rowAt(snapshot, number, page), passes = report.snapshots.passes[snapshot];
  const time = `${report.snapshots.tick[snapshot]} (${snapshot + 1} of ${report.count})`;
  if (row < 0) return { tick: time, addresses: "not watched" };
  const { start, end, count, last, age } = report.rows;
  const found = {
    tick: time,
    addresses: addresses(target, start[row], end[row]),
    size: `${counted(end[row] - start[row], "page")}, ${sizeWords(end[row] - start[row])}`,
    count: `${count[row]} of ${passWords(passes)}`,
  };
  if (report.meta.hasAges) Object.assign(found, { last: String(last[row]), age: String(age[row]) });
  const runs = report.runsAt(snapshot, row, page).map(run => runWords(report, run));
  return runs.length ? { ...found, scheme: runs.join("; ") } : found;
}

/** The box beside the pointer. */
class Hover {
  constructor(view) {
    this.view = view;
    this.box = d3.select("#hover");
  }

  hide() {
    this.box.attr("hidden", "");
  }

  /** Shows lines of names and values, a value for each report, beside a place of the window. */
  show(title, names, answers, x, y) {
    const box = this.box.html("").attr("hidden", null);
    box.append("p").text(title);
    const table = box.append("table");
    if (answers.length > 1) {
      const head = table.append("tr");
      head.append("td");
      for (const report of this.view.reports) head.append("th").attr("scope", "col").text(report.meta.name);
    }
    for (const name of names) {
      if (!answers.some(found => found && name in found)) continue;
      const line = table.append("tr").attr("data-field", name);
      line.append("th").attr("scope", "row").text(name);
      for (const found of answers) line.append("td").text(found?.[name] ?? "");
    }
    this.place(x, y);
  }

  /** Right of a place and below it, or on the other side if there is no room. */
  place(x, y) {
    const { width, height } = this.box.node().getBoundingClientRect();
    const left = x + 16 + width > window.innerWidth ? x - 16 - width : x + 16;
    const top = y + 16 + height > window.innerHeight ? y - 16 - height : y + 16;
    this.box.style("left", `${Math.max(4, left)}px`).style("top", `${Math.max(4, top)}px`);
  }

  /** What all reports say of a page of a target. */
  showPage(number, tick, page, x, y) {
    const target = this.view.targets[number];
    const answers = this.view.reports.map(report => answer(report, target, number, tick, page));
    this.show(`${target.name}, at ${address(target, page)}`, ["tick", "addresses", "size", "count", "last", "age", "scheme"], answers, x, y);
  }

  /** The same as one sentence. */
  words() {
    return [...this.box.node().querySelectorAll("p, tr")].map(line => line.innerText.replace(/\s+/g, " ")).join("; ");
  }
}
