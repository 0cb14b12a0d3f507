/* Beside the targets: what each report says at the cursor, its hottest rows first; or where two differ most. */
"use strict";

const FEW = 16, FEW_OF_TWO = 9;

/** Rows of a snapshot from the hottest one on: by their count, and those with the same count by their size. */
function hottest(report, snapshot) {
  const { start, end, count, target } = report.rows;
  const first = report.rowsOf(snapshot, 0)[0], after = report.rowsOf(snapshot, report.width - 1)[1];
  return d3.range(first, after).sort((one, other) =>
    count[other] - count[one] || (end[other] - start[other]) - (end[one] - start[one]) || target[one] - target[other] || start[one] - start[other]);
}

/** Stretches of a target that lie in one row of each report: [start, end, share, share]. */
function stretches(reports, snapshots, target) {
  const rows = reports.map((report, place) => report.rowsOf(snapshots[place], target));
  const edges = new Set();
  reports.forEach((report, place) => {
    for (let row = rows[place][0]; row < rows[place][1]; row++) edges.add(report.rows.start[row]).add(report.rows.end[row]);
  });
  const sorted = Float64Array.from(edges).sort(), found = [];
  for (let at = 0; at + 1 < sorted.length; at++) {
    const [one, other] = reports.map((report, place) => {
      const row = report.rowAt(snapshots[place], target, sorted[at]);
      return row < 0 ? NaN : report.share(snapshots[place], row);
    });
    if (!Number.isNaN(one - other)) found.push([sorted[at], sorted[at + 1], one, other]);
  }
  return found;
}

class Tables {
  constructor(page) {
    this.page = page;
    this.isLong = false;
    this.isTaken = false;
    this.root = d3.select("#tables");
  }

  /** How many rows a table has at first. */
  get few() {
    return this.page.reports.length > 1 && !this.page.view.isDifference ? FEW_OF_TWO : FEW;
  }

  draw() {
    this.root.html("");
    const { reports, view } = this.page;
    if (view.isDifference) this.drawDifferences();
    else for (const report of reports) this.drawReport(report);
  }

  drawReport(report) {
    const { view } = this.page, snapshot = report.at(view.tick), section = this.root.append("section").attr("data-report", report.meta.name);
    const names = this.page.reports.length > 1 ? `${report.meta.name}: ` : "";
    if (snapshot < 0) {
      section.append("h2").text(`${names}nothing at interval ${view.tick}`);
      return;
    }
    const kind = report.snapshots.isAggregation[snapshot] ? "aggregation" : "show before a commit";
    section.append("h2").text(`${names}${kind} ${snapshot + 1} of ${report.count}, at interval ${report.snapshots.tick[snapshot]}`);
    this.drawFacts(section, report, snapshot);
    this.drawRows(section, report, snapshot);
  }

  /** The curves at the cursor, the slots, and the commits since the column before. */
  drawFacts(section, report, snapshot) {
    const tick = report.snapshots.tick[snapshot], before = report.edges[snapshot], facts = section.append("ul").attr("class", "facts");
    const values = report.curves.map(curve => `${curve.name}: ${curveWords(curve, curveAt(curve, tick))}`);
    facts.append("li").text(values.join("; "));
    for (const slot of report.meta.slots) {
      const span = slot.spans.find(([start, end]) => start < tick && tick <= end);
      if (!span) continue;
      const runs = runsIn(report, snapshot).filter(run => report.runs.slot[run] === slot.number);
      const pages = d3.sum(runs, run => report.runs.end[run] - report.runs.start[run]);
      facts.append("li").text(`slot ${slot.number} ${slot.action}: ${span[2] ? `active, applied to ${counted(pages, "page")}` : "inactive"}`);
    }
    for (const change of report.meta.changes.filter(one => before < one.tick && one.tick <= tick)) {
      facts.append("li").text(`commit at ${change.tick}: ${[...change.parts, change.answer].join(", ")}`);
    }
  }

  drawRows(section, report, snapshot) {
    const { hasAges } = report.meta, hasRuns = report.meta.actions.length > 0, isTaken = hasRuns && this.isTaken;
    const rows = hottest(report, snapshot).filter(row => !isTaken || report.runsAt(snapshot, row).length);
    const shown = this.isLong ? rows : rows.slice(0, this.few);
    const heads = ["area", "addresses", "pages", "count", ...(hasAges ? ["last", "age"] : []), ...(hasRuns ? ["scheme"] : [])];
    const passes = passWords(report.snapshots.passes[snapshot]);
    const which = `${counted(rows.length, "row")}${isTaken ? " that schemes took" : ""}`;
    const caption = `the ${shown.length} hottest of ${which}, by count of ${passes} and size`;
    const body = this.addTable(section, caption, heads);
    for (const row of shown) {
      const { start, end, count, last, age } = report.rows, target = report.rows.target[row];
      const line = body.append("tr");
      this.addArea(line, target, start[row], end[row]);
      const level = levelOf(report.share(snapshot, row));
      line.append("td").text(end[row] - start[row]);
      line.append("td").text(count[row]).append("span").attr("class", "swatch").style("background", `var(--${level ? `heat${level}` : "panel"})`);
      if (hasAges) for (const value of [last[row], age[row]]) line.append("td").text(value);
      const schemes = new Set(report.runsAt(snapshot, row).map(run => runWords(report, run)));
      if (hasRuns) line.append("td").attr("class", "words").text([...schemes].join("; "));
    }
    this.addMore(section, rows.length);
    if (hasRuns) {
      this.addButton(section, "taken", "only what schemes took", () => { this.isTaken = !this.isTaken; }).attr("aria-pressed", String(isTaken));
    }
  }

  /** Where the shares of two reports differ most, by share and size. */
  drawDifferences() {
    const { reports, view } = this.page, snapshots = reports.map(report => report.at(view.tick));
    const section = this.root.append("section").attr("data-report", "difference");
    section.append("h2").text(`difference at interval ${view.tick}`);
    if (snapshots.some(snapshot => snapshot < 0)) {
      section.append("p").text("One of the reports has nothing here.");
      return;
    }
    const all = view.targets.flatMap((_, target) => stretches(reports, snapshots, target).map(stretch => [target, ...stretch]));
    const found = all.filter(([, , , one, other]) => one !== other);
    found.sort(([, a, b, c, d], [, e, f, g, h]) => Math.abs(h - g) * (f - e) - Math.abs(d - c) * (b - a));
    const shown = this.isLong ? found : found.slice(0, this.few), share = d3.format(".0%");
    const caption = `the ${shown.length} greatest of ${counted(found.length, "difference")}, by share of passes and size`;
    const body = this.addTable(section, caption, ["area", "addresses", "pages", ...reports.map(report => report.meta.name), "difference"]);
    for (const [target, start, end, one, other] of shown) {
      const line = body.append("tr");
      this.addArea(line, target, start, end);
      for (const text of [end - start, share(one), share(other)]) line.append("td").text(text);
      line.append("td").text(d3.format("+.0%")(other - one)).append("span").attr("class", "swatch")
        .style("background", `var(--difference${differenceLevel(other - one)})`);
    }
    this.addMore(section, found.length);
  }

  addTable(section, caption, heads) {
    const table = section.append("table");
    table.append("caption").text(caption);
    const head = table.append("thead").append("tr");
    for (const name of heads) head.append("th").attr("scope", "col").text(name);
    return table.append("tbody");
  }

  /** The name of an area, and its addresses, which show it when they are pressed. */
  addArea(line, number, start, end) {
    const target = this.page.view.targets[number];
    line.append("th").attr("scope", "row").text(target.name);
    line.append("td").append("button").attr("type", "button").attr("title", "show this area").text(addresses(target, start, end))
      .on("click", () => this.page.showArea(number, start, end));
  }

  addMore(section, count) {
    if (count <= this.few) return;
    this.addButton(section, "more", this.isLong ? `the first ${this.few}` : `all ${count}`, () => { this.isLong = !this.isLong; });
  }

  /** A button that changes what tables show, and keeps the focus as they are made anew. */
  addButton(section, kind, words, change) {
    const place = this.root.selectAll(`.${kind}`).size();
    return section.append("button").attr("type", "button").attr("class", kind).text(words).on("click", () => {
      change();
      this.draw();
      this.root.selectAll(`.${kind}`).nodes()[place]?.focus();
    });
  }
}

/** All runs of schemes of a snapshot. */
function runsIn(report, snapshot) {
  return d3.range(report.runsOf(snapshot, 0)[0], report.runsOf(snapshot, report.width - 1)[1]);
}
