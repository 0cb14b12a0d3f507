/* Puts the page together, and draws again what has changed. */
"use strict";

/** The milliseconds of a frame after which pictures are only moved: half of what a screen with sixty frames in a second has. */
const MOST_OF_FRAME = 8;

class Page {
  constructor(meta, buffer) {
    this.reports = meta.reports.map(report => new Report(report, buffer, meta.targets));
    this.view = new View(this.reports, meta.targets);
    this.colours = slotColours(this.reports);
    this.palette = new Palette();
    const shares = this.reports.map(report => report.greatestShares());
    this.greatest = meta.targets.map((_, target) => Math.max(...shares.map(found => found[target])));
    this.hover = new Hover(this.view);
    this.times = [true, false].map(isTop => new TimePanel(this, isTop));
    this.panels = panelsOf(this);
    this.strips = new Strips(this);
    this.curves = curvePanelsOf(this);
    this.tables = new Tables(this);
    this.steps = new Steps(this);
    this.changed = new Set();
    this.introduce();
    this.listen();
  }

  /** What stands above: the names, what is left out, and the scales. */
  introduce() {
    const { reports, view } = this, pages = d3.sum(view.targets, target => target.high - target.low);
    const facts = reports.map(report => {
      const { name, found } = report.meta;
      return `${name}: ${counted(found.snapshots, nounOf(report))} with ${counted(found.rows, "row")}`;
    });
    const memory = `${counted(view.targets.length, "target")} with ${counted(pages, "page")}`;
    d3.select("#what").text([...facts, memory, counted(view.end - view.start, "sampling interval")].join("; "));
    for (const report of reports) this.note(report);
    d3.select("#names").selectAll("p").data(reports).enter().append("p").text(report => report.meta.name);
    d3.select("#switch").attr("hidden", reports.length > 1 ? null : "");
  }

  /** What a page does not show of a report. */
  note(report) {
    const { meta, count, rows } = report, notes = d3.select("#notes");
    if (meta.step > 1) {
      notes.append("li").attr("class", "left-out").text(`Left out of ${meta.name} for its size: of ${counted(meta.found.snapshots, nounOf(report))} `
        + `the page has one of each ${meta.step}: ${d3.format(",")(count)}, with ${counted(rows.target.length, "row")}. `
        + "Its column stands for all of them, and shows the last one. The curves have all.");
    }
    if (meta.later) notes.append("li").text(`${counted(meta.later, "commit")} of ${meta.name} came after the last column.`);
  }

  listen() {
    this.view.listen(what => this.change(what));
    d3.select("#difference").on("change", () => this.switchMode(d3.select("#difference").property("checked")));
    d3.select("#unfold").on("click", () => this.foldAll(false));
    d3.select("#fold").on("click", () => this.foldAll(true));
    new ResizeObserver(() => this.redraw()).observe(document.querySelector("#runs"));
    window.addEventListener("scroll", () => this.change("scroll"), { passive: true });
    window.matchMedia("(prefers-color-scheme: dark)").addEventListener("change", () => {
      this.palette = new Palette();
      this.redraw();
    });
  }

  get lanes() {
    return [...this.times, ...this.panels, this.strips, ...this.curves].flatMap(part => part.shownLanes);
  }

  focusedLane() {
    return this.panels.flatMap(panel => panel.shownLanes).find(lane => lane.node === document.activeElement);
  }

  say(words) {
    d3.select("#said").text(words);
  }

  foldAll(isFolded) {
    for (const panel of this.panels) panel.fold(isFolded);
    this.redraw();
  }

  switchMode(isDifference) {
    d3.select("#difference").property("checked", isDifference);
    this.view.showDifference(isDifference);
  }

  /** Unfolds a target and shows an area of it, with as much around it. */
  showArea(number, start, end) {
    const panel = this.panels.find(one => one.number === number);
    panel.fold(false);
    this.view.showPages(number, [start - (end - start), end + (end - start)]);
    panel.section.node().scrollIntoView({ block: "nearest" });
  }

  redraw() {
    this.change("view");
  }

  /** Draws with the next frame, once for all changes until then. */
  change(what) {
    if (!this.changed.size) requestAnimationFrame(() => this.draw());
    this.changed.add(what);
    document.body.dataset.isDrawn = "no";
  }

  draw() {
    // What changes from now on is drawn with another frame.
    const changed = this.changed;
    this.changed = new Set();
    const isWhole = changed.has("view") || changed.has("mode");
    if (isWhole) {
      document.body.classList.toggle("difference", this.view.isDifference);
      drawLegend(this);
      for (const part of [...this.times, ...this.panels, this.strips, ...this.curves]) part.update();
      for (const lane of this.lanes) lane.isStale = true;
      document.body.dataset.time = this.view.time.join(" ");
    }
    // All are measured before one is drawn: a measure after a change would lay the page out again each time.
    const seen = this.lanes.filter(lane => lane.isStale && lane.measure());
    // While the view moves each lane comes to its turn, and one in each frame at least.
    seen.sort((one, other) => one.drawnAt - other.drawnAt);
    const end = performance.now() + MOST_OF_FRAME;
    seen.forEach((lane, place) => lane.draw(place === 0 || performance.now() < end));
    if (changed.has("cursor")) {
      for (const lane of this.lanes) lane.drawCursor();
      this.focusedLane()?.followCursor();
    }
    if (changed.has("cursor") || changed.has("mode") || this.tables.root.node().childElementCount === 0) this.tables.draw();
    if (seen.some(lane => lane.isStale)) this.change("rest");
    else if (!this.changed.size) document.body.dataset.isDrawn = "yes";
  }
}

/** What the columns of a report are: a show before a commit has one too. */
function nounOf(report) {
  return report.snapshots.isAggregation.includes(0) ? "column" : "aggregation";
}

/** An axis for each report that stands beside another one. */
class TimePanel {
  constructor(page, isTop) {
    this.page = page;
    const root = d3.select(isTop ? "#top" : "#bottom").append("div").attr("class", "lanes").node();
    this.all = page.reports.map(() => new TimeLane(page, root, isTop));
  }

  get shownLanes() {
    return this.page.view.isDifference ? this.all.slice(0, 1) : this.all;
  }

  update() {
    for (const lane of this.all) lane.root.attr("hidden", this.shownLanes.includes(lane) ? null : "");
  }
}

/** The scale of colours, and the hatches. */
function drawLegend(page) {
  const root = d3.select("#legend").html(""), { view, reports } = page;
  const scale = (name, steps, low, high) => {
    const line = root.append("span").attr("class", "scale");
    line.append("span").text(`${name}: ${low}`);
    for (const step of steps) line.append("i").style("background", `var(--${step})`);
    line.append("span").text(high);
  };
  if (view.isDifference) {
    const [first, second] = reports.map(report => report.meta.name);
    scale(`${second} beside ${first}`, d3.range(LEVELS).map(step => `difference${step}`), "accessed less", "more");
    root.append("span").attr("class", "blind").text("not watched in one of them");
    return;
  }
  scale("share of passes in which it was found accessed", ["panel", ...d3.range(1, LEVELS + 1).map(step => `heat${step}`)], "never", "always");
  root.append("span").attr("class", "blind").text("not watched");
  for (const [slot, colour] of page.colours) {
    const action = reports.flatMap(report => report.meta.slots).find(one => one.number === slot && one.action)?.action ?? "";
    root.append("span").attr("class", "mark").style("--mark", `var(--slot${colour})`).text(`slot ${slot} ${action} applied`);
  }
}

async function main() {
  const block = document.querySelector("#block");
  if (!("DecompressionStream" in window)) throw new Error("this browser cannot unpack the data: it has no DecompressionStream");
  const buffer = await unpacked(block.textContent);
  block.remove();
  const page = new Page(JSON.parse(document.querySelector("#meta").textContent), buffer);
  // A link to the page can name the interval at which it begins.
  if (/^#\d+$/.test(location.hash)) page.view.moveCursorTo(Number(location.hash.slice(1)));
  page.changed.add("view");
  page.draw();
  performance.mark("drawn");
  document.body.dataset.ready = "yes";
}

main().catch(error => {
  d3.select("#fault").attr("hidden", null).text(`This page could not be drawn: ${error.message}`);
  throw error;
});
