/* The targets: for each a heading that folds it, and a lane for each report and for the difference. */
"use strict";

const SHARED_HEIGHT = 640, LEAST_HEIGHT = 38, MOST_HEIGHT = 460, FOLDED_HEIGHT = 10;

/** The addresses of a target over time, of one report, or of the difference of both. */
class HeatLane extends Lane {
  constructor(page, parent, number, reports, height) {
    super(page.view, parent, height);
    Object.assign(this, { page, number, reports });
    this.target = page.view.targets[number];
    this.axis = this.svg.append("g").attr("class", "axis").attr("transform", `translate(${GUTTER.left},0)`);
    this.probe = this.svg.append("rect").attr("class", "probe").attr("display", "none");
    followGestures(this, page.view, number);
    this.followPointer();
    this.followKeys();
  }

  /** From pages to places, from the top. */
  get y() {
    return d3.scaleLinear().domain(this.view.pages[this.number]).range([this.height, 0]);
  }

  /** The page at a place of the window. */
  pageAt(clientY) {
    return Math.floor(this.y.invert(clientY - this.node.getBoundingClientRect().top));
  }

  /** Draws a picture of what the view has, and shows it. */
  drawContent() {
    const { width, height } = this.fitCanvas(), { view, page } = this;
    const frame = new Frame(this.number, view.time, view.pages[this.number], width, height);
    this.frame = frame;
    this.picture = resized(this.picture ?? document.createElement("canvas"), width, height);
    if (this.reports.length === 1) {
      const marks = page.colours.size ? marksOf(this.reports[0], frame, page.colours) : null;
      paint(this.picture, frame, page.palette, sharesOf(this.reports[0], frame), share => page.palette.heat[levelOf(share)], marks);
    } else {
      const [first, second] = this.reports.map(report => sharesOf(report, frame));
      paint(this.picture, frame, page.palette, second.map((share, at) => share - first[at]),
        share => page.palette.difference[differenceLevel(share)], null);
    }
    this.movePicture();
  }

  /** Shows the picture where its time and its pages are in the view. */
  movePicture() {
    const { width, height } = this.fitCanvas(), { x, y, picture, frame } = this, context = this.canvas.getContext("2d");
    const [left, right] = frame.time.map(tick => Math.round(x(tick) * width / this.width));
    const [bottom, top] = frame.pages.map(page => Math.round(y(page) * height / this.height));
    context.imageSmoothingEnabled = false;
    context.clearRect(0, 0, width, height);
    context.drawImage(picture, left, top, right - left, bottom - top);
    this.drawAxis();
    this.drawCommits(this.reports);
  }

  /** Addresses at the left, at multiples of a power of two. */
  drawAxis() {
    const [low, high] = this.view.pages[this.number], { low: first } = this.target;
    const step = 2 ** Math.max(0, Math.ceil(Math.log2((high - low) * 22 / this.height)));
    const { y, height } = this, all = d3.range(Math.ceil((first + low) / step) * step - first, high, step);
    // A word that stands higher or lower would be cut.
    const ticks = this.isFolded ? [] : all.filter(page => y(page) >= 5 && y(page) <= height - 4);
    const axis = d3.axisLeft(y).tickSize(4).tickValues(ticks);
    this.axis.call(axis.tickFormat(page => address(this.target, Math.floor(page))));
  }

  followPointer() {
    this.root.on("pointermove", first => {
      const event = eventOf(first);
      const tick = this.tickAt(event.clientX), page = this.pageAt(event.clientY);
      const [low, high] = this.view.pages[this.number];
      if (event.buttons || tick < this.view.time[0] || tick > this.view.time[1] || page < Math.floor(low) || page >= high) {
        this.closeProbe();
      } else {
        this.page.hover.showPage(this.number, tick, page, event.clientX, event.clientY);
        this.outlineAt(tick, page);
      }
    });
    this.root.on("pointerleave", () => this.closeProbe());
    this.root.on("click", first => {
      const event = eventOf(first), tick = this.tickAt(event.clientX);
      if (tick >= this.view.time[0] && tick <= this.view.time[1]) this.view.moveCursorTo(tick);
    });
  }

  /** With the focus: up and down go from region to region at the cursor. */
  followKeys() {
    this.root.attr("tabindex", 0).attr("role", "application").attr("aria-roledescription", "heat map").attr("aria-describedby", "help");
    this.root.on("keydown", first => {
      const event = eventOf(first), step = { ArrowUp: 1, ArrowDown: -1 }[event.key];
      if (event.key === "Escape") this.closeProbe();
      if (!step || event.ctrlKey || event.altKey || event.metaKey) return;
      event.preventDefault();
      this.moveProbe(step);
    });
    this.root.on("blur", () => this.closeProbe());
  }

  closeProbe() {
    this.probed = undefined;
    this.probe.attr("display", "none");
    this.page.hover.hide();
  }

  /** The region that was asked for last, at the new place of the cursor. */
  followCursor() {
    if (this.probed !== undefined) this.moveProbe(0);
  }

  /** The region above or below the one that is shown, at the cursor; the hottest one at first. */
  moveProbe(step) {
    const report = this.reports[this.reports.length - 1], snapshot = report.at(this.view.tick);
    if (snapshot < 0) return;
    const [first, after] = report.rowsOf(snapshot, this.number), { start, end, count } = report.rows;
    if (first === after) return;
    let row = d3.range(first, after).reduce((best, other) => (count[other] > count[best] ? other : best));
    if (this.probed !== undefined) {
      const below = firstAbove(start, this.probed, first, after) - 1;
      row = Math.min(Math.max(below + (below >= first || step > 0 ? step : 0), first), after - 1);
    }
    this.probed = start[row];
    this.view.showPages(this.number, seen(this.view.pages[this.number], start[row], end[row]));
    this.showProbe(report, snapshot, row);
  }

  /** Says what a row has, and draws a line around it. */
  showProbe(report, snapshot, row) {
    const [right, bottom] = this.outline(report, snapshot, row), box = this.node.getBoundingClientRect();
    this.page.hover.showPage(this.number, this.view.tick, report.rows.start[row], box.left + right, box.top + bottom);
    this.page.say(this.page.hover.words());
  }

  /** A line around the row of a page, where there is one report. */
  outlineAt(tick, page) {
    const [report] = this.reports, snapshot = report.at(tick), row = snapshot < 0 ? -1 : report.rowAt(snapshot, this.number, page);
    if (row < 0 || this.reports.length > 1) this.probe.attr("display", "none");
    else this.outline(report, snapshot, row);
  }

  /** A line around a row; gives its right lower corner. */
  outline(report, snapshot, row) {
    const { x, y, width, height } = this, { start, end } = report.rows;
    const left = Math.max(0, x(report.edges[snapshot])), right = Math.min(width, x(report.edges[snapshot + 1]));
    const top = Math.max(0, y(end[row])), bottom = Math.min(height, y(start[row]));
    this.probe.attr("display", null).attr("x", GUTTER.left + left).attr("y", top)
      .attr("width", Math.max(2, right - left)).attr("height", Math.max(2, bottom - top));
    return [GUTTER.left + right, bottom];
  }
}

/** A span of pages moved so that it has these. */
function seen([low, high], start, end) {
  if (start >= low && end <= high) return [low, high];
  const middle = (start + end) / 2, half = Math.max(high - low, end - start) / 2;
  return [middle - half, middle + half];
}

/** A target with its heading. */
class Panel {
  constructor(page, number, isFolded, height) {
    const target = page.view.targets[number];
    Object.assign(this, { page, number, target, height });
    this.section = d3.select("#targets").append("section").attr("class", "target").attr("data-target", target.number);
    this.addHeading();
    this.lanes = this.section.append("div").attr("class", "lanes").attr("id", `lanes${number}`).node();
    const { reports } = page;
    this.single = reports.map(report => new HeatLane(page, this.lanes, number, [report], height));
    this.single.forEach((lane, place) => lane.root.attr("aria-label", `${target.name}, ${reports[place].meta.name}`));
    this.both = reports.length > 1 ? new HeatLane(page, this.lanes, number, reports, height) : null;
    this.both?.root.attr("aria-label", `${target.name}, difference`);
    this.fold(isFolded);
  }

  addHeading() {
    const heading = this.section.append("h2");
    this.button = heading.append("button").attr("type", "button").attr("aria-controls", `lanes${this.number}`)
      .on("click", () => {
        this.fold(!this.isFolded);
        this.page.redraw();
      });
    this.button.append("span").attr("class", "name").text(this.target.name);
    this.facts = heading.append("span").attr("class", "facts");
    this.shown = heading.append("span").attr("class", "shown");
    this.taller = heading.append("button").attr("type", "button").attr("class", "taller").on("click", () => {
      this.isTall = !this.isTall;
      this.fold(this.isFolded);
      this.page.redraw();
    });
  }

  get all() {
    return this.both ? [...this.single, this.both] : this.single;
  }

  /** The lanes of the mode. */
  get shownLanes() {
    return this.page.view.isDifference ? [this.both] : this.single;
  }

  fold(isFolded) {
    this.isFolded = isFolded;
    this.button.attr("aria-expanded", String(!isFolded));
    this.section.classed("folded", isFolded);
    for (const lane of this.all) {
      lane.isFolded = isFolded;
      lane.setHeight(isFolded ? FOLDED_HEIGHT : this.isTall ? Math.max(MOST_HEIGHT, this.height) : this.height);
      lane.root.attr("tabindex", isFolded ? -1 : 0);
    }
    const { target } = this, other = this.isTall ? "lower" : "taller";
    this.taller.attr("hidden", isFolded ? "" : null).text(other).attr("aria-label", `${target.name} ${other}`);
    const share = this.page.greatest[this.number];
    const busy = share ? `at most ${d3.format(".0%")(share)} of passes` : "never found accessed";
    const pages = target.high - target.low;
    this.facts.text(`target ${target.number}, ${addresses(target, 0, pages)}, ${sizeWords(pages)}, ${busy}`);
  }

  /** Which lanes there are, and what is shown of the addresses. */
  update() {
    for (const lane of this.all) lane.root.attr("hidden", this.shownLanes.includes(lane) ? null : "");
    const [low, high] = this.page.view.pages[this.number], bounds = this.page.view.bounds(this.number);
    const isWhole = low <= bounds[0] && high >= bounds[1];
    this.shown.text(isWhole ? "" : `shown: ${addresses(this.target, Math.floor(low), Math.ceil(high))}`);
    this.section.attr("data-pages", `${this.target.low + low} ${this.target.low + high}`);
  }
}

/** The heights of targets: those that are open at first share a height, by the square root of their pages. */
function heightsOf(targets, isFolded) {
  const roots = targets.map(target => Math.sqrt(target.high - target.low));
  const sum = d3.sum(roots.filter((_, number) => !isFolded[number])) || 1;
  return roots.map(root => Math.min(MOST_HEIGHT, Math.max(LEAST_HEIGHT, Math.round(SHARED_HEIGHT * root / sum))));
}

/** All targets, the one with the highest number first, so that addresses rise upwards. */
function panelsOf(page) {
  const isFolded = page.view.targets.map((_, number) => page.greatest[number] === 0);
  const heights = heightsOf(page.view.targets, isFolded);
  return page.view.targets.map((_, number) => number).reverse().map(number => new Panel(page, number, isFolded[number], heights[number]));
}
