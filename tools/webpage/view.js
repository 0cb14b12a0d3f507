/* What is shown of the data: the span of time, the pages of each target, the cursor, and the mode. */
"use strict";

const LEAST_TICKS = 2, LEAST_PAGES = 2;

/** A span of at least this size that lies within bounds, with the middle of the given one where that can be. */
function clamped([from, to], [low, high], least) {
  const size = Math.min(high - low, Math.max(Math.min(least, high - low), to - from));
  const start = Math.min(Math.max(low, (from + to - size) / 2), high - size);
  return [start, start + size];
}

/** The view of all reports. Who listens is told "view", "cursor" or "mode". */
class View {
  constructor(reports, targets) {
    this.reports = reports;
    this.targets = targets;
    this.start = Math.min(...reports.map(report => report.start));
    this.end = Math.max(...reports.map(report => report.end));
    this.stops = stopsOf(reports);
    this.cursor = 0;
    this.isDifference = false;
    this.listeners = [];
    this.time = [this.start, this.end];
    this.pages = targets.map(target => [0, target.high - target.low]);
  }

  listen(listener) {
    this.listeners.push(listener);
  }

  tell(what) {
    for (const listener of this.listeners) listener(what);
  }

  /** The tick at which the cursor stands. */
  get tick() {
    return this.stops[this.cursor];
  }

  /** The one before it. */
  get tickBefore() {
    return this.cursor ? this.stops[this.cursor - 1] : this.start;
  }

  showTime(span) {
    this.time = clamped(span, [this.start, this.end], LEAST_TICKS);
    this.tell("view");
  }

  showPages(target, span) {
    this.pages[target] = clamped(span, this.bounds(target), LEAST_PAGES);
    this.tell("view");
  }

  bounds(target) {
    return [0, this.targets[target].high - this.targets[target].low];
  }

  showWhole() {
    this.time = [this.start, this.end];
    this.pages = this.targets.map((_, target) => this.bounds(target));
    this.tell("view");
  }

  /** Whether nothing is left out of the time, and of the addresses of a target. */
  isWhole(target = null) {
    const [from, to] = this.time;
    const isTime = from <= this.start && to >= this.end;
    return isTime && (target === null || this.pages[target][1] - this.pages[target][0] >= this.bounds(target)[1]);
  }

  /** Times as close as before around the cursor, or around a tick. */
  zoomTime(factor, tick = this.tick) {
    const [from, to] = this.time;
    const middle = Math.min(Math.max(tick, from), to);
    this.showTime([middle - (middle - from) / factor, middle + (to - middle) / factor]);
  }

  zoomPages(target, factor, page) {
    const [from, to] = this.pages[target];
    const middle = Math.min(Math.max(page, from), to);
    this.showPages(target, [middle - (middle - from) / factor, middle + (to - middle) / factor]);
  }

  /** Puts the cursor at a stop, and moves the time so that its column is seen. */
  moveCursor(stop) {
    this.cursor = Math.min(Math.max(stop, 0), this.stops.length - 1);
    const [from, to] = this.time;
    if (this.tick > to || this.tickBefore < from) {
      const middle = (this.tickBefore + this.tick) / 2;
      this.showTime([middle - (to - from) / 2, middle + (to - from) / 2]);
    }
    this.tell("cursor");
  }

  /** Puts the cursor at the first stop from a tick on. */
  moveCursorTo(tick) {
    this.moveCursor(firstAbove(this.stops, Math.ceil(tick) - 1, 0, this.stops.length));
  }

  showDifference(isDifference) {
    this.isDifference = isDifference;
    this.tell("mode");
  }
}

/** The ticks at which a report has a snapshot, each once. */
function stopsOf(reports) {
  const ticks = new Set();
  for (const report of reports) for (const tick of report.snapshots.tick) ticks.add(tick);
  return Float64Array.from(ticks).sort();
}
