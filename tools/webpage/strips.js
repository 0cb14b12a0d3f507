/* When commits came, and when slots were active. */
"use strict";

const STRIP_HEIGHT = 15;

/** Of many things the first one at each half point of the screen. */
function thinned(things, placeOf) {
  const places = new Set();
  return things.filter(thing => {
    const place = placeOf(thing);
    return !places.has(place) && places.add(place);
  });
}

/** The commits of a report, and a line for each slot that was set. */
class StripLane extends Lane {
  constructor(page, parent, report) {
    const { slots, changes, later } = report.meta, hasCommits = changes.length > 0 || later > 0;
    super(page.view, parent, STRIP_HEIGHT * (slots.length + hasCommits));
    Object.assign(this, { page, report, hasCommits });
    this.marks = this.svg.append("g");
    this.names = this.svg.append("g").attr("class", "axis");
    const names = [...(hasCommits ? ["commits"] : []), ...slots.map(slot => `slot ${slot.number} ${slot.action}`)];
    names.forEach((name, place) => this.names.append("text").attr("x", GUTTER.left - 8).attr("y", STRIP_HEIGHT * place + 11).text(name));
    this.root.attr("role", "img").attr("aria-label", `commits and active slots of ${report.meta.name}`);
    followGestures(this, page.view);
  }

  drawContent() {
    this.marks.html("");
    if (this.hasCommits) this.drawChanges();
    this.report.meta.slots.forEach((slot, place) => this.drawSlot(slot, STRIP_HEIGHT * (place + this.hasCommits + 0.5)));
    this.drawCommits([this.report]);
  }

  /** A triangle for a metric, a bar for what else was accepted, and a cross for a commit that was refused. */
  drawChanges() {
    const { x, width } = this, middle = STRIP_HEIGHT / 2;
    const seen = this.report.meta.changes.filter(change => x(change.tick) >= 0 && x(change.tick) <= width);
    const kindOf = change => `${change.accepted} ${change.has_metric} ${change.has_more}`;
    for (const change of thinned(seen, change => `${Math.round(2 * x(change.tick))} ${kindOf(change)}`)) {
      const mark = this.marks.append("g").attr("transform", `translate(${GUTTER.left + x(change.tick)},${middle})`);
      mark.append("title").text(`tick ${change.tick}: ${change.parts.join(", ") || "commit"}: ${change.answer}`);
      if (!change.accepted) mark.append("path").attr("class", "cross").attr("d", "M-3 -3l6 6m0 -6l-6 6");
      if (change.accepted && change.has_metric) mark.append("path").attr("class", "dot").attr("d", "M-4 -5h8l-4 9z");
      if (change.has_more) mark.append("rect").attr("class", "dot").attr("x", -1.5).attr("y", -6).attr("width", 3).attr("height", 12);
    }
  }

  /** A line while a slot is set, and a bar while it is active. */
  drawSlot(slot, middle) {
    const { x, width } = this, colour = this.page.colours.get(slot.number);
    const seen = slot.spans.filter(([start, end]) => x(end) >= 0 && x(start) <= width);
    const placeOf = ([start, end, isActive]) => `${Math.round(2 * x(start))} ${Math.round(2 * x(end))} ${isActive}`;
    for (const [start, end, isActive] of thinned(seen, placeOf)) {
      const from = Math.max(0, x(start)), to = Math.min(width, x(end)), high = isActive ? 8 : 1;
      const bar = this.marks.append("rect").attr("class", isActive ? "active" : "waiting");
      bar.style("fill", colour === undefined ? null : `var(--slot${colour})`);
      bar.attr("x", GUTTER.left + from).attr("y", middle - high / 2).attr("width", Math.max(0.5, to - from)).attr("height", high)
        .append("title").text(`slot ${slot.number}: ${isActive ? "active" : "inactive"} from tick ${start} to ${end}`);
    }
  }
}

/** The strips of all reports; with the difference they stay beneath each other. */
class Strips {
  constructor(page) {
    const has = report => report.meta.slots.length || report.meta.changes.length || report.meta.later;
    this.page = page;
    this.root = d3.select("#strips").append("div").attr("class", "lanes");
    this.shownLanes = page.reports.some(has) ? page.reports.map(report => new StripLane(page, this.root.node(), report)) : [];
  }

  update() {
    this.root.classed("stacked", this.page.view.isDifference);
  }
}
