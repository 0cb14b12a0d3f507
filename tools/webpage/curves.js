/* The curves under the same time, and the axis of time. */
"use strict";

const CURVE_HEIGHT = 62, AXIS_HEIGHT = 24;
const DASHES = [[], [4, 3]];

/** The points of a curve in steps, as [place, value]; of those that share a point of the screen the first, least, greatest and last. */
function stepsOf(curve, x, width) {
  const points = [], { ticks, values } = curve;
  const first = Math.max(0, firstAbove(ticks, x.domain()[0], 0, ticks.length) - 1);
  const after = Math.min(ticks.length, firstAbove(ticks, x.domain()[1], first, ticks.length) + 1);
  const isDense = after - first > 2 * width, [since, until] = x.domain(), placeOf = tick => width * (tick - since) / (until - since);
  let group = null;
  const flush = () => {
    if (group) for (const value of [group.first, group.least, group.most, group.last]) points.push([group.place, value]);
  };
  for (let at = first; at < after; at++) {
    const from = placeOf(at ? ticks[at - 1] : curve.start), value = values[at], place = Math.round(from);
    if (!isDense) {
      points.push([from, value], [placeOf(ticks[at]), value]);
    } else if (group?.place === place) {
      group.least = Math.min(group.least, value);
      group.most = Math.max(group.most, value);
      group.last = value;
    } else {
      flush();
      group = { place, first: value, least: value, most: value, last: value };
    }
  }
  flush();
  return points;
}

/** A curve of each of some reports. */
class CurveLane extends Lane {
  constructor(page, parent, name, reports) {
    super(page.view, parent, CURVE_HEIGHT);
    this.page = page;
    this.curves = reports.map(report => report.curves.find(curve => curve.name === name));
    this.most = Math.max(1, ...page.reports.map(report => mostOf(report.curves.find(curve => curve.name === name))));
    this.axis = this.svg.append("g").attr("class", "axis").attr("transform", `translate(${GUTTER.left},0)`);
    this.root.attr("role", "img").attr("aria-label", `${name}: ${this.curves.map(curve => (curve ? summaryOf(curve) : "none")).join("; ")}`);
    followGestures(this, page.view);
    this.root.on("pointermove", first => this.ask(eventOf(first), name));
    this.root.on("pointerleave", () => page.hover.hide());
  }

  ask(event, name) {
    const tick = this.tickAt(event.clientX);
    if (tick < this.view.time[0] || tick > this.view.time[1] || event.buttons) return this.page.hover.hide();
    const answers = this.page.reports.map(report => {
      const curve = report.curves.find(one => one.name === name), snapshot = report.at(tick);
      return curve && snapshot >= 0 ? { tick: String(report.snapshots.tick[snapshot]), value: curveWords(curve, curveAt(curve, tick)) } : null;
    });
    this.page.hover.show(name, ["tick", "value"], answers, event.clientX, event.clientY);
  }

  drawContent() {
    const { width, height } = this.fitCanvas(), ratio = window.devicePixelRatio, context = this.canvas.getContext("2d");
    const x = this.x, y = d3.scaleLinear().domain([0, this.most]).range([this.height - 1, 4]);
    const style = getComputedStyle(document.documentElement), colour = name => style.getPropertyValue(`--${name}`).trim();
    context.setTransform(1, 0, 0, 1, 0, 0);
    context.fillStyle = colour("panel");
    context.fillRect(0, 0, width, height);
    context.setTransform(ratio, 0, 0, ratio, 0, 0);
    this.curves.forEach((curve, place) => {
      if (!curve) return;
      const steps = stepsOf(curve, x, this.width), line = d3.line().defined(([, value]) => !Number.isNaN(value)).y(([, value]) => y(value));
      if (this.curves.length === 1) {
        context.beginPath();
        d3.area().defined(([, value]) => !Number.isNaN(value)).y0(y(0)).y1(([, value]) => y(value)).context(context)(steps);
        context.fillStyle = colour("area");
        context.fill();
      }
      context.beginPath();
      line.context(context)(steps);
      Object.assign(context, { strokeStyle: colour(place ? "ink" : "edge"), lineWidth: 1.4 });
      context.setLineDash(DASHES[place]);
      context.stroke();
    });
    const [curve] = this.curves.filter(Boolean);
    this.axis.call(d3.axisLeft(y).tickSize(4).tickValues([0, this.most]).tickFormat(value => (value && curve ? curveWords(curve, value) : "0")));
    // The 0 at the lower end would be cut.
    this.axis.selectAll("text").attr("dy", value => (value ? "0.6em" : "0"));
    this.drawCommits([]);
  }
}

/** The greatest value of a curve; 0 if there is none. */
function mostOf(curve) {
  return curve ? d3.max(curve.values.filter(value => !Number.isNaN(value))) ?? 0 : 0;
}

/** A curve in words, for who cannot see it. */
function summaryOf(curve) {
  const known = curve.values.filter(value => !Number.isNaN(value));
  return known.length ? `from ${curveWords(curve, d3.min(known))} to ${curveWords(curve, d3.max(known))}` : "no value";
}

/** The curves of a kind, with a heading. */
class CurvePanel {
  constructor(page, name) {
    this.page = page;
    this.section = d3.select("#curves").append("section").attr("class", "curve").attr("data-curve", name);
    this.heading = this.section.append("h2").text(name);
    const lanes = this.section.append("div").attr("class", "lanes").node();
    this.single = page.reports.map(report => new CurveLane(page, lanes, name, [report]));
    this.both = page.reports.length > 1 ? new CurveLane(page, lanes, name, page.reports) : null;
    this.name = name;
  }

  get shownLanes() {
    return this.page.view.isDifference ? [this.both] : this.single;
  }

  update() {
    for (const lane of [...this.single, this.both]) lane?.root.attr("hidden", this.shownLanes.includes(lane) ? null : "");
    const [first, second] = this.page.reports.map(report => report.meta.name);
    this.heading.text(this.page.view.isDifference ? `${this.name}: ${first}, and dashed ${second}` : this.name);
  }
}

/** The curves that any report has, in the order of the first that has them. */
function curvePanelsOf(page) {
  const names = new Set(page.reports.flatMap(report => report.curves.map(curve => curve.name)));
  return [...names].map(name => new CurvePanel(page, name));
}

/** The axis of time, above or below. */
class TimeLane extends Lane {
  constructor(page, parent, isTop) {
    super(page.view, parent, AXIS_HEIGHT);
    this.isTop = isTop;
    this.axis = this.svg.append("g").attr("class", "axis").attr("transform", `translate(${GUTTER.left},${isTop ? AXIS_HEIGHT - 1 : 1})`);
    this.name = this.svg.append("text").attr("class", "name").attr("x", GUTTER.left - 26).attr("y", isTop ? 12 : 18).text("intervals");
    followGestures(this, page.view);
    this.root.on("click", first => page.view.moveCursorTo(this.tickAt(eventOf(first).clientX)));
  }

  /** Only beside the axis, so that its numbers can be read. */
  drawCursor() {
    super.drawCursor();
    this.cursor.attr("height", 6).attr("y", this.isTop ? AXIS_HEIGHT - 6.5 : 0.5);
  }

  drawContent() {
    const ticks = this.x.ticks(Math.max(2, this.width / 90)).filter(Number.isInteger);
    this.axis.call((this.isTop ? d3.axisTop(this.x) : d3.axisBottom(this.x)).tickSize(5).tickValues(ticks).tickFormat(d3.format(",d")));
  }
}
