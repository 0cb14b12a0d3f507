/* A lane: a strip of the page with time to the right, which all lanes share. It has a canvas for what is
   large, and over it the cursor and axes. */
"use strict";

const GUTTER = { left: 112, right: 18 };

/** A canvas with this size. To give it the size that it has would clear it. */
function resized(canvas, width, height) {
  if (canvas.width !== width || canvas.height !== height) Object.assign(canvas, { width, height });
  return canvas;
}

class Lane {
  constructor(view, parent, height) {
    this.view = view;
    this.root = d3.select(parent).append("div").attr("class", "lane");
    this.canvas = this.root.append("canvas").attr("aria-hidden", "true").node();
    this.svg = this.root.append("svg").attr("aria-hidden", "true");
    this.lines = this.svg.append("path").attr("class", "commit-lines");
    this.cursor = this.svg.append("rect").attr("class", "cursor");
    this.width = this.drawnAt = 0;
    this.setHeight(height);
  }

  get node() {
    return this.root.node();
  }

  setHeight(height) {
    this.height = height;
    this.root.style("height", `${height}px`);
  }

  /** Takes the width that the page gives; says whether a part of the lane is in the window. */
  measure() {
    const { top, bottom, width } = this.node.getBoundingClientRect();
    this.width = Math.max(0, width - GUTTER.left - GUTTER.right);
    return this.width > 0 && bottom > 0 && top < window.innerHeight;
  }

  /** From ticks to places, from the left end of what is drawn. */
  get x() {
    return d3.scaleLinear().domain(this.view.time).range([0, this.width]);
  }

  /** The tick at a place of the window. */
  tickAt(clientX) {
    return this.x.invert(clientX - this.node.getBoundingClientRect().left - GUTTER.left);
  }

  /** Gives the canvas a point for each point of the screen; gives how many. */
  fitCanvas() {
    const ratio = window.devicePixelRatio, width = Math.max(1, Math.round(this.width * ratio)), height = Math.max(1, Math.round(this.height * ratio));
    resized(this.canvas, width, height);
    Object.assign(this.canvas.style, { left: `${GUTTER.left}px`, width: `${this.width}px`, height: `${this.height}px` });
    return { width, height };
  }

  /** Draws the lane. Where there is no time, one that has a picture shows that at its new place, and stays stale. */
  draw(hasTime) {
    if (hasTime || !this.picture) {
      this.drawContent();
      Object.assign(this, { isStale: false, drawnAt: performance.now() });
    } else {
      this.movePicture();
    }
    this.drawCursor();
  }

  /** The column of the cursor, from the stop before it. */
  drawCursor() {
    const { view, x } = this, from = Math.max(0, x(view.tickBefore)), to = Math.min(this.width, x(view.tick));
    this.cursor.attr("x", GUTTER.left + from).attr("y", 0.5).attr("width", Math.max(1, to - from)).attr("height", Math.max(0, this.height - 1))
      .attr("display", to < from ? "none" : null);
  }

  /** A line at each commit that changed something that is watched, at most one for each point of the screen. */
  drawCommits(reports) {
    const { x, width } = this, places = new Set();
    for (const report of reports) {
      for (const change of report.meta.changes) {
        const place = Math.round(x(change.tick));
        if (change.is_line && place >= 0 && place <= width) places.add(place);
      }
    }
    this.lines.attr("d", [...places].map(place => `M${GUTTER.left + place + 0.5} 0V${this.height}`).join(""));
  }
}

/** The event of a listener: D3 hands it over since its version 6, and keeps it before. */
const eventOf = first => d3.event ?? first;

/** How far a wheel turned. With shift some browsers turn it sideways. */
function turned(event) {
  return -(event.deltaY || event.deltaX) * (event.deltaMode === 1 ? 0.05 : event.deltaMode ? 1 : 0.002);
}

/** Lets the wheel zoom and dragging move a lane. `target` has the number of the target whose addresses go upwards, if there are some. */
function followGestures(lane, view, target = null) {
  let before = d3.zoomIdentity, isInGutter = false, active = 0;
  const placeOf = event => event.clientX - lane.node.getBoundingClientRect().left;
  const isWanted = event => {
    isInGutter = target !== null && event.clientX !== undefined && placeOf(event) < GUTTER.left;
    // Where nothing is left to zoom out of, the wheel scrolls the page.
    return !event.ctrlKey && !event.button && !(event.type === "wheel" && turned(event) < 0 && view.isWhole(target));
  };
  const zoom = d3.zoom()
    .filter(first => isWanted(eventOf(first)))
    .wheelDelta(first => turned(eventOf(first)))
    .on("start", () => active++)
    .on("zoom", first => {
      const { transform, sourceEvent } = eventOf(first), factor = transform.k / before.k;
      const isTime = !isInGutter && !sourceEvent?.altKey, isPages = target !== null && !sourceEvent?.shiftKey;
      if (isTime) moveTime(lane, view, factor, transform.x - factor * before.x);
      if (isPages) movePages(lane, view, target, factor, transform.y - factor * before.y);
      before = transform;
    })
    .on("end", () => {
      // A turn of the wheel ends a moment later, when a drag may have begun.
      if (--active === 0) lane.node.__zoom = before = d3.zoomIdentity;
    });
  lane.root.call(zoom).on("dblclick.zoom", null).on("dblclick", () => view.showWhole());
}

/** What was at a place is at factor times the place, and a shift further, from now on. */
function moveTime(lane, view, factor, shift) {
  const tick = place => lane.x.invert((place - shift) / factor - GUTTER.left);
  view.showTime([tick(GUTTER.left), tick(GUTTER.left + lane.width)]);
}

function movePages(lane, view, target, factor, shift) {
  const page = place => lane.y.invert((place - shift) / factor);
  view.showPages(target, [page(lane.height), page(0)]);
}
