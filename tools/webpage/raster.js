/* From rows to points of the screen: the mean share of each point, and the marks of schemes.

   A hot row is two jumps in the sums of a column of points, at its top and at its bottom, each divided
   between two points; the sums of the jumps are the means. So a drawing takes as long as there are
   rows and points, and not as long as rows have points. */
"use strict";

/** Which columns of points the visible snapshots have, from the first one to before the second one, and at least one each. */
function newColumns(report, time, width) {
  const first = Math.max(0, firstAbove(report.edges, time[0], 0, report.count + 1) - 1);
  const after = Math.max(first, Math.min(report.count, firstAbove(report.edges, time[1], first, report.count + 1)));
  const place = tick => Math.round(width * (tick - time[0]) / (time[1] - time[0]));
  const from = new Int32Array(after - first), to = new Int32Array(after - first);
  for (let snapshot = first; snapshot < after; snapshot++) {
    from[snapshot - first] = Math.min(Math.max(0, place(report.edges[snapshot])), width - 1);
    to[snapshot - first] = Math.min(Math.max(from[snapshot - first] + 1, place(report.edges[snapshot + 1])), width);
  }
  return { first, after, from, to };
}

/** The same. The last answer is kept, since all lanes of a report ask for it in a frame. */
function columnsOf(report, time, width) {
  const asked = `${time} ${width}`;
  if (report.asked !== asked) Object.assign(report, { asked, columns: newColumns(report, time, width) });
  return report.columns;
}

/** The points of a target that are drawn: its pages, and how many columns and lines of points show them. */
class Frame {
  constructor(target, time, pages, width, height) {
    Object.assign(this, { target, time, pages, width, height });
    this.scale = height / (pages[1] - pages[0]);
  }

  /** Where a page is in lines of points from the top; what is a point high or higher begins and ends between two points. */
  line(page, isLarge) {
    const line = (this.pages[1] - page) * this.scale;
    return Math.min(this.height, Math.max(0, isLarge ? Math.round(line) : line));
  }

  isLarge(start, end) {
    return (end - start) * this.scale >= 1;
  }
}

/** The sums of one column of points, as jumps from each point to the next. */
class Sums {
  constructor(frame, report) {
    this.frame = frame;
    this.report = report;
    this.hits = new Float64Array(frame.height + 2);
    this.watched = new Float64Array(frame.height + 2);
    this.isEmpty = true;
  }

  clear() {
    this.hits.fill(0);
    this.watched.fill(0);
    this.isEmpty = true;
  }

  /** Adds a value to all points between two pages. */
  addBetween(sums, start, end, value) {
    const isLarge = this.frame.isLarge(start, end), top = this.frame.line(end, isLarge), bottom = this.frame.line(start, isLarge);
    const first = top | 0, last = bottom | 0;
    if (first === last) {
      sums[first] += value * (bottom - top);
      sums[first + 1] -= value * (bottom - top);
      return;
    }
    sums[first] += value * (first + 1 - top);
    sums[first + 1] += value * (top - first);
    sums[last] -= value * (last + 1 - bottom);
    sums[last + 1] -= value * (bottom - last);
  }

  /** Adds the rows of a snapshot, with a weight. */
  add(snapshot, weight) {
    const { frame, report, hits, watched } = this, { start, end, count } = report.rows, [low, high] = frame.pages;
    const [first, after] = report.rowsOf(snapshot, frame.target), passes = report.snapshots.passes[snapshot];
    // Rows that follow each other without a gap are watched as one.
    let from = -1, to = -1, row = first;
    if (low > 0) row = Math.max(first, firstAbove(start, low, first, after) - 1);
    for (; row < after; row++) {
      const since = start[row], until = end[row], times = count[row];
      if (since >= high) break;
      if (until <= low) continue;
      if (since !== to) {
        if (from >= 0) this.addBetween(watched, from, to, weight);
        from = since;
      }
      to = until;
      if (times) this.addBetween(hits, since, until, weight * times / passes);
    }
    if (from >= 0) this.addBetween(watched, from, to, weight);
    this.isEmpty = false;
  }

  /** Writes the means into columns of points, from the first one to before the second one. */
  write(shares, from, to) {
    const { width, height } = this.frame;
    let hits = 0, watched = 0;
    for (let line = 0, at = from; line < height; line++, at += width) {
      hits += this.hits[line];
      watched += this.watched[line];
      // Sums of jumps are not exactly 0 where they should be.
      const share = watched < 1e-9 ? NaN : hits < 1e-9 * watched ? 0 : Math.min(1, hits / watched);
      for (let column = 0; column < to - from; column++) shares[at + column] = share;
    }
  }
}

/** The mean share of each point of a frame, line by line from the top; NaN where nothing is watched. */
function sharesOf(report, frame) {
  const shares = new Float32Array(frame.width * frame.height).fill(NaN);
  const sums = new Sums(frame, report);
  let column = -1;
  const flush = () => {
    if (!sums.isEmpty) sums.write(shares, column, column + 1);
    sums.clear();
  };
  const columns = columnsOf(report, frame.time, frame.width);
  for (let snapshot = columns.first; snapshot < columns.after; snapshot++) {
    const from = columns.from[snapshot - columns.first], to = columns.to[snapshot - columns.first];
    if (from !== column) flush();
    column = from;
    // Snapshots that share a column of points count by their time.
    sums.add(snapshot, report.edges[snapshot + 1] - report.edges[snapshot]);
    if (to > from + 1) {
      flush();
      sums.add(snapshot, 1);
      sums.write(shares, from + 1, to);
      sums.clear();
    }
  }
  flush();
  return shares;
}

/** Of each point the slots whose schemes were applied there: a bit for each colour. */
function marksOf(report, frame, colours) {
  const marks = new Uint8Array(frame.width * frame.height);
  const { start, end, slot } = report.runs, columns = columnsOf(report, frame.time, frame.width);
  for (let snapshot = columns.first; snapshot < columns.after; snapshot++) {
    const from = columns.from[snapshot - columns.first], to = columns.to[snapshot - columns.first];
    const [first, after] = report.runsOf(snapshot, frame.target);
    for (let run = first; run < after; run++) {
      if (end[run] <= frame.pages[0] || start[run] >= frame.pages[1]) continue;
      const isLarge = frame.isLarge(start[run], end[run]), bit = 1 << colours.get(slot[run]);
      const top = Math.floor(frame.line(end[run], isLarge)), bottom = Math.ceil(frame.line(start[run], isLarge));
      for (let line = top; line < Math.min(frame.height, Math.max(top + 1, bottom)); line++) {
        for (let at = line * frame.width + from; at < line * frame.width + to; at++) marks[at] |= bit;
      }
    }
  }
  return marks;
}
