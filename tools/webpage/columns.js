/* The data of the page: the block of columns is unpacked, and each report finds its rows in them. */
"use strict";

const ARRAYS = { u1: Uint8Array, u2: Uint16Array, u4: Uint32Array, f8: Float64Array };
const PAGE_BYTES = 4096n;

/** The bytes of the block. The browser itself decodes and unpacks, so that a large block takes no loop here. */
async function unpacked(text) {
  const packed = await fetch(`data:application/octet-stream;base64,${text}`);
  return new Response(packed.body.pipeThrough(new DecompressionStream("deflate"))).arrayBuffer();
}

/** Where the items of each snapshot and target begin, given how many each snapshot has, by target. */
function startsOf(counts, targets, width) {
  const starts = new Uint32Array(counts.length * width + 1);
  let item = 0, cell = 0, after = 0;
  for (let snapshot = 0; snapshot < counts.length; snapshot++) {
    after += counts[snapshot];
    for (let target = 0; target < width; target++) {
      starts[cell++] = item;
      while (item < after && targets[item] === target) item++;
    }
  }
  starts[cell] = item;
  return starts;
}

/** The first place from `first` to before `after` at which a rising column is above the value. */
function firstAbove(column, value, first, after) {
  while (first < after) {
    const middle = (first + after) >> 1;
    if (column[middle] > value) after = middle; else first = middle + 1;
  }
  return first;
}

/** A report: its snapshots, and of each target in each snapshot the rows and the runs of schemes. */
class Report {
  constructor(meta, buffer, targets) {
    const column = place => new ARRAYS[place.type](buffer, place.at, place.length);
    const columns = places => Object.fromEntries(Object.entries(places).map(([name, place]) => [name, column(place)]));
    this.meta = meta;
    this.width = targets.length;
    this.snapshots = columns(meta.snapshots);
    this.rows = columns(meta.rows);
    this.runs = columns(meta.runs);
    this.curves = meta.curves.map(curve => ({ ...curve, start: meta.start, ticks: column(curve.ticks), values: column(curve.values) }));
    this.count = this.snapshots.tick.length;
    this.edges = new Float64Array(this.count + 1);
    this.edges[0] = meta.start;
    this.edges.set(this.snapshots.tick, 1);
    this.rowStarts = startsOf(this.snapshots.rows, this.rows.target, this.width);
    this.runStarts = startsOf(this.snapshots.runs, this.runs.target, this.width);
  }

  get start() {
    return this.edges[0];
  }

  get end() {
    return this.edges[this.count];
  }

  /** The first row of a target in a snapshot, and the one after its last. */
  rowsOf(snapshot, target) {
    const cell = snapshot * this.width + target;
    return [this.rowStarts[cell], this.rowStarts[cell + 1]];
  }

  /** The same of the runs of schemes. */
  runsOf(snapshot, target) {
    const cell = snapshot * this.width + target;
    return [this.runStarts[cell], this.runStarts[cell + 1]];
  }

  /** The snapshot whose column has this tick, from after the tick of the one before it; -1 if there is none. */
  at(tick) {
    const found = firstAbove(this.snapshots.tick, Math.ceil(tick) - 1, 0, this.count);
    return found < this.count && tick >= this.start ? found : -1;
  }

  /** The row that has a page of a target; -1 if it is not watched. */
  rowAt(snapshot, target, page) {
    const [first, after] = this.rowsOf(snapshot, target);
    const row = firstAbove(this.rows.start, page, first, after) - 1;
    return row >= first && page < this.rows.end[row] ? row : -1;
  }

  /** The runs of schemes that have pages of a row, or this page of it. */
  runsAt(snapshot, row, page = null) {
    const [first, after] = this.runsOf(snapshot, this.rows.target[row]);
    const low = page ?? this.rows.start[row], high = page === null ? this.rows.end[row] : page + 1;
    const found = [];
    for (let run = first; run < after; run++) {
      if (this.runs.start[run] < high && this.runs.end[run] > low) found.push(run);
    }
    return found;
  }

  /** The share of the passes in which a row was found accessed. */
  share(snapshot, row) {
    return this.rows.count[row] / this.snapshots.passes[snapshot];
  }

  /** The greatest share that each target had. */
  greatestShares() {
    const found = new Float64Array(this.width);
    for (let snapshot = 0, row = 0; snapshot < this.count; snapshot++) {
      for (const after = this.rowsOf(snapshot, this.width - 1)[1]; row < after; row++) {
        const target = this.rows.target[row];
        found[target] = Math.max(found[target], this.share(snapshot, row));
      }
    }
    return found;
  }
}
