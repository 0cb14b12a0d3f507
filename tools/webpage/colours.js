/* The colours of points: of shares, of differences, and of the hatches over them. */
"use strict";

const LEVELS = 9, SLOT_COLOURS = 4;

/** The step of the scale for a share from 0 to 1; 0 only for a share of 0. */
function levelOf(share) {
  return share <= 0 ? 0 : Math.min(LEVELS, 1 + Math.floor(share * LEVELS));
}

/** The step of the scale for a difference from -1 to 1; the one in the middle only where there is none. */
function differenceLevel(difference) {
  const middle = (LEVELS - 1) / 2, size = Math.abs(difference);
  // Means are not exactly the same where they should be.
  return size < 1e-6 ? middle : middle + Math.sign(difference) * Math.min(middle, Math.ceil(size * middle));
}

/** The colours of the theme, as numbers that a point of a canvas has. */
class Palette {
  constructor() {
    const style = getComputedStyle(document.documentElement);
    const colour = name => {
      const { r, g, b } = d3.rgb(style.getPropertyValue(`--${name}`).trim());
      // The bytes of a point are red, green, blue and opacity; numbers have their lowest byte first.
      return (255 << 24 | b << 16 | g << 8 | r) >>> 0;
    };
    this.heat = [colour("panel"), ...d3.range(1, LEVELS + 1).map(step => colour(`heat${step}`))];
    this.difference = d3.range(LEVELS).map(step => colour(`difference${step}`));
    this.slots = d3.range(SLOT_COLOURS).map(number => colour(`slot${number}`));
    this.paper = colour("paper");
    this.blind = colour("blind");
  }
}

/** Whether a point lies on a line of a hatch; odd ones lean the other way. */
function isHatched(x, y, period, line, isOdd) {
  const place = (isOdd ? x - y : x + y) % period;
  return (place < 0 ? place + period : place) < line;
}

/** Draws the points of a frame: `colourOf` gives the colour of each that is watched. */
function paint(canvas, frame, palette, values, colourOf, marks) {
  const { width, height } = frame, ratio = window.devicePixelRatio;
  const image = new ImageData(width, height), points = new Uint32Array(image.data.buffer);
  const period = Math.max(4, Math.round(5 * ratio)), line = Math.max(1, Math.round(ratio));
  for (let y = 0, at = 0; y < height; y++) {
    for (let x = 0; x < width; x++, at++) {
      const value = values[at];
      points[at] = value === value ? colourOf(value) : isHatched(x, y, period, line, false) ? palette.blind : palette.paper;
    }
  }
  if (marks) paintMarks(points, frame, palette, marks, ratio);
  canvas.getContext("2d").putImageData(image, 0, 0);
}

/** Draws hatches over the points to which schemes were applied, and a line around them. */
function paintMarks(points, { width, height }, palette, marks, ratio) {
  const period = Math.max(5, Math.round(6 * ratio)), line = Math.max(1, Math.round(1.4 * ratio));
  for (let y = 0, at = 0; y < height; y++) {
    for (let x = 0; x < width; x++, at++) {
      if (!marks[at]) continue;
      for (let colour = 0; colour < SLOT_COLOURS; colour++) {
        const bit = 1 << colour;
        if (!(marks[at] & bit)) continue;
        const isInner = x > 0 && x < width - 1 && y > 0 && y < height - 1
          && marks[at - 1] & marks[at + 1] & marks[at - width] & marks[at + width] & bit;
        if (!isInner || isHatched(x, y, period, line, colour % 2 === 1)) points[at] = palette.slots[colour];
      }
    }
  }
}

/** The colour of each slot that was applied to pages in any report, in the order of their numbers. */
function slotColours(reports) {
  const slots = new Set(reports.flatMap(report => report.meta.slots.filter(slot => slot.pages).map(slot => slot.number)));
  return new Map([...slots].sort((one, other) => one - other).map((slot, place) => [slot, place % SLOT_COLOURS]));
}
