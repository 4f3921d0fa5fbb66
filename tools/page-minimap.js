/** The numbers above the lanes with the interrupts, and the small map of the whole run. */

const NEAR = 26, MAP = 34;

/** Draws the numbers of seconds and of frames, and the interrupts below them. */
function drawRuler(canvas, page, axis) {
  const pen = sharp(canvas, axis.width, 62);
  pen.font = '11px "DejaVu Sans", Verdana, Arial, sans-serif';
  drawNumbers(pen, axis, axis.ticks(page.device.rate, false), 13, (it) => secondsOf(it, axis.step(page.device.rate)));
  drawNumbers(pen, axis, axis.ticks(1, true), 30, (it) => grouped(Math.round(it)));
  drawInterrupts(pen, page, axis);
}

/** A number of seconds with as many digits as its step has. */
function secondsOf(value, step) {
  const digits = Math.max(0, -Math.floor(Math.log10(step) + 1e-9)), minutes = Math.floor((value + 1e-9) / 60);
  return minutes ? `${minutes}:${(value - 60 * minutes).toFixed(digits).padStart(digits ? digits + 3 : 2, "0")}` : `${value.toFixed(digits)} s`;
}

/** Draws numbers, those that aren't cut off and don't touch each other. */
function drawNumbers(pen, axis, ticks, y, told) {
  let behind = 0;
  for (const [value, x] of ticks) {
    const words = told(value), wide = pen.measureText(words).width, left = x < 1 ? 2 : x - wide / 2;
    pen.fillStyle = colours.line;
    pen.fillRect(Math.round(x), y + 2, 1, 4);
    if (left < behind || left + wide > axis.width) continue;
    pen.fillStyle = colours.text;
    pen.fillText(words, left, y);
    behind = left + wide + 8;
  }
}

/** A box for each interrupt that is seen, or how many there are. */
function drawInterrupts(pen, page, axis) {
  const { ends } = page.script, first = countUpTo(ends, axis.begin), last = Math.min(countBelow(ends, axis.end) + 1, ends.length);
  if (last - first > axis.width / NEAR) {
    pen.fillStyle = colours.odd;
    pen.fillRect(0, 42, Math.min(axis.across(page.total), axis.width), 16);
    pen.fillStyle = colours.text;
    pen.fillText(`${grouped(last - first)} interrupts, number ${grouped(first + 1)} to ${grouped(last)}`, 6, 54);
    return;
  }
  for (let at = first; at < last; at += 1) drawInterrupt(pen, page, axis, at);
}

function drawInterrupt(pen, page, axis, at) {
  const { ends } = page.script, left = Math.max(axis.across(at ? ends[at - 1] : 0), 0), right = Math.min(axis.across(ends[at]), axis.width);
  pen.fillStyle = at % 2 ? colours.even : colours.odd;
  pen.fillRect(left, 42, right - left, 16);
  const words = right - left > 110 ? `interrupt ${at + 1}` : String(at + 1), wide = pen.measureText(words).width;
  pen.fillStyle = colours.text;
  if (right - left > wide + 4) pen.fillText(words, (left + right - wide) / 2, 54);
}

/** Draws the map: the device's sound, shortages, limits and clicks of the whole run, and what of it is seen. */
class Minimap {
  constructor(page, canvas) {
    [this.page, this.canvas] = [page, canvas];
    this.axis = new Axis(page.frames, page.device.rate);
  }

  draw(width) {
    this.axis.width = width;
    this.axis.whole();
    const pen = sharp(this.canvas, width, MAP), row = this.page.rows.find((it) => it.kind === "device"), into = [0, 0];
    pen.fillStyle = colours.device;
    for (let x = 0; x < width; x += 1) {
      const begin = Math.floor(this.axis.frameAt(x)), end = Math.max(Math.floor(this.axis.frameAt(x + 1)), begin + 1);
      let least = 0, most = 0;
      for (let channel = 0; channel < row.channels; channel += 1) {
        if (row.sources[0].track.extremes(begin, end, channel, into)) [least, most] = [Math.min(least, into[0]), Math.max(most, into[1])];
      }
      pen.fillRect(x, 15 - most * 11 / row.reach, 1, Math.max((most - least) * 11 / row.reach, 1));
    }
    this.marks(pen);
  }

  /** Below the sound shortages and limits, and above it a mark for each click. */
  marks(pen) {
    const { page, axis } = this;
    pen.fillStyle = colours.mark;
    for (const { at } of page.clicks) pen.fill(new Path2D(`M${axis.across(at) - 3} 0h6l-3 5z`));
    for (const row of page.rows) {
      const limited = row.limited ? row.limited.among(0, page.frames, axis.seen() / axis.width) : [];
      for (const [kind, bars] of [["short", row.short || []], ["limited", limited]]) {
        pen.fillStyle = colours[kind];
        for (const [begin, end] of bars) pen.fillRect(axis.across(begin), 29, Math.max(axis.across(end) - axis.across(begin), 2), 4);
      }
    }
  }
}
