/** Draws the rows of the page, as far as they are seen. */

// the heights of a row of lanes at least and at most, of one lane at least, of a bar of states, of a fill, and between rows
const LEAST = 44, MOST = 110, SMALLEST = 18, STATE = 7, FILL = 18, ABOVE = 14, BELOW = 8;
// how wide a frame is from which on it is drawn by itself, and a digit of its value
const DOTS = 5, DIGIT = 7.2;

/** A canvas that is as sharp as the screen. Answers what draws on it, or null where nothing is to be seen. */
function sharp(canvas, width, height) {
  const ratio = window.devicePixelRatio || 1;
  if (canvas.width !== Math.round(width * ratio) || canvas.height !== Math.round(height * ratio)) {
    [canvas.width, canvas.height] = [Math.round(width * ratio), Math.round(height * ratio)];
    [canvas.style.width, canvas.style.height] = [`${width}px`, `${height}px`];
  }
  const pen = canvas.getContext("2d", { alpha: false, willReadFrequently: true });
  pen.setTransform(ratio, 0, 0, ratio, 0, 0);
  pen.fillStyle = colours.ground;
  pen.fillRect(0, 0, width, height);
  return pen;
}

/** A colour of the style, as a pixel has it. */
function pixelOf(colour) {
  const value = parseInt(colour.slice(1), 16);
  return (0xff000000 | (value & 0xff) << 16 | value & 0xff00 | value >> 16) >>> 0;
}

/** The image of a lane, of which there is one for each size. */
class LaneImage {
  constructor(width, height) {
    [this.width, this.height, this.data] = [width, height, new ImageData(width, height)];
    this.pixels = new Uint32Array(this.data.data.buffer);
  }

  /** Begins with the ground of a lane from one place to another one, and a line through its middle. */
  ground(from, to, ratio) {
    const { width, height, pixels } = this, left = Math.min(Math.max(from, 0), width), right = Math.min(Math.max(to, left), width);
    const middle = Math.floor(height / 2), lane = pixelOf(colours.lane), line = pixelOf(colours.line);
    pixels.fill(pixelOf(colours.ground));
    for (let y = 0; y < height; y += 1) {
      pixels.fill(y >= middle && y < middle + Math.round(ratio) ? line : lane, y * width + left, y * width + right);
    }
  }

  stroke(x, from, to, pixel) {
    const { width, pixels } = this, last = Math.min(to, this.height);
    for (let at = Math.max(from, 0) * width + x, end = last * width; at < end; at += width) pixels[at] = pixel;
  }
}

const images = new Map();

function imageOf(width, height) {
  const key = `${width} ${height}`;
  if (!images.has(key)) {
    if (images.size > 8) images.clear();
    images.set(key, new LaneImage(width, height));
  }
  return images.get(key);
}

/** Where the parts of each row stand, so that all are seen in some height, if they can. Answers the height of all. */
function placeRows(rows, height) {
  const below = (row) => (row.states ? STATE + 6 : 0) + (row.fills ? FILL + 6 : 0) + ABOVE + BELOW;
  const room = (height - ABOVE - rows.reduce((sum, row) => sum + below(row), 0)) / Math.max(rows.length, 1);
  let top = ABOVE;
  for (const row of rows) {
    row.lane = Math.max(Math.floor(Math.min(Math.max(room, LEAST), MOST) / row.channels), SMALLEST);
    row.top = top;
    row.middle = top + row.lane * row.channels;
    row.bottom = row.middle + below(row) - ABOVE - BELOW;
    top = row.bottom + ABOVE + BELOW;
  }
  return top;
}

class Painter {
  constructor(page, axis) {
    [this.page, this.axis] = [page, axis];
  }

  /** Draws all rows that are between two heights. */
  draw(canvas, height, from, to) {
    this.canvas = canvas;
    this.pen = sharp(canvas, this.axis.width, height);
    this.pen.font = '11px "DejaVu Sans", Verdana, Arial, sans-serif';
    for (const row of this.page.rows) if (row.bottom + BELOW > from && row.top - ABOVE < to) this.row(row);
    for (const group of this.page.groups) this.group(group);
    this.interrupts(height);
  }

  /** A line down at the end of each interrupt, where these are far enough from each other. */
  interrupts(height) {
    const { axis, pen, page } = this, { ends } = page.script, first = countUpTo(ends, axis.begin), last = countUpTo(ends, axis.end);
    if (last - first > axis.width / NEAR) return;
    [pen.fillStyle, pen.globalAlpha] = [colours.line, 0.55];
    for (let at = first; at < last; at += 1) pen.fillRect(Math.round(axis.across(ends[at])), 0, 1, height - BELOW);
    pen.globalAlpha = 1;
  }

  row(row) {
    const end = Math.min(this.axis.across(row.end), this.axis.width);
    for (let channel = 0; channel < row.channels; channel += 1) this.lane(row, channel, end);
    for (const bar of row.short || []) this.framed(bar, row.top, row.middle - row.top);
    for (const bar of row.states || []) this.bar(colours[bar[0]], bar[1], bar[2], row.middle + 3, STATE);
    if (row.limited) this.limits(row);
    if (row.fills) this.fills(row, row.bottom - 4);
    this.marks(row);
    if (row.kind === "device") this.left(row);
  }

  /** Draws a lane as an image: its ground, its middle and its samples in columns; or the samples by themselves where there is room. */
  lane(row, channel, end) {
    const top = row.top + channel * row.lane, ratio = this.canvas.width / this.axis.width;
    const image = imageOf(this.canvas.width, Math.round((row.lane - 2) * ratio)), middle = image.height / 2, half = middle - 3 * ratio;
    const sources = row.sources.filter((it) => it.track.channels === row.channels);
    image.ground(Math.round(this.axis.across(0) * ratio), Math.round(end * ratio), ratio);
    const single = sources.map((it) => this.axis.width / this.axis.seen() * (it.begins ? this.density(it) : 1));
    const isSingle = sources.map((it, at) => single[at] >= DOTS && this.isThere(row, it));
    sources.forEach((it, at) => { if (!isSingle[at]) this.columns(row, it, channel, image, middle, half); });
    this.pen.putImageData(image.data, 0, Math.round((top + 1) * ratio));
    sources.forEach((it, at) => { if (isSingle[at]) this.dots(row, it, channel, top + row.lane / 2, row.lane / 2 - 3); });
  }

  columns(row, source, channel, image, middle, half) {
    const count = image.width, { lows, highs, known } = this.rows(count), scale = half / row.reach;
    const colour = pixelOf(colours[row.kind]), faint = pixelOf(colours.faint);
    source.columns(this.axis, count, row.end, channel, lows, highs, known);
    for (let x = 0; x < count; x += 1) {
      if (!known[x] || !lows[x] && !highs[x]) continue;
      const from = Math.round(middle - Math.max(highs[x], 0) * scale), to = Math.round(middle - Math.min(lows[x], 0) * scale);
      image.stroke(x, from, Math.max(to, from + 1), known[x] === WHOLE ? colour : faint);
    }
  }

  /** Rows for `count` columns. */
  rows(count) {
    if (this.found && this.found.lows.length >= count) return this.found;
    this.found = { lows: new Float64Array(count), highs: new Float64Array(count), known: new Uint8Array(count) };
    return this.found;
  }

  /** Whether all samples that are seen of a sound are there. */
  isThere(row, source) {
    const frames = source.frames(Math.max(Math.floor(this.axis.begin), 0), Math.ceil(Math.min(this.axis.end + 1, row.end)));
    return !frames || source.track.isWhole(...frames);
  }

  /** How many frames of the axis go with one of a sound. */
  density({ begins, ends, firsts, lasts }) {
    const last = ends.length - 1;
    return last < 0 ? 1 : (ends[last] - begins[0]) / Math.max(lasts[last] - firsts[0], 1);
  }

  /** Draws each sample by itself, with its value where there is room. */
  dots(row, source, channel, middle, half) {
    const frames = source.frames(Math.max(Math.floor(this.axis.begin), 0), Math.ceil(Math.min(this.axis.end + 1, row.end))) || [0, 0];
    for (let at = Math.max(frames[0], 0); at < Math.min(frames[1], source.track.frames); at += 1) {
      const x = this.axis.across(source.outside(at)), wide = this.axis.across(source.outside(at + 1)) - x;
      this.dot(row, source.track.frame(at)[channel], x, middle, half, wide);
    }
  }

  dot(row, value, x, middle, half, wide) {
    const { pen } = this, y = middle - value * half / row.reach, room = DIGIT * String(-row.reach).length + 6;
    const width = Math.max(wide >= room + 4 ? Math.min(wide - room, wide / 2) : wide / 2, 1);
    pen.fillStyle = colours[row.kind];
    pen.fillRect(x, Math.min(y, middle), width, Math.max(Math.abs(y - middle), 1));
    if (wide < room + 4) return;
    pen.fillStyle = colours.text;
    const level = value < 0 ? Math.max(y + 4, middle + 11) : Math.min(y + 4, middle - 3);
    pen.fillText(String(value), x + width + 2, Math.min(Math.max(level, middle - half + 9), middle + half));
  }

  bar(colour, begin, end, y, height) {
    const left = Math.max(this.axis.across(begin), -2), right = Math.min(Math.max(this.axis.across(end), left + 1), this.axis.width + 2);
    if (right <= 0 || left >= this.axis.width) return;
    this.pen.fillStyle = colour;
    this.pen.fillRect(left, y, right - left, height);
  }

  limits(row) {
    const { axis } = this, near = axis.seen() / axis.width;
    for (const [begin, end] of row.limited.among(axis.begin, axis.end, near)) this.bar(colours.limited, begin, end, row.top - 6, 5);
  }

  framed(bar, y, height) {
    const { pen, axis } = this, left = axis.across(bar[0]), right = Math.max(axis.across(bar[1]), left + 2);
    if (right <= 0 || left >= axis.width) return;
    [pen.fillStyle, pen.strokeStyle, pen.globalAlpha] = [colours.short, colours.short, 0.28];
    pen.fillRect(left, y, right - left, height);
    pen.globalAlpha = 1;
    pen.strokeRect(left + 0.5, y + 0.5, Math.max(right - left - 1, 1), height - 1);
  }

  /** What the device's ring still holds at the end. */
  left(row) {
    const { page } = this;
    if (page.frames > page.total) this.hatched(page.total, page.frames, row.top, row.middle - row.top);
  }

  hatched(begin, end, y, height) {
    const { pen, axis } = this, left = Math.max(axis.across(begin), 0), right = Math.min(axis.across(end), axis.width);
    if (right <= left) return;
    pen.save();
    pen.beginPath();
    pen.rect(left, y, right - left, height);
    pen.clip();
    [pen.strokeStyle, pen.globalAlpha] = [colours.text, 0.25];
    pen.beginPath();
    for (let x = Math.floor(left / 8) * 8 - height; x < right; x += 8) {
      pen.moveTo(x, y + height);
      pen.lineTo(x + height, y);
    }
    pen.stroke();
    pen.restore();
  }

  /** How much waits in the rings of a row. */
  fills(row, floor) {
    this.pen.fillStyle = colours.line;
    this.pen.fillRect(0, floor, Math.max(Math.min(this.axis.across(row.end), this.axis.width), 0), 1);
    for (const levels of row.fills.most ? row.fills.levels : []) this.fill(levels, row.fills, floor);
  }

  /** The steps of what waits; where they are too near each other to be told apart, the most in each column. */
  fill(levels, fills, floor) {
    const { axis, pen } = this, { width } = axis, places = fills.places.get(levels), scale = FILL / fills.most;
    const first = Math.max(countUpTo(places, axis.begin) - 2, 0), isDense = countUpTo(places, axis.end) - first > width, near = isDense ? 1 : 0.5;
    let x = Math.max(axis.across(levels[first][0]), -1), most = levels[first][1], last = most;
    pen.fillStyle = colours.fill;
    pen.beginPath();
    pen.moveTo(x, floor);
    for (let at = first + 1; at < levels.length && x <= width; at += 1) {
      const next = Math.min(axis.across(places[at]), width + 1), waiting = levels[at][1];
      if (next - x >= near) {
        pen.lineTo(x, floor - most * scale);
        if (!isDense && last !== most) pen.lineTo(x, floor - last * scale);
        pen.lineTo(next, floor - (isDense ? most : last) * scale);
        [x, most] = [next, waiting];
      }
      most = Math.max(most, waiting);
      last = waiting;
    }
    pen.lineTo(x, floor - most * scale);
    pen.lineTo(x, floor);
    pen.fill();
    if (!isDense) this.unasked(levels, places, first, floor, scale);
  }

  /** Where interrupts lie between two moments, the most of both, paler: what waited between them wasn't asked. */
  unasked(levels, places, first, floor, scale) {
    const { axis, page, pen } = this, { ends } = page.script;
    pen.globalAlpha = 0.4;
    for (let at = first + 1; at < levels.length && places[at - 1] <= axis.end; at += 1) {
      const left = Math.max(axis.across(places[at - 1]), -1), right = Math.min(axis.across(places[at]), axis.width + 1);
      const most = Math.max(levels[at - 1][1], levels[at][1]) * scale;
      if (countBelow(ends, places[at]) > countUpTo(ends, places[at - 1])) pen.fillRect(left, floor - most, right - left, most);
    }
    pen.globalAlpha = 1;
  }

  /** Draws the marks of a row, of those of a kind that touch each other the first. */
  marks(row) {
    const last = {};
    for (const [kind, frame] of row.marks || []) {
      const x = this.axis.across(frame);
      if (x < -5 || x > this.axis.width + 5 || Math.abs(x - last[kind]) < 4) continue;
      this.mark(kind, x, kind === "mixer" ? row.top - 3 : row.middle + 6);
      last[kind] = x;
    }
  }

  mark(kind, x, y) {
    const { pen } = this;
    [pen.strokeStyle, pen.fillStyle, pen.lineWidth] = [colours.mark, kind === "mixer" ? colours.ground : colours.mark, 1.5];
    pen.stroke(MARKS[kind](x, y));
    if (kind !== "dropped") pen.fill(MARKS[kind](x, y));
    if (kind === "mixer") pen.stroke(MARKS[kind](x, y));
    pen.lineWidth = 1;
  }

  group([frame, name, , rows]) {
    const x = Math.round(this.axis.across(frame)) + 0.5, mine = rows.map((it) => this.page.rows[it]), pen = this.pen;
    if (x < -60 || x > this.axis.width) return;
    [pen.strokeStyle, pen.fillStyle] = [colours.mark, colours.text];
    pen.setLineDash([5, 3]);
    pen.beginPath();
    pen.moveTo(x, Math.min(...mine.map((it) => it.top)) - 3);
    pen.lineTo(x, Math.max(...mine.map((it) => it.bottom)));
    pen.stroke();
    pen.setLineDash([]);
    pen.fillText(name, x + 4, Math.min(...mine.map((it) => it.top)) - 4);
  }
}

const MARKS = {
  dropped: (x, y) => new Path2D(`M${x - 4} ${y - 4}l8 8m0 -8l-8 8`),
  poked: (x, y) => new Path2D(`M${x} ${y - 3}l4 8h-8z`),
  mixer: (x, y) => new Path2D(`M${x} ${y - 5}l4 5l-4 5l-4 -5z`),
};
