/** The sounds of the page: whole frames where it has them, and the least and the greatest of many everywhere. */

const ARRAYS = { 1: Int8Array, 2: Int16Array, 4: Int32Array };
// how well samples are known: as they are, by a copy or by blocks, or not at all
const WHOLE = 2, ROUGH = 1, NOTHING = 0;
const LEVEL = Math.log(256);

/** The samples of a copy to listen to, whose steps grow with the level. */
const LISTENED = Float32Array.from({ length: 256 }, (_, code) => {
  const value = code < 128 ? code : code - 256;
  return Math.sign(value) * (Math.exp(Math.abs(value) / 127 * LEVEL) - 1) / 255;
});

// of this many whole samples the least and the greatest are kept, where many are looked at
const FEW = 32;

/** Puts the least and the greatest of some numbers into two places, with what stands there. */
function widen(numbers, begin, end, into) {
  let [least, most] = [into[0], into[1]];
  for (let at = begin; at < end; at += 1) {
    const value = numbers[at];
    if (value < least) least = value;
    if (value > most) most = value;
  }
  into[0] = least;
  into[1] = most;
}

/** The whole samples of a channel. */
class Lane {
  constructor(samples) {
    this.samples = samples;
    this.bounds = null;
  }

  /** Looks up the least and the greatest of every FEW samples, one after the other. */
  measure() {
    const { samples } = this, count = Math.floor(samples.length / FEW), into = new Float64Array(2);
    this.bounds = new samples.constructor(2 * count);
    for (let at = 0; at < count; at += 1) {
      into.fill(samples[at * FEW]);
      widen(samples, at * FEW, (at + 1) * FEW, into);
      this.bounds.set(into, 2 * at);
    }
  }

  widen(begin, end, into) {
    const first = Math.ceil(begin / FEW), last = Math.floor(end / FEW);
    if (last - first < 2) return widen(this.samples, begin, end, into);
    if (!this.bounds) this.measure();
    widen(this.samples, begin, first * FEW, into);
    widen(this.bounds, 2 * first, 2 * last, into);
    return widen(this.samples, last * FEW, end, into);
  }
}

class Track {
  constructor(told) {
    Object.assign(this, told);
    this.begins = told.chunks.map((it) => it[0]);
    this.parts = told.chunks.map(() => null);
    this.shift = 2 ** Math.max(0, Math.log2(told.full) - 15);
    this.pyramid = [];
    this.sizes = told.levels.map((_, level) => told.block * told.times ** level);
  }

  /** Reads the levels: of each the least and the greatest of each channel, one after another. */
  async readLevels() {
    for (const [count, name] of this.levels) {
      const numbers = new Int16Array(await blob(name));
      this.pyramid.push(Array.from({ length: 2 * this.channels }, (_, at) => numbers.subarray(at * count, (at + 1) * count)));
    }
  }

  /** Reads a part of the whole frames. */
  async readPart(at) {
    const [begin, end, name] = this.chunks[at], numbers = new ARRAYS[this.width](await blob(name)), count = end - begin;
    this.parts[at] = Array.from({ length: this.channels }, (_, channel) => new Lane(numbers.subarray(channel * count, (channel + 1) * count)));
  }

  /** Reads the copy to listen to: of each of its channels the codes of its samples. */
  async readCopy() {
    if (!this.copy || this.codes) return;
    const codes = new Uint8Array(await blob(this.copy.blob)), length = codes.length / this.copy.channels;
    this.codes = Array.from({ length: this.copy.channels }, (_, at) => codes.subarray(at * length, (at + 1) * length));
  }

  sort() {
    this.chunks.sort((a, b) => a[0] - b[0]);
    this.begins = this.chunks.map((it) => it[0]);
  }

  /** The number of the part that has a frame whole, or -1. */
  partOf(frame) {
    const at = countUpTo(this.begins, frame) - 1;
    return at >= 0 && frame < this.chunks[at][1] && this.parts[at] ? at : -1;
  }

  /** Whether frames are there whole. */
  isWhole(begin, end) {
    let at = Math.max(begin, 0);
    while (at < Math.min(end, this.frames)) {
      const part = this.partOf(at);
      if (part < 0) return false;
      at = this.chunks[part][1];
    }
    return true;
  }

  /** The samples of a frame, or null where they aren't there. */
  frame(at) {
    const part = this.partOf(at);
    return part < 0 ? null : this.parts[part].map((it) => it.samples[at - this.chunks[part][0]]);
  }

  /** Puts the least and the greatest sample of a channel among frames into two places. Answers how well they are known. */
  extremes(begin, end, channel, into) {
    const first = Math.max(begin, 0), last = Math.min(end, this.frames);
    if (first >= last) return NOTHING;
    const isFew = last - first <= 2 * this.block || !this.pyramid.length;
    if (isFew && this.isWhole(first, last)) return this.exactly(first, last, channel, into);
    if (last - first < this.block && this.codes) return this.copied(first, last, channel, into);
    return this.pyramid.length ? this.roughly(first, last, channel, into, this.levelFor(last - first)) : NOTHING;
  }

  exactly(begin, end, channel, into) {
    [into[0], into[1]] = [Infinity, -Infinity];
    for (let at = begin; at < end;) {
      const part = this.partOf(at), chunk = this.chunks[part];
      this.parts[part][channel].widen(at - chunk[0], Math.min(chunk[1], end) - chunk[0], into);
      at = chunk[1];
    }
    return WHOLE;
  }

  copied(begin, end, channel, into) {
    const codes = this.codes[Math.min(channel, this.codes.length - 1)], { every } = this.copy;
    const last = Math.min(Math.max(Math.ceil(end / every), Math.floor(begin / every) + 1), codes.length);
    let least = Infinity, most = -Infinity;
    for (let at = Math.floor(begin / every); at < last; at += 1) {
      const value = LISTENED[codes[at]];
      if (value < least) least = value;
      if (value > most) most = value;
    }
    if (least > most) return NOTHING;
    into[0] = least * this.full;
    into[1] = most * this.full;
    return ROUGH;
  }

  /** The level whose blocks have that many frames, or fewer. */
  levelFor(frames) {
    let level = 0;
    while (level + 1 < this.sizes.length && this.sizes[level + 1] <= frames) level += 1;
    return level;
  }

  roughly(begin, end, channel, into, level) {
    const size = this.sizes[level], lows = this.pyramid[level][2 * channel], highs = this.pyramid[level][2 * channel + 1];
    const first = Math.floor(begin / size), last = Math.min(Math.ceil(end / size), lows.length);
    let least = lows[first], most = highs[first];
    for (let at = first + 1; at < last; at += 1) {
      if (lows[at] < least) least = lows[at];
      if (highs[at] > most) most = highs[at];
    }
    into[0] = least * this.shift;
    into[1] = most * this.shift;
    return end - begin < this.block ? ROUGH : WHOLE;
  }

  /** How far its samples reach on either side. */
  reach() {
    const into = new Float64Array(2), found = [0];
    for (let channel = 0; channel < this.channels; channel += 1) {
      if (this.pyramid.length) this.roughly(0, this.frames, channel, into, this.pyramid.length - 1);
      else if (!this.extremes(0, this.frames, channel, into)) continue;
      found.push(-into[0], into[1]);
    }
    return Math.max(...found);
  }
}

/** A sound of a row: its track, and where its frames stand on the axis. */
class Source {
  constructor(told, tracks) {
    this.track = tracks[told.track];
    this.offset = told.offset;
    this.along = told.along;
  }

  /** Reads where its frames stand: rows of the first frame and the one after the last on the axis, and the same of the sound. */
  async read() {
    if (this.along === null) return;
    const rows = new Int32Array(await blob(this.along));
    [this.begins, this.ends, this.firsts, this.lasts] = [0, 1, 2, 3].map((side) => rows.filter((_, at) => at % 4 === side));
  }

  /** Where the sound is at a place of the axis, not rounded. */
  inside(place) {
    if (!this.begins) return place + this.offset;
    const at = Math.max(countUpTo(this.begins, place) - 1, 0);
    const part = Math.min(Math.max(place - this.begins[at], 0) / Math.max(this.ends[at] - this.begins[at], 1), 1);
    return this.firsts[at] + part * (this.lasts[at] - this.firsts[at]);
  }

  /** Where a frame of the sound stands on the axis. */
  outside(frame) {
    if (!this.begins) return frame - this.offset;
    const at = Math.max(countUpTo(this.firsts, frame) - 1, 0);
    const part = Math.min((frame - this.firsts[at]) / Math.max(this.lasts[at] - this.firsts[at], 1), 1);
    return this.begins[at] + part * (this.ends[at] - this.begins[at]);
  }

  /** Puts the least and the greatest samples of columns of an axis into two rows, and how well they are known. */
  columns(axis, count, last, channel, lows, highs, known) {
    const wide = axis.seen() / count, into = new Float64Array(2);
    for (let x = 0, begin = Math.floor(axis.begin); x < count; x += 1) {
      const next = Math.floor(axis.begin + (x + 1) * wide), end = Math.min(Math.max(next, begin + 1), last);
      known[x] = begin < end ? this.extremes(Math.max(begin, 0), end, channel, into) : NOTHING;
      lows[x] = into[0];
      highs[x] = into[1];
      begin = next;
    }
  }

  /** The least and the greatest sample at some frames of the axis. */
  extremes(begin, end, channel, into) {
    if (!this.begins) return this.track.extremes(begin + this.offset, end + this.offset, channel, into);
    const frames = this.frames(begin, end);
    return frames ? this.track.extremes(frames[0], frames[1], channel, into) : NOTHING;
  }

  /** The frames of the sound at some of the axis, from the first to the one after the last, or null. */
  frames(begin, end) {
    if (!this.begins) return [begin + this.offset, end + this.offset];
    const from = Math.max(countUpTo(this.begins, begin) - 1, 0), to = countBelow(this.begins, end) - 1;
    if (to < 0 || this.ends[to] <= begin) return null;
    const low = Math.floor(this.inside(Math.max(begin, this.begins[from]))), high = Math.ceil(this.inside(Math.min(end, this.ends[to])));
    return high > low || this.lasts[to] > low ? [low, Math.max(high, low + 1)] : null;
  }
}
