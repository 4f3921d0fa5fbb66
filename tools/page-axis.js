/** The axis of frames: which of them are seen, and where each stands. */

const LEAST_SEEN = 4, APART = 84;

class Axis {
  constructor(frames, rate) {
    this.frames = frames;
    this.rate = rate;
    this.width = 600;
    this.whole();
  }

  whole() {
    [this.begin, this.end] = [0, Math.max(this.frames, LEAST_SEEN)];
  }

  seen() {
    return this.end - this.begin;
  }

  across(frame) {
    return (frame - this.begin) * this.width / this.seen();
  }

  frameAt(x) {
    return this.begin + x * this.seen() / this.width;
  }

  /** Shows frames from one to another one, as far as there are some. */
  show(begin, end) {
    const most = Math.max(this.frames, LEAST_SEEN), seen = Math.min(Math.max(end - begin, LEAST_SEEN), most);
    this.begin = Math.min(Math.max(begin, 0), most - seen);
    this.end = this.begin + seen;
  }

  move(frames) {
    this.show(this.begin + frames, this.end + frames);
  }

  /** Shows `times` times as many frames, and leaves what is at a place there. */
  scale(times, x) {
    const at = this.frameAt(x), seen = Math.min(Math.max(this.seen() * times, LEAST_SEEN), Math.max(this.frames, LEAST_SEEN));
    this.show(at - x * seen / this.width, at - x * seen / this.width + seen);
  }

  /** Shows a frame, if it isn't seen. */
  reveal(frame) {
    const seen = this.seen();
    if (frame < this.begin || frame > this.end) this.show(frame - seen / 4, frame - seen / 4 + seen);
  }

  /** How far apart round numbers stand, in units of `unit` frames; of seconds those of a minute count. */
  step(unit) {
    const least = APART * this.seen() / this.width / unit;
    if (unit > 1 && least > 10) return [15, 30, 60, 120, 300, 600, 1200, 3600].find((it) => it >= least) || 3600 * Math.ceil(least / 3600);
    const power = 10 ** Math.floor(Math.log10(least));
    return [1, 2, 5, 10].map((it) => it * power).find((it) => it >= least * 0.999999);
  }

  /** The round numbers that are seen, each with where it stands. */
  ticks(unit, isWhole) {
    const step = isWhole ? Math.max(1, this.step(unit)) : this.step(unit), found = [];
    for (let at = Math.ceil(this.begin / unit / step); at * step * unit <= this.end; at += 1) found.push([at * step, this.across(at * step * unit)]);
    return found;
  }
}

/** A time as it is written. */
function timeOf(frame, rate) {
  const seconds = frame / rate, minutes = Math.floor(seconds / 60);
  return minutes ? `${minutes}:${(seconds - 60 * minutes).toFixed(3).padStart(6, "0")}` : `${seconds.toFixed(4)} s`;
}
