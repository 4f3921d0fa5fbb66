/** The data of the page, as they were packed into it. */

/** The bytes of a text of base64. */
function bytesOf(text) {
  const plain = atob(text), bytes = new Uint8Array(plain.length);
  for (let at = 0; at < plain.length; at += 1) bytes[at] = plain.charCodeAt(at);
  return bytes;
}

/** The bytes of a text that was deflated. */
function unpacked(text) {
  const stream = new Blob([bytesOf(text)]).stream().pipeThrough(new DecompressionStream("deflate"));
  return new Response(stream).arrayBuffer();
}

/** The bytes of a blob, by its name. */
const blob = (name) => unpacked(document.getElementById(`blob-${name}`).textContent);

const textOf = (bytes) => new TextDecoder().decode(bytes);

/** Whole numbers, each of which was packed as its difference to the one before. */
async function numbersOf(name) {
  const found = new Int32Array(await blob(name));
  for (let at = 1; at < found.length; at += 1) found[at] += found[at - 1];
  return found;
}

/** The script: its lines and replies, the line of each event and the frame at which it comes, and the interrupts. */
async function scriptOf(told) {
  const [lines, replies] = (await Promise.all([blob(told.lines), blob(told.replies)])).map((it) => textOf(it).split("\n"));
  const [numbers, frames, turns, ends] = await Promise.all(["numbers", "frames", "turns", "ends"].map((it) => numbersOf(told[it])));
  return { lines, replies, numbers, frames, turns, ends };
}

/** How many of sorted numbers are below or at a value. */
function countUpTo(numbers, value) {
  let low = 0, high = numbers.length;
  while (low < high) {
    const middle = (low + high) >> 1;
    if (numbers[middle] <= value) low = middle + 1;
    else high = middle;
  }
  return low;
}

/** How many of sorted numbers are below a value. */
const countBelow = (numbers, value) => countUpTo(numbers, value - 1);

/** Bars of limits, sorted, which don't overlap: where each begins and ends, and which frames of the mix these are. */
class Limits {
  constructor(numbers, says) {
    [this.begins, this.ends, this.firsts, this.lasts] = [0, 1, 2, 3].map((side) => numbers.filter((_, at) => at % 4 === side));
    this.count = this.begins.length;
    this.words = says;
  }

  says(at) {
    return `${this.words} ${this.firsts[at]} to ${this.lasts[at]} of the mix`;
  }

  /** The number of the bar at a frame, or -1. */
  at(frame) {
    const found = countUpTo(this.begins, frame) - 1;
    return found >= 0 && frame < this.ends[found] ? found : -1;
  }

  /** The bars among frames, those less than `near` frames apart as one: each by where it begins and ends. */
  * among(begin, end, near) {
    for (let at = Math.max(countUpTo(this.ends, begin), 0); at < this.count && this.begins[at] < end; at += 1) {
      const from = this.begins[at];
      while (at + 1 < this.count && this.begins[at + 1] - this.ends[at] < near) at += 1;
      yield [from, this.ends[at]];
    }
  }
}

/** A number with its digits in groups of three. */
const grouped = (value) => String(value).replace(/\B(?=(\d{3})+$)/g, "\u202f");

/** An element with a class and a text. */
function element(name, kind, text) {
  const made = document.createElement(name);
  if (kind) made.className = kind;
  if (text !== undefined) made.textContent = text;
  return made;
}

const byId = (id) => document.getElementById(id);
