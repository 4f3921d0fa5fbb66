/** Why a frame is what it is, in the words of tools/explain, and the list of clicks. */

class Reasons {
  constructor(page, whenLine) {
    [this.page, this.whenLine] = [page, whenLine];
  }

  isKnown(frame) {
    return this.page.whys.rows.some(([begin, end]) => begin <= frame && frame < end);
  }

  /** The lines that tools/explain prints of a frame, as far as they are known; each with how far it is set in. */
  lines(frame) {
    const { page } = this, value = page.tracks[0].frame(frame), turn = countUpTo(page.script.ends, frame), mixed = frame - page.ring;
    const lines = [[0, value ? `frame ${frame} is ${value.join(" ")}` : `frame ${frame} isn't in this file whole`]];
    if (frame < page.total) lines.push([0, `${this.turn(turn, "hands it over")}`]);
    else lines.push([0, "it is still in the device's ring: no interrupt hands it over"]);
    if (mixed < 0) lines.push([0, "no interrupt mixed it: the device's ring began with it"]);
    else lines.push([0, this.turn(countUpTo(page.script.ends, mixed), "mixed it")]);
    if (mixed >= 0 && value && frame < page.total && this.isKnown(frame)) lines.push(...this.slots(frame, value));
    if (frame < page.total) for (const texts of page.whys.recordings) lines.push(...this.told(texts, frame).map((it) => [0, it]));
    return lines;
  }

  turn(turn, does) {
    const { script } = this.page, number = script.numbers[script.turns[turn]];
    return `line ${number} ${does}: ${eventOf(script.lines[number - 1])}`;
  }

  slots(frame, value) {
    const { whys, tracks } = this.page, lines = [];
    let total = value.map(() => 0);
    for (const slot of whys.slots) {
      const adds = tracks[slot.adds].frame(frame), sum = tracks[slot.sum].frame(frame);
      if (!adds || !sum) return lines;
      const isLimited = slot.limited.some(([begin, end]) => begin <= frame && frame < end);
      lines.push([0, `${slot.words} ${adds.join(" ")}: ${sum.join(" ")}${isLimited ? ", limited" : ""}`, this.gains(slot, frame)]);
      for (const text of this.told(slot.texts, frame)) lines.push([1, text]);
      total = sum;
    }
    if (total.join(" ") !== value.join(" ")) lines.push([0, `the master makes ${value.join(" ")} of it`, this.masterGains(frame)]);
    return lines;
  }

  /** The texts of a frame, out of rows of those that differ in numbers. */
  told(rows, frame) {
    const at = countUpTo(rows.map((it) => it[0]), frame) - 1;
    if (at < 0 || frame >= rows[at][0] + rows[at][1]) return [];
    const [begin, , text, steps] = rows[at];
    let found = "", from = 0;
    for (const [first, last, step] of steps) {
      found += text.slice(from, first) + (Number(text.slice(first, last)) + step * (frame - begin));
      from = last;
    }
    return (found + text.slice(from)).split("\n");
  }

  /** The volumes that a slot has as a frame is mixed. */
  gains(slot, frame) {
    const mixed = frame - this.page.ring, volume = lastOf(slot.volumes, mixed), fader = lastOf(slot.faders, mixed);
    const own = volume ? `${volume[1]} ${volume[2]} of the client and ` : "";
    return `at volumes ${own}${fader[1]} ${fader[2]} of the slot${fader[3] ? ", which is muted" : ""}`;
  }

  masterGains(frame) {
    const master = lastOf(this.page.whys.master, frame - this.page.ring);
    return `at volumes ${master[1]} ${master[2]} of the master`;
  }

  command(frame) {
    const [script, ...config] = this.page.files;
    return ["tools/explain", script, frame, ...config].join(" ");
  }

  /** Shows why a frame is what it is. */
  show(box, frame, before) {
    const list = element("div", "why");
    if (before) list.append(element("p", "before", before));
    for (const [depth, text, more] of this.lines(frame)) {
      const line = element("p", depth ? "inner" : "", undefined);
      line.append(...this.linked(text));
      list.append(line);
      if (more) list.append(element("p", "gains", more));
    }
    if (frame < this.page.total) list.append(...this.commandParts(frame));
    box.replaceChildren(list);
  }

  commandParts(frame) {
    const isKnown = frame < this.page.ring || this.isKnown(frame), words = this.command(frame);
    const button = element("button", "copy", "Copy");
    button.type = "button";
    button.setAttribute("aria-label", `Copy the command: ${words}`);
    button.addEventListener("click", () => copyText(words, button));
    const row = element("p", "command");
    row.append(element("code", "", words), button);
    const note = isKnown ? "The same on a terminal:" : "The reasons of this frame aren't in this file. This command prints them:";
    return [element("p", "note", note), row];
  }

  /** A text in which each `line N` is a button that goes there. */
  linked(text) {
    return text.split(/(\bline \d+\b)/).map((part, at) => {
      if (at % 2 === 0) return part;
      const button = element("button", "link", part);
      button.type = "button";
      button.addEventListener("click", () => this.whenLine(Number(part.slice(5))));
      return button;
    });
  }

  /** The list of clicks, each a button. */
  listClicks(box, whenChosen) {
    const { clicks } = this.page;
    if (!clicks.length) box.replaceChildren(element("p", "note", "Nothing jumps, is limited or falls silent."));
    box.append(...clicks.map((click) => {
      const item = element("li"), button = element("button", "click", click.says);
      button.type = "button";
      button.addEventListener("click", () => whenChosen(click));
      item.append(button);
      return item;
    }));
  }
}

/** An event as the program reads it: without its comment, with single blanks. */
function eventOf(line) {
  const at = line.search(/(^|[ \t])#/);
  return (at < 0 ? line : line.slice(0, at)).trim().split(/[ \t]+/).join(" ");
}

/** The last of some rows that counts at a frame, or null. */
function lastOf(rows, frame) {
  return rows.reduce((found, row) => (row[0] <= frame ? row : found), null);
}

/** Copies a text. A page from disk may not be let, and then chooses it for the keys that copy. */
async function copyText(text, button) {
  try {
    await navigator.clipboard.writeText(text);
    button.textContent = "Copied";
  } catch {
    getSelection().selectAllChildren(button.previousSibling);
    button.textContent = "Chosen";
  }
  setTimeout(() => { button.textContent = "Copy"; }, 1500);
}
