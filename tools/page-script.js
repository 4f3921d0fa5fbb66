/** The script beside the lanes: each line with its reply. Only the lines that are seen are made. */

const HIGH = 22, SHOWN = 400;

class ScriptList {
  constructor(page, box, whenChosen) {
    Object.assign(this, { page, box, whenChosen, chosen: -1, present: -1, found: [], first: -1 });
    const { script } = page;
    this.events = new Int32Array(script.lines.length + 1).fill(-1);
    script.numbers.forEach((line, event) => { this.events[line] = event; });
    this.count = script.lines.length - (script.lines[script.lines.length - 1] === "" ? 1 : 0);
    this.inner = element("div", "lines");
    this.inner.style.height = `${this.count * HIGH}px`;
    this.inner.style.setProperty("--digits", String(this.count).length);
    box.append(this.inner);
    box.addEventListener("scroll", () => this.draw());
    box.addEventListener("click", (event) => this.clicked(event));
  }

  clicked(event) {
    const row = event.target.closest("[data-line]");
    if (row) this.choose(Number(row.dataset.line));
  }

  /** Makes the rows that are seen. */
  draw(isForced) {
    const first = Math.max(Math.floor(this.box.scrollTop / HIGH) - 5, 0), count = Math.ceil(this.box.clientHeight / HIGH) + 10;
    if (first === this.first && !isForced) return;
    this.first = first;
    const rows = [];
    for (let at = first; at < Math.min(first + count, this.count); at += 1) rows.push(this.row(at + 1));
    this.inner.replaceChildren(...rows);
  }

  row(line) {
    const { script } = this.page, event = this.events[line], text = script.lines[line - 1], made = element("div", "row");
    const reply = event < 0 ? "" : script.replies[event];
    made.style.top = `${(line - 1) * HIGH}px`;
    made.dataset.line = line;
    made.id = `line-${line}`;
    const told = { role: "option", "aria-posinset": line, "aria-setsize": this.count, "aria-selected": line === this.chosen };
    for (const [name, value] of Object.entries(told)) made.setAttribute(name, value);
    if (line === this.chosen) made.classList.add("chosen");
    if (line === this.present) made.classList.add("present");
    const kind = reply.startsWith("ok") ? "reply" : "reply refused";
    made.append(element("span", "number", String(line)), this.textOf(text, event), element("span", kind, reply));
    made.title = text.length > SHOWN ? `${text.slice(0, SHOWN)}..` : text;
    return made;
  }

  /** The text of a line, a comment set apart. */
  textOf(text, event) {
    const made = element("span", "text"), at = text.search(/(^|[ \t])#/), shown = text.slice(0, SHOWN);
    if (at < 0 || event < 0 && at > 0) made.textContent = shown;
    else made.append(shown.slice(0, at), element("span", "comment", shown.slice(at)));
    return made;
  }

  scrollTo(line) {
    const top = (line - 1) * HIGH, { scrollTop, clientHeight } = this.box;
    if (top < scrollTop + HIGH || top > scrollTop + clientHeight - 2 * HIGH) this.box.scrollTop = top - clientHeight / 3;
  }

  /** Marks a line, and goes to its time where that is wanted. */
  choose(line, isQuiet) {
    this.chosen = Math.min(Math.max(line, 1), this.count);
    this.box.setAttribute("aria-activedescendant", `line-${this.chosen}`);
    this.scrollTo(this.chosen);
    this.draw(true);
    if (!isQuiet) this.whenChosen(this.frameOf(this.chosen), this.chosen);
  }

  /** The frame at which a line comes: that of its event, or of the next one. */
  frameOf(line) {
    const { script } = this.page, event = countBelow(script.numbers, line);
    return event < script.frames.length ? script.frames[event] : this.page.total;
  }

  /** The line of the interrupt that hands a frame over, or the last one. */
  lineAt(frame) {
    const { script } = this.page, turn = countUpTo(script.ends, frame);
    const event = turn < script.turns.length ? script.turns[turn] : script.numbers.length - 1;
    return event < 0 ? 1 : script.numbers[event];
  }

  /** Marks the line that is played. */
  follow(frame) {
    const line = this.lineAt(frame);
    if (line === this.present) return;
    this.present = line;
    this.scrollTo(line);
    this.draw(true);
  }

  /** Looks for a text in lines and replies. */
  search(words) {
    const { script } = this.page, text = words.toLowerCase();
    this.found = [];
    for (let line = 1; line <= this.count && text; line += 1) {
      const reply = this.events[line] < 0 ? "" : script.replies[this.events[line]];
      if (script.lines[line - 1].toLowerCase().includes(text) || reply.toLowerCase().includes(text)) this.found.push(line);
    }
    return this.found.length;
  }

  /** Goes to the next line that was found, or to the one before. Answers which of them it is. */
  next(step) {
    if (!this.found.length) return 0;
    const before = countBelow(this.found, this.chosen), after = countUpTo(this.found, this.chosen), count = this.found.length;
    const at = step > 0 ? after % count : (before - 1 + count) % count;
    this.choose(this.found[at]);
    return at + 1;
  }
}
