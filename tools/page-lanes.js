/** The stage: the lanes with their names, the numbers above, the map, the cursor and the selection. */

class Stage {
  constructor(page, axis) {
    [this.page, this.axis] = [page, axis];
    this.painter = new Painter(page, axis);
    this.map = new Minimap(page, byId("map"));
    this.height = 0;
    this.names = byId("names");
    this.cursor = 0;
    this.selection = null;
    this.waits = false;
    this.chosen = 0;
  }

  /** Places the rows in a height, and their names beside them. */
  place(height) {
    this.height = placeRows(this.page.rows, height);
    this.names.style.height = `${this.height}px`;
    this.names.replaceChildren(...this.page.rows.map((row, at) => this.nameOf(row, at)));
    this.choose(this.chosen);
  }

  /** What stands beside a row: a button that chooses it, and its words. */
  nameOf(row, at) {
    const made = element("div", "name"), button = element("button", "choose", row.name);
    made.style.top = `${row.top - 2}px`;
    made.style.height = `${row.bottom - row.top + 4}px`;
    button.type = "button";
    button.dataset.row = at;
    button.setAttribute("aria-pressed", "false");
    button.setAttribute("aria-label", `Play ${row.name}`);
    made.append(button, ...row.words.map((it) => { const word = element("span", "word", it); word.title = it; return word; }));
    row.names.forEach((name, channel) => made.append(this.placed("lane-name", name, row.lane * (channel + 0.5) - 7)));
    if (row.fills) made.append(this.ringOf(row));
    return made;
  }

  /** How much of a row's ring was filled at most. */
  ringOf(row) {
    const made = this.placed("ring", `${grouped(row.fills.most)} of ${grouped(row.fills.size)}`, row.bottom - row.top - 18);
    made.title = "the most that waited, and the size of the ring, in bytes";
    made.append(element("span", "unit", " bytes"));
    return made;
  }

  placed(kind, text, top) {
    const made = element("span", kind, text);
    made.style.top = `${top}px`;
    return made;
  }

  /** Marks the row that is played. */
  choose(at) {
    this.chosen = at;
    for (const it of this.names.querySelectorAll("button")) it.setAttribute("aria-pressed", String(Number(it.dataset.row) === at));
  }

  /** Draws all again, as soon as the screen is. */
  redraw() {
    if (this.waits) return;
    this.waits = true;
    requestAnimationFrame(() => { this.waits = false; this.draw(); });
  }

  resize() {
    const box = byId("lanes");
    if (box.clientHeight !== this.room) this.place(this.room = box.clientHeight);
    this.axis.width = Math.max(box.clientWidth - this.names.offsetWidth, 50);
    this.map.draw(byId("map").parentElement.clientWidth);
    this.redraw();
  }

  draw() {
    const box = byId("lanes");
    drawRuler(byId("ruler"), this.page, this.axis);
    this.painter.draw(byId("waves"), this.height, box.scrollTop, box.scrollTop + box.clientHeight);
    this.drawOverlay();
  }

  /** Moves the cursor, the selection and what of the map is seen. */
  drawOverlay() {
    const { axis, map } = this, width = map.axis.width;
    for (const it of document.querySelectorAll(".cursor")) moveTo(it, axis.across(this.cursor), 0, axis.width);
    this.drawOther();
    moveTo(byId("map-cursor"), map.axis.across(this.cursor), 0, width);
    const [begin, end] = this.selection || [0, 0];
    stretch(byId("selected"), axis.across(begin), axis.across(end), axis.width);
    stretch(byId("seen"), axis.begin * width / map.axis.frames, axis.end * width / map.axis.frames, width);
  }

  /** A dashed line where the frame that is handed over at the cursor is mixed; or, in a slot or the mix, where it is handed over. */
  drawOther() {
    const { rows, ring } = this.page, it = byId("other"), device = rows.find(({ kind }) => kind === "device"), { kind } = rows[this.chosen];
    const isDevice = kind === "device", at = this.cursor + (isDevice ? -ring : ring);
    const [top, bottom] = isDevice ? [0, device.top - ABOVE] : [device.top, device.bottom];
    moveTo(it, this.axis.across(at), 0, this.axis.width);
    if (kind === "recording" || at < 0 || at >= this.page.frames) it.hidden = true;
    [it.style.top, it.style.height] = [`${top}px`, `${bottom - top}px`];
  }

  /** What stands at a point of the lanes: the row, and what its marks say. */
  at(x, y) {
    const row = this.page.rows.find((it) => y >= it.top - ABOVE / 2 && y < it.bottom + BELOW) || null;
    return { row, says: row ? this.saysAt(row, x) : "" };
  }

  /** What the bars and marks of a row say at a place. */
  saysAt(row, x) {
    const frame = this.axis.frameAt(x), near = 5 * this.axis.seen() / this.axis.width;
    const bars = (row.short || []).filter(([begin, end]) => begin <= frame && frame < end), limit = row.limited ? row.limited.at(frame) : -1;
    const states = (row.states || []).filter(([, begin, end]) => begin <= frame && frame < end);
    const marks = (row.marks || []).filter(([, at]) => Math.abs(at - frame) <= near);
    const limits = limit < 0 ? [] : [row.limited.says(limit)];
    return [...[...marks, ...bars, ...states].map((it) => it[it.length - 1]), ...limits].join("\n");
  }
}

function moveTo(it, x, least, most) {
  it.hidden = x < least - 1 || x > most + 1;
  it.style.transform = `translateX(${Math.round(x)}px)`;
}

function stretch(it, left, right, width) {
  const from = Math.max(left, 0), to = Math.min(right, width);
  it.hidden = to <= from;
  it.style.transform = `translateX(${from}px)`;
  it.style.width = `${Math.max(to - from, 2)}px`;
}
