/** What is done with the page: playing, going to a place, choosing, and telling why. */

class App {
  constructor(page) {
    this.page = page;
    this.axis = new Axis(page.frames, page.device.rate);
    this.stage = new Stage(page, this.axis);
    this.list = new ScriptList(page, byId("script"), (frame) => this.go(frame, false, true));
    this.reasons = new Reasons(page, (line) => this.list.choose(line, true));
    this.player = new Player((place) => { this.isEnding = true; this.go(place); this.showPlaying(); });
    this.chosen = page.rows.findIndex((it) => it.kind === "device");
    this.isLoop = false;
    this.cursor = 0;
  }

  choose(at) {
    const wasOn = this.player.isOn();
    if (wasOn) this.player.stop();
    this.chosen = at;
    this.stage.choose(at);
    byId("source").value = String(at);
    if (wasOn) this.play();
    else this.why(this.cursor);
  }

  chooseNext(step) {
    const count = this.page.rows.length;
    this.choose((this.chosen + step + count) % count);
    this.tell(`Play ${this.page.rows[this.chosen].name}`);
  }

  /** The sound that is played of the chosen row at the cursor. */
  source() {
    const { sources } = this.page.rows[this.chosen];
    return sources.find((it) => !it.ends || it.ends[it.ends.length - 1] > this.cursor) || sources[0];
  }

  toggle() {
    if (!this.player.isOn()) return this.play();
    this.cursor = this.player.place();
    this.player.stop();
    return this.showPlaying();
  }

  async play() {
    const source = this.source(), selection = this.stage.selection;
    if (!source) return this.tell("This row has no sound.");
    const { frames } = source.track, inside = (it) => Math.min(Math.max(Math.round(source.inside(it)), 0), frames);
    const span = selection ? selection.map(inside) : [0, frames];
    let from = Math.floor(source.inside(this.cursor));
    if (from < span[0] || from >= span[1] - 1) from = span[0];
    try {
      await this.player.play(source, span, from, this.isLoop, Number(byId("speed").value));
    } catch (fault) {
      return this.tell(`It can't be played: ${fault.message}.`);
    }
    this.showPlaying();
    return this.follow();
  }

  /** Moves the cursor along with the sound. */
  follow() {
    if (!this.player.isOn()) return;
    this.cursor = this.player.place();
    const isSeen = this.cursor >= this.axis.begin && this.cursor <= this.axis.end;
    if (!isSeen) {
      this.axis.show(this.cursor, this.cursor + this.axis.seen());
      this.stage.redraw();
    }
    this.showCursor();
    this.list.follow(this.cursor);
    requestAnimationFrame(() => this.follow());
  }

  showPlaying() {
    const isOn = this.player.isOn(), button = byId("play");
    button.textContent = isOn ? "Pause" : "Play";
    button.setAttribute("aria-pressed", String(isOn));
    if (isOn) this.tell(this.player.heard.isWhole ? "" : "What is played is a copy: its rate and depth are lower than the device's.");
    this.showCursor();
  }

  showCursor() {
    const { page } = this, frame = Math.floor(this.cursor), words = `frame ${grouped(frame)}, ${timeOf(frame, page.device.rate)}`;
    this.stage.cursor = this.cursor;
    this.stage.drawOverlay();
    byId("time").textContent = words;
    if (this.player.isOn()) return;
    byId("drawn").setAttribute("aria-valuenow", frame);
    byId("drawn").setAttribute("aria-valuetext", words);
  }

  /** Sets the cursor to a frame, and shows it. */
  go(frame, isSelecting, isChosen) {
    const before = this.cursor, wasOn = this.player.isOn() && !this.isEnding;
    this.isEnding = false;
    this.cursor = Math.min(Math.max(frame, 0), Math.max(this.page.frames - 1, 0));
    if (isSelecting) this.extend(before);
    this.axis.reveal(this.cursor);
    this.showCursor();
    this.stage.redraw();
    if (!wasOn) this.why(this.cursor);
    if (!isChosen) this.list.choose(this.list.lineAt(Math.floor(this.cursor)), true);
    if (wasOn) this.play();
  }

  /** Lets the selection go on to the cursor. */
  extend(before) {
    const { selection } = this.stage, anchor = this.anchor !== undefined && selection ? this.anchor : before;
    this.select([anchor, this.cursor]);
    this.anchor = anchor;
  }

  step(way, event) {
    const least = this.axis.seen() / this.axis.width, size = event.ctrlKey ? 10 : 4;
    this.go(Math.round(this.cursor) + way * Math.max(Math.round(least * size), 1), event.shiftKey);
  }

  select(frames) {
    const sorted = frames && frames.map((it) => Math.min(Math.max(Math.round(it), 0), this.page.frames)).sort((a, b) => a - b);
    this.stage.selection = sorted && sorted[1] > sorted[0] ? sorted : null;
    this.anchor = undefined;
    byId("selection").textContent = this.selectedWords();
    this.stage.drawOverlay();
  }

  selectedWords() {
    if (!this.stage.selection) return "";
    const [begin, end] = this.stage.selection;
    return `selected: ${grouped(begin)} to ${grouped(end - 1)}, ${timeOf(end - begin, this.page.device.rate)}`;
  }

  toggleLoop() {
    this.isLoop = !this.isLoop;
    byId("loop").setAttribute("aria-pressed", String(this.isLoop));
    if (this.player.isOn()) { this.cursor = this.player.place(); this.play(); }
  }

  zoom(times) {
    const x = this.axis.across(this.cursor), isSeen = x >= 0 && x <= this.axis.width;
    this.axis.scale(times, isSeen ? x : this.axis.width / 2);
    this.stage.redraw();
  }

  fit() {
    const { selection } = this.stage;
    if (selection && (this.axis.begin !== selection[0] || this.axis.end !== selection[1])) this.axis.show(...selection);
    else this.axis.whole();
    this.stage.redraw();
  }

  /** Shows single frames, with room for their values. */
  closest() {
    const seen = Math.max(this.axis.width / (DIGIT * String(-this.page.reach).length + 20), LEAST_SEEN);
    this.axis.show(this.cursor - seen / 2, this.cursor + seen / 2);
    this.stage.redraw();
  }

  /** Goes to the next place where something happens, or to the one before, and says all that happens there. */
  event(way) {
    const at = Math.round(this.cursor), found = way > 0 ? this.page.happens.find((it) => it[0] > at) : this.page.happens.findLast((it) => it[0] < at);
    if (!found) return this.tell(way > 0 ? "Nothing more happens." : "Nothing happens before.");
    this.go(found[0]);
    return this.tell(this.page.happens.filter((it) => it[0] === found[0]).map((it) => it[1]).join("; "));
  }

  pressed(event, x) {
    const frame = Math.floor(this.axis.frameAt(x)), { row } = this.stage.at(x, event.clientY - byId("waves").getBoundingClientRect().top);
    this.select(null);
    if (row) this.choose(this.page.rows.indexOf(row));
    this.go(frame);
    byId("drawn").focus({ preventScroll: true });
  }

  /** Says why a frame is what it is: of the device the one that is handed over there, of slots and the mix the one that is mixed there. */
  why(place) {
    const { kind, name } = this.page.rows[this.chosen], isMixed = kind === "slot" || kind === "mix", at = Math.floor(place);
    const frame = Math.min(Math.max(at + (isMixed ? this.page.ring : 0), 0), Math.max(this.page.frames - 1, 0));
    this.reasons.show(byId("why"), frame, isMixed ? `What ${name} has at frame ${at} is handed over one ring later:` : "");
  }

  /** Says the reason for those who don't see it. */
  tellWhy() {
    this.why(this.cursor);
    this.tell([...document.querySelectorAll("#why .why > p:not(.note, .command)")].map((it) => it.textContent).join("; "));
  }

  hover(event, x) {
    const { row, says } = this.stage.at(x, event.clientY - byId("waves").getBoundingClientRect().top);
    byId("drawn").title = row ? says : "";
  }

  click(click) {
    this.choose(this.page.rows.findIndex((it) => it.kind === "device"));
    if (this.axis.seen() > 400) this.axis.show(click.at - 200, click.at + 200);
    this.go(click.at);
    this.tell(click.says);
  }

  tell(text) {
    byId("status").textContent = byId("status").title = text;
  }
}
