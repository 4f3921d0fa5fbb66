/** What stands around the lanes: the title, the controls, the notes, the legend, and what each does. */

/** Leaves out of the legend what doesn't occur. */
function fillLegend(page) {
  const kinds = new Set(page.notes.length ? ["other", "faint"] : ["other"]);
  for (const row of page.rows) {
    kinds.add(row.kind);
    if (row.short && row.short.length) kinds.add("short");
    if (row.limited && row.limited.count) kinds.add("limited");
    for (const it of [...(row.states || []), ...(row.marks || [])]) kinds.add(it[0]);
    if (row.fills && row.fills.most) kinds.add("fill");
  }
  if (page.frames > page.total) kinds.add("hatched");
  for (const it of document.querySelectorAll("#legend .item")) it.hidden = !kinds.has(it.dataset.kind);
}

function fillAbout(page) {
  const { format, channels, rate } = page.device;
  byId("about").textContent = [`${format}, ${channels} channel${channels > 1 ? "s" : ""}, ${grouped(rate)} Hz`, timeOf(page.total, rate),
    `the device's ring has ${grouped(page.ring)} frames`, `a lane reaches ${grouped(page.reach)}`].join("; ");
}

function fillControls(app) {
  const { page } = app;
  fillAbout(page);
  byId("title").textContent = page.title;
  byId("made").textContent = `This page was made by tools/page of dsp_replay ${page.version}.`;
  page.rows.forEach((row, at) => byId("source").append(new Option(row.name, String(at))));
  byId("drawn").setAttribute("aria-valuemax", Math.max(page.frames - 1, 0));
  byId("notes").replaceChildren(...page.notes.map((it) => element("p", "", it)));
  byId("notes").hidden = !page.notes.length;
  fillLegend(page);
  app.reasons.listClicks(byId("clicks"), (it) => app.click(it));
}

function listenToControls(app) {
  const acts = {
    play: () => app.toggle(), loop: () => app.toggleLoop(), before: () => app.event(-1), after: () => app.event(1), farther: () => app.zoom(2),
    closer: () => app.zoom(1 / 2), fit: () => app.fit(), closest: () => app.closest(), keys: () => byId("help").showModal(),
  };
  for (const [id, act] of Object.entries(acts)) byId(id).addEventListener("click", act);
  byId("source").addEventListener("change", () => app.choose(Number(byId("source").value)));
  byId("speed").addEventListener("change", () => { if (app.player.isOn()) { app.cursor = app.player.place(); app.play(); } });
  byId("names").addEventListener("click", (event) => { if (event.target.dataset.row) app.choose(Number(event.target.dataset.row)); });
  byId("lanes").addEventListener("scroll", () => app.stage.redraw());
  listenToSearch(app);
  new ResizeObserver(() => { app.stage.resize(); app.list.draw(true); }).observe(byId("lanes"));
  new ResizeObserver(() => app.list.draw(true)).observe(byId("script"));
  matchMedia("(prefers-color-scheme: dark)").addEventListener("change", () => { readColours(); app.stage.resize(); });
}

function listenToSearch(app) {
  const box = byId("search"), told = byId("found");
  const say = (at) => { told.textContent = !box.value ? "" : app.list.found.length ? `${at || 1} of ${app.list.found.length}` : "not found"; };
  box.addEventListener("input", () => { app.list.search(box.value); say(app.list.next(1)); });
  box.addEventListener("keydown", (event) => {
    if (event.key === "Enter") say(app.list.next(event.shiftKey ? -1 : 1));
    if (event.key === "Escape") byId("drawn").focus();
  });
}
