/** The page as a whole: its data are read, and the parts are joined. */

/** All that happens, by its frame: what bars and marks say, and clicks. */
function happensOf(page) {
  const found = page.groups.map(([frame, , says]) => [frame, says]);
  for (const row of page.rows) {
    for (const it of row.short || []) found.push([it[0], it[2]]);
    for (let at = 0; row.limited && at < row.limited.count; at += 1) found.push([row.limited.begins[at], row.limited.says(at)]);
    for (const it of row.states || []) found.push([it[1], it[3]]);
    for (const it of row.marks || []) found.push([it[1], it[2]]);
  }
  for (const it of page.clicks) found.push([it.at, it.says]);
  return found.sort((a, b) => a[0] - b[0]);
}

/** Reads the data of the page, all but the whole frames. */
async function readPage() {
  const page = JSON.parse(textOf(await unpacked(byId("told").textContent)));
  page.script = await scriptOf(page.script);
  page.tracks = page.tracks.map((it) => new Track(it));
  await Promise.all(page.tracks.map((it) => it.readLevels()));
  for (const row of page.rows) {
    row.sources = row.sources.map((it) => new Source(it, page.tracks));
    await Promise.all(row.sources.map((it) => it.read()));
    if (row.limited) row.limited = new Limits(new Int32Array(await blob(row.limited.rows)), row.limited.says);
    if (row.fills) row.fills.places = new Map(row.fills.levels.map((levels) => [levels, levels.map((it) => it[0])]));
  }
  page.happens = happensOf(page);
  return page;
}

/** Reads the whole frames, those of shown parts first, and draws as they come. */
async function readParts(page, app) {
  for (const track of page.tracks) track.sort();
  const parts = page.tracks.flatMap((track) => track.chunks.map((chunk, at) => [chunk[0], track, at])).sort((a, b) => a[0] - b[0]);
  let shown = performance.now();
  for (const [, track, at] of parts) {
    await track.readPart(at);
    if (performance.now() - shown < 200) continue;
    shown = performance.now();
    reachOf(page);
    app.stage.resize();
  }
  for (const track of page.tracks) await track.readCopy();
  reachOf(page);
  app.stage.resize();
}

/** How far the lanes reach: those of slots, the mix and the device alike, and each recording by itself. */
function reachOf(page) {
  const sounds = (rows) => rows.flatMap((row) => row.sources.map((it) => it.track.reach()));
  const power = (most) => 2 ** Math.ceil(Math.log2(Math.max(most, 1)));
  const together = page.rows.filter((it) => it.kind !== "recording"), reach = power(Math.max(...sounds(together)));
  for (const row of page.rows) row.reach = row.kind === "recording" ? power(Math.max(0, ...sounds([row]))) : reach;
  page.reach = reach;
}

async function begin() {
  readColours();
  const page = await readPage(), app = new App(page);
  reachOf(page);
  fillControls(app);
  listenToControls(app);
  listenToKeys(app);
  listenToWheel(app);
  listenToPointer(app);
  listenToMap(app);
  document.body.classList.remove("waits");
  app.choose(app.chosen);
  app.stage.resize();
  app.go(0);
  await readParts(page, app);
  fillAbout(page);
  app.why(app.cursor);
  document.body.dataset.ready = "yes";
}

begin().catch((fault) => {
  byId("status").textContent = `This browser can't show the page: ${fault.message}`;
  throw fault;
});
