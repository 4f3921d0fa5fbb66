/** What keys, the wheel and the pointer do. */

const FAST = 1.25;

/** The keys of the lanes, by what they do. */
const KEYS = {
  " ": (it) => it.toggle(),
  ArrowLeft: (it, event) => it.step(-1, event),
  ArrowRight: (it, event) => it.step(1, event),
  ArrowUp: (it) => it.chooseNext(-1),
  ArrowDown: (it) => it.chooseNext(1),
  Home: (it, event) => it.go(0, event.shiftKey),
  End: (it, event) => it.go(it.page.frames - 1, event.shiftKey),
  PageUp: (it, event) => it.go(it.cursor - it.axis.seen(), event.shiftKey),
  PageDown: (it, event) => it.go(it.cursor + it.axis.seen(), event.shiftKey),
  "+": (it) => it.zoom(1 / 2),
  "=": (it) => it.zoom(1 / 2),
  "-": (it) => it.zoom(2),
  0: (it) => it.fit(),
  1: (it) => it.closest(),
  l: (it) => it.toggleLoop(),
  n: (it) => it.event(1),
  p: (it) => it.event(-1),
  Enter: (it) => it.tellWhy(),
  Escape: (it) => it.select(null),
  "/": () => byId("search").focus(),
  "?": () => byId("help").showModal(),
};

function listenToKeys(app) {
  document.addEventListener("keydown", (event) => {
    const isTyped = event.target.closest("input, select, dialog, #script");
    const isPressed = event.target.closest("button") && [" ", "Enter"].includes(event.key);
    if (isTyped || isPressed || event.ctrlKey || event.metaKey || event.altKey || !KEYS[event.key]) return;
    event.preventDefault();
    KEYS[event.key](app, event);
  });
  byId("script").addEventListener("keydown", (event) => {
    const steps = { ArrowUp: -1, ArrowDown: 1, PageUp: -20, PageDown: 20, Home: -Infinity, End: Infinity }, step = steps[event.key];
    if (step === undefined && ![" ", "Enter"].includes(event.key)) return;
    event.preventDefault();
    if (event.key === " ") app.toggle();
    else app.list.choose(event.key === "Enter" ? app.list.chosen : Math.min(Math.max(app.list.chosen + step, 1), app.list.count));
  });
}

/** Wheel: up and down zoom with a key held or over the numbers, else they scroll; sideways moves. */
function listenToWheel(app) {
  const box = byId("stage");
  box.addEventListener("wheel", (event) => {
    const x = event.clientX - byId("waves").getBoundingClientRect().left, isSide = Math.abs(event.deltaX) > Math.abs(event.deltaY) || event.shiftKey;
    if (event.altKey) return;
    event.preventDefault();
    const lines = event.deltaMode === 1 ? 16 : 1, along = (event.deltaX || event.deltaY) * lines;
    if (isSide) app.axis.move(along * app.axis.seen() / app.axis.width);
    else app.axis.scale(FAST ** (event.deltaY * lines / (event.ctrlKey ? 12 : 60)), Math.max(x, 0));
    app.stage.redraw();
  }, { passive: false });
}

/** A press on the lanes sets the cursor and says why; a drag selects; two fingers pinch. */
function listenToPointer(app) {
  const box = byId("drawn"), held = new Map();
  const place = (event) => event.clientX - byId("waves").getBoundingClientRect().left;
  let begun = null, isDragged = false, apart = 0;
  box.addEventListener("pointerdown", (event) => {
    if (event.button) return;
    held.set(event.pointerId, place(event));
    box.setPointerCapture(event.pointerId);
    [begun, isDragged] = [held.size === 1 ? place(event) : null, false];
    apart = spread(held);
  });
  box.addEventListener("pointermove", (event) => {
    app.hover(event, place(event));
    if (!held.has(event.pointerId)) return;
    held.set(event.pointerId, place(event));
    if (held.size === 2) apart = pinch(app, held, apart);
    else if (begun !== null && Math.abs(place(event) - begun) > 3) isDragged = true;
    if (isDragged && held.size === 1) app.select([app.axis.frameAt(begun), app.axis.frameAt(place(event))]);
  });
  const end = (event) => {
    if (held.delete(event.pointerId) && begun !== null && !isDragged && event.type === "pointerup") app.pressed(event, place(event));
    if (!held.size) [begun, isDragged] = [null, false];
  };
  box.addEventListener("pointerup", end);
  box.addEventListener("pointercancel", end);
}

/** How far two fingers are apart. */
function spread(held) {
  const [first, second] = [...held.values()];
  return second === undefined ? 0 : Math.abs(first - second);
}

function pinch(app, held, before) {
  const now = spread(held), [first, second] = [...held.values()];
  if (before > 4 && now > 4) app.axis.scale(before / now, (first + second) / 2);
  app.stage.redraw();
  return now;
}

/** A press on the map shows what is there; a drag goes along. */
function listenToMap(app) {
  const map = byId("map-box");
  const go = (event) => {
    const box = map.getBoundingClientRect(), at = (event.clientX - box.left) * app.page.frames / box.width, seen = app.axis.seen();
    app.axis.show(at - seen / 2, at + seen / 2);
    app.stage.redraw();
  };
  map.addEventListener("pointerdown", (event) => { map.setPointerCapture(event.pointerId); go(event); });
  map.addEventListener("pointermove", (event) => { if (map.hasPointerCapture(event.pointerId)) go(event); });
}
