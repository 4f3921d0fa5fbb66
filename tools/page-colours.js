/** The colours of the page, which its style has, for what is drawn. */

const KINDS = ["ground", "lane", "line", "text", "faint", "slot", "mix", "device", "recording", "fill", "short", "limited", "waits", "plays",
  "drains", "mark", "odd", "even"];
const colours = {};

function readColours() {
  const style = getComputedStyle(document.documentElement);
  for (const kind of KINDS) colours[kind] = style.getPropertyValue(`--${kind}`).trim();
}
