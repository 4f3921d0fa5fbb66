"""A picture of gains over tones, as SVG: what was measured, and what was asked for."""
import math
import xml.sax.saxutils

# in pixels, with an edge for what is written; the Hz that have a line; the least decibels that are drawn; and the points of a curve
WIDTH, HEIGHT, EDGE, TOP = 720, 330, 60, 60
MARKED = (20, 50, 100, 200, 500, 1000, 2000, 5000, 10000, 20000, 50000)
FLOOR, POINTS = -140, 240
MEASURED, ASKED = "#0072b2", "#d55e00"
STEPS = (0.1, 0.2, 0.5, 1, 2, 3, 5, 10, 20, 50)


def across(hertz, first, last):
    """Where Hz stand, in octaves of one width."""
    return EDGE + (WIDTH - 2 * EDGE) * math.log(hertz / first) / math.log(last / first)


def levels(gains):
    """The decibels that have a line, the highest first, as many as can be read."""
    least, most = min(gains), max(gains)
    step = next(it for it in STEPS if most - least < 8 * it or it == STEPS[-1])
    return [step * k for k in range(math.ceil(most / step + 0.01), math.floor(least / step - 0.01) - 1, -1)]


def marked(path, x, y, anchor, words):
    """A line, and what is written at it."""
    return f'<path d="{path}"/><text stroke="none" x="{x:.1f}" y="{y:.1f}" text-anchor="{anchor}">{words}</text>'


def grid(lines, first, last):
    """The lines behind the curves."""
    bottom = HEIGHT - 28
    for number, level in enumerate(lines):
        y = TOP + (bottom - TOP) * number / (len(lines) - 1)
        yield marked(f"M{EDGE} {y:.1f}H{WIDTH - EDGE}", EDGE - 6, y + 4, "end", f"{level:g} dB")
    for hertz in [it for it in MARKED if first <= it <= last]:
        x = across(hertz, first, last)
        yield marked(f"M{x:.1f} {TOP}V{bottom}", x, HEIGHT - 10, "middle", f"{hertz} Hz" if hertz < 1000 else f"{hertz // 1000} kHz")


def curve(points, lines, first, last, look):
    """A curve through points of Hz and decibels."""
    tall = (HEIGHT - 28 - TOP) / (lines[0] - lines[-1])
    places = [f"{across(hertz, first, last):.1f},{TOP + (lines[0] - min(max(gain, lines[-1]), lines[0])) * tall:.1f}" for hertz, gain in points]
    return f'<polyline fill="none" {look} points="{" ".join(places)}"/>'


def legend():
    """What the two curves are."""
    for x, look, words in ((EDGE, f'stroke="{ASKED}" stroke-width="5" stroke-opacity=".45"', "asked for"), (EDGE + 110, f'stroke="{MEASURED}" stroke-width="1.8"', "measured")):
        yield f'<path {look} d="M{x} 42h26"/><text x="{x + 32}" y="46">{words}</text>'


def drawn(title, tones, asked):
    """The gains of tones over their Hz, and those that were asked for, as SVG."""
    found = [(hertz, max(gain, FLOOR)) for hertz, gain, _ in tones if gain is not None]
    first, last = found[0][0], found[-1][0]
    wanted = [(it, max(asked(it), FLOOR)) for it in (first * (last / first) ** (k / POINTS) for k in range(POINTS + 1))]
    lines = levels([gain for _, gain in [*found, *wanted]])
    yield f'<svg xmlns="http://www.w3.org/2000/svg" viewBox="0 0 {WIDTH} {HEIGHT}" width="{WIDTH}" height="{HEIGHT}" font-family="DejaVu Sans, Verdana, sans-serif" font-size="11">'
    yield f"<title>{xml.sax.saxutils.escape(title)}</title>"
    yield f'<rect width="{WIDTH}" height="{HEIGHT}" fill="white"/>'
    yield f'<text x="{EDGE}" y="24" font-size="15" font-weight="bold">{xml.sax.saxutils.escape(title)}</text>'
    yield from legend()
    yield from ('<g stroke="#d0d4d9">', *grid(lines, first, last), "</g>")
    yield curve(wanted, lines, first, last, f'stroke="{ASKED}" stroke-width="5" stroke-opacity=".45"')
    yield curve(found, lines, first, last, f'stroke="{MEASURED}" stroke-width="1.8"')
    yield "</svg>"
