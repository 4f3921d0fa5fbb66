"""A drawing of rows over one axis of frames, as SVG: text, bars, marks and waveforms. Coordinates are whole numbers and tenths."""
import fractions
import xml.sax.saxutils

WIDTH, LEFT, RIGHT = 1000, 190, 22
ACROSS = 10 * (WIDTH - LEFT - RIGHT)
# how wide a column of a waveform is, and a stretch that is left out, in tenths; and how far apart numbers of the axis stand at least
COLUMN, GAP, APART = 20, 300, 720

# Colours that those tell apart who see less of red or green: those of M. Okabe and K. Ito, and dark ones. Each means one thing.
STYLE = """
text { font: 12px "DejaVu Sans", Verdana, Arial, sans-serif; fill: #1d242c; }
.title { font-size: 17px; font-weight: bold; } .small { font-size: 10px; fill: #4a535e; } .right { text-anchor: end; }
.middle { text-anchor: middle; } .name { font-weight: bold; } .zero { stroke: #b4bbc3; } .lane { fill: #f4f6f8; }
.tick { stroke: #8a939d; } .interrupt { stroke: #dde1e6; } .odd { fill: #dfe4ea; } .even { fill: #f0f2f5; } .left { fill: #e6e6e6; }
.gap { fill: #ffffff; } .broken { stroke: #8a939d; fill: none; stroke-dasharray: 2 3; }
.slot { fill: #0072b2; } .mix { fill: #4d4d4d; } .device { fill: #5d3a9b; } .recording { fill: #009e73; } .fill { fill: #e69f00; }
.short { fill: #d55e00; fill-opacity: .3; stroke: #d55e00; } .limited { fill: #aa3377; } .waits { fill: #b8bec5; } .plays { fill: #56b4e9; }
.drains { fill: #c9b458; } .dropped { stroke: #000000; stroke-width: 2; fill: none; } .poked { fill: #000000; }
.mixer { fill: #ffffff; stroke: #000000; stroke-width: 1.3; } .group { stroke: #000000; stroke-width: 1.3; stroke-dasharray: 5 3; fill: none; }
.ahead { fill: none; stroke: #5d3a9b; }
"""


def escaped(text):
    return xml.sax.saxutils.escape(str(text).encode("utf-8", "replace").decode(), {'"': "&quot;"})


def tenths(value):
    """A number of tenths as it is written."""
    return f"{'-' if value < 0 else ''}{abs(value) // 10}{f'.{abs(value) % 10}' if value % 10 else ''}"


class Axis:
    """Where frames stand: stretches that are kept, each as wide as it has frames, and narrow gaps for those that are left out."""

    def __init__(self, kept):
        self.kept, self.begin, self.end = kept, kept[0][0], kept[-1][1]
        shown, room = max(sum(end - begin for begin, end in kept), 1), ACROSS - GAP * (len(kept) - 1)
        self.places, passed = [], 0
        for number, (begin, end) in enumerate(kept):
            left = 10 * LEFT + number * GAP + room * passed // shown
            passed += end - begin
            self.places.append((begin, end, left, 10 * LEFT + number * GAP + room * passed // shown))
        self.room, self.shown = room, shown

    def across(self, frame):
        """Where a frame begins, in tenths."""
        frame = min(max(frame, self.begin), self.end)
        before = self.places[0]
        for place in self.places:
            begin, end, left, right = place
            if frame < begin:
                return before[3] + (frame - before[1]) * (left - before[3]) // (begin - before[1])
            if frame <= end:
                return left + (frame - begin) * (right - left) // max(end - begin, 1)
            before = place
        return before[3]

    def widest(self, begin, end):
        """From where to where the widest part goes that is seen of some frames."""
        parts = [(self.across(max(begin, first)), self.across(min(end, last))) for first, last, _, _ in self.places if begin < last and end > first]
        return max(parts, key=lambda it: it[1] - it[0], default=(0, 0))

    def columns(self):
        """The columns of a waveform: for each stretch the first frame of each, and the one after the last."""
        for begin, end, left, right in self.places:
            count = max(1, min(end - begin, (right - left) // COLUMN))
            yield [begin + (end - begin) * k // count for k in range(count + 1)]

    def steps(self, unit):
        """How far apart round numbers stand, of which one is `unit` frames."""
        least, step = fractions.Fraction(APART * self.shown, max(self.room, 1)) / unit, fractions.Fraction(1)
        while step > least:
            step /= 10
        while step < least:
            step = next((step * k for k in (2, 5, 10) if step * k >= least), step * 10)
        return step

    def ticks(self, unit):
        """The round numbers of the axis, each with its place, in frames: those of the kept stretches."""
        step = self.steps(unit)
        for begin, end, _, _ in self.places:
            number = -(-fractions.Fraction(begin) / unit // step) * step
            while number * unit <= end:
                yield number, number * unit
                number += step


class Drawing:
    """What is drawn so far over an axis, and which kinds of it."""

    def __init__(self, axis):
        self.axis, self.under, self.parts, self.over, self.height, self.kinds = axis, [], [], [], 0, set()

    def across(self, frame):
        return self.axis.across(frame)

    def is_seen(self, begin, end):
        """Whether some of the frames are on the axis."""
        return begin < self.axis.end and end > self.axis.begin

    def add(self, text):
        self.parts.append(text)

    def text(self, x, y, words, kind="", is_over=False):
        (self.over if is_over else self.parts).append(f'<text x="{x}" y="{y}"{f" class={chr(34)}{kind}{chr(34)}" if kind else ""}>{escaped(words)}</text>')

    def bar(self, kind, begin, end, y, height, says=""):
        """A bar from a frame to another one, that can be seen, with what it says."""
        if not self.is_seen(begin, end):
            return
        left, right = self.across(begin), max(self.across(end), self.across(begin) + 8)
        shape = f'<rect class="{kind}" x="{tenths(left)}" y="{y}" width="{tenths(right - left)}" height="{height}"'
        self.add(f"{shape}><title>{escaped(says)}</title></rect>" if says else f"{shape}/>")
        self.kinds.add(kind)

    def upright(self, kind, frame, y, height):
        """A line down at a frame, below all else."""
        self.under.append(f'<path class="{kind}" d="M{tenths(self.across(frame))} {y}v{height}"/>')

    def shape(self, kind, path, says=""):
        self.add(f'<path class="{kind}" d="{path}"><title>{escaped(says)}</title></path>' if says else f'<path class="{kind}" d="{path}"/>')
        self.kinds.add(kind)

    def mark(self, kind, frame, y, says):
        """A mark at a frame: a cross, a point or a diamond."""
        x = tenths(self.across(frame))
        paths = {"dropped": f"M{x} {y}m-4 -4l8 8m0 -8l-8 8", "poked": f"M{x} {y}m0 -4l4 8h-8z", "mixer": f"M{x} {y}m0 -5l4 5l-4 5l-4 -5z"}
        if self.is_seen(frame, frame + 1):
            self.shape(kind, paths[kind], says)

    def zero(self, y, end):
        self.add(f'<path class="zero" d="M{LEFT} {y}H{tenths(self.across(end))}"/>')

    def lane(self, y, height, end):
        self.under.append(f'<rect class="lane" x="{LEFT}" y="{y}" width="{tenths(self.across(end) - 10 * LEFT)}" height="{height}"/>')

    def gaps(self, top, bottom):
        """The stretches that are left out."""
        for before, behind in zip(self.axis.places, self.axis.places[1:]):
            left, right = before[3], behind[2]
            self.add(f'<rect class="gap" x="{tenths(left + 40)}" y="{top}" width="{tenths(right - left - 80)}" height="{bottom - top}"/>')
            for x in (left + 40, right - 40):
                self.add(f'<path class="broken" d="M{tenths(x)} {top}V{bottom}"/>')

    def whole(self, title, says):
        """The text of the whole drawing."""
        head = f'<svg xmlns="http://www.w3.org/2000/svg" viewBox="0 0 {WIDTH} {self.height}" width="{WIDTH}" height="{self.height}" role="img">'
        ground = f'<rect width="{WIDTH}" height="{self.height}" fill="#ffffff"/>'
        return "\n".join([head, f"<title>{escaped(title)}</title>", f"<desc>{escaped(says)}</desc>", f"<style>{STYLE}</style>", ground, *self.under, *self.parts, *self.over, "</svg>", ""])


def waveform(drawing, kind, columns, bounds, middle, half, peak):
    """Draws the least and greatest samples of columns around a height, where a peak reaches half of it."""
    at = 0
    while at < len(bounds):
        end = at
        while end < len(bounds) and bounds[end] != (0, 0):
            end += 1
        if end > at:
            drawing.shape(kind, outline(drawing, columns[at:end + 1], bounds[at:end], middle, half, peak))
        at = end + 1


def outline(drawing, columns, bounds, middle, half, peak):
    """The path around columns: along their greatest samples, and back along their least."""
    def height(sample):
        up = (10 * half * abs(sample) + peak // 2) // peak
        return 10 * middle - (up if sample > 0 else -up)

    edges = [drawing.across(frame) for frame in columns]
    upper = [height(most) if most else height(0) for _, most in bounds]
    lower = [height(least) if least else height(0) for least, _ in bounds]
    lower = [max(low, up + 6) if low == up else low for low, up in zip(lower, upper)]
    path, x, y = [f"M{tenths(edges[0])} {tenths(upper[0])}"], edges[0], upper[0]
    path.append(steps(zip(edges[1:], upper), x, y))
    path.append(steps(zip(edges[-2::-1], lower[::-1]), edges[-1], upper[-1]))
    return "".join(path) + "z"


def steps(corners, x, y):
    """A path by steps: at each corner first to its height, and then across to it. Steps of one height are one."""
    path, waits = [], 0
    for to, level in corners:
        if level != y:
            path += [f"h{tenths(waits)}"] * bool(waits) + [f"v{tenths(level - y)}"]
            waits, y = 0, level
        waits, x = waits + to - x, to
    return "".join([*path, f"h{tenths(waits)}" if waits else ""])
