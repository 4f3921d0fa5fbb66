"""The picture of a script as SVG: its rows, what is written beside them, and what the colours mean."""
from drawing import COLUMN, LEFT, WIDTH, Axis, Drawing, steps, tenths, waveform
from rows import GAP, NAMES, bounds_of, breaks_of, events_of, may_limit, peak_of, rows_of
from scripts import shortened
from shown import drops_of, joined_states, mixers_of, pokes_of, shortages_of, starts_of, states_of
from sums import limits_of

LEGEND = (("slot", "what a slot gives"), ("mix", "the mix"), ("device", "what the device gets"), ("recording", "what a recording kept"),
          ("left", "still in the device's ring"), ("short", "short, or lost"), ("limited", "limited"), ("waits", "waits"), ("plays", "plays, records"),
          ("drains", "drains"), ("fill", "what waits in a ring"), ("dropped", "dropped"), ("poked", "poked"), ("mixer", "the mixer is set"),
          ("group", "a group starts"))
# the heights of what a row has: of its lanes together, of one at least, of the bar of what a channel does, and of what waits
LANE, LEAST, STATE, FILL = 60, 16, 6, 16
# how wide a letter of a small text is, and how near lines of interrupts and boxes of them stand at most, in tenths
LETTER, NEAR, BOX = 62, 40, 30
# from how many moments on those near each other are drawn by columns
CLOSE = 300
# how many letters stand beside a row
LETTERS = 24


def draw_lanes(drawing, lanes, top):
    """A lane for each channel. Answers the height below them."""
    height, names = max(LEAST, LANE // lanes.channels), NAMES[lanes.channels]
    for channel in range(lanes.channels):
        middle = top + channel * height + height // 2
        drawing.lane(middle - height // 2 + 1, height - 2, lanes.end)
        drawing.zero(middle, lanes.end)
        for columns, bounds in zip(drawing.axis.columns(), lanes.bounds):
            waveform(drawing, lanes.kind, columns, [it[channel] for it in bounds], middle, height // 2 - 2, lanes.peak)
    for channel, name in enumerate(names):
        drawing.text(LEFT - 6, top + channel * height + height // 2 + 4, name, "small right")
    return top + lanes.channels * height


def draw_name(drawing, top, name, words):
    drawing.text(12, top + 13, name, "name")
    for at, text in enumerate(words):
        drawing.text(12, top + 27 + 13 * at, shortened(text, LETTERS), "small")


def draw_interrupts(drawing, shown, top, bottom):
    """A box for each interrupt, its number where there is room, and a line down at its end; or how many there are."""
    spans = [(number, *span) for number, span in enumerate(shown.played.spans(), 1) if drawing.is_seen(*span)]
    drawing.text(12, top + 12, "interrupts", "name")
    if len(spans) * BOX > 10 * (WIDTH - LEFT):
        drawing.bar("odd", spans[0][1], spans[-1][2], top, 16)
        drawing.text(LEFT + 6, top + 12, f"{len(spans)} interrupts, number {spans[0][0]} to {spans[-1][0]}", "small")
        return
    drawn = 0
    for number, begin, end in spans:
        drawing.bar("odd" if number % 2 else "even", begin, end, top, 16, f"interrupt {number} hands over frames {begin} to {end - 1}")
        left, right = drawing.axis.widest(begin, end)
        if right - left >= 80 * len(str(number)):
            drawing.text((left + right) // 20, top + 12, number, "small middle")
        if drawing.across(end) - drawn >= NEAR:
            drawing.upright("interrupt", end, top + 16, bottom - top - 16)
            drawn = drawing.across(end)


def draw_numbers(drawing, name, unit, y, told, tick):
    """A row of round numbers, those that don't touch each other."""
    drawing.text(LEFT - 24, y, name, "small right")
    behind = 10 * LEFT - 140
    for number, frame in drawing.axis.ticks(unit):
        x, words = drawing.across(int(frame)), told(number)
        half = LETTER * len(words) // 2
        if x - half >= behind and x + half <= 10 * WIDTH - 20:
            drawing.text(x // 10, y, words, "small middle")
            behind = x + half + 60
            drawing.add(f'<path class="tick" d="M{tenths(x)} {tick}v4"/>')


def told_seconds(number):
    """An exact number of seconds as it is written."""
    return f"{float(number):.9f}".rstrip("0").rstrip(".") + " s"


def draw_ruler(drawing, shown, y):
    draw_numbers(drawing, "seconds", shown.device.rate, y, told_seconds, y + 3)
    draw_numbers(drawing, "frames", 1, y + 18, str, y + 21)


def draw_states(drawing, shown, client, name, top):
    """What a channel does."""
    for word, begin, end in joined_states(states_of(shown, client)):
        does = "records" if client.opening.way == "rec" else word
        drawing.bar(word, begin, end, top, STATE, f"{name} {does} from frame {begin} to {end - 1}")


def draw_fill(drawing, name, moments, most, top):
    """How much waits in a ring from moment to moment, where most is as high as the row: at an interrupt, what waits as it comes."""
    first = max(sum(it.at < drawing.axis.begin for it in moments) - 1, 0)
    seen = moments[first:sum(it.at <= drawing.axis.end for it in moments) + 1]
    if not any(it.waiting for it in seen):
        return
    floor, corners = 10 * (top + FILL), [(drawing.across(seen[0].at), 10 * (top + FILL))]
    for x, waiting in levels_of(drawing, seen):
        y = floor - 10 * FILL * waiting // most
        corners += [(x, corners[-1][1])] if x != corners[-1][0] else []
        corners += [(x, y)] if y != corners[-1][1] else []
    path = steps([*corners, (corners[-1][0], floor)], *corners[0])
    drawing.shape("fill", f"M{tenths(corners[0][0])} {tenths(corners[0][1])}{path}z", f"what waits in the ring of {name}")


def levels_of(drawing, moments):
    """Where how much waits: at each moment, or where these are too near each other to be told apart, the most in each column."""
    places = [(drawing.across(it.at), it.waiting) for it in moments]
    if len(places) < CLOSE or places[-1][0] - places[0][0] > len(places) * COLUMN:
        return places
    columns = {}
    for x, waiting in places:
        columns[x // COLUMN] = max(columns.get(x // COLUMN, 0), waiting)
    return [(column * COLUMN, waiting) for column, waiting in columns.items()] + places[-1:]


def draw_fills(drawing, name, clients, top, end):
    """How much waits in the rings of openings that share a row, and the size of the ring where most waits. Answers the height below it."""
    moments = [it for client in clients for it in client.moments]
    fullest = max(moments, key=lambda it: it.waiting) if any(it.waiting for it in moments) else moments[-1]
    drawing.zero(top + FILL, end)
    drawing.text(LEFT - 6, top + FILL - 2, f"{fullest.waiting} of {fullest.size} bytes", "small right")
    for client in clients if fullest.waiting else ():
        draw_fill(drawing, name, client.moments, fullest.waiting, top)
    return top + FILL


def draw_client(drawing, shown, client, name, top, middle):
    """What a client is answered, over and below its lanes, which are between two heights."""
    for begin, end in shortages_of(shown, client):
        drawing.bar("short", begin, end, top, middle - top, f"{name} is short from frame {begin} to {end - 1}")
    draw_states(drawing, shown, client, name, middle + 3)
    for frame, count in drops_of(shown, client):
        drawing.mark("dropped", frame, middle + 7, f"{name} drops {count} bytes at frame {frame}")
    for frame, count in pokes_of(shown, client):
        drawing.mark("poked", frame, middle + 7, f"{name} is poked {count} bytes at frame {frame}")


def draw_mixers(drawing, shown, slot, top):
    """Where the mixer device is set, as far as that can be told apart."""
    last = None
    for frame, words in mixers_of(shown, slot):
        if last is None or drawing.across(frame) - last >= NEAR:
            drawing.mark("mixer", frame, top, words)
            last = drawing.across(frame)


def draw_limits(drawing, shown, rows, top, whose):
    """Bars where a sum or a client's own stages are at their limit, by frames of the mix."""
    for begin, end in rows:
        drawing.bar("limited", shown.along.place(begin), shown.along.place(end - 1) + 1, top - 5, 4, f"{whose} in frames {begin} to {end - 1} of the mix")


def draw_slot(drawing, shown, slot, row):
    """The row of a slot."""
    clients = shown.of_slot(slot)
    middle = draw_lanes(drawing, row.lanes, row.top)
    for client in clients:
        draw_client(drawing, shown, client, row.name, row.top, middle)
    draw_limits(drawing, shown, shown.clipped[slot], row.top, f"{row.name} is limited by its own stages")
    draw_mixers(drawing, shown, slot, row.top - 2)
    rings = [it for it in clients if it.opening.way == "play"]
    bottom = middle + STATE + 8
    row.bottom = draw_fills(drawing, row.name, rings, bottom, shown.total) if rings else bottom


def draw_mix(drawing, shown, row):
    """The row of the mix, with the places where a sum was limited."""
    row.bottom = draw_lanes(drawing, row.lanes, row.top)
    draw_limits(drawing, shown, row.limited, row.top, "limited")
    draw_mixers(drawing, shown, None, row.top - 2)


def draw_device(drawing, shown, row):
    """The row of the device: what it gets, and after that what its ring holds at the end."""
    end, height = shown.total + shown.device.ring, row.lanes.channels * max(LEAST, LANE // row.lanes.channels)
    drawing.bar("left", shown.total, end, row.top, height, f"frames {shown.total} to {end - 1} are still in the ring")
    bottom = row.bottom = draw_lanes(drawing, row.lanes, row.top)
    if drawing.axis.begin < shown.device.ring:
        drawing.shape("ahead", f"M{tenths(drawing.across(0))} {bottom + 2}v6H{tenths(drawing.across(shown.device.ring))}v-6")
        drawing.text(LEFT, bottom + 19, f"the silence of its ring, {shown.device.ring} frames: what is mixed is handed over so much later", "small", True)
        row.bottom += 19


def draw_recording(drawing, shown, client, row, lost):
    """The row of an opening that records."""
    middle = draw_lanes(drawing, row.lanes, row.top)
    for begin, end in lost:
        drawing.bar("short", begin, end, row.top, middle - row.top, f"{row.name} loses frames of those from {begin} to {end - 1}")
    draw_client(drawing, shown, client, row.name, row.top, middle)
    row.bottom = draw_fills(drawing, row.name, [client], middle + STATE + 8, shown.total)


def draw_groups(drawing, shown, rows):
    """A line through the rows that start together."""
    for frame, number, members in starts_of(shown):
        mine = [rows[at] for at in members if at in rows]
        if mine and drawing.is_seen(frame, frame + 1):
            x, top = drawing.across(frame) // 10, min(it.top for it in mine)
            says = f"group {number} starts at frame {frame}: {', '.join(it.name for it in mine)}"
            drawing.shape("group", f"M{x} {top - 2}V{max(it.bottom for it in mine)}", says)
            drawing.text(x + 4, top - 3, f"group {number}", "small")


def draw_legend(drawing, top):
    """What the colours and marks mean, of those that occur. Answers the height below it."""
    x, marks = 12, {"dropped": "M{x} {y}m-4 -4l8 8m0 -8l-8 8", "poked": "M{x} {y}m0 -4l4 8h-8z", "mixer": "M{x} {y}m0 -5l4 5l-4 5l-4 -5z", "group": "M{x} {y}m0 -6v12"}
    for kind, words in [it for it in LEGEND if it[0] in drawing.kinds]:
        wide = 30 + LETTER * len(words) // 10
        x, top = (12, top + 18) if x + wide > WIDTH else (x, top)
        path = f'<path class="{kind}" d="{marks[kind].format(x=x + 6, y=top + 5)}"/>' if kind in marks else ""
        drawing.add(path or f'<rect class="{kind}" x="{x}" y="{top}" width="12" height="10"/>')
        drawing.text(x + 17, top + 9, words, "small")
        x += wide
    return top + 22


def draw_rows(drawing, shown, rows, top):
    """All rows. Answers the height below them, and which row each opening has."""
    slots, mix, device, recordings = rows
    places = {}
    for slot, row in slots.items():
        row.top = top
        draw_slot(drawing, shown, slot, row)
        places.update({at: row for at, it in enumerate(shown.clients) if it.opening.way != "rec" and it.opening.slot == slot})
        top = row.bottom + GAP
    for row, draw in ((mix, draw_mix), (device, draw_device)):
        row.top = top + 4
        draw(drawing, shown, row)
        top = row.bottom + GAP
    for place, client, row, lost in recordings:
        row.top = top
        draw_recording(drawing, shown, client, row, lost)
        places[place], top = row, row.bottom + GAP
    for row in (*slots.values(), mix, device, *(row for _, _, row, _ in recordings)):
        draw_name(drawing, row.top, row.name, row.words)
    return top, places


def measure(axis, rows):
    """Looks up the samples of all lanes, and how far they reach: of slots, mix and device together, and of each recording."""
    slots, mix, device, recordings = rows
    together, apart = [*(it.lanes for it in slots.values()), mix.lanes, device.lanes], [row.lanes for _, _, row, _ in recordings]
    for lanes in (*together, *apart):
        lanes.bounds = bounds_of(lanes, axis)
    peak = peak_of(together)
    for lanes in together:
        lanes.peak = peak
    for _, _, row, _ in recordings:
        row.lanes.peak = peak_of([row.lanes])
        row.words = [*[it for it in row.words if not it.startswith("a lane")], f"a lane reaches {row.lanes.peak}"]
    return [*together, *apart], peak


def picture(shown, title, limits=None):
    """The picture of the frames that are shown as SVG. Where it is known where the mix is limited, it is by that."""
    rows, axis = rows_of(shown), Axis([(shown.begin, shown.end)])
    lanes, peak = measure(axis, rows)
    kept = breaks_of(axis, lanes, events_of(shown))
    if kept != [(shown.begin, shown.end)]:
        axis = Axis(kept)
        lanes, peak = measure(axis, rows)
    rows[1].limited = limits_of(shown.given, may_limit(axis, [it.lanes for it in rows[0].values()], shown.along)).rows if limits is None else limits
    drawing = Drawing(axis)
    drawing.text(12, 24, title, "title")
    ring = f"the device's ring has {shown.device.ring} frames"
    drawing.text(12, 41, f"{ring}; a lane of the slots, the mix and the device reaches {peak}", "small")
    bottom, places = draw_rows(drawing, shown, rows, 122)
    draw_ruler(drawing, shown, 60)
    draw_interrupts(drawing, shown, 86, bottom - GAP // 2)
    draw_groups(drawing, shown, places)
    drawing.gaps(84, bottom - GAP // 2)
    drawing.height = draw_legend(drawing, bottom)
    return drawing.whole(title, "a row for each slot, the mix, the device, and a row for each recording, by frames of the device")
