"""The rows of a picture and of a page with their lanes, and which stretches of an axis are left out."""
from commands import told
from shown import Recording
from sounds import full_scale
from sums import merged

# the names of the lanes of a layout
SIDES = ("left", "right", "centre", "low effects", "back left", "back right", "side left", "side right")
NAMES = {1: (), 2: SIDES[:2], 4: (*SIDES[:2], *SIDES[4:6]), 6: SIDES[:6], 8: SIDES}

# what stands between rows
GAP = 20
# what is left out has this part of the frames at least, and at least this many frames; what is kept around something is this part of them
LEFT_OUT, FEWEST, AROUND = 8, 64, 50


class Lanes:
    """The sounds of a row, and where each stands; to which frame the lanes go; and, once they are looked up, the samples of each column
    of each stretch, and how far a lane reaches."""

    def __init__(self, kind, sources, channels, end):
        self.kind, self.sources, self.channels, self.end, self.bounds, self.peak = kind, sources, channels, end, [], 1

    def names(self):
        """The names of the lanes."""
        return NAMES[self.channels]


def bounds_of(lanes, axis):
    """The least and the greatest sample of each channel in each column, with 0 among them."""
    pairs = [list(zip(columns, columns[1:])) for columns in axis.columns()]
    return [[column_of(lanes, begin, min(end, lanes.end)) for begin, end in told(it, "sound is read", axis.end)] for it in pairs]


def column_of(lanes, begin, end):
    found = [(0, 0)] * lanes.channels
    for sound, along in lanes.sources if begin < end else ():
        frames = along.frames(begin, end) if along else (begin, end)
        if frames:
            found = [(min(low, least), max(high, most)) for (low, high), (least, most) in zip(found, sound.extremes(*frames))]
    return found


def peak_of(every):
    """The least power of two that no sample passes."""
    most = max((max(-low, high) for lanes in every for bounds in lanes.bounds for column in bounds for low, high in column), default=1)
    return 1 << max(most - 1, 0).bit_length()


def may_limit(axis, every, along):
    """The rows of frames of the mix in whose columns a sum of slots can be limited, by what each slot reaches there."""
    full, found = full_scale(every[0].sources[0][0].device) if every else 1, []
    for at, columns in enumerate(axis.columns()):
        for k, (begin, end) in enumerate(zip(columns, columns[1:])):
            reached = [[sum(extremes) for extremes in zip(*(lanes.bounds[at][k][channel] for lanes in every))] for channel in range(every[0].channels)] if every else []
            frames = along.frames(begin, min(end, every[0].end)) if any(low < -full or high >= full for low, high in reached) else None
            found += [frames] if frames else []
    return merged(found)


def events_of(shown):
    """The frames at which something happens besides sound."""
    found = {0, shown.total, shown.device.ring, shown.total + shown.device.ring, *(shown.played.handed(at) for at in shown.played.mixers())}
    for client in shown.clients:
        for before, moment in zip(client.moments, client.moments[1:]):
            same = (moment.setup, moment.started, moment.missed, moment.waiting) == (before.setup, before.started, before.missed, before.waiting)
            found.update(() if same else (before.at, moment.at))
    return found


def breaks_of(axis, every, events):
    """The stretches of an axis that are kept: all but long ones where nothing sounds and nothing happens."""
    begin, end = axis.begin, axis.end
    around = max((end - begin) // AROUND, 8)
    columns = next(axis.columns())
    busy = [(low, high) for at, (low, high) in enumerate(zip(columns, columns[1:])) if any(any(map(any, lanes.bounds[0][at])) for lanes in every)]
    busy += [(at, at) for at in events if begin <= at <= end]
    kept = []
    for low, high in sorted((max(low - around, begin), min(high + around, end)) for low, high in busy):
        if kept and low - kept[-1][1] <= max((end - begin) // LEFT_OUT, FEWEST):
            low, high = kept[-1][0], max(high, kept.pop()[1])
        kept.append((low, high))
    if not kept or sum(high - low for low, high in kept) == 0:
        return [(begin, end)]
    return [(begin if at == 0 and low - begin <= (end - begin) // LEFT_OUT else low, high) for at, (low, high) in enumerate(kept)]


class Row:
    """A row with lanes: what is written beside it, and where it stands once it is drawn."""

    def __init__(self, name, words, lanes):
        self.name, self.words, self.lanes, self.top, self.bottom, self.limited = name, words, lanes, 0, 0, []


def settings_of(client):
    """The settings at which a channel did something, or else the last that it had."""
    active = [it.settings for it in client.moments if not it.setup] or [it.settings for it in client.moments[-1:]]
    return [f"{client.opening.way} {it.format} {it.channels} {it.rate}" for it in dict.fromkeys(active)]


def rows_of(shown):
    """The rows of a picture: of each slot, the mix, the device, and those that record, with their clients and what they lost."""
    slots = {}
    for slot in shown.slots():
        clients = shown.of_slot(slot)
        words = [*shown.label(slot), *dict.fromkeys(text for it in clients for text in settings_of(it))]
        slots[slot] = Row(f"slot {slot}", words[:3], Lanes("slot", [(shown.given[slot], shown.along)], shown.mix.device.channels, shown.total))
    device = shown.mix.device
    mix = Row("the mix", [f"{device.channels} {device.rate}"] if shown.own else [], Lanes("mix", [(shown.mix, shown.along)], device.channels, shown.total))
    end, it = shown.total + shown.device.ring, shown.device
    out = Row("the device", [f"{it.format} {it.channels} {it.rate}"], Lanes("device", [(shown.out, None)], it.channels, end))
    return slots, mix, out, [recording_row(shown, place, client) for place, client in enumerate(shown.clients) if client.opening.way == "rec"]


def recording_row(shown, place, client):
    kept, settings = Recording(shown, client), settings_of(client)
    runs = list(kept.runs())
    channels = runs[-1][0].device.channels if runs else client.moments[-1].settings.channels
    lanes = Lanes("recording", [it for it in runs if it[0].device.channels == channels], channels, shown.total)
    return place, client, Row(f"recording {client.opening.slot}", settings[:2], lanes), kept.lost
