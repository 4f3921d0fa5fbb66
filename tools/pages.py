"""The page of a script: what tools/page shows of it, as the program says it, and the one file that holds that."""
import array
import base64
import collections
import hashlib
import html
import json
import pathlib
import re
import shlex

from blocks import little, measured
from clicks import Clicks, Known, told_click
from commands import version
from packed import Packer, Room, Track, packed
from rows import rows_of
from sheet import picture
from shown import drops_of, joined_states, mixers_of, pokes_of, shortages_of, starts_of, states_of
from sums import limits_of, merged
from whys import Whys

FOLDER = pathlib.Path(__file__).resolve().parent
PARTS = ("data", "tracks", "axis", "colours", "draw", "minimap", "sound", "script", "reasons", "lanes", "keys", "app", "controls", "main")
# how many clicks are in a page, and how many frames have their reasons
CLICKS, REASONED = 20, 1 << 13
# how many bars of limits a row has at most
LIMITS = 10000
# what is kept for what is said of the sounds
MARGIN = 100_000
MEGABYTE = 1_000_000

# the files of a page as they were named
Names = collections.namedtuple("Names", "script config")
# a sound of a row: its track, and where its frames stand on the axis: all so much before, or by rows
Source = collections.namedtuple("Source", "track offset along")


def title_of(names):
    return "standard input" if names.script == "-" else pathlib.Path(names.script).name


def numbers(room, values):
    """Holds whole numbers, each as its difference to the one before."""
    found = array.array("i", values)
    return room.hold(little(array.array("i", (b - a for a, b in zip([0, *found], found)))))


def script_of(room, played, text):
    """The lines of a script, its events with the frame at which each comes, and their replies."""
    lines = [it[:-1] if it.endswith("\r") else it for it in text.split("\n")]
    handed = [played.handed(at) for at in range(len(played.script.events))]
    texts = [room.hold("\n".join(it).encode("utf-8", "replace")) for it in (lines, played.replies[:len(handed)])]
    return {"lines": texts[0], "replies": texts[1], "numbers": numbers(room, played.script.numbers), "frames": numbers(room, handed),
            "turns": numbers(room, played.turns), "ends": numbers(room, played.ends)}


def bars_of(shown, clients, name):
    """What clients are answered: shortages, states and marks, each with what it says."""
    short = [[*it, f"{name} is short from frame {it[0]} to {it[1] - 1}"] for client in clients for it in shortages_of(shown, client)]
    states = [[word, begin, end, f"{name} {'records' if client.opening.way == 'rec' else word} from frame {begin} to {end - 1}"]
              for client in clients for word, begin, end in joined_states(states_of(shown, client))]
    drops = [["dropped", frame, f"{name} drops {count} bytes at frame {frame}"] for client in clients for frame, count in drops_of(shown, client)]
    pokes = [["poked", frame, f"{name} is poked {count} bytes at frame {frame}"] for client in clients for frame, count in pokes_of(shown, client)]
    return {"short": short, "states": states, "marks": drops + pokes}


def fills_of(clients):
    """How much waits in the rings of clients, moment by moment; and the most of it, with the size of that ring."""
    moments = [it for client in clients for it in client.moments]
    if not moments:
        return None
    fullest = max(moments, key=lambda it: it.waiting) if any(it.waiting for it in moments) else moments[-1]
    return {"most": fullest.waiting, "size": fullest.size, "levels": [[[it.at, it.waiting] for it in client.moments] for client in clients]}


def mixers(shown, slot):
    return [["mixer", frame, words] for frame, words in mixers_of(shown, slot)]


def fewer(rows, most=LIMITS):
    """Rows of frames, those near each other joined where they are too many. Answers how near."""
    gap = 0
    while len(rows) > most:
        gap, found = 2 * gap + 16, []
        for begin, end in rows:
            if found and begin - found[-1][1] <= gap:
                begin = found.pop()[0]
            found.append((begin, end))
        rows = found
    return rows, gap


class Page:
    """What a page shows of a script."""

    def __init__(self, shown, room, window, limits):
        self.shown, self.played, self.room, self.window, self.limits = shown, shown.played, room, window, limits
        self.ring, self.tracks = shown.device.ring, []
        self.out = self.track("device", shown.out, shown.total + self.ring if shown.out.frames > shown.total else shown.total)
        self.heard = {slot: self.track(f"slot {slot}", it, self.out.frames) for slot, it in shown.heard.items()}
        clicks = Clicks(self.played, CLICKS, Known(shown.solos, shown.given, shown.stages, None if shown.own else limits))
        self.whys = Whys(shown, self.reasoned(clicks.places), self.heard)
        clicks.told = self.whys.around
        self.clicks = clicks.explained()
        self.sums, self.alongs = self.whys.tracks(), {}
        self.rows = self.rows_of()

    def track(self, name, sound, frames):
        self.tracks.append(Track(name, sound, min(frames, sound.frames)))
        return self.tracks[-1]

    def reasoned(self, clicks):
        """The frames that have their reasons: those of the window, as many as there may be, and those of clicks."""
        begin, end = self.window[0], min(self.window[1], self.shown.total)
        return merged(sorted([(begin, min(end, begin + REASONED)), *((it.at, it.at + 1) for it in clicks)]))

    def rows_of(self):
        """The rows of the page, as those of a picture."""
        slots, mix, device, recordings = rows_of(self.shown)
        found = [self.slot_row(slot, row) for slot, row in slots.items()]
        self.places = {at: which for which, slot in enumerate(slots) for at, it in enumerate(self.shown.clients)
                       if it.opening.way != "rec" and it.opening.slot == slot}
        found += [self.mix_row(mix), self.device_row(device)]
        for place, client, row, lost in recordings:
            self.places[place] = len(found)
            found.append(self.recording_row(client, row, lost))
        return found

    def row(self, row, sources, **more):
        """What all rows have."""
        self.alongs.update({id(it.track): it.along for it in sources})
        told = [{"track": self.tracks.index(it.track), "offset": it.offset, "along": self.along(it)} for it in sources]
        lanes = row.lanes
        return {"kind": lanes.kind, "name": row.name, "words": row.words, "channels": lanes.channels, "names": lanes.names(), "sources": told,
                "end": lanes.end, **more}

    def along(self, source):
        return self.room.hold(little(array.array("i", (it for row in source.along.rows for it in row)))) if source.along else None

    def mixed_source(self, name, sound, track):
        """The frames of a slot or of the mix, which stand where they are mixed."""
        if not self.shown.own:
            return Source(track, self.ring, None)
        return Source(self.track(f"{name}, as it is mixed", sound, self.shown.mixed_frames()), 0, self.shown.along)

    def limited(self, rows, whose):
        """Bars of limits: where each begins and ends, and which frames of the mix these are."""
        rows, gap = fewer(rows)
        numbers = (it for begin, end in rows for it in (self.shown.along.place(begin), self.shown.along.place(end - 1) + 1, begin, end - 1))
        return {"says": f"{whose} in {'some of ' * (gap > 0)}frames", "rows": self.room.hold(little(array.array("i", numbers)))}

    def slot_row(self, slot, row):
        shown, clients = self.shown, self.shown.of_slot(slot)
        bars = bars_of(shown, clients, row.name)
        bars["marks"] += mixers(shown, slot)
        limited = self.limited(shown.clipped[slot], f"{row.name} is limited by its own stages")
        rings = fills_of([it for it in clients if it.opening.way == "play"])
        source = self.mixed_source(row.name, shown.given[slot], self.heard[slot])
        return self.row(row, [source], limited=limited, fills=rings, **bars)

    def mix_row(self, row):
        limited = self.limited(self.limits, "limited")
        return self.row(row, [self.mixed_source("the mix", self.shown.mix, self.out)], limited=limited, marks=mixers(self.shown, None))

    def device_row(self, row):
        return self.row(row, [Source(self.out, 0, None)])

    def recording_row(self, client, row, lost):
        sources = [Source(self.track(row.name, sound, sound.frames), 0, along) for sound, along in row.lanes.sources]
        bars = bars_of(self.shown, [client], row.name)
        bars["short"] += [[*it, f"{row.name} loses frames of those from {it[0]} to {it[1] - 1}"] for it in lost]
        return self.row(row, sources, fills=fills_of([client]), **bars)

    def played_tracks(self):
        """The sounds that are played, the device's first."""
        others = [self.tracks[source["track"]] for row in self.rows for source in row["sources"]]
        return list({id(it): it for it in (self.out, *self.heard.values(), *others)}.values())

    def groups(self):
        """Where groups start: the frame, what it says, and the rows that start."""
        for frame, number, members in starts_of(self.shown):
            rows = sorted({self.places[at] for at in members if at in self.places})
            if rows:
                says = f"group {number} starts at frame {frame}: {', '.join(self.rows[it]['name'] for it in rows)}"
                yield [frame, f"group {number}", says, rows]

    def told(self, names, text):
        """All but the sounds."""
        device, played = self.shown.device, self.played
        return {
            "title": title_of(names), "version": version(), "script": script_of(self.room, played, text), "ring": self.ring, "total": self.shown.total,
            "frames": self.out.frames, "device": {"format": device.format, "channels": device.channels, "rate": device.rate},
            "files": ["SCRIPT" if it == "-" else shlex.quote(it) for it in names if it], "rows": self.rows, "groups": list(self.groups()),
            "clicks": [{"at": it.at, "says": told_click(played, it)} for it in self.clicks],
            "whys": self.whys.told([*self.tracks, *self.sums])}


def script_tag(name, text):
    """A block of data, which no browser runs."""
    return f'<script type="text/plain" id="{name}">{text}</script>'


def code():
    """The code of the page: its parts as one."""
    parts = [(FOLDER / f"page-{it}.js").read_text(encoding="utf-8") for it in PARTS]
    return '"use strict";\n(() => {\n' + "\n".join(parts) + "\n})();\n"


def checked(text):
    """The checksum by which a policy lets a text in."""
    return "'sha256-" + base64.b64encode(hashlib.sha256(text.encode()).digest()).decode() + "'"


def file_of(title, told, blobs, drawn=""):
    """The text of the file: the page with its style, its code and its data."""
    style, run = (FOLDER / "page.css").read_text(encoding="utf-8"), code()
    policy = f"default-src 'none'; script-src {checked(run)}; style-src {checked(style)}; img-src data:; base-uri 'none'; form-action 'none'"
    data = "\n".join([script_tag("told", told), *(script_tag(f"blob-{name}", text) for name, text in blobs.items())])
    parts = {"POLICY": policy, "TITLE": html.escape(title), "STYLE": style, "CODE": run, "DATA": data,
             "PICTURE": "data:image/svg+xml;base64," + base64.b64encode(drawn.encode("utf-8", "replace")).decode()}
    return re.sub(r"@(POLICY|TITLE|STYLE|CODE|DATA|PICTURE)@", lambda it: parts[it[1]], (FOLDER / "page.html").read_text(encoding="utf-8"))


def page(shown, text, names, window, megabytes):
    """The text of a page, which has `megabytes` megabytes at most."""
    for sound in (shown.out, *shown.heard.values()):
        measured(sound)
    limits = limits_of(shown.given, [(0, shown.mixed_frames())]).rows
    drawn = picture(shown, title_of(names), limits)
    room = Room(megabytes * MEGABYTE - len(file_of("", "", {}, drawn)) - MARGIN)
    it = Page(shown, room, window, limits)
    told = it.told(names, text)
    room.left -= len(told_text(told))
    packer = Packer(it, room)
    packer.put_all()
    told["notes"], told["whole"] = packer.notes(told["files"], megabytes), packer.whole
    told["tracks"] = [track.told() for track in (*it.tracks, *it.sums)]
    return file_of(told["title"], told_text(told), room.blobs, drawn)


def told_text(told):
    return packed(json.dumps(told, separators=(",", ":")).encode())
