"""What a picture shows of a script: what is mixed of each slot, and what each client is answered, as the program says it."""
import bisect
import collections
import pathlib

from clients import Solo, first_missing
from commands import fail
from facts import clipped, clipped_rows
from origins import files_of
from scripts import Played, Room, Script, device_of, on_the_mix, parts_of, rates_of
from sounds import Sound, size_of
from sums import solos_of

# an opening with what it is answered, the clients of its slot, and its place among these
Client = collections.namedtuple("Client", "opening moments solo which")
# how many interrupts that find a client short are looked at frame by frame; of more it is only said from which to which they are
CLOSELY = 100


class Along:
    """Which frames of a sound stand where on the axis of the device: rows of the first and the one after the last on the axis, and the
    same of the sound."""

    def __init__(self, rows):
        self.rows = [row for row in rows if row[1] > row[0]]
        self.begins, self.firsts = [row[0] for row in self.rows], [row[2] for row in self.rows]

    def frames(self, begin, end):
        """The frames of the sound at some frames of the axis, from the first to the one after the last, or None."""
        first, last = max(bisect.bisect_right(self.begins, begin) - 1, 0), bisect.bisect_left(self.begins, end)
        rows = [row for row in self.rows[first:last] if row[1] > begin and row[3] > row[2]] if last - first < 4 else self.rows[first:last]
        if not rows or rows[-1][3] <= rows[0][2]:
            return None
        low, high = self.inside(rows[0], begin), self.inside(rows[-1], end, 1)
        return low, max(high, low + 1)

    def inside(self, row, at, up=0):
        """The frame of the sound that stands at a frame of the axis, or the one after it."""
        begin, end, first, last = row
        at = min(max(at, begin), end)
        scaled = (at - begin) * (last - first)
        return first - (-scaled // (end - begin) if up else -(scaled // (end - begin)))

    def place(self, frame):
        """Where a frame of the sound stands on the axis."""
        for begin, end, first, last in self.rows[max(bisect.bisect_right(self.firsts, frame) - 1, 0):]:
            if first <= frame < last:
                return begin + (frame - first) * (end - begin) // (last - first)
        return self.rows[-1][1] if self.rows else 0


class Shown:
    """A script with all that the program says of it."""

    def __init__(self, program, text, config, bounds=(None, None)):
        self.played = Played(Room(program, config), Script(text))
        self.device, self.total, self.out = self.played.device, self.played.total, self.played.out
        self.own, self.config = bool(rates_of(config)), config
        self.begin, self.end = self.window(*bounds)
        self.solos, self.given, self.heard, self.clients = solos_of(self.played), {}, {}, []
        for slot, solo in self.solos.items():
            moments, sound = solo.moments_and_sound(self.around())
            self.heard[slot], self.given[slot] = sound, solo.given() if self.own else sound.from_frame(self.device.ring)
            self.clients += [Client(*it, solo, which) for which, it in enumerate(zip(solo.openings, moments))]
        self.clients += self.recorders()
        self.clients.sort(key=lambda it: it.opening.at)
        self.mix = self.mixed() if self.own else self.out.from_frame(self.device.ring)
        self.along = Along(self.segments())
        self.stages = {slot: clipped(it) for slot, it in self.solos.items()}
        self.clipped = {slot: clipped_rows(it, 0, self.mixed_frames()) for slot, it in self.stages.items()}

    def window(self, first, last):
        """The frames that are shown: from one position to another, or all."""
        whole = self.total + self.device.ring
        begin, end = (min(at(self.device.rate), whole) if at else usual for at, usual in ((first, 0), (last, whole)))
        if begin >= end:
            fail(f"nothing is from frame {begin} to {end}: {whole} frames are there, and --from is before --to")
        return begin, end

    def around(self):
        """The frames that are shown, with those of an interrupt before and after them."""
        return max(self.begin - self.device.ring, 0), self.end + self.device.ring

    def slots(self):
        """The slots that are heard."""
        return list(self.solos)

    def recorders(self):
        """Those that record."""
        slots = sorted({it.slot for it in self.played.openings if it.way == "rec"})
        for slot in slots:
            solo = Solo(self.played, [it for it in self.played.openings if it.way == "rec" and it.slot == slot])
            for which, it in enumerate(zip(solo.openings, solo.moments_and_sound(self.around())[0])):
                yield Client(*it, solo, which)

    def of_slot(self, slot):
        """The openings that have a slot one after another, with what they are answered."""
        return [it for it in self.clients if it.opening.slot == slot and it.opening.way != "rec"]

    def mixed_frames(self):
        """How many frames are mixed."""
        return sum(self.played.mixed()) if self.own else self.total

    def mixed(self):
        """What is mixed, where that has a rate or channels of its own: by a device that has them, too."""
        settings, counts = on_the_mix(self.config), iter(self.played.mixed())
        device, lines = device_of(settings), []
        for text in self.played.script.events:
            lines += [f"intr {it}" for it in parts_of(next(counts), device.ring)] if text.startswith("intr") else [text]
        _, sound = self.played.room.run([*lines, f"intr {device.ring}"], settings)
        return sound.from_frame(device.ring)

    def segments(self):
        """At which frames of the device the frames of the mix stand."""
        if not self.own:
            return [(0, self.total, 0, self.total)]
        rows, at = [], 0
        for (begin, end), count in zip(self.played.spans(), self.played.mixed()):
            rows.append((begin, end, at, at + count))
            at += count
        return rows

    def label(self, slot):
        """The waves that a slot sends, or what stands after its opens as a comment."""
        files, names, script = files_of(self.config), [], self.played.script
        for it in self.of_slot(slot):
            sent = [script.words(at)[2] for at in it.opening.events if script.events[at].startswith("send ")]
            comment = script.comments.get(it.opening.at, "")
            told = [] if comment.lower().startswith(("ok", "refused")) or not comment else [comment]
            names += [pathlib.Path(files.get(name, name)).name for name in dict.fromkeys(sent)] or told
        return list(dict.fromkeys(names))


def halts_of(script, replies, opening):
    """The events that end what a recording kept."""
    for at in opening.events:
        words = script.words(at)
        if replies[at].startswith("ok") and (words[2:3] == ["halt"] or words[2:3] == ["settrigger"] and int(words[3], 0) in (0, 2)):
            yield at


class Recording:
    """What a recording kept, run by run: the frames that its reads got, at which frames of the device they came, and what was lost."""

    def __init__(self, shown, client):
        self.shown, self.client, self.moments = shown, client, client.moments
        script, replies = shown.played.script, shown.played.replies
        self.halts = list(halts_of(script, replies, client.opening))
        self.lost, self.rows, self.bodies = [], collections.defaultdict(list), collections.defaultdict(bytearray)
        for at in client.opening.events:
            words = replies[at].split(" ")
            if script.events[at].startswith("read ") and words[0] == "ok" and words[2] != "-":
                self.bodies[self.run_at(at)] += bytes.fromhex(words[2])
        for before, moment in zip(self.moments, self.moments[1:]):
            self.take(before, moment)

    def run_at(self, event):
        return bisect.bisect_right(self.halts, event)

    def take(self, before, moment):
        """Keeps where the frames came from one moment to the next. Those that were lost are the last ones."""
        size = size_of(moment.settings)
        first, last = ((0 if it is before and moment.passed < before.passed else it.passed) // size for it in (before, moment))
        end = moment.at
        if moment.missed:
            end = min(end, before.at - -(last - first) * self.shown.device.rate // moment.settings.rate)
            self.lost.append((end, moment.at))
        if last > first and end > before.at:
            self.rows[self.run_at(moment.event)].append((before.at, end, first, last))

    def runs(self):
        """The frames of each run, and where they stand: as far as they were read."""
        for run, rows in sorted(self.rows.items()):
            settings = next(it.settings for it in self.moments if self.run_at(it.event) == run and not it.setup)
            path = pathlib.Path(self.shown.played.room.folder.name) / f"kept-{id(self)}-{run}"
            path.write_bytes(self.bodies[run])
            sound = Sound(path, settings)
            yield sound, Along([(begin, end, first, min(last, sound.frames)) for begin, end, first, last in rows if first < sound.frames])


def states_of(shown, client):
    """What a channel does from one moment to the next: its word, and the frames of the device."""
    opening, script, closing = client.opening, shown.played.script, False
    own = set(opening.events)
    for moment, following in zip(client.moments, client.moments[1:]):
        ends = moment.event == opening.closed or moment.event in own and script.words(moment.event)[2:3] == ["sync"]
        closing = not moment.setup and (closing or ends)
        if not moment.setup and following.at > moment.at:
            yield "waits" if not moment.started else "drains" if closing else "plays", moment.at, following.at


def joined_states(states):
    """States that follow one another and are one word, as one."""
    found = []
    for word, begin, end in states:
        if found and found[-1][0] == word and found[-1][2] == begin:
            begin = found.pop()[1]
        found.append((word, begin, end))
    return found


def drops_of(shown, client):
    """Where bytes that waited are gone by a line of the client: the frame of the device, and how many."""
    for before, moment in zip(client.moments, client.moments[1:]):
        is_line = shown.played.script.events[moment.event].startswith(("ioctl", "close"))
        if is_line and moment.at == before.at and moment.waiting < before.waiting:
            yield moment.at, before.waiting - moment.waiting
    if client.opening.closed is not None and client.opening.way == "rec" and client.moments[-1].waiting:
        yield client.moments[-1].at, client.moments[-1].waiting


def shortages_of(shown, client):
    """The frames of the device from which on an opening is missed, to the end of each interrupt that finds it short."""
    if client.opening.way != "play":
        return
    events, found = shown.played.script.events, {}
    pairs = [(a, b) for a, b in zip(client.moments, client.moments[1:]) if b.missed and events[b.event].startswith("intr")]
    short = [b.event for a, b in pairs if a.at == shown.played.handed(b.event)]
    if 0 < len(short) <= CLOSELY:
        found = first_missing(client.solo, client.which, short)
    for before, moment in pairs:
        yield before.at + found.get(moment.event, 0), moment.at


def pokes_of(shown, client):
    """Where an area is poked: the frame of the device, and how many bytes."""
    played = shown.played
    for at in client.opening.events:
        words = played.script.words(at)
        if words[0] == "poke" and played.replies[at] == "ok":
            yield played.handed(at), len(words[3].strip("-")) // 2


def mixers_of(shown, slot):
    """Where the mixer device is set: the frame of the device, and the line; of a slot, or of the master where that is None."""
    played = shown.played
    for at in played.mixers():
        words = played.script.words(at)
        is_set = len(words) > (2 if words[1] == "master" else 3) and played.replies[at].startswith("ok")
        whose = None if words[1] == "master" else int(words[2], 0) if len(words) > 2 else None
        if is_set and whose == slot and (words[1] == "master") == (slot is None):
            yield played.handed(at), played.script.named(at)


def starts_of(shown):
    """The frame and the number of each group that starts, with the places of the clients that it starts."""
    played = shown.played
    for at, text in enumerate(played.script.events):
        if " syncstart " in text and played.replies[at].startswith("ok"):
            members, frame = [], played.handed(at)
            for place, client in enumerate(shown.clients):
                pairs = [(a, b) for a, b in zip(client.moments, client.moments[1:]) if b.event == at]
                members += [place for a, b in pairs if b.started and not a.started]
            yield frame, text.split(" ")[3], members
