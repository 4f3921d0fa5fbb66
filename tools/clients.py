"""What the clients of a slot give and are answered: the script is run with them alone, and questions stand between its lines."""
import array
import collections
import copy
import itertools

from scripts import EVENTS, count_of, device_of, keys_of, on_the_mix, parts_of, rates_of, value_of
from sounds import Device, size_of

CODES = {0x40: "s8", 8: "u8", 0x10: "s16le", 0x20: "s16be", 0x80: "u16le", 0x100: "u16be", 0x10000: "s24le", 0x20000: "s24be",
         0x40000: "u24le", 0x80000: "u24be", 0x1000: "s32le", 0x2000: "s32be", 0x4000: "u32le", 0x8000: "u32be"}
# what an opening is answered after an event: how many frames were handed over by then, the bytes that wait in its ring, the size of that,
# whether it is in Setup, whether it has started, how often it was short or lost frames, its position in bytes, and its settings
Moment = collections.namedtuple("Moment", "event at waiting size setup started missed passed settings")
# what is asked of an opening, by its way, and of each
QUESTIONS = {"play": ("getospace", "getodelay", "getoptr"), "map": ("getoptr",), "rec": ("getispace", "getiptr")}
OF_ALL = ("geterror", "setfmt 0", "channels 0", "speed 0")
# the descriptors that a script can have
DESCRIPTORS = 64
# how many places are asked at once; how many columns the frames are cut into to choose them; how often it is looked
# closer; and between how many of them something may happen for that
MOST, COLUMNS, TIMES, SPANS = 3000, 1000, 5, 200
# how many lines a place has at most, its questions and interrupts, where a script is full of events
QUESTIONED, SPARE = 11, 64
# how many pieces an interrupt is cut into at once
PIECES = 32


def numbers_in(reply):
    """The numbers of a reply by their names; one without a name stands under none."""
    words = reply.split()[1:] if reply.startswith("ok") else []
    pairs = (word.rpartition("=") for word in words)
    return {name: int(value) for name, _, value in pairs if value.isdigit()}


class Solo:
    """The clients that have one slot one after another, alone. Where one of them joins a group the others stay, and are muted."""

    def __init__(self, played, openings):
        self.played, self.script, self.openings = played, played.script, openings
        self.slot, self.way = openings[0].slot, openings[0].way
        self.is_whole = any(it.joins for it in openings)
        self.own = {at: it for it in openings for at in it.events} if self.is_whole else None
        used = {it.descriptor for it in played.openings} if self.is_whole else set()
        self.free = next((k for k in range(DESCRIPTORS) if k not in used), None) if self.is_whole else None
        self.has_sync = self.way == "play" and not (self.is_whole and self.free is None)
        self.last, self.is_plain, self.known, self.changes = len(self.script.events), False, None, {}

    def until(self, event):
        """The same, up to an event."""
        other = copy.copy(self)
        other.last, other.known = event, None
        return other

    def at_full_volume(self):
        """The same, without a volume of the clients or of their slot."""
        other = copy.copy(self)
        other.is_plain, other.known = True, None
        return other

    def walk(self):
        """The events that are run."""
        if self.is_whole:
            return range(min(self.last + 1, len(self.script.events)))
        own = (at for it in self.openings for at in it.events)
        return [at for at in sorted([*own, *self.played.turns, *self.played.mixers()]) if at <= self.last]

    def new_slot(self):
        """The slot that the clients have where they are alone."""
        return self.slot if self.is_whole or self.way == "rec" else count_of(keys_of(self.played.room.config), "vchans.play", "4") if self.way == "map" else 0

    def mixer_line(self, words):
        """What the mixer is asked of the slot; the others stay muted, and the master is left at one."""
        if len(words) < 4 or words[1] not in ("slot", "mute") or self.way == "rec":
            return None
        return f"mixer {words[1]} {self.new_slot()} {words[3]}" if value_of(words[2]) == self.slot else None

    def own_line(self, at, opening):
        """An event of a client. Where it plays, a sync stands in place of its close, so that it can be asked while it drains."""
        descriptor = opening.descriptor if self.free is None else self.free
        if at == opening.closed and self.has_sync:
            return f"ioctl {descriptor} sync"
        words = self.script.events[at].split(" ", 2)
        return self.script.events[at] if self.free is None else " ".join([words[0], str(descriptor), *words[2:]])

    def muted(self):
        """The lines that mute all others."""
        others = [it for it in self.played.slots() if it != self.slot] if self.is_whole and self.way != "rec" else []
        return [f"mixer mute {it} 1" for it in others]

    def steps(self):
        """What is run: where each event stands, and its line, or None of an interrupt."""
        if self.known is None:
            now, places, lines = -1, array.array("l"), []
            for at in self.walk():
                is_turn = self.script.events[at].startswith("intr")
                now += now + 1 < len(self.openings) and at == self.openings[now + 1].at
                line = None if is_turn else self.line(at, now)
                if is_turn or line is not None:
                    places.append(at)
                    lines.append(line)
            self.known = places, lines
        return self.known

    def lines(self, places=(), cuts=None, counts=None, ring=None, is_heard=True):
        """The lines that are run, and by the numbers of those that are questions whom, where and what each asks. Interrupts are joined
        up to a place or a line of the clients; a cut one has a place before it and after each of its pieces. Where nothing is to be
        heard it ends after the last place."""
        cuts, ring, turns = cuts or {}, ring or self.played.device.ring, iter(counts or self.played.counts)
        waits, now, lines, keys, begins = 0, -1, self.muted(), {}, {it.at for it in self.openings}
        special, last = {*places, *cuts, *begins}, None if is_heard else max([*places, *cuts], default=-1)
        for at, line in zip(*self.steps()):
            count = next(turns) if line is None else 0
            if line is None and at not in special:
                waits += count
                continue
            waits += 0 if at in cuts else count
            if waits:
                lines.extend(turned(waits, ring))
                waits = 0
            if at in begins:
                lines.extend(self.ended(now))
                now += 1
            if line is not None:
                lines.append(line)
            if at in special:
                self.ask(lines, keys, at, now, (0, *cuts[at]) if at in cuts else (0,) if at in places else ())
            if at == last:
                break
        return lines + turned(waits, ring), keys

    def ask(self, lines, keys, at, now, pieces):
        """Adds the questions at a place, or after each piece of a cut interrupt."""
        for piece, part in enumerate(pieces):
            lines.extend(turned(part, part))
            for question, text in self.questions(at, now):
                keys[len(lines)] = now, at, piece, question
                lines.append(text)

    def is_own(self, at):
        return not self.script.events[at].startswith(("intr", "mixer")) if self.own is None else at in self.own

    def line(self, at, now):
        """An event as it is run, or None."""
        text = self.script.events[at]
        if self.is_plain and (" setplayvol " in text or text.startswith("mixer slot")):
            return None
        if self.own is None and not text.startswith("mixer") and at != self.openings[now].closed:
            return text
        if self.is_own(at):
            return self.own_line(at, self.openings[now])
        return self.mixer_line(text.split(" ")) if text.startswith("mixer") else text

    def ended(self, now):
        """Closes a client that was kept open, as the next one opens."""
        if now < 0 or not self.has_sync or self.openings[now].closed is None:
            return []
        return [f"close {self.openings[now].descriptor if self.free is None else self.free}"]

    def rates(self, at, now):
        """The rate of a client after an event."""
        if now not in self.changes:
            opening, replies = self.openings[now], self.played.replies
            words = self.script.words(opening.at)
            sets = [it for it in opening.events if " speed " in self.script.events[it] and replies[it].startswith("ok")]
            self.changes[now] = [(opening.at, words[5] if len(words) > 5 else "8000"), *((it, replies[it].split()[1]) for it in sets)]
        return [rate for change, rate in self.changes[now] if change <= at][-1]

    def questions(self, at, now):
        """What is asked at a place, by names."""
        opening = self.openings[now] if now >= 0 else None
        if opening is None or opening.closed is not None and at >= opening.closed and not self.has_sync:
            return []
        descriptor = opening.descriptor if self.free is None else self.free
        every = [(it, f"ioctl {descriptor} {it}") for it in (*QUESTIONS[self.way], *OF_ALL)]
        return [*every, ("set", f"ioctl {descriptor} speed {self.rates(at, now)}")]

    def given(self):
        """The frames that the clients give to the mix, from the first one that is mixed on."""
        config = self.played.room.config
        counts = self.played.mixed() if rates_of(config) else None
        return self.sound(on_the_mix(config) if counts else config, counts)

    def sound(self, config, counts=None):
        """The frames that come of the clients with a configuration, from the first one that is mixed on."""
        device = device_of(config)
        lines, _ = self.lines(counts=counts, ring=device.ring)
        size = (sum(counts) if counts else self.played.total) * size_of(device)
        _, sound = self.played.room.run([*lines, f"intr {device.ring}"], config, size=size, does=f"slot {self.slot} alone")
        return sound.from_frame(device.ring)

    def told(self, places, cuts=None):
        """What each client is answered at places, in their order."""
        every, sound = self.told_and_heard(places, cuts, False)
        self.played.room.forget(sound)
        return every

    def told_and_heard(self, places, cuts=None, is_heard=True):
        """The same, and the frames of OUT up to the last event."""
        lines, keys = self.lines(places, cuts, is_heard=is_heard)
        size = self.played.total * size_of(self.played.device)
        replies, sound = self.played.room.run([*lines, f"intr {self.played.device.ring}"], size=size, does=f"slot {self.slot} is asked", wanted=keys)
        answers = {}
        for key, reply in zip(keys.values(), replies):
            answers.setdefault(key[:3], {})[key[3]] = reply
        every = [[] for _ in self.openings]
        for (now, at, piece), found in answers.items():
            every[now].append(self.moment(at, self.place_of(at, piece, cuts), found))
        return [until_gone(it, moments) for it, moments in zip(self.openings, every)], sound

    def place_of(self, at, piece, cuts):
        """How many frames are handed over after an event, or a piece of one."""
        if cuts and at in cuts:
            return self.played.handed(at) + sum(cuts[at][:piece])
        return self.played.handed(at + 1)

    def moment(self, event, at, answers):
        """What an opening is answered after an event."""
        room, kept = numbers_in(answers.get("getospace", "")), numbers_in(answers.get("getispace", ""))
        size = (room or kept).get("fragstotal", 0) * (room or kept).get("fragsize", 0)
        waiting = size - room["bytes"] if room else kept.get("bytes", 0)
        setup = answers["set"].startswith("ok")
        delay = numbers_in(answers.get("getodelay", "")).get("", waiting + 1)
        passed = numbers_in(answers.get("getoptr") or answers["getiptr"]).get("bytes", 0)
        settings = Device(CODES[numbers_in(answers["setfmt 0"])[""]], numbers_in(answers["channels 0"])[""], numbers_in(answers["speed 0"])[""], 0, 0)
        return Moment(event, at, waiting, size, setup, not setup and delay > waiting, sum(numbers_in(answers["geterror"]).values()), passed, settings)

    def candidates(self):
        """Where the clients can be asked: after their own events, after interrupts once one has opened, and after starts of groups."""
        script, played, first = self.script, self.played, self.openings[0].at
        last = self.openings[-1].closed if self.openings[-1].closed is not None and self.way != "play" else len(script.events)
        own = (at for it in self.openings for at in it.events)
        starts = (at for at in range(first, len(script.events)) if " syncstart " in script.events[at]) if self.is_whole else ()
        return [at for at in sorted({*own, *played.turns, *starts}) if first <= at <= last]

    def moments_and_sound(self, window=None):
        """What each client is answered, as closely as something happens, and most closely in a window of frames; and the frames of OUT."""
        every, room = self.candidates(), max((EVENTS - len(self.steps()[0]) - SPARE) // QUESTIONED, 1)
        places = thinned(self.played, self.script, every, min(MOST, room), window)
        found, sound = self.told_and_heard(places)
        for _ in range(TIMES if len(places) < len(every) else 0):
            more = closer(found, every, places, min(MOST, room - len(places)))
            if not more:
                break
            places |= more
            found = self.told(places)
        return found, sound


def turned(count, ring):
    """The interrupts of `count` frames."""
    return [f"intr {count}"] if 0 < count <= ring else [f"intr {it}" for it in parts_of(count, max(ring, 1))]


def until_gone(opening, moments):
    """What an opening is answered until it is closed and nothing is left of it."""
    for at, it in enumerate(moments):
        if opening.closed is not None and it.event >= opening.closed and it.setup:
            return moments[:at + 1]
    return moments


def thinned(played, script, every, most, window):
    """The places that are asked first: all, or of each column the last of the clients' own events, and the last interrupt. A window of
    the frames has half of the columns."""
    if len(every) <= most:
        return set(every)
    found, columns = {}, min(COLUMNS, most // 3)
    begin, end = window or (0, 0)
    for at in every:
        handed = played.handed(at)
        inside = begin <= handed < end and end - begin < played.total
        column = (handed - begin) * columns // (2 * (end - begin)) if inside else handed * columns // (2 * max(played.total, 1))
        found[inside, column, script.events[at].startswith("intr")] = at
    return {*every[:2], *sorted(found.values())[-max(most - 2, 0):]} if most > 1 else {every[0]}


def closer(found, every, places, most):
    """The places between two at which the answers differ, as many as can be asked at once."""
    spans = [(a.event, b.event) for moments in found for a, b in zip(moments, moments[1:]) if has_changed(a, b)]
    more, at = [], 0
    for begin, end in spans if len(spans) <= SPANS else ():
        while at < len(every) and every[at] <= begin:
            at += 1
        while at < len(every) and every[at] < end:
            more.append(every[at])
            at += 1
    more = [it for it in more if it not in places]
    return set(more[::-(-len(more) // most)] if more and most > 0 else ())


def has_changed(before, after):
    """Whether something happened from one moment to the next, besides that frames were written and taken."""
    return (before.setup, before.started, before.settings, before.size) != (after.setup, after.started, after.settings, after.size) or (
        after.missed > 0 or after.passed < before.passed)


def first_missing(solo, which, short):
    """Of interrupts, by their events, that find a client short: how many of their frames it gave before. Each is cut into pieces, and the
    first piece that is short again, down to one frame."""
    ranges = {at: (0, solo.played.count(at)) for at in short}
    while any(end - begin > 1 for begin, end in ranges.values()):
        cuts = {at: cut(solo.played.count(at), *it) for at, it in ranges.items()}
        found = {}
        for it in solo.told((), cuts)[which]:
            end = it.at - solo.played.handed(it.event)
            if it.missed and end and it.event not in found:
                found[it.event] = (next(begin for begin, to in bounds(cuts[it.event]) if to == end), end)
        ranges = {at: found.get(at, (begin, begin + 1)) for at, (begin, _) in ranges.items()}
    return {at: begin for at, (begin, _) in ranges.items()}


def cut(count, begin, end):
    """`count` frames as what is before some of them, these in pieces, and what is after them."""
    return [it for it in (begin, *parts_of(end - begin, -(-(end - begin) // PIECES)), count - end) if it]


def bounds(counts):
    """Where each of some counts begins and ends in their sum."""
    ends = list(itertools.accumulate(counts))
    return zip([0, *ends], ends)
