"""What a page says of frames: what each slot adds, the sums, and which frame of which run that is; of many frames at once."""
import array
import operator
import re

from facts import around, cuts_at
from packed import Track
from reasons import OWN_STAGES, Asked, Explained, muted_events, recording_words, run_words, slot_words
from scripts import mixed_turns, value_of
from sounds import full_scale, joined
from sums import limited_at

NUMBER = re.compile(r"\d+")


class Sum:
    """The sum of what some slots add, limited after each, as a sound."""

    def __init__(self, sounds):
        self.sounds, self.device = sounds, sounds[0].device

    def steps(self, begin, end):
        """The last sum, as it is and without its limit."""
        full, total, plain = full_scale(self.device), self.sounds[0].samples(begin, end), None
        for sound in self.sounds[1:]:
            plain = list(map(operator.add, total, sound.samples(begin, end)))
            total = [max(-full, min(full - 1, it)) for it in plain]
        return array.array(self.sounds[0].samples(0, 1).typecode, total), plain

    def samples(self, begin, end):
        return self.steps(begin, end)[0]

    def limited(self, begin, end):
        """The frames at which the last sum is limited."""
        total, plain = self.steps(begin, end)
        channels = self.device.channels
        return sorted({begin + at // channels for at, it in enumerate(plain or ()) if it != total[at]})


class Whys:
    """The reasons of frames of OUT, as rows of them."""

    def __init__(self, shown, frames, heard):
        self.shown, self.played, self.rows, self.heard = shown, shown.played, frames, heard
        self.asked, self.frames = Asked(shown.played), [at for begin, end in frames for at in range(begin, end)]
        self.explained = [Explained(self.asked, at) for at in self.frames]
        self.summed, self.around = self.sums(), {slot: self.told_around(it, [at.mixed_at for at in self.explained]) for slot, it in shown.solos.items()}

    def sums(self):
        """The sum after each slot, as a track."""
        sounds, slots, found = {slot: it.sound for slot, it in self.heard.items()}, list(self.heard), []
        for at in range(len(slots)):
            if self.shown.own:
                events = muted_events(self.played, slots[:at + 1], len(self.played.script.events))
                sound = self.played.room.run([*events, f"intr {self.played.device.ring}"])[1]
            else:
                sound = Sum([sounds[it] for it in slots[:at + 1]])
            found.append(Track(f"the sum after slot {slots[at]}", sound, self.heard[slots[at]].frames))
        return found

    def tracks(self):
        return self.summed

    def wanted(self):
        """The tracks of sums with the frames that are wanted of each."""
        return [(track, self.rows) for track in self.summed]

    def limited(self):
        """The rows of frames at which the sum after each slot is limited."""
        found = self.limited_mix() if self.shown.own else [[at for row in self.rows for at in it.sound.limited(*row)] for it in self.summed]
        return [list(joined(it)) for it in found]

    def limited_mix(self):
        """The same, where the mix has a rate or channels of its own: where one of the last two of its frames that are needed is limited."""
        sounds, slots = list(self.shown.given.values()), list(self.shown.given)
        mixed = sum(self.played.mixed())
        where = {which: set() for which in range(len(slots))}
        for which, places, _ in limited_at(sounds, 0, mixed, full_scale(sounds[0].device)) if sounds else ():
            where[which] = {at // sounds[0].device.channels for at in places}
        last = max((it.mixed_at for it in self.explained), default=-1)
        needs, total = [], 0
        for count in mixed_turns(self.played.room, [1] * (last + 1)):
            total += count
            needs.append(total)
        found = []
        for which in range(len(slots)):
            pairs = [(it.frame, needs[it.mixed_at] if it.mixed_at else 1) for it in self.explained if it.mixed is not None]
            found.append([frame for frame, needed in pairs if where[which] & {max(needed - 2, 0), needed - 1}])
        return found

    def told_around(self, solo, frames):
        """What a slot's client is answered around each of some frames."""
        cuts = cuts_at(self.played, frames)
        return around(solo, frames, solo.told((), cuts) if cuts else [])

    def slot_lines(self, solo):
        """What a slot's client does at each frame, as lines."""
        found = self.around[solo.slot]
        clipped = () if self.shown.own else self.shown.clipped[solo.slot]
        for it in self.explained:
            if it.mixed is None:
                continue
            lines = run_words(it, solo, found[it.mixed_at])
            if any(begin <= it.mixed_at < end for begin, end in clipped):
                lines = [*lines, OWN_STAGES]
            yield it.frame, "\n".join(lines)

    def recording_lines(self, solo):
        """Which frame a recording gets as each is handed over."""
        found = self.told_around(solo, [it.frame for it in self.explained])
        texts = ((it.frame, recording_words(it, solo, found[it.frame])) for it in self.explained if it.handed is not None)
        return ((frame, text) for frame, text in texts if text)

    def told(self, tracks):
        """All reasons, as the page has them."""
        limited = self.limited()
        slots = [{
            "slot": slot, "words": slot_words(self.explained[0], slot), "adds": tracks.index(self.heard[slot]), "sum": tracks.index(self.summed[at]),
            "limited": limited[at], "texts": list(folded(self.slot_lines(solo))), "volumes": volumes_of(self.shown, slot), "faders": faders_of(self.shown, slot)}
            for at, (slot, solo) in enumerate(self.shown.solos.items())] if self.explained else []
        recordings = [list(folded(self.recording_lines(it))) for it in self.asked.recorders().values()]
        return {"rows": self.rows, "slots": slots, "recordings": recordings, "master": faders_of(self.shown, None)}


def folded(texts):
    """Texts of frames that follow one another as rows: the first frame, how many, its text, and which numbers of that grow by how much."""
    row = None
    for frame, text in texts:
        parts, values = NUMBER.split(text), NUMBER.findall(text)
        if row and row.takes(frame, parts, values):
            continue
        if row:
            yield row.told()
        row = Row(frame, text, parts, values)
    if row:
        yield row.told()


class Row:
    """Texts that differ in numbers which grow evenly."""

    def __init__(self, frame, text, parts, values):
        self.frame, self.count, self.text, self.parts, self.values, self.steps = frame, 1, text, parts, values, None

    def takes(self, frame, parts, values):
        """Whether the text of the next frame goes on evenly."""
        if frame != self.frame + self.count or parts != self.parts:
            return False
        steps = self.steps or [0 if a == b else int(b) - int(a) for a, b in zip(self.values, values)]
        if [str(int(a) + step * self.count) if step else a for a, step in zip(self.values, steps)] != values:
            return False
        self.steps, self.count = steps, self.count + 1
        return True

    def told(self):
        spans = [it.span() for it in NUMBER.finditer(self.text)]
        return [self.frame, self.count, self.text, [[*span, step] for span, step in zip(spans, self.steps or ()) if step]]


def replied(played, at):
    """The volume that an event was answered, on the left and on the right."""
    value = int(played.replies[at].split()[1])
    return [value & 255, value >> 8]


def volumes_of(shown, slot):
    """The volumes of the clients of a slot: from which frame of the mix on, the left side and the right."""
    played, found = shown.played, []
    for client in shown.of_slot(slot):
        found.append([played.handed(client.opening.at), 100, 100])
        sets = [at for at in client.opening.events if " setplayvol " in played.script.events[at] and played.replies[at].startswith("ok ")]
        found += [[played.handed(at), *replied(played, at)] for at in sets]
    return found


def faders_of(shown, slot):
    """The volume and the mute of a slot, or the volume of the master: from which frame of the mix on, both sides, and whether it is muted."""
    played, now, found = shown.played, [100, 100, 0], [[0, 100, 100, 0]]
    for at in played.mixers():
        words = played.script.words(at)
        is_set = played.replies[at].startswith("ok") and len(words) > (2 if words[1] == "master" else 3)
        if not is_set or (words[1] == "master") != (slot is None) or slot is not None and value_of(words[2]) != slot:
            continue
        now = [*now[:2], value_of(words[3])] if words[1] == "mute" else [*replied(played, at), now[2]]
        found.append([played.handed(at), *now])
    return found
