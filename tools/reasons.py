"""Why frames of OUT are what they are: which interrupts they come of, and which frame of which run each client gives there."""
import functools

from clients import Solo
from facts import lookahead, turn_event
from origins import Kept, Poked, Written, ends_softly, files_of, named, named_range
from scripts import keys_of, mixed_turns, rates_of
from sounds import full_scale, size_of
from sums import given_by, limited_at


class Asked:
    """A script that is asked for reasons, and what is known of its clients by then."""

    def __init__(self, played):
        self.played, self.device, self.config = played, played.device, played.room.config
        self.rates, self.own = rates_of(self.config), bool(rates_of(self.config))
        self.written = functools.lru_cache(64)(self.written_by)
        self.poked = functools.lru_cache(64)(self.poked_by)
        self.ends = functools.lru_cache(64)(self.ends_of)
        self.known = {it.at: it for it in played.openings}

    def written_by(self, at):
        """What the opening of an event wrote."""
        return Written(self.played, self.known[at])

    def poked_by(self, at, event):
        """What the opening of an event poked before another one."""
        return Poked(self.played, self.known[at], event)

    def ends_of(self, at):
        """The events of the opening of an event that end it softly."""
        return [it for it in self.known[at].events if ends_softly(self.played.script.words(it))]

    def recorders(self):
        """Those that record, slot by slot."""
        openings = [it for it in self.played.openings if it.way == "rec"]
        return {slot: Solo(self.played, [it for it in openings if it.slot == slot]) for slot in sorted({it.slot for it in openings})}


class Explained:
    """A frame of OUT of a script, and the interrupts that it comes of."""

    def __init__(self, asked, frame):
        self.asked, self.frame = asked, frame
        self.played, self.device, self.config, self.own = asked.played, asked.device, asked.config, asked.own
        self.mixed_at = frame - self.device.ring
        self.mixed, self.handed = turn_event(self.played, self.mixed_at), turn_event(self.played, frame)

    def heard(self, events):
        """The frame where the program runs other events, up to the interrupt that mixes it."""
        _, sound = self.played.room.run([*events, f"intr {self.device.ring}"])
        frame = sound.frame(self.frame)
        self.played.room.forget(sound)
        return frame

    def with_others_muted(self, kept):
        """The frame where only some slots are heard, and the master is left at one."""
        return self.heard(muted_events(self.played, kept, self.mixed + 1))

    def limited_slots(self, solos):
        """Where the mix has a rate or channels of its own: the slots whose sum is limited in the last two of its frames that are needed."""
        needed = sum(mixed_turns(self.played.room, (self.mixed_at, 1))) if self.mixed_at else 1
        sounds = list(given_by({slot: it.until(self.mixed) for slot, it in solos.items()}).values())
        found = limited_at(sounds, max(needed - 2, 0), needed, full_scale(sounds[0].device)) if sounds else ()
        return {list(solos)[which] for which, _, _ in found}


def muted_events(played, kept, count):
    """The first events of a script, where only some slots are heard, and the master is left at one."""
    muted = [it for it in played.slots() if it not in kept]
    lines = (text for text in played.script.events[:count] if not is_mixing(text, muted))
    return [*(f"mixer mute {it} 1" for it in muted), *lines]


def is_mixing(text, muted):
    """Whether a line sets the master, or mutes one of some slots or lets it be heard."""
    words = text.split(" ")
    return words[:2] == ["mixer", "master"] and len(words) > 2 or words[:2] == ["mixer", "mute"] and len(words) > 2 and int(words[2], 0) in muted


def frame_words(it, opening, reached, behind):
    """Which frame of which run a client gives, and which line wrote it."""
    written = it.asked.written(opening.at)
    number = written.run_at(it.mixed)
    run = written.runs[number]
    before, taken = ((moment.passed - run.base) // run.size for moment in (reached, behind))
    if reached.settings.rate == it.device.rate and "rate" not in it.asked.rates:
        if taken == before:
            return f"no frame of its run {number + 1}"
        return f"frame {before} of its run {number + 1}: {named_range(it.played, *(written.place(number, before * run.size + k) for k in (0, run.size - 1)), is_one=True)}"
    last, ahead = taken - 1, lookahead(it.config)
    if last < 0:
        return f"no frame of its run {number + 1}, at {reached.settings.rate}, was taken by then"
    ends = any(run.events[-1] < at < it.mixed for at in it.asked.ends(opening.at))
    if ahead is None or ends and (taken + 1) * run.size > run.ends[-1]:
        wrote = named(it.played, written.place(number, last * run.size))
        return f"up to frame {last} of its run {number + 1}, at {reached.settings.rate}, was taken by then: {wrote}"
    first = max(last - ahead, 0)
    wrote = named_range(it.played, written.place(number, first * run.size), written.place(number, (last + 1) * run.size - 1))
    return f"frame{'s' * (first < last)} {first}{f' to {last}' * (first < last)} of its run {number + 1}, at {reached.settings.rate}: {wrote}"


def poked_words(it, opening, reached, behind):
    """Which frame of which run a mapped client gives, and which line poked it."""
    size, poked = size_of(reached.settings), it.asked.poked(opening.at, it.mixed)
    before, taken = reached.passed // size, behind.passed // size
    if taken == before:
        return f"no frame of its run {poked.runs}"
    at = before * size % poked.area
    places = [poked.place(before * size + k) for k in (0, size - 1)]
    return f"frame {before} of its run {poked.runs}, byte {at} of its area: {named_range(it.played, *places, is_one=True) if any(places) else 'nothing was poked there'}"


def run_words(it, solo, moments):
    """What a client does at the frame: lines."""
    found = moments.reached and moments.behind
    if not found or moments.reached[1].setup or found[0].way != "map" and it.asked.written(found[0].at).run_at(it.mixed) is None:
        return ["none of its runs goes on there"]
    words = poked_words if solo.way == "map" else frame_words
    lines = [words(it, found[0], moments.reached[1], moments.behind[1])]
    return lines + ["it is short there"] * bool(moments.behind[1].missed)


def recording_words(it, solo, found):
    """Which frame a recording gets as the frame is handed over, by its answers around it; or None."""
    if not found.reached or not found.behind or found.reached[1].setup:
        return None
    (opening, before), (_, behind), size = found.reached, found.behind, size_of(found.behind[1].settings)
    kept, script = Kept(it.played, opening, it.handed), it.played.script
    place = kept.place(before.passed)
    what = "it is full, and loses that" if behind.missed else "no frame comes of that" if behind.passed == before.passed else (
        f"frame {before.passed // size} of what it keeps, {'read by ' + named(it.played, place) if place else 'which nobody reads'}")
    return f"recording {solo.slot}, opened by line {script.numbers[opening.at]} ({script.events[opening.at]}), gets frame {it.frame} of {captured_by(it.config)}: {what}"


def captured_by(config):
    """The file that is captured, in words."""
    name = keys_of(config).get("device.capture")
    return f"{name} ({files_of(config).get(name, name)})" if name else "the silence that is captured"


OWN_STAGES = "it is limited there by its own stages, before its volume"


def turn_words(it):
    """The lines that name the interrupts of a frame."""
    script, turns = it.played.script, (("hands it over", it.handed), ("mixed it", it.mixed))
    return [f"line {script.numbers[event]} {does}: {script.events[event]}" for does, event in turns if event is not None]


def slot_words(it, slot):
    """The beginning of the line of a slot."""
    script, opened = it.played.script, it.played.slots()[slot]
    return f"slot {slot}, opened by line {script.numbers[opened]} ({script.events[opened]}), adds"
