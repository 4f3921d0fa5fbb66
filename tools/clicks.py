"""Where OUT clicks: its frames jump, fall silent or come back, or the sum is limited; and why."""
import bisect
import collections
import heapq
import itertools
import operator

from commands import told
from facts import around, clipped, clipped_rows, cuts_at, is_clipped, turn_event
from origins import Poked, Written, drops_all, named
from scripts import value_of
from sounds import full_scale, numbers_of, size_of
from sums import given_by, limits_of, solos_of

# the clients of each slot, what they give, where their own stages are limited, as 32 bits or None, and the rows where the mix is, or None
Known = collections.namedtuple("Known", "solos given clipped limits")
# a place: its frame, what happens there, how large that is, and, once it is known, why
Click = collections.namedtuple("Click", "at does size why")
# the frames among which one that jumps stands out, one of how many is looked at for the mean, how many times that, and which part
# of full scale it is at least
BLOCK, EVERY, TIMES, PART_OF = 1024, 8, 8, 256
# the frames that are looked at in one go; those of a block that is silent or isn't; and of a silence at least
READ, QUIET, SILENT = 1 << 14, 16, 32


def jumps(out, total, most):
    """The jumps that stand out of the block around them, those that are among the greatest so far."""
    least, sizes = max(full_scale(out.device) // PART_OF, 1), []
    for begin, end in told(out.parts(0, total, BLOCK), "jumps are looked for", total):
        samples = out.samples(begin - 1, end)
        enough = max(least, TIMES * mean_step(samples, out.device.channels))
        for frame, size in standing_out(samples, out.device.channels, enough) if out.jumps_by(begin, end, enough) else ():
            yield Click(begin + frame, "jumps", size, None)
            bisect.insort(sizes, size)
            del sizes[:-most]
            least = max(least, sizes[0] if len(sizes) == most else 0)


def mean_step(samples, channels):
    """The mean difference of every eighth frame to the one before, rounded up."""
    pairs = [(samples[channels + k::EVERY * channels], samples[k::EVERY * channels]) for k in range(channels)]
    total = sum(sum(map(abs, map(operator.sub, behind, before))) for behind, before in pairs)
    return -(-total // sum(len(behind) for behind, _ in pairs))


def standing_out(samples, channels, least):
    """The frames that differ by so much at least from the one before, and by how much."""
    found = {}
    for at, step in enumerate(map(operator.sub, samples[channels:], samples)):
        if not -least < step < least:
            found[at // channels] = max(found.get(at // channels, 0), abs(step))
    return found.items()


def sizes_of(sound, frames):
    """How large the greatest sample is of each of some frames, which are sorted."""
    begin, samples, channels = 0, (), sound.device.channels
    for at in frames:
        if not begin <= at < begin + len(samples) // channels:
            begin, samples = at, sound.samples(at, at + READ)
        place = (at - begin) * channels
        yield max(map(abs, samples[place:place + channels]))


def silent_blocks(out, total):
    """The first frames of blocks that are silent whole, as rows."""
    size, rows = out.frame_size, []
    quiet = spelled_silence(out)
    for begin, end in out.parts(0, total, READ):
        data = out.data(begin, end)
        for at in range(0, (end - begin) // QUIET * QUIET, QUIET):
            if data[at * size:(at + QUIET) * size] == quiet:
                if rows and rows[-1][1] == begin + at:
                    rows[-1][1] += QUIET
                else:
                    rows.append([begin + at, begin + at + QUIET])
    return rows


def spelled_silence(out):
    """The bytes of a block of silence."""
    one = next(it for it in (bytes([0, 0, 0, 0]), bytes([128, 0, 0, 0]), bytes([0, 128, 0, 0]), bytes([0, 0, 128, 0]), bytes([0, 0, 0, 128]))
               if not any(numbers_of(it[:size_of(out.device) // out.device.channels], out.device.format)))
    return one[:size_of(out.device) // out.device.channels] * (out.device.channels * QUIET)


def silences(out, total):
    """Where OUT falls silent, and where it comes back."""
    for begin, end in silent_blocks(out, total):
        while begin > 0 and not any(out.frame(begin - 1)):
            begin -= 1
        while end < total and not any(out.frame(end)):
            end += 1
        if end - begin >= SILENT and begin > 0:
            yield Click(begin, "falls silent", max(map(abs, out.frame(begin - 1))), None)
        if end - begin >= SILENT and end < total:
            yield Click(end, "comes back", max(map(abs, out.frame(end))), None)


class Clicks:
    """The places of a script at which it clicks, with what the clients give and are answered there."""

    def __init__(self, played, most, known):
        self.played, self.ring = played, played.device.ring
        self.solos, self.given, self.clipped, self.limits = known
        self.rate = next(iter(self.given.values())).device.rate if self.given else played.device.rate
        self.places, self.told = self.found(most), {}

    def ask(self):
        """Asks what the clients are answered around the places."""
        frames = [it.at - self.ring for it in self.places]
        self.told = {slot: around(it, frames, it.told((), cuts_at(self.played, frames))) for slot, it in self.solos.items()} if frames else {}

    def explained(self):
        """The places with their causes."""
        return [it._replace(why=why(self, it)) for it in self.places]

    def of_mix(self, frame):
        """The frame of the mix that goes with one of the device."""
        return frame * self.rate // self.played.device.rate

    def of_device(self, frame):
        """The frame of OUT that goes with one of the mix."""
        return frame * self.played.device.rate // self.rate + self.ring

    def found(self, most):
        """The places, the loudest first."""
        out, total = self.played.out, self.played.total
        quiet = list(silences(out, total))
        taken = {it.at for it in quiet}
        loud = (it for it in jumps(out, total, most) if it.at not in taken)
        limited = (it for it in itertools.chain(self.limited(), *map(self.stopped, self.clipped)) if it.at < total)
        return heapq.nsmallest(most, itertools.chain(quiet, loud, limited), key=lambda it: (-it.size, it.at))

    def limited(self):
        """Where the sum is limited."""
        rows = limits_of(self.given, [(0, self.of_mix(self.played.total))]).rows if self.limits is None else self.limits
        for begin, end, level in zip(rows.begins, rows.ends, rows.levels):
            yield Click(self.of_device(begin), "is limited", level, (None, end - begin))

    def stopped(self, slot):
        """Where a client's own stages are at their limit."""
        rows = clipped_rows(self.clipped[slot], 0, self.of_mix(self.played.total))
        sizes = sizes_of(self.given[slot], [begin for begin, _ in rows])
        for (begin, end), size in zip(rows, sizes):
            yield Click(self.of_device(begin), "is limited", size, (slot, end - begin))

    def steps(self, frame):
        """How much each slot jumps at a frame of the mix, the greatest first."""
        at = self.of_mix(frame)
        found = [(max(abs(a - b) for a, b in zip(sound.frame(at), sound.frame(at - 1))), slot) for slot, sound in self.given.items()]
        return sorted((it for it in found if it[0]), reverse=True)

    def lines_before(self, frame):
        """The events between the interrupt that mixed the frame before and the one that mixes a frame."""
        first, last = turn_event(self.played, frame - 1), turn_event(self.played, frame)
        return range(-1 if first is None else first + 1, last or 0) if first != last else ()


def line_that(clicks, slot, frame):
    """The line right before a frame that sets a volume or a mute, or halts a client, and what that is; of the master where no slot is
    given; or None."""
    played, own = clicks.played, {at for it in clicks.solos[slot].openings for at in it.events} if slot is not None else ()
    for at in reversed([it for it in clicks.lines_before(frame) if it >= 0 and played.replies[it].startswith("ok")]):
        words, text = played.script.words(at), played.script.named(at)
        if slot is None and words[:2] == ["mixer", "master"] and len(words) > 2:
            return f"a volume, {text}"
        if slot is not None and words[0] == "mixer" and len(words) > 3 and value_of(words[2]) == slot:
            return f"a {'mute' if words[1] == 'mute' else 'volume'}, {text}"
        if at in own and words[2:3] == ["setplayvol"]:
            return f"a volume, {text}"
        if at in own and drops_all(words):
            return f"an end, {text}"
    return None


def frame_of(clicks, slot, found, frame, which=0):
    """Which frame of which run a moment is at, and the line that wrote it; of the frame before it where `which` is -1."""
    played, (opening, moment) = clicks.played, found
    size = size_of(moment.settings)
    event = turn_event(played, frame)
    if opening.way == "map":
        at = moment.passed // size + which
        poked = Poked(played, opening, event)
        place = poked.place(at * size)
        return f"frame {at} of its run {poked.runs}" + (f", {named(played, place)}" if place else "")
    written = Written(played, opening)
    number = written.run_at(event)
    if number is None:
        return "nothing that was written"
    run = written.runs[number]
    at = (moment.passed - run.base) // run.size + which
    place = written.place(number, at * run.size)
    return f"frame {at} of its run {number + 1}" + (f", {named(played, place)}" if place else "")


def why(clicks, it):
    """Why a place clicks."""
    frame = it.at - clicks.ring
    if it.does == "is limited":
        return why_limited(clicks, frame, *it.why)
    found = clicks.steps(frame)
    master = line_that(clicks, None, frame)
    if master and (not found or 2 * found[0][0] < it.size):
        return master
    return f"slot {found[0][1]}: {of_client(clicks, found[0][1], frame)}" if found else "the change of rates"


def why_limited(clicks, frame, slot, count):
    """Which limit a place has, for `count` frames."""
    if slot is not None:
        found = clicks.told[slot].get(frame)
        whose = f": {frame_of(clicks, slot, found.reached, frame)}" if found and found.reached else ""
        return f"slot {slot}: a limit of its own stages, an equaliser or a matrix, for {count} frames{whose}"
    slots = [str(slot) for slot, sound in clicks.given.items() if any(sound.frame(clicks.of_mix(frame)))]
    return f"a limit of the sum of slots {' and '.join(slots)}, for {count} frames"


def of_client(clicks, slot, frame):
    """Why a client jumps at a frame."""
    before, left, reached, behind = clicks.told[slot][frame]
    opening = (reached or left)[0]
    opened = f"opened by {clicks.played.script.named(opening.at)}"
    if behind and behind[1].missed:
        return f"a shortage, which begins; {opened}"
    if left and left[1].missed:
        return f"a shortage, which ends; {opened}"
    if reached and reached[1].started and not (left and left[1].started and left[0] == reached[0]):
        return f"a start: {frame_of(clicks, slot, reached, frame)}"
    if line_that(clicks, slot, frame):
        return line_that(clicks, slot, frame)
    gave = left and before and left[1].passed > before[1].passed
    gives = reached and behind and behind[1].passed > reached[1].passed
    if left and (gave or left[1].started) and not gives and not any(clicks.given[slot].frame(clicks.of_mix(frame))):
        return f"an end: {frame_of(clicks, slot, left, frame - 1, -1)}"
    at = clicks.of_mix(frame)
    if is_clipped(clicks.clipped[slot], max(at - 1, 0), at + 1):
        return f"a limit of its own stages, before its volume: {frame_of(clicks, slot, reached, frame)}"
    return f"a jump in what was written: {frame_of(clicks, slot, reached, frame)}"


def clicks_of(played, most):
    """The places at which OUT clicks, the loudest first, with their causes."""
    solos = solos_of(played)
    clicks = Clicks(played, most, Known(solos, given_by(solos), {slot: clipped(it) for slot, it in solos.items()}, None))
    clicks.ask()
    return clicks.explained()


def told_click(played, it):
    """A line for a place."""
    return f"frame {it.at}, {it.at / played.device.rate:.4f} s, {it.does}, by {it.size}: {it.why}"
