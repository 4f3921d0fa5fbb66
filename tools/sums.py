"""What the slots of a script give to the mix, and where the sum of it is limited."""
import array
import collections
import itertools
import operator

from clients import Solo
from commands import told
from sounds import full_scale, joined

# the samples that were limited, by their number; the rows of frames that have one; and how far the sum would go without a limit
Limits = collections.namedtuple("Limits", "count rows peak full")
# how many frames are looked at in one go; and how many of the first ones of a row show how far its sum goes
PART, FIRST = 4096, 1 << 14


def solos_of(played):
    """The clients of each slot that is heard, one after another."""
    return {slot: Solo(played, [it for it in played.openings if it.slot == slot and it.way != "rec"]) for slot in played.slots()}


def given_by(solos):
    """What each slot gives, at a master of one."""
    return {slot: it.given() for slot, it in solos.items()}


def may_pass(given, begin, end, full):
    """Whether a sum of some slots can pass the limit among frames, by what each slot reaches there."""
    least = most = 0
    for sound in given:
        bounds = sound.extremes(begin, end)
        least, most = least + min(it for it, _ in bounds), most + max(it for _, it in bounds)
        if least < -full or most >= full:
            return True
    return False


def outside(sums, full):
    """The places of the numbers that pass the limit, in their order."""
    above = itertools.compress(itertools.count(), map(full.__le__, sums))
    below = itertools.compress(itertools.count(), map((-full).__gt__, sums))
    return sorted([*above, *below])


def summed(given, begin, end, full):
    """The places of the samples among frames at which a sum is limited, by the number of the slot, with the greatest size of a sum; and the
    sums of all slots as they are without a limit."""
    total, peak, found = given[0].samples(begin, end), 0, []
    plain = total
    for which, sound in enumerate(given[1:], 1):
        samples, is_plain = sound.samples(begin, end), plain is total
        total = list(map(operator.add, total, samples))
        plain = total if is_plain else list(map(operator.add, plain, samples))
        peak = max(peak, max(plain), -min(plain) - 1)
        if max(total) >= full or min(total) < -full:
            found.append((which, outside(total, full), peak))
            total = [*total]
            for at in found[-1][1]:
                total[at] = full - 1 if total[at] > 0 else -full
    return found, plain


def limited_at(given, begin, end, full):
    """The same, the places alone."""
    return summed(given, begin, end, full)[0]


class Rows:
    """Rows of frames with how far the sum goes in the first frames of each, as they are found one after another."""

    def __init__(self):
        self.begins, self.ends, self.levels = (array.array("q") for _ in range(3))

    def __len__(self):
        return len(self.begins)

    def __iter__(self):
        return zip(self.begins, self.ends)

    def take(self, rows, first, total, channels):
        """Takes rows of neighbouring frames, with the sums from one of the frames on: rows that touch the last one are a part of it."""
        for begin, end in rows:
            self.put(begin, end, total[(begin - first) * channels:(end - first) * channels], channels)

    def put(self, begin, end, total, channels):
        if self.ends and self.ends[-1] == begin:
            self.ends[-1] = end
            total = total[:max(self.begins[-1] + FIRST - begin, 0) * channels]
            self.levels[-1] = max(self.levels[-1], *reached(total)) if total else self.levels[-1]
        else:
            self.begins.append(begin)
            self.ends.append(end)
            self.levels.append(max(reached(total)))


def reached(total):
    """How far sums go up and down."""
    return max(total), -min(total)


def limits_of(given, ranges):
    """Where the sum of what the slots give is limited, in rows of frames."""
    sounds, count, rows, peak = list(given.values()), 0, Rows(), 0
    full, channels = (full_scale(sounds[0].device), sounds[0].device.channels) if sounds else (1, 1)
    parts = (part for begin, end in ranges for part in sounds[0].parts(begin, end, PART)) if len(sounds) > 1 else ()
    for begin, end in told(parts, "limits are looked for", ranges[-1][1] if ranges else 1):
        if may_pass(sounds, begin, end, full):
            found, total = summed(sounds, begin, end, full)
            samples = dict.fromkeys(sorted(itertools.chain.from_iterable(places for _, places, _ in found)))
            count, peak = count + len(samples), max([peak, *(it for _, _, it in found)])
            rows.take(joined(dict.fromkeys(begin + it // channels for it in samples)), begin, total, channels)
    return Limits(count, rows, peak, full)


def merged(rows):
    """Rows of frames, those that touch or overlap as one."""
    found = []
    for begin, end in rows:
        if found and found[-1][1] >= begin:
            begin, end = found[-1][0], max(end, found.pop()[1])
        found.append((begin, end))
    return found
