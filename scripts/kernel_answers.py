"""What scripts/kernel compares: the replies of a kernel and of the program, what both make sound, and which differences are known."""
import collections
import fnmatch

from calls import text_of
from commands import fail

# a difference: the script, its line, what the kernel answers and what the program does
Apart = collections.namedtuple("Apart", "script line kernel program")
# the line that reports the sound of a script
SOUND = "sound"


class Known:
    """The differences that are known, a line each: patterns of a script, of its line and of both replies, where `*` is anything."""

    def __init__(self, path):
        lines = [it.partition("#")[0].strip() for it in text_of(path).splitlines()]
        self.path, self.rows, self.used = path, [tuple(part.strip() for part in it.split("|")) for it in lines if it], set()
        wrong_one = next((it for it in self.rows if len(it) != 4), None)
        if wrong_one:
            fail(f"{path}: four patterns stand in a line, with | between: {' | '.join(wrong_one)}")

    def has(self, apart):
        """Whether a difference is known. The first row that fits is used by it."""
        found = next((row for row in self.rows if all(map(fnmatch.fnmatchcase, apart, row))), None)
        self.used.add(found)
        return found is not None

    def unused(self):
        return [it for it in self.rows if it not in self.used]


class Tally:
    """What came of a card: how many replies and sounds there are, how many are the same, how many would be if a call didn't wait, and what
    is new."""

    def __init__(self, known):
        self.known, self.new, self.replies, self.sounds, self.waits = known, [], collections.Counter(), collections.Counter(), 0

    def add(self, counter, apart, same):
        """Counts one reply, or one sound."""
        kind = "same" if same else "known" if self.known.has(apart) else "new"
        counter[kind] += 1
        if kind == "new":
            self.new.append(apart)

    def add_replies(self, case, kernel, program):
        for event, one, two in zip(case.events, kernel, program):
            self.add(self.replies, Apart(case.name, event, one, two), one == two)
            self.waits += one in ("waits", f"waits, then {two}")

    def add_sound(self, case, told, sounds):
        """Counts the sound of a script that sounds, by what is reported of it."""
        if sounds:
            self.add(self.sounds, Apart(case.name, SOUND, told, "same"), told == "same")


def replies_in(text, own):
    """The replies to the lines that a script has itself, of what a performer printed."""
    lines = [it.partition(": ")[2] for it in text.splitlines()]
    return [it for it, is_own in zip(lines, own) if is_own] if len(lines) == len(own) else None


def told_exactly(kernel, program, size):
    """What is reported of the sound of a card whose frames come exactly: the first frame that is another."""
    if kernel == program:
        return "same"
    both = zip(range(0, max(len(kernel), len(program)), size), range(size, max(len(kernel), len(program)) + size, size))
    return f"frame {next(begin // size for begin, end in both if kernel[begin:end] != program[begin:end])} is another"


def heard(data, size):
    """The frames from the first to the last that isn't silent."""
    sounding = [at for at in range(0, len(data), size) if any(data[at:at + size])]
    return data[sounding[0]:sounding[-1] + size] if sounding else b""


def told_as_heard(kernel, program, size):
    """What is reported of the sound of a card that goes by a clock: whether all is heard, wherever it begins."""
    one, two = heard(kernel, size), heard(program, size)
    return "same" if one == two else "nothing is heard" if not one else "it is another"
