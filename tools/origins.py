"""Which line brought a frame of a client, and which of its bytes, by what the program replied."""
import array
import bisect
import collections

from clients import CODES
from scripts import keys_of, shortened, value_of
from sounds import WIDTH

# a row of writes that play as one: how many bytes of runs before it the position counts, the bytes of its frame, the events that wrote,
# and how many bytes it had after each
Run = collections.namedtuple("Run", "base size events ends")
# the bytes of the area of a mapped channel after its open
AREA = 16384


class Settings:
    """The bytes of a frame of an opening, after the events that were taken."""

    def __init__(self, words):
        self.form, self.channels = (words[3], int(words[4])) if len(words) > 4 else ("u8", 1)

    def take(self, words, reply):
        """Takes an event. Answers whether it changed something."""
        before = self.form, self.channels
        if words[2:3] == ["setfmt"] and reply.startswith("ok "):
            self.form = CODES[int(reply.split()[1])]
        if words[2:3] == ["channels"] and reply.startswith("ok "):
            self.channels = int(reply.split()[1])
        return before != (self.form, self.channels)

    def size(self):
        return WIDTH[self.form] * self.channels


def drops_all(words):
    """Whether an event is one that drops what waits and begins the position again, where something was written."""
    return words[2:3] == ["halt"] or words[2:3] == ["settrigger"] and value_of(words[3]) < 2


def ends_softly(words):
    return words[0] == "close" or words[2:3] == ["sync"]


class Written:
    """What a client that plays wrote, run by run."""

    def __init__(self, played, opening):
        self.runs, self.is_open, self.ends_soon, self.base = [], False, False, 0
        self.settings = Settings(played.script.words(opening.at))
        for at in opening.events:
            self.take(at, played.script.words(at), played.replies[at])

    def take(self, at, words, reply):
        """Takes an event of the client with its reply."""
        self.settings.take(words, reply)
        if words[0] in ("write", "send") and reply.startswith("ok ") and int(reply.split()[1]):
            self.write(at, int(reply.split()[1]))
        elif words[2:3] == ["halt"] or drops_all(words) and reply == "ok" and self.is_open and not self.ends_soon:
            self.is_open, self.ends_soon, self.base = False, False, 0
        elif ends_softly(words):
            self.ends_soon = self.is_open

    def write(self, at, count):
        """Takes bytes that were accepted. After a drain they begin another run, as it refuses any."""
        if self.ends_soon:
            run = self.runs[-1]
            self.base, self.is_open, self.ends_soon = run.base + run.ends[-1] // run.size * run.size, False, False
        if not self.is_open:
            self.runs.append(Run(self.base, self.settings.size(), array.array("l"), array.array("q")))
            self.is_open = True
        run = self.runs[-1]
        run.events.append(at)
        run.ends.append(count + (run.ends[-1] if run.ends else 0))

    def run_at(self, event):
        """The number of the run that was written last before an event, from 0 on, or None."""
        found = [k for k, it in enumerate(self.runs) if it.events[0] <= event]
        return found[-1] if found else None

    def place(self, run, byte):
        """The event that wrote a byte of a run, and which of its own it is; or None where nothing was written."""
        if not 0 <= byte < self.runs[run].ends[-1]:
            return None
        which = bisect.bisect_right(self.runs[run].ends, byte)
        return self.runs[run].events[which], byte - (self.runs[run].ends[which - 1] if which else 0)


class Poked:
    """What a mapped client poked into its area."""

    def __init__(self, played, opening, before):
        self.settings, self.area, self.pokes = Settings(played.script.words(opening.at)), AREA, []
        self.runs, self.is_on, self.is_running = 0, True, False
        for at in opening.events:
            if at < before:
                self.take(at, played.script.words(at), played.replies[at])

    def take(self, at, words, reply):
        """Takes an event. An area that has another form begins again."""
        if self.settings.take(words, reply):
            self.pokes = []
        if words[2:3] == ["setfragment"] and reply.startswith("ok "):
            area = (int(reply.split()[1]) >> 16) << (int(reply.split()[1]) & 0xFFFF)
            self.area, self.pokes = area, self.pokes if area == self.area else []
        if words[2:3] in (["settrigger"], ["post"], ["halt"]) and reply == "ok":
            self.turn(words)
        if words[0] == "poke" and reply == "ok":
            self.pokes.append((at, value_of(words[2]), len(words[3].strip("-")) // 2))

    def turn(self, words):
        """Takes what starts or stops the channel."""
        if words[2] == "settrigger":
            self.is_on = value_of(words[3]) > 1
        starts = words[2] != "halt" and self.is_on and not self.is_running
        self.runs += starts
        self.is_running = starts or self.is_running and not drops_all(words)

    def place(self, byte):
        """The event that poked a byte last, counted as the area goes round, and which of its own it is; or None."""
        byte %= self.area
        for at, begin, count in reversed(self.pokes):
            if begin <= byte < begin + count:
                return at, byte - begin
        return None


class Kept:
    """The reads of a recording since it started last before an event."""

    def __init__(self, played, opening, event):
        self.events, self.ends = [], []
        for at in opening.events:
            words, reply = played.script.words(at), played.replies[at]
            is_halt = words[2:3] == ["halt"] or words[2:3] == ["settrigger"] and value_of(words[3]) in (0, 2)
            if is_halt and at > event:
                break
            if is_halt:
                self.events, self.ends = [], []
            if words[0] == "read" and reply.startswith("ok "):
                self.events.append(at)
                self.ends.append(int(reply.split()[1]) + (self.ends[-1] if self.ends else 0))

    def place(self, byte):
        """The event that read a byte of those kept, and which of its own it is; or None."""
        which = bisect.bisect_right(self.ends, byte)
        return (self.events[which], byte - (self.ends[which - 1] if which else 0)) if which < len(self.events) else None


def files_of(config):
    """The paths of a configuration's files by their names."""
    return {key[6:]: value for key, value in keys_of(config).items() if key.startswith("files.")}


def named(played, place):
    """A line and a byte of it in words: `line 4411: write 0, its byte 1836`; of a wave that is sent its own byte, too."""
    at, byte = place
    words = played.script.words(at)
    more = ""
    if words[0] == "send":
        path = files_of(played.room.config).get(words[2], words[2])
        more = f", byte {value_of(words[3]) + byte} of the body of {shortened(path)}"
    short = " ".join(words[:3] if words[0] == "send" else words[:2])
    return f"line {played.script.numbers[at]}: {short}, its byte {byte}{more}"


def named_range(played, first, last, is_one=False):
    """Where bytes from one to another one come from, by their places; of one frame within a line its first byte alone."""
    if first is None or last is None or first == last or is_one and first[0] == last[0]:
        return named(played, first or last) if first or last else "nothing that was written"
    if first[0] == last[0]:
        return f"{named(played, first)}, to its byte {last[1]}"
    return f"{named(played, first)}, to {named(played, last)}"
