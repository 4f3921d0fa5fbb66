"""Scripts as the tools read them: their events, what a comment expects, what a configuration's device is, and how one is run."""
import array
import bisect
import collections
import functools
import itertools
import json
import os
import pathlib
import re
import tempfile

try:
    import tomllib
except ImportError:  # before python 3.11
    tomllib = None

from calls import call_into, judge
from commands import fail
from sounds import WIDTH, Device, size_of, sound_of

# one opening of a channel: the events that opened it and closed it, or None, its way, slot and descriptor, the events that ask something
# of it, these two with them, and whether it was in a group
Opening = collections.namedtuple("Opening", "at closed way slot descriptor events joins")
# the greatest ring of a client, two fragments of 65536 bytes; a number of frames of the device that mix no more than fits into it;
# and how many frames are mixed at most beside those that last as long as what is handed over
GREATEST_RING = 0x20010
FEW = 1024
AHEAD = 34
# the events of a script, and the bytes of its OUT, at most
EVENTS, BYTES = 1 << 20, 1 << 28
# texts up to so long are kept once, however often they come
SHORT = 24
# how many lines are written at once
AT_ONCE = 1 << 13
# the numbers of a device whose configuration names none
USUAL = {"channels": "2", "rate": "48000", "hw_block": "256", "hw_blocks": "4"}
COMMENT = re.compile(r"(?:^|[ \t])#")


class Script:
    """The events of a script: of each its text, with single blanks, the number of its line, and its comment where it has one."""

    def __init__(self, text):
        self.events, self.numbers, self.comments, self.known = [], array.array("l"), {}, {}
        for number, line in enumerate(text.split("\n"), 1):
            self.take(number, line[:-1] if line.endswith("\r") else line)

    def take(self, number, line):
        """Keeps a line, if it is an event."""
        found = COMMENT.search(line) if "#" in line else None
        text = line[:found.start()] if found else line
        if "\t" in text or "  " in text or text[:1] == " " or text[-1:] == " ":
            text = " ".join(re.split(r"[ \t]+", text.strip(" \t")))
        if text:
            if found:
                self.comments[len(self.events)] = line[found.end():].strip()
            self.events.append(self.known.setdefault(text, text) if len(text) < SHORT else text)
            self.numbers.append(number)

    def words(self, at):
        return self.events[at].split(" ")

    def named(self, at):
        """An event with the number of its line."""
        return f"line {self.numbers[at]}: {shortened(self.events[at])}"


def shortened(text, most=60):
    """A text of which the end is left out where it is long."""
    return text if len(text) <= most else text[:most] + ".."


def settled(text):
    """The lines of a configuration's text, each with the key that it sets and its value, or two empty texts."""
    table = ""
    for line in text.splitlines():
        head = re.match(r"\s*\[+\s*([\w.]+)\s*\]+", line)
        pair = re.match(r"""\s*([\w.]+)\s*=\s*("(?:\\.|[^"\\])*"|'[^']*'|[\w.+-]+)""", line)
        if head:
            table = head.group(1) + "."
        yield (line, table + pair.group(1), unquoted(pair.group(2))) if pair and not head else (line, "", "")


def unquoted(value):
    """A value of TOML as it is without its quotes."""
    try:
        return json.loads(value) if value.startswith('"') else value.strip("'")
    except ValueError:
        return value.strip('"')


@functools.lru_cache(16)
def keys_of(text):
    """What the tables of a configuration's text set, by table and key: read as TOML where python can, else line by line. A text that is
    none sets nothing: its faults are the program's to report."""
    if tomllib is None:
        return {key: value for _, key, value in settled(text)}
    try:
        tables = tomllib.loads(text)
    except tomllib.TOMLDecodeError:
        return {}
    return {f"{table}.{key}": str(value) for table, keys in tables.items() if isinstance(keys, dict) for key, value in keys.items()}


def has_entries(text, name):
    """Whether a configuration's text has an array of tables, as `eq`."""
    return bool(re.search(rf"(?m)^\s*(\[\[\s*{name}\s*\]\]|{name}\s*=)", text))


def count_of(keys, key, usual):
    """The number that a configuration gives a key. Where it is none the program says so."""
    try:
        return int(keys.get(key, usual), 0)
    except ValueError:
        return int(usual)


def device_of(text):
    """The device of a configuration's text."""
    keys = keys_of(text)
    count = {name: count_of(keys, f"device.{name}", usual) for name, usual in USUAL.items()}
    form, ring = keys.get("device.format", "s16le"), count["hw_block"] * count["hw_blocks"]
    return Device(form if form in WIDTH else "s16le", count["channels"], count["rate"], ring, count["hw_block"])


def value_of(word):
    """A number of a script."""
    return int(word, 16) if word[:2] in ("0x", "0X") else int(word)


def parts_of(count, most):
    """A number in parts of at most so much."""
    return [min(count - at, most) for at in range(0, count, most)]


def with_a_gauge(counts, rate, device_rate):
    """A script with one client, at the rate of the mix, that is never short. After each interrupt: what was taken of it?"""
    yield from (f"open 0 play u8 1 {rate}", f"ioctl 0 setfragment {GREATEST_RING}")
    handed = written = 0
    for count in counts:
        for part in parts_of(count, FEW):
            handed += part
            for more in parts_of(-(-handed * rate // device_rate) + AHEAD - written, 4096):
                written += more
                yield f"write 0 {'00' * more}"
            yield from ("ioctl 0 post", f"intr {part}")
        yield "ioctl 0 getoptr"
    yield "ioctl 0 geterror"


def rates_of(text):
    """The rate and the channels of the mix that a configuration states, by these names."""
    keys = keys_of(text)
    return {key[7:]: count_of(keys, key, "0") for key in keys if key in ("vchans.rate", "vchans.channels")}


UNREADABLE = "the configuration is written in a form that is not understood: lines of a key and its value below the name of their table are"


def with_device(text, settings, gone=()):
    """The text of a configuration whose device has other settings, by their keys, and without some keys."""
    gone = {*gone, "device.capture", *(f"device.{key}" for key in settings)}
    kept = [(line, key) for line, key, _ in settled(text) if key not in gone]
    head = next((k for k, (line, _) in enumerate(kept) if re.match(r"\s*\[\s*device\s*\]", line)), None)
    at = 0 if head is None else head + 1
    rows = [f"{'device.' if head is None else ''}{key} = {value}" for key, value in settings.items()]
    found = "".join(line + "\n" for line in [*(line for line, _ in kept[:at]), *rows, *(line for line, _ in kept[at:])])
    if set(gone) & set(keys_of(found)) - {f"device.{key}" for key in settings}:
        fail(UNREADABLE)
    if any(keys_of(found).get(f"device.{key}") != str(value).strip('"') for key, value in settings.items()):
        fail(UNREADABLE)
    return found


def on_the_mix(text):
    """The text of a configuration whose device has the rate and the channels of the mix of another one, a ring that lasts as long,
    and captures nothing."""
    device = device_of(text)
    mix = {"rate": device.rate, "channels": device.channels, **rates_of(text)}
    mix["hw_block"] = min(max(device.block * mix["rate"] // device.rate, 1), 4096)
    return with_device(text, mix, ("vchans.rate", "vchans.channels"))


class Room:
    """A folder in which the program runs scripts over one configuration, until it is left."""

    def __init__(self, program, config=""):
        self.program, self.config, self.device = program, config, device_of(config)
        self.folder, self.count = tempfile.TemporaryDirectory(), 0

    def run(self, events, config=None, size=0, does="the program runs", wanted=None):
        """Runs a script of these events. Answers its replies in their order, or those to events of wanted numbers, from 0 on; and the
        frames of OUT."""
        config = self.config if config is None else config
        if len(events) > EVENTS:
            fail(f"the script is too long: with what is asked of the program it has {len(events)} events, and {EVENTS} are the most")
        self.count += 1
        script, out, toml = (pathlib.Path(self.folder.name) / f"{self.count}.{end}" for end in ("script", "out", "toml"))
        write_lines(script, events)
        toml.write_text(config, "utf-8", "surrogateescape")
        with tempfile.TemporaryFile(dir=self.folder.name) as printed:
            judge(*call_into(printed, self.program, "run", script, out, *([toml] if config else []), out=out, size=size, does=does))
            os.remove(script)
            return replies_of(printed, wanted), sound_of(out, device_of(config))

    def forget(self, sound):
        """Removes frames that nobody asks for any more."""
        os.remove(sound.file.name)


def write_lines(path, events):
    """Writes lines into a file, many at once."""
    with open(path, "w", encoding="utf-8", errors="surrogateescape", newline="\n") as file:
        for at in range(0, len(events), AT_ONCE):
            file.write("\n".join(events[at:at + AT_ONCE]) + "\n")


def replies_of(printed, wanted):
    """The replies of a run, each kept once, or those to some events, whose numbers grow."""
    printed.seek(0)
    known, found = {}, []
    if wanted is None:
        lines = (line.decode().rstrip("\n").partition(": ")[2] for line in printed)
        return [known.setdefault(it, it) if len(it) < SHORT else it for it in lines]
    numbered, at = iter(printed), -1
    for number in wanted:
        line = next(itertools.islice(numbered, number - at - 1, None))
        found.append(line.decode().rstrip("\n").partition(": ")[2])
        at = number
    return found


class Played:
    """A script that was run: its replies, what its interrupts hand over, and its openings; and the frames of OUT, after which stands
    what the device's ring holds at the end, unless the script is as long as one can be."""

    def __init__(self, room, script):
        self.room, self.script, self.device = room, script, room.device
        self.turns = array.array("l", (at for at, text in enumerate(script.events) if text.startswith("intr") and text[4:5] in ("", " ")))
        self.counts = array.array("l", map(self.count, self.turns))
        self.ends = array.array("q", itertools.accumulate(self.counts))
        self.total = self.ends[-1] if self.ends else 0
        size = (self.total + self.device.ring) * size_of(self.device)
        more = self.device.ring if len(script.events) < EVENTS and size <= BYTES else 0
        self.replies, self.out = room.run([*script.events, *[f"intr {more}"] * (more > 0)], size=size)
        if self.out.frames != self.total + more:
            fail(UNREADABLE)
        self.openings, self.known = openings_of(script, self.replies), {}

    def mixers(self):
        """The events that ask something of the mixer device."""
        return (at for at, text in enumerate(self.script.events) if text.startswith("mixer"))

    def mixed(self):
        """How many frames each interrupt mixes."""
        if "mixed" not in self.known:
            self.known["mixed"] = mixed_turns(self.room, self.counts)
        return self.known["mixed"]

    def count(self, at):
        """How many frames an interrupt hands over."""
        words = self.script.words(at)
        return value_of(words[1]) if len(words) > 1 and re.fullmatch(r"0[xX][0-9a-fA-F]+|\d+", words[1]) else self.device.block

    def handed(self, at):
        """How many frames are handed over before an event."""
        turn = bisect.bisect_left(self.turns, at)
        return self.ends[turn - 1] if turn else 0

    def turn_of(self, frame):
        """Which interrupt hands a frame over, counted from 0, or None."""
        return bisect.bisect_right(self.ends, frame) if 0 <= frame < self.total else None

    def spans(self):
        """The interrupts: the frames that each hands over, from the first to the one after the last."""
        return zip([0, *self.ends], self.ends)

    def slots(self):
        """The slots of clients that are heard, each with the first event that opened it."""
        slots = {}
        for it in self.openings:
            if it.way != "rec":
                slots.setdefault(it.slot, it.at)
        return dict(sorted(slots.items()))


def openings_of(script, replies):
    """Every opening of a script, in the order of their events."""
    found, held = [], {}
    for at, text in enumerate(script.events):
        command, _, rest = text.partition(" ")
        if command in ("intr", "mixer"):
            continue
        descriptor, reply = value_of(rest.partition(" ")[0]), replies[at]
        if command == "open" and reply.startswith("ok"):
            held[descriptor] = len(found)
            way, slot = rest.split(" ")[1], int(reply.split(" ")[1])
            found.append(Opening(at, None, way, slot, descriptor, array.array("l"), False))
        if descriptor in held:
            look_at(found, held[descriptor], at, rest, reply)
        if command == "close":
            held.pop(descriptor, None)
    return [it._replace(closed=it.events[-1] if script.events[it.events[-1]].startswith("close") else None) for it in found]


def look_at(openings, which, at, rest, reply):
    """Keeps an event of an opening."""
    openings[which].events.append(at)
    if " syncgroup " in f" {rest}" and reply.startswith("ok"):
        openings[which] = openings[which]._replace(joins=True)


def mixed_turns(room, counts):
    """How many frames each interrupt mixes: as many as it hands over, or what it takes of a client at the rate of the mix."""
    counts, rates = list(counts), rates_of(room.config)
    if "rate" not in rates or not counts:
        return counts
    replies, sound = room.run(list(with_a_gauge(counts, rates["rate"], room.device.rate)), does="the program says what is mixed")
    room.forget(sound)
    if "underruns=0" not in replies[-1]:
        fail("how many frames are mixed can't be known: a client at the rate of the mix was short")
    taken = [int(answer.split()[1][6:]) for answer in replies if answer.startswith("ok bytes=")]
    return [after - before for before, after in zip([0, *taken], taken)]
