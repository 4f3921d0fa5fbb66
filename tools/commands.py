"""What every tool is as a command: its words, its faults, how far it is, and how it ends.

The status is 0, 2 of wrong words, 130 after Ctrl-C, 141 where nobody reads on, and of any other fault 1 or what the tool says.
A fault is one line on standard error. Every tool has --help, --version and --program.
"""
import collections
import fractions
import os
import pathlib
import re
import signal
import sys
import time

from places import PLACES, ROOT, built, tried

UNREAD, WRONG = 141, 2
# the words of a call: its options by their names, the other words, and both in their order, where those have no name
Words = collections.namedtuple("Words", "options others both")


class Fault(Exception):
    """Why a tool ends without what was wanted of it."""


class WrongWords(Fault):
    """What is wrong with the words of a call."""


def fail(text):
    raise Fault(text)


def stop(number, _):
    sys.exit(128 + number)


# what ends a tool lets it clear up first, unless its caller wants that ignored
for ends in (signal.SIGINT, signal.SIGTERM, signal.SIGHUP):
    if signal.getsignal(ends) is not signal.SIG_IGN:
        signal.signal(ends, stop)


def name():
    return pathlib.Path(sys.argv[0]).name


def say(text):
    """Prints a line on standard error, if somebody is there to read it. What would end the line is written by its number."""
    text = re.sub(r"[\x00-\x1f\x7f]", lambda it: f"\\x{ord(it[0]):02x}", str(text))
    try:
        print(f"{name()}: {text}", file=sys.stderr or open(os.devnull, "w", encoding="utf-8"), flush=True)
    except OSError:
        pass


def program_of(named):
    """The program that was named, or else a proved one, or what scripts/try keeps."""
    found = pathlib.Path(named) if named else built()
    if found is None and tried():
        found = tried()
        say(f"the program isn't built: {found.relative_to(ROOT)} is taken, which scripts/try keeps, unproved and slow")
    if found is None:
        places = ", ".join(map(str, PLACES))
        fail(f"no program at {places}: scripts/build makes it, scripts/try an unproved one, and --program PATH names another")
    if not found.is_file() or not os.access(found, os.X_OK):
        fail(f"{found}: no program that can be run; --program names one")
    return found.resolve()


def whole(least, most):
    """What reads a whole number within limits."""
    def read(word):
        if not re.fullmatch(r"\d{1,20}", word) or not least <= int(word) <= most:
            raise WrongWords(f"{least} to {most}")
        return int(word)

    return read


def seconds(word):
    """Reads seconds as an exact number."""
    found = re.fullmatch(r"\d{1,9}(\.\d{0,30})?|\.\d{1,30}", word)
    return fractions.Fraction(word) if found else wrong("0 or more seconds")


def one_of(*names):
    """What reads one of some words."""
    def read(word):
        return word if word in names else wrong(f"one of {', '.join(names)}")

    return read


def wrong(text):
    raise WrongWords(text)


def value_of(option, kind, words):
    """The value of an option, which is a part of its word or the next word."""
    title, equals, value = option.partition("=")
    if not equals and words[:1] in ([], ["--"]):
        wrong(f"{title} wants a value")
    value = value if equals else words.pop(0)
    try:
        return title, kind(value)
    except WrongWords as fault:
        return wrong(f"{title} is {fault}: {value!r} isn't")


def read_words(words, options):
    """The words of a call. Each option has what reads its value, or None where it has no value. What begins
    as a number does is no option, and after `--` nothing is."""
    options, words, both = {**options, "--program": str}, list(words), []
    while words:
        word = words.pop(0)
        title = word.partition("=")[0]
        if word == "--":
            both += [(None, it) for it in words]
            break
        if re.match(r"-?[\d.]|-?$|[^-]", word):
            both.append((None, word))
        elif title not in options:
            wrong(f"{title} is no option: {', '.join(sorted([*options, '--help', '--version']))} are")
        elif options[title] is None:
            both.append((word, True) if word == title else wrong(f"{title} has no value"))
        else:
            both.append(value_of(word, options[title], words))
    return Words({title: value for title, value in both if title}, [value for title, value in both if not title], both)


def usage(doc):
    """The lines of a help that say how a tool is called: those of its first paragraph that is set in."""
    return next(it for it in doc.split("\n\n") if it.startswith("  ")).rstrip()


def version():
    """The version that the changelog names first, with a plus where changes stand above it."""
    file = ROOT / "CHANGELOG.md"
    heads = re.findall(r"(?m)^## (\S+)", file.read_text(encoding="utf-8")) if file.is_file() else []
    found = next((it for it in heads if it[0].isdigit()), None)
    return "unreleased" if not found else found if heads[0] == found else f"{found}+"


def asked(act, doc, options, words):
    """Does what the words of a call ask for. Answers the status."""
    before = words[:words.index("--")] if "--" in words else words
    if {"--help", "-h"} & set(before):
        print(doc.strip())
        return 0
    if "--version" in before:
        print(f"{name()}, of dsp_replay {version()}")
        return 0
    if not words:
        print(f"usage:\n{usage(doc)}", file=sys.stderr or open(os.devnull, "w", encoding="utf-8"))
        return WRONG
    return act(read_words(words, options)) or 0


def unheard(status):
    """Where standard output is gone or full, nothing of it is tried again as python ends."""
    os.dup2(os.open(os.devnull, os.O_WRONLY), sys.stdout.fileno())
    return status


def ended(act, doc, options, words, faulty):
    """The status of a call, with a line on standard error where it has a fault."""
    try:
        status = asked(act, doc, options, words)
        if sys.stdout:
            sys.stdout.flush()
        return status
    except WrongWords as fault:
        say(f"{fault}; {name()} --help says more")
        return WRONG
    except Fault as fault:
        say(fault)
    except BrokenPipeError:
        return unheard(UNREAD)
    except OSError as fault:
        say(f"{fault.filename or 'standard output'}: {fault.strerror or fault}")
        return unheard(faulty) if fault.filename is None else faulty
    except MemoryError:
        say("out of memory")
    return faulty


def command(act, doc, options=None, faulty=1):
    """Ends python with the status of a call by the words of this process."""
    for stream in filter(None, (sys.stdout, sys.stderr)):
        stream.reconfigure(encoding="utf-8", errors="surrogateescape")
    sys.exit(ended(act, doc, options or {}, sys.argv[1:], faulty))


class Progress:
    """A line on standard error that says how far something is, once it takes longer than a second and where that is a terminal."""

    def __init__(self, what):
        self.what, self.begun, self.told = what, time.monotonic(), 0

    def at(self, done, of):
        """Says how much is done, if it is time to."""
        spent = time.monotonic() - self.begun
        if not sys.stderr or not sys.stderr.isatty() or spent < 1 or spent - self.told < 0.2:
            return
        left = f", {spent * (of - done) / done:.0f} s still" if done else ""
        print(f"\r{name()}: {self.what}: {100 * done // max(of, 1)} %{left}\033[K", end="", file=sys.stderr, flush=True)
        self.told = spent

    def end(self):
        if self.told:
            print("\r\033[K", end="", file=sys.stderr, flush=True)


def told(parts, what, total):
    """Parts of a whole, each with where it begins and ends, while a line says how far they are."""
    progress = Progress(what)
    try:
        for begin, end in parts:
            progress.at(begin, total)
            yield begin, end
    finally:
        progress.end()
