"""Trials of tools/compare: device files, transcripts, and scripts with the answers that are expected."""
import itertools
import subprocess

from trials_shared import DEVICE_FORMATS, LAYOUTS, ROOT, ask, called, device, equal, tool

SCRIPT = """# what is answered stands after each line

open 0 play s16le 2 48000   # ok 0
open 1 play u8 1 8000       # ok 1
write 0 01000200            # ok 4
write 1 90a0                # ok 2
ioctl 0 post                # ok
ioctl 1 post
intr 16                     # ok 16
close 1
intr 16                     # ok 16
write 1 00                  # refused badf
"""
# two bytes of a client at 8000 last for 12 frames, and sound for six after each. In eight bits the other client, whose sample is 2 of 32768, is
# not heard
HEARD = {0: "slot 0, opened by line 3: open 0 play s16le 2 48000,", 1: "slot 1, opened by line 4: open 1 play u8 1 8000,"}


def try_compare(program, folder):
    """Two runs that differ by the gain of one slot, on every device."""
    script, louder = folder / "script", folder / "louder"
    script.write_text(SCRIPT)
    louder.write_text("mixer slot 1 50\n" + SCRIPT)
    one, two = folder / "one", folder / "two"
    layouts = itertools.cycle(LAYOUTS)
    for form, channels in ((form, next(layouts)) for form in DEVICE_FORMATS for _ in range(2)):
        config = device(folder, form, channels)
        ask(program, "run", script, one, config)
        ask(program, "run", louder, two, config)
        equal("equal files", tool("compare", one, one, script, config, "--program", program), (0, ""))
        status, said = tool("compare", one, two, script, config, "--program", program)
        lines, heard = said.splitlines(), [1] if form in ("u8", "s8") else [0, 1]
        equal(f"compare {form} {channels}", (status, lines[0].split(":")[0]), (1, "frame 16 is the first that differs"))
        wanted = ["  mixed by line 9: intr 16", "  handed over by line 11: intr 16", *(f"  {HEARD[it]} is heard there" for it in heard)]
        equal(f"compare {form} {channels}", lines[3:], wanted + [f"{HEARD[it]} is heard in 1 of 1 places" for it in heard])
        most = int(lines[1].split()[-1])
        if channels < 4:
            equal(f"tolerance {form}", tool("compare", "--tolerance", most, one, two, script, config), (0, ""))


# an example with a line left out, or with another before its first: the first frame that differs, which events that comes of, and who is heard
OTHERS = {
    "12-a-mix-of-one-channel": ("mixer slot 0 0\n{}", [
        "frame 8 is the first that differs: 500 500, and 0 0", "  mixed by line 8: intr", "  handed over by line 10: intr",
        "  slot 0, opened by line 2: open 0 play s16le 2 48000, is heard there"]),
    "14-a-group-that-starts": ("ioctl 1 syncstart 1\nintr", [
        "frame 15 is the first that differs: 1000 -1000, and 0 0", "  mixed by line 14: intr", "  handed over by line 20: intr",
        "  slot 0, opened by line 2: open 0 play s16le 2 48000, is heard there"]),
    "15-a-game-that-pokes": ("mixer slot 4 0\n{}", [
        "frame 8 is the first that differs: 1 257, and 0 0", "  mixed by line 7: intr", "  handed over by line 13: intr 2",
        "  slot 4, opened by line 2: open 0 map s16le 2 48000, is heard there"]),
    "17-a-mute": ("mixer mute 0 1\n", [
        "frame 12 is the first that differs: 80 4176, and 85 4437", "  mixed by line 10: intr", "  handed over by line 18: intr",
        "  slot 1, opened by line 3: open 1 play s16le 2 48000, is heard there"]),
}


def try_compare_examples(program, folder):
    """A mix of its own, a group, an area and the mixer device, each against a script that is another in one line."""
    for name, (change, wanted) in OTHERS.items():
        script = sorted((ROOT / "examples" / name).glob("*.script"))[0]
        text, config = script.read_text(), script.with_suffix(".toml")
        (folder / "other").write_text(change.format(text) if "{}" in change else text.replace(change, "\nintr" if change.endswith("intr") else "\n"))
        for out, it in (("one", script), ("two", folder / "other")):
            subprocess.run([program, "run", it, folder / out, config], cwd=script.parent, stdout=subprocess.DEVNULL, check=True)
        status, said = tool("compare", folder / "one", folder / "two", script, config, "--program", program, folder=script.parent)
        lines = said.splitlines()
        at = next((k for k, line in enumerate(lines) if line.startswith("  handed")), 0)
        equal(f"compare {name}", (status, lines[:1] + lines[at - 1:at + 2]), (1, wanted))


def try_places(program, folder):
    """Frames of two channels that differ in three places, by 1, by 2 and 3, and by 7; and more places than are printed one by one."""
    one, two = folder / "one", folder / "two"
    frames = [0] * 2000
    one.write_bytes(b"".join(it.to_bytes(2, "little") for it in frames))
    for at, value in ((20, 1), (41, 2), (42, 3), (100, 7)):
        frames[at] = value
    two.write_bytes(b"".join(it.to_bytes(2, "little") for it in frames))
    first = "frame {} is the first that differs: 0 0, and {}\n{} of 1000 frames differ, by at most 7\n"
    equal("places", tool("compare", one, two), (1, first.format(10, "1 0", 4) + "frame 10: by at most 1\nframes 20 to 21: by at most 3\nframe 50: by at most 7\n"))
    equal("places past a tolerance", tool("compare", "--tolerance", 2, one, two), (1, first.format(21, "3 0", 2) + "frame 21: by at most 3\nframe 50: by at most 7\n"))
    equal("a tolerance", tool("compare", "--tolerance", 7, one, two), (0, ""))
    two.write_bytes(one.read_bytes()[:400])
    equal("fewer frames", tool("compare", one, two), (1, "1000 and 100 frames\nall frames that both have are equal\n"))
    two.write_bytes(bytes([0, 0, 0, 0, 1, 0, 0, 0]) * 500)
    said = tool("compare", one, two)[1].splitlines()
    equal("many places", said[1:], ["500 of 1000 frames differ, by at most 1", "frames 1 to 999: by at most 1", "places no more than 4 frames apart are printed as one"])
    equal("from a pipe", tool("compare", one, "-", stdin=one.read_bytes().decode("latin-1")), (0, ""))
    two.write_bytes(b"")
    equal("nothing to compare", tool("compare", two, two), (3, "there is nothing to compare: neither file has a frame\n"))


ANSWERS = """open 0 play s16le 2 48000   # OK 0
open 1 play u8 1 8000       # ok 0 the first slot
write 0 01000200            # ok 3  not so
write 1 90a0                # ok, two
ioctl 0 post                # ok # fine
ioctl 1 post                # okay
intr 16                     # ok 16
write 1 00                  # Refused busy
close 7                     # refused badf\t with a tab
intr 1                      # what an ok is
"""
# what is printed of them: the first slot was taken, four bytes and two were accepted, and one more has room
TOLD = """line 2: `ok 0 the first slot` is no answer: two blanks or a # part it from a comment; as it should be:
open 1 play u8 1 8000       # ok 1
line 3: `ok 3` isn't what it is answered; as it should be:
write 0 01000200            # ok 4  not so
line 4: `ok, two` is no answer: two blanks or a # part it from a comment; as it should be:
write 1 90a0                # ok 2
line 6: `okay` is no answer: two blanks or a # part it from a comment; as it should be:
ioctl 1 post                # ok
line 8: `Refused busy` isn't what it is answered; as it should be:
write 1 00                  # ok 1
9 answers are expected, 2 differ, 3 can't be read
"""


def try_answers(program, folder):
    """Answers that are expected, and those that aren't; of all wrong ones the line as it should be, which then is right."""
    script, other, last = folder / "script", folder / "other", folder / "last"
    script.write_text(SCRIPT)
    other.write_text(SCRIPT.replace("# ok 4", "# ok 3").replace("# ok 2", "# ok 1"))
    equal("expected", tool("compare", "--expected", script, "--program", program), (0, "8 answers are expected, 0 differ\n"))
    status, said = tool("compare", "--expected", other, "--program", program)
    lines = said.splitlines()
    equal("not expected", (status, lines[0], lines[2], lines[4]), (
        1, "line 5: `ok 3` isn't what it is answered; as it should be:", "line 6: `ok 1` isn't what it is answered; as it should be:", "8 answers are expected, 2 differ"))
    equal("as it should be", lines[1:4:2], SCRIPT.splitlines()[4:6])
    other.write_text(ANSWERS)
    equal("forms of answers", called("compare", "--expected", other, "--program", program), (2, TOLD, ""))
    right = dict(zip((2, 3, 4, 6, 8), TOLD.splitlines()[1::2]))
    last.write_text("\n".join(right.get(at, line) for at, line in enumerate(ANSWERS.split("\n"), 1)))
    equal("mended", tool("compare", "--expected", "-", "--program", program, stdin=last.read_text()), (0, "9 answers are expected, 0 differ\n"))
    last.write_text("intr 1 # as it was\n")
    equal("no answers", tool("compare", "--expected", last, "--program", program)[0], 3)
    last.write_text("intr 1 # ok 1\nopne 0\n")
    equal("a fault", (tool("compare", "--expected", last, "--program", program)[0]), 2)


def try_transcripts(program, folder):
    """Replies that differ, line by line."""
    first, second = folder / "first", folder / "second"
    first.write_text("1: ok 0\n2: ok\n3: ok 4\n4: ok 4\n")
    second.write_text("1: ok 1\n2: ok\n3: ok 5\n4: ok 5\n5: ok\n")
    equal("replies", tool("compare", "--replies", first, second), (
        1, "line 1: `1: ok 0`, and `1: ok 1`\nlines 3 to 4, from `3: ok 4`, and `3: ok 5` on\n3 of 4 replies differ\n4 and 5 replies\n"))
    equal("equal replies", tool("compare", "--replies", first, first), (0, ""))
    script, known = folder / "script", folder / "known"
    script.write_text("open 0 play\n\nioctl 0 post # starts\nread 1 4\nread 1 4\n")
    known.write_text("# of systems\nopen * | ok * | ok *\nread * | ok 4 | refused * # nothing\n")
    equal("known replies", tool("compare", "--replies", first, second, script, "--known", known), (
        1, "lines 3 to 4, from `3: ok 4`, and `3: ok 5` on, of line 4: read 1 4\n1 replies differ as is known\n2 of 4 replies differ\n4 and 5 replies\n"))
    second.write_text("1: ok 1\n2: ok\n3: refused badf\n4: ok 4\n")
    equal("all are known", tool("compare", "--replies", first, second, script, "--known", known), (0, "2 replies differ as is known\n"))
    known.write_text("open *\n")
    equal("no pattern", tool("compare", "--replies", first, second, "--known", known), (
        2, f"compare: {known}: three patterns stand in a line, with | between: open *\n"))
    first.write_text("")
    equal("no replies", tool("compare", "--replies", first, first)[0], 3)


def try_compare_cut(program, folder):
    """Of files that were cut within a frame what is left of it counts, too."""
    for name, data in (("one", b"abcdefgh"), ("two", b"abcdefghi"), ("three", b"abcdefghj"), ("four", b"abcd")):
        (folder / name).write_bytes(data)
    for first, second, told in (
            ("one", "one", ""), ("two", "two", ""), ("one", "two", "after the last frames stand 0 and 1 bytes of another, which differ\n"),
            ("two", "three", "after the last frames stand 1 and 1 bytes of another, which differ\n"),
            ("four", "two", "1 and 2 frames\nall frames that both have are equal\nafter the last frames stand 0 and 1 bytes of another, which differ\n")):
        equal(f"compare {first} {second}", tool("compare", folder / first, folder / second), (int(first != second), told))


TRIALS = (try_compare, try_compare_examples, try_places, try_answers, try_transcripts, try_compare_cut)
