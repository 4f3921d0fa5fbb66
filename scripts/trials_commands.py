"""Trials of the tools as commands: words, faults, streams, ends, where the program is, and progress."""
import itertools
import os
import pty
import select
import shutil
import signal
import subprocess
import time

from trials_shared import ROOT, TOOLS, called, equal, noise

TOOL_NAMES = ("compare", "equaliser", "explain", "filter", "mix", "page", "picture", "record", "sweep")
SHORT = ROOT / "examples" / "03-a-shortage" / "a_shortage.script"


def is_a_line(name, said):
    """Whether a fault is one line of a tool."""
    return said.startswith(f"{name}: ") and said.count("\n") == 1 and said.endswith("\n")


def try_words(program, folder):
    """Help, a version, no words, unknown ones, and a value that is missing or none."""
    for name in TOOL_NAMES:
        status, said, errors = called(name, "--help")
        equal(f"{name} --help", (status, f"tools/{name} " in said, "--program" in said, errors), (0, True, True, ""))
        status, said, errors = called(name, "--version")
        equal(f"{name} --version", (status, said.startswith(f"{name}, of dsp_replay "), errors), (0, True, ""))
        status, said, errors = called(name)
        equal(f"{name} without words", (status, said, errors.startswith(f"usage:\n  tools/{name} ")), (2, "", True))
    for name, words in zip(itertools.cycle(TOOL_NAMES), [["--nonsense"], ["x", "--program"], ["x", "--frm=1"]] * 3):
        status, said, errors = called(name, *words)
        equal(f"{name} {words}", (status, said, is_a_line(name, errors)), (2, "", True))
    for name, words in (("picture", ["--from", "x", SHORT]), ("explain", [SHORT, "-3"]), ("explain", ["--most", "0", "--clicks", SHORT]), ("filter", ["1", "2", "3", "x"]),
                        ("equaliser", ["48000", "peek", "3"]), ("equaliser", ["48000", "peak", "x", "1", "1"]), ("sweep", ["--rate", "1", "x"]),
                        ("compare", ["--tolerance", "-1", "a", "b"]), ("mix", ["--format", "mp3", "a", "b"]),
                        ("record", ["--"]), ("record", ["true"]), ("record", ["x", "--", "true"]), ("record", ["--out", "--", "true"])):
        status, said, errors = called(name, *words)
        equal(f"{name} {words}", (status, said, is_a_line(name, errors)), (2, "", True))


def try_faults(program, folder):
    """A file that isn't there, a folder, what can't be read or written, a full disk, a script and a configuration with a fault, and no program."""
    (folder / "fault").write_text("open 0 play\nopne 1\n")
    (folder / "fault.toml").write_text("[device]\nrate = 3\n")
    wave, gone = noise(folder, "s16le", 1, 48000), folder / "gone"
    rows = (("compare", gone, gone), ("compare", "--expected", gone), ("explain", gone, 0), ("picture", gone), ("mix", gone, folder / "x.wav"), ("sweep", gone),
            ("compare", folder, folder), ("explain", folder, 0), ("picture", folder), ("mix", folder, folder / "x.wav"), ("sweep", folder),
            ("explain", SHORT, 0, gone), ("picture", SHORT, gone), ("explain", SHORT, 99999), ("picture", SHORT, "--from", 99999), ("picture", SHORT, "--from", 9, "--to", 3),
            ("picture", SHORT, "--out", folder), ("picture", SHORT, "--out", gone / "x.svg"), ("picture", SHORT, "--out", "/dev/full"), ("mix", wave, "/dev/full"), ("mix", wave, gone / "x.wav"),
            ("explain", folder / "fault", 0), ("picture", folder / "fault"), ("picture", SHORT, folder / "fault.toml"), ("explain", SHORT, 0, folder / "fault.toml"))
    for name, *words in rows:
        status, said, errors = called(name, *words, "--program", program)
        equal(f"{name} {words}", (status, said, is_a_line(name, errors), "Traceback" in errors), (2 if name == "compare" else 1, "", True, False))
    equal("what is gone", called("picture", gone, "--program", program)[2], f"picture: {gone}: No such file or directory\n")
    equal("a fault of a script", called("explain", folder / "fault", 0, "--program", program)[2], (
        'explain: the program ended with 5: bad script: line 2: word: script line 2: opne 1: "opne" is no command: '
        "open, write, send, poke, read, ioctl, close, mixer, intr\n"))
    for named in (gone, folder, SHORT):
        status, said, errors = called("explain", SHORT, 0, "--program", named)
        equal(f"no program, {named}", (status, said, is_a_line("explain", errors), str(named) in errors), (1, "", True, True))
    for ends, fault in (("exit 7", "7: no room for what it writes"), ("echo dsp_replay: cannot write OUT >&2; exit 7", "7: cannot write OUT"),
                        ("exit 8", "8: out of memory"), ("exit 1", "1: it says nothing")):
        (folder / "ends").write_text(f"#!/bin/sh\n{'echo 1: ok 0' * ('7' in ends)}\n{ends}\n")
        (folder / "ends").chmod(0o755)
        equal(f"a program that ends: {ends}", called("explain", SHORT, 0, "--program", folder / "ends"), (1, "", f"explain: the program ended with {fault}\n"))
    with open("/dev/full", "w", encoding="utf-8") as full:
        for name, *words in (("filter", 44100, 48000, 160, 32), ("explain", SHORT, 1024, "--program", program), ("picture", SHORT, "--out", "-", "--program", program), ("mix", "--help")):
            ran = subprocess.run([TOOLS / name, *map(str, words)], stdout=full, stderr=subprocess.PIPE, universal_newlines=True, check=False)
            equal(f"{name} on a full disk", (ran.returncode, ran.stderr), (1, f"{name}: standard output: No space left on device\n"))


def try_streams(program, folder):
    """Standard input and output, where a stream makes sense: what comes is what comes of files; and no file has the name `-`."""
    text, config = SHORT.read_text(), ROOT / "examples" / "10-an-equaliser" / "an_equaliser.toml"
    said = called("explain", SHORT, 1024, "--program", program, folder=folder)
    equal("explain -", called("explain", "-", 1024, "--program", program, folder=folder, stdin=text), said)
    called("picture", SHORT, "--out", folder / SHORT.name, "--program", program)
    drawn = (folder / SHORT.name).read_text()
    equal("picture -", called("picture", "-", "--out", "-", "--program", program, folder=folder, stdin=text), (0, drawn.replace(SHORT.name, "standard input"), ""))
    status, said, errors = called("sweep", "-", folder=folder, stdin="[[tables]]\n")
    equal("sweep -", (status, is_a_line("sweep", errors)), (1, True))
    for name, words in (("picture", ["-", "-"]), ("explain", ["-", "0", "-"]), ("compare", ["-", "-"]), ("mix", ["-", "-", "x.wav"])):
        status, said, errors = called(name, *words, folder=folder)
        equal(f"{name} {words}", (status, said, is_a_line(name, errors)), (2, "", True))
    equal("files", sorted(it.name for it in folder.iterdir()), [SHORT.name])
    equal("a configuration", config.exists(), True)


def slow(folder, program=None):
    """A program that writes what it should, half of it at once, and then waits; or waits alone."""
    path = folder / "slow"
    path.write_text("#!/bin/sh\n" + ("exec sleep 60\n" if not program else f'head -c 20000 /dev/zero > "$3"\nsleep 2.5\nexec "{program}" "$@"\n'))
    path.chmod(0o755)
    return path


def try_interrupt(program, folder):
    """Ctrl-C ends each tool that waits for the program, quietly, with 130, and leaves no program behind."""
    wave, waits = noise(folder, "s16le", 1, 48000), slow(folder)
    config = ROOT / "examples" / "10-an-equaliser" / "an_equaliser.toml"
    (folder / "expects").write_text("intr 1 # ok 1\n")
    calls = (("mix", wave, folder / "x.wav"), ("picture", SHORT, "--out", folder / "x.svg"), ("explain", SHORT, 0), ("compare", "--expected", folder / "expects"), ("sweep", config))
    how = {"stdout": subprocess.PIPE, "stderr": subprocess.PIPE, "env": {**os.environ, "TMPDIR": str(folder)},
           "preexec_fn": lambda: signal.signal(signal.SIGINT, signal.SIG_DFL)}
    ran = [subprocess.Popen([str(TOOLS / name), *map(str, words), "--program", waits], **how) for name, *words in calls]
    time.sleep(2)
    for it in ran:
        it.send_signal(signal.SIGINT)
    for (name, *_), it in zip(calls, ran):
        said, errors = it.communicate(timeout=20)
        equal(f"{name} and Ctrl-C", (it.returncode, said, errors), (130, b"", b""))
    equal("nothing is left", sorted(it.name for it in folder.iterdir() if it.is_dir()), [])


def try_pipes(program, folder):
    """Where nobody reads on, a tool ends quietly, as others do."""
    for name, *words in (("filter", 44100, 48000, 512, 32), ("picture", SHORT, "--out", "-", "--program", program), ("compare", "--help"), ("explain", SHORT, 1024, "--program", program)):
        ran = subprocess.Popen([str(TOOLS / name), *map(str, words)], stdout=subprocess.PIPE, stderr=subprocess.PIPE)
        ran.stdout.close()
        errors = ran.stderr.read()
        equal(f"{name} into a pipe that ends", (ran.wait(), errors), (141, b""))


def try_unbuilt(program, folder):
    """Tools without a program say so, and take what scripts/try keeps."""
    shutil.copytree(TOOLS, folder / "tools", ignore=shutil.ignore_patterns("__pycache__"))
    words = [folder / "tools" / "explain", SHORT, "1024"]
    def run():
        ran = subprocess.run(words, stdout=subprocess.PIPE, stderr=subprocess.PIPE, universal_newlines=True, check=False)
        return ran.returncode, ran.stdout.splitlines()[:1], ran.stderr
    status, said, errors = run()
    equal("no program", (status, said, is_a_line("explain", errors), "scripts/build" in errors), (1, [], True, True))
    (folder / "bin" / "tried").mkdir(parents=True)
    os.symlink(program, folder / "bin" / "tried" / "0123abcd")
    equal("a program that is tried", run(), (0, ["frame 1024 is 32767 0"], (
        "explain: the program isn't built: bin/tried/0123abcd is taken, which scripts/try keeps, unproved and slow\n")))
    os.symlink(program, folder / "bin" / "dsp_replay")
    equal("a program that is built", run(), (0, ["frame 1024 is 32767 0"], ""))


def on_a_terminal(words):
    """What a call prints on standard error, where that is a terminal."""
    master, end = pty.openpty()
    ran = subprocess.Popen([str(it) for it in words], stdout=subprocess.DEVNULL, stderr=end)
    os.close(end)
    said = b""
    while select.select([master], [], [], 30)[0]:
        try:
            part = os.read(master, 4096)
        except OSError:
            break
        said += part
    os.close(master)
    ran.wait()
    return said.decode()


def try_progress(program, folder):
    """What takes longer than a second is said on a terminal: what, how far, and how long still. On no terminal it isn't."""
    script, waits = folder / "script", slow(folder, program)
    script.write_text("intr 1024\n" * 9)
    # nine interrupts and the ring are 10240 frames of four bytes, of which 20000 bytes are there: 48 of 100
    words = [TOOLS / "explain", script, 0, "--program", waits]
    said = on_a_terminal(words)
    equal("progress", ("explain: the program runs: 48 %, " in said, " s still" in said, said.endswith("\r\033[K")), (True, True, True))
    equal("no terminal", called("explain", *words[1:])[2], "")


# what roff makes of signs that have a meaning there
SIGNS = (("\\-", "-"), ("\\(aq", "'"), ("\\(ha", "^"), ("\\(ti", "~"), ("\\(ga", "`"), ("\\e", "\\"), ("\\&", ""), ("\\fB", ""), ("\\fI", ""), ("\\fR", ""))


def try_man_page(program, folder):
    """No line of the page that is set as it stands passes 80 columns with its margin of 11, and the heads of a table are no entry."""
    ran = subprocess.run([ROOT / "scripts" / "man-page", "0.1.0", "2026-11-28"], stdout=subprocess.PIPE, universal_newlines=True, check=False)
    wide, entries, is_set, before = [], [], False, ""
    for line in ran.stdout.splitlines():
        is_set = (is_set or line == ".EX") and line != ".EE"
        plain = line
        for sign, stands_for in SIGNS:
            plain = plain.replace(sign, stands_for)
        wide += [plain] * (is_set and len(plain) > 69)
        entries += [line] * (before == ".TP" and line.startswith("\\fI"))
        before = line
    equal("the page for man", (ran.returncode, wide, entries), (0, [], []))


TRIALS = (try_man_page, try_progress, try_faults, try_interrupt, try_words, try_streams, try_unbuilt, try_pipes)
