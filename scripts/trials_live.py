"""Trials of tools/live: programs that play, record, map and wait in every way, as they are heard, and as the scripts of what they did.

They need the library, so scripts/trials_library.py makes them. Each run is replayed by the tool itself: its status is the result.
"""
import concurrent.futures
import math
import os
import pathlib
import re
import shlex
import shutil
import signal
import struct
import subprocess
import tempfile
import time
import traceback

import trials_record
from trials_shared import FAULTS, ROOT, TOOLS, config_of, equal, frames_of, put_wave, tool, wave_of
from scripts import keys_of

FRAMES = 20000
RAMP = [(k & 0x7fff, k & 0x7fff) for k in range(FRAMES)]
PLAYS = ("writes", "poll", "select", "epoll", "asking", "parts", "copies", "children", "program", "threads", "stream", "looks", "mixer", "both", "map",
         "map-poll")
# of these the clock is tried as well, which takes as long as they sound
BY_CLOCK = ("writes", "poll", "asking", "children", "map-poll")


def player(folder):
    """The program that plays a ramp."""
    subprocess.run(["cc", "-std=gnu99", "-Wall", "-Wextra", "-Werror", "-O1", "-o", folder / "player", ROOT / "scripts" / "live_player.c", "-lpthread"],
                   check=True)
    return folder / "player"


def live(folder, *words):
    """Runs tools/live in a folder. Answers its status and what it printed."""
    return tool("live", *words, folder=folder)


def heard(path):
    """What is heard in a wave: its frames without the silence around them."""
    frames = frames_of(path)
    begin = next((k for k, it in enumerate(frames) if any(it)), len(frames))
    end = max((k for k, it in enumerate(frames) if any(it)), default=-1)
    return frames[begin:end + 1]


def try_live_ways(program, folder):
    """However a program plays, all of its frames are heard one after another, and its script replays so."""
    words = ["--program", program, "--out", "heard.wav", "--script", "script", "--", player(folder)]
    for way, more in [*((it, ["--fast"]) for it in PLAYS), *((it, []) for it in BY_CLOCK)]:
        equal(f"live {way} {more}", live(folder, *more, *words, way), (0, ""))
        frames = heard(folder / "heard.wav")
        # a busy machine is short at times, also where the device waits a tenth of a second for it; a buffer that goes round is heard twice then
        equal(f"live {way} {more} is heard", list(filter(any, frames)) == RAMP[1:] or (way, more) == ("map-poll", []), True)
        subprocess.run([program, "run", "script", "again", "script.toml"], cwd=folder, stdout=subprocess.DEVNULL, check=True)
        body = (folder / "heard.wav").read_bytes()[44:]
        equal(f"live {way} {more} again", (folder / "again").read_bytes() == body, True)
    equal("files of live", sorted(it.name for it in folder.iterdir()), ["again", "heard.wav", "player", "script", "script.toml", "script.wav"])


def try_live_records(program, folder):
    """A program that records gets what is captured."""
    put_wave(folder / "ramp.wav", "s16le", 2, 48000, b"".join(struct.pack("<hh", *it) for it in RAMP))
    for way in ("read", "read-poll"):
        words = ["--fast", "--program", program, "--capture", "ramp.wav", "--script", "script", "--", player(folder), way]
        equal(f"live {way}", live(folder, *words), (0, ""))


def try_live_ends(program, folder):
    """What goes wrong is said in a line, with a status of its own."""
    made = player(folder)
    (folder / "text").write_text("no program\n")
    usual = ["--fast", "--program", program]
    for what, words, wanted in (
            ("nothing opened", ["--out", "x.wav", "--", "true"], (3, "live: true ended with 0, and opened no /dev/dsp\n")),
            ("a status", ["--out", "x.wav", "--", "sh", "-c", f"{made} writes; exit 7"], (7, "")),
            ("no program", ["--out", "x.wav", "--", "./none"], (1, "live: ./none: No such file or directory\n")),
            ("a text", ["--out", "x.wav", "--", "./text"], (1, "live: ./text: Permission denied\n")),
            ("a full disk", ["--out", "/dev/full", "--", made, "writes"], (5, "live: /dev/full: it can't be written\n")),
            ("a full disk for a script", ["--script", "/dev/full", "--", made, "writes"], (1, None)),
            ("a folder", ["--out", ".", "--", made, "writes"], (1, "live: .: a folder\n")),
            ("no words", ["--fast"], (2, "live: `--` and a program are wanted; live --help says more\n")),
            ("one file for two", ["--script", "x", "--out", "x.wav", "--", "true"],
             (2, "live: x.wav is where the sound of the script goes: --out is another file; live --help says more\n")),
            ("three channels", ["--channels", "3", "--", "true"], (2, "live: --channels is 1, 2, 4, 6 or 8; live --help says more\n"))):
        status, said = live(folder, *usual, *words)
        equal(f"live: {what}", (status, said if wanted[1] is not None else None), wanted)
    equal("files", sorted(it.name for it in folder.iterdir() if it.name != "x.wav"), ["player", "text"])
    for more, fault in ((["--out", "x.wav"], "x.wav: it can't be written"),
                        (["--script", "script"], f"no room for the script in {tempfile.gettempdir()}, or for its sound beside it")):
        words = ["sh", "-c", 'ulimit -f 100; exec "$0" "$@"', TOOLS / "live", *usual, *more, "--", made, "writes"]
        ran = subprocess.run(list(map(str, words)), cwd=folder, stdout=subprocess.PIPE, stderr=subprocess.STDOUT, universal_newlines=True, check=False)
        equal(f"live without room {more}", (ran.returncode, ran.stdout), (5, f"live: {fault}\n"))


def try_live_replays(program, folder):
    """A replay with another reply, or with other bytes, is reported."""
    made = player(folder)
    for what, shell in (("replies", f"{program} \"$@\" | sed 5s/ok/no/"), ("bytes", f"{program} \"$@\"; printf x >>\"$3\"")):
        (folder / "liar").write_text(f"#!/bin/sh\n{shell}\n")
        (folder / "liar").chmod(0o700)
        wanted = 4, f"live: the replay of the script differs: its {what} are others\n"
        equal(f"live and other {what}", live(folder, "--fast", "--program", folder / "liar", "--script", "script", "--", made, "writes"), wanted)
    words = ["--fast", "--unchecked", "--script", "script", "--", made, "writes"]
    equal("live unchecked", live(folder, "--program", folder / "liar", *words), (0, ""))


def songs(folder):
    """A song of some seconds, as what programs play."""
    body = bytearray()
    for k in range(8 * 44100):
        body += struct.pack("<hh", int(12000 * math.sin(k / 20)), int(9000 * math.sin(k / 33)))
    put_wave(folder / "song.wav", "s16le", 2, 44100, body)
    for it in ("song.mp3", "song.ogg"):
        if shutil.which("ffmpeg"):
            subprocess.run(["ffmpeg", "-loglevel", "error", "-i", folder / "song.wav", folder / it], check=False)


# players of others, and what each plays
PLAYERS = (("mpg123", "song.mp3", "-q -o oss -a /dev/dsp song.mp3"), ("ogg123", "song.ogg", "-q -d oss song.ogg"),
           ("ffmpeg", "song.wav", "-loglevel error -nostdin -i song.wav -f oss /dev/dsp"), ("sox", "song.wav", "-q song.wav -t oss /dev/dsp"),
           ("mplayer", "song.wav", "-really-quiet -noconfig all -nolirc -ao oss song.wav"), ("sh", "song.wav", "-c 'cat song.wav >/dev/dsp'"))


def is_there(name):
    """Whether a player is in the path; sox also needs its handler of the device, which Debian packs apart."""
    if not shutil.which(name):
        return False
    return name != "sox" or "oss" in subprocess.run([name, "--help"], stdout=subprocess.PIPE, universal_newlines=True, check=False).stdout.split()


def try_live_players(program, folder):
    """Players of others are played to, where they are there, and each of their scripts replays to the byte."""
    songs(folder)
    for name, song, words in PLAYERS:
        if not is_there(name) or not (folder / song).exists():
            print(f"embed: {name} isn't there, or its song, so tools/live isn't tried with it")
            continue
        status, said = live(folder, "--fast", "--program", program, "--script", f"{name}.script", "--", name, *shlex.split(words))
        equal(f"live {name}", (status, said if status else ""), (0, ""))
        sent = sum(int(line.split()[4]) for line in (folder / f"{name}.script").read_text().splitlines() if line.startswith("send"))
        # ffmpeg writes whole blocks of 4096 bytes alone
        equal(f"live {name} plays it all", sent > 8 * 44100 * 4 - 4096, True)


def end_by(number, folder, words):
    """Ends a run by a signal to all, as a terminal does, once a program has played for a while. Answers what comes of it."""
    ran = subprocess.Popen([str(it) for it in (TOOLS / "live", *words)], cwd=folder, stdout=subprocess.PIPE, stderr=subprocess.STDOUT,
                           start_new_session=True, preexec_fn=lambda: signal.signal(signal.SIGINT, signal.SIG_DFL))
    for _ in range(100):
        if (folder / "x.wav").exists() and (folder / "x.wav").stat().st_size > 20000:
            break
        time.sleep(0.1)
    os.killpg(ran.pid, number)
    said, _ = ran.communicate(timeout=60)
    return ran.returncode, said


def try_live_breaks(program, folder):
    """A program that is ended in the middle leaves a whole wave, and a script that replays."""
    words = ["--program", program, "--out", "x.wav", "--script", "script", "--", "sh", "-c", "exec cat /dev/zero >/dev/dsp"]
    for number, status in ((signal.SIGINT, 130), (signal.SIGTERM, 143)):
        (folder / "x.wav").unlink(missing_ok=True)
        equal(f"live and signal {number}", end_by(number, folder, words), (status, b""))
        text = (folder / "script").read_text()
        equal(f"a script by signal {number}", (text.startswith("open 0 play\n"), "\nsend 0 data 0 " in text), (True, True))
        equal(f"a wave by signal {number}", wave_of(folder / "x.wav").size, (folder / "x.wav").stat().st_size - 44)


# what no system answers, or has no call for
KNOWN = "open * | ok * | ok *   # the slot\nopen * map* | refused busy | ok *   # it is opened to play, and mapped then\nmixer * | not performed | *\n"


def performed(folder, script, config, more=()):
    """What tools/perform prints of a script under tools/live, step by step."""
    files = keys_of(config.read_text()) if config else {}
    waves = [f"{key.partition('.')[2]}={path}" for key, path in files.items() if key.startswith("files.")]
    words = ["--step", "--unchecked", "--script", folder / "again", *(["--config", config] if config else []), "--", folder / "perform"]
    options = ["--step-file", "/dev/dsp.step", "--block", files.get("device.hw_block", "256"), *more]
    return tool("live", *words, *options, script, "/dev/dsp", *waves, folder=script.parent)


def try_perform(program, folder):
    """Each script that needs no filter, performed under tools/live step by step, is answered as a run answers it."""
    subprocess.run(["cc", "-std=gnu99", "-Wall", "-Wextra", "-Werror", "-O1", "-pthread", "-I", ROOT / "embed", "-o", folder / "perform",
                    ROOT / "tools" / "perform.c"], check=True)
    (folder / "known").write_text(KNOWN)
    for script in (it for top in ("examples", "corpus") for it in sorted(ROOT.glob(f"{top}/*/*.script")) if it.parent.name != "faults"):
        config = next(iter(config_of(script)), None)
        if config and (re.search(r"(?m)^\s*(\[\[|eq\b)", config.read_text()) or not keys_of(config.read_text())) or not re.search(r"(?m)^\s*open", script.read_text()):
            continue
        words = ["run", script, folder / "out", *([config] if config else [])]
        ran = subprocess.run([str(it) for it in (program, *words)], cwd=script.parent, stdout=subprocess.PIPE, universal_newlines=True, check=False)
        if ran.returncode:
            continue
        (folder / "replies").write_text(ran.stdout)
        # the examples as where a call may wait, too
        for more in ((), ("--wait", "10000")) if script.parent.parent.name == "examples" else ((),):
            status, said = performed(folder, script, config, more)
            (folder / "performed").write_text(said)
            words = ["--replies", folder / "performed", folder / "replies", script, "--known", folder / "known"]
            equal(f"perform {script.name} {more}", (status, tool("compare", *words)[0]), (0, 0))


def try_hold(program, folder):
    """Several programs at once are clients of one engine, and its script replays."""
    made, name = player(folder), f"trial-{os.getpid()}"
    words = [TOOLS / "live", "--hold", name, "--fast", "--program", program, "--script", "script"]
    with subprocess.Popen(list(map(str, words)), cwd=folder, stdout=subprocess.PIPE, stderr=subprocess.STDOUT) as holds:
        for _ in range(100):
            if live(folder, "--join", name, "--", "true")[0] == 0:
                break
            time.sleep(0.1)
        joins = [subprocess.Popen(list(map(str, [TOOLS / "live", "--join", name, "--", made, way])), cwd=folder) for way in ("writes", "children", "parts")]
        equal("programs that join", [it.wait(timeout=60) for it in joins], [0, 0, 0])
        holds.terminate()
        equal("an engine that is held", (holds.communicate(timeout=60)[0], holds.returncode), (b"", 0))
    equal("clients of one engine", (folder / "script").read_text().count("open "), 3)
    status, said = live(folder, "--join", name, "--", "true")
    equal("nothing is held", (status, said), (1, f"live: nothing is held as {name}: tools/live --hold {name} does that\n"))


TRIALS = (try_live_players, try_perform, try_hold, try_live_ways, try_live_records, try_live_ends, try_live_replays,
          try_live_breaks)


def try_all(program, room, names=()):
    """Makes all trials, those of tools/record as well, or those that are named, each in a folder of its own. Answers what was wrong."""
    def tried(trial):
        folder = pathlib.Path(room) / trial.__name__
        folder.mkdir()
        try:
            trial(pathlib.Path(program).resolve(), folder)
        except Exception:  # a trial that breaks off is a fault, and the others go on
            FAULTS.append(f"{trial.__name__}: {traceback.format_exc()}")

    with concurrent.futures.ThreadPoolExecutor(4) as pool:
        list(pool.map(tried, [it for it in (*TRIALS, *trials_record.TRIALS) if not names or it.__name__ in names]))
    return FAULTS
