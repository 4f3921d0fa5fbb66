"""Trials of the library for C: the programs of embed/ and examples/embed/, and those of docs/EMBEDDING.md by the page's own words.

Each trial prints a line, and answers whether all was right. Where valgrind is there, programs in C run under it.
"""
import os
import pathlib
import re
import shutil
import struct
import subprocess
import sys

import trials_live  # which brings tools/ into the path
from library import BIN, CFLAGS
from places import built
from sources import ROOT
from surface import ARCHIVE, EMBED, exported, shared_names

EXAMPLE = ROOT / "examples" / "17-a-mute" / "a_mute"
PAGE = ROOT / "docs" / "EMBEDDING.md"
# what the library may ask of the system, memory and what compilers take for copies; and of the compiler, a division of 128 bits
OF_SYSTEM = {"malloc", "realloc", "free", "memcpy", "memmove", "memset", "memcmp", "__udivti3"}
# what compilers write of AVX, BMI and what came with them. (What objdump calls tzcnt is also a bsf that older processors take.)
ABOVE_V2 = re.compile(r"v\w+|andn|bextr|bls\w+|bzhi|mulx|pdep|pext|rorx|sarx|shlx|shrx|lzcnt|movbe|adcx|adox")
IN_CPP = ["-std=c++11", "-Wall", "-Wextra", "-Werror", "-pedantic"]
# what a line of commands asks pkg-config
ASKED = re.compile(r"\$\(pkg-config ([^)]*)\)")
# what the page's program prints, by its rules: a ring of four fragments of 4096 bytes is filled, and 256 frames of four bytes are taken
PRINTED = "16384 bytes taken, 1024 handed over\n"


def watched():
    """The words in front of a program that valgrind watches, where it is there."""
    return ["valgrind", "--quiet", "--leak-check=full", "--error-exitcode=9"] if shutil.which("valgrind") else []


def under():
    return " under valgrind" if watched() else ""


def played(words, **how):
    """The status of a program, and what it printed."""
    ran = subprocess.run(words, stdout=subprocess.PIPE, universal_newlines=True, check=False, **how)
    return ran.returncode, ran.stdout


def told(name, wrong, right):
    """Prints what came of a trial: what was wrong, or what is right. Answers which."""
    found = [what for what, is_so in wrong if is_so]
    print(f"embed: {name}: {', '.join(found) or right}")
    return not found


def ends_right(name, words, **how):
    """Whether a run ends with 0. What it printed last is shown then, and else more of it."""
    status, said = played(words, stderr=subprocess.STDOUT, **how)
    return told(name, ((f"{said.strip()[-800:]}, status {status}", status != 0),), said.strip().rpartition("\n")[2])


def names_are_hidden(_):
    """The functions that the headers declare are all that the files show, and the system's few all that they ask for."""

    def listed(*words):
        lines = subprocess.run(["nm", "--format=posix", *words], stdout=subprocess.PIPE, universal_newlines=True, check=True).stdout.splitlines()
        return {it.split("@")[0].split()[0] for it in lines if re.match(r"\S+ [^A]", it)}

    archive, shared = BIN / ARCHIVE, BIN / shared_names()[0]
    shown = [("archive", listed("-g", "--defined-only", archive)), ("shared library", listed("-D", "--defined-only", shared))]
    other = [(f"the {what} and the headers differ in {' '.join(sorted(names ^ set(exported())))}", names != set(exported())) for what, names in shown]
    asked = listed("-u", archive)
    other.append((f"it asks for {' '.join(sorted(asked - OF_SYSTEM))}", bool(asked - OF_SYSTEM)))
    return told("names", other, f"the {len(exported())} functions of the headers are shown, and {' '.join(sorted(asked))} asked for")


def level_is_told(_):
    """No instruction is of a processor above the level that docs/EMBEDDING.md states."""
    read = ["objdump", "-d", "--no-show-raw-insn", BIN / ARCHIVE]
    lines = subprocess.run(read, stdout=subprocess.PIPE, universal_newlines=True, check=True).stdout.splitlines()
    found = {it.split("\t")[1].split()[0] for it in lines if "\t" in it}
    above = sorted(it for it in found if ABOVE_V2.fullmatch(it))
    return told("processor", ((f"x86-64-v2 has no {' '.join(above)}", above),), f"{len(found)} kinds of instructions, none above x86-64-v2")


def expected_bytes():
    """The bytes that the example's device file has: lines `COUNT x HEX`."""
    lines = [it.split() for it in EXAMPLE.with_suffix(".device").read_text().splitlines()]
    return b"".join(bytes.fromhex(hexes) * int(count) for count, _, hexes in lines)


def plays_example(name, words, room):
    """Whether a program that writes to a file replies and writes what the example says."""
    out = room / "out.raw"
    status, replies = played([*words, out])
    return told(name, (
        ("ended with another status", status != 0),
        ("replied something else", replies != EXAMPLE.with_suffix(".replies").read_text()),
        ("wrote other bytes", not out.exists() or out.read_bytes() != expected_bytes()),
    ), f"the replies and bytes of {EXAMPLE.parent.name}")


def compiled(words, room, name):
    """A program of these words of a compiler."""
    subprocess.run([*words, "-o", room / name], check=True)
    return room / name


def plays_in_c(room):
    return plays_example(f"a_mute.c{under()}", [*watched(), compiled(["cc", *CFLAGS, EMBED / "a_mute.c", BIN / ARCHIVE], room, "in_c")], room)


def plays_in_cpp(room):
    if not shutil.which("c++"):
        return True
    for it in ("dsp_engine.h", "dsp_oss.h", "dsp_filter.h"):
        subprocess.run(["c++", *IN_CPP, "-fsyntax-only", "-x", "c++", EMBED / it], check=True)
    words = ["c++", *IN_CPP, "-x", "c++", EMBED / "a_mute.c", "-x", "none", BIN / ARCHIVE]
    return plays_example("a_mute.c in C++", [compiled(words, room, "in_cpp")], room)


def plays_in_rust(room):
    """The example of the crate for Rust, and where cargo is there the crate's own tests."""
    if not shutil.which("rustc"):
        return True
    crate = EMBED / "rust"
    how = ["rustc", "--edition", "2021", "-O", "-D", "warnings"]
    made = compiled([*how, "--crate-type", "rlib", "--crate-name", "dsp_engine", crate / "src" / "lib.rs"], room, "libdsp_engine.rlib")
    words = [*how, "--extern", f"dsp_engine={made}", "-L", f"native={BIN}", "-l", "static=dsp_engine", crate / "examples" / "a_mute.rs"]
    return plays_example("a_mute.rs", [compiled(words, room, "in_rust")], room) and tests_of_rust(room, crate)


def tests_of_rust(room, crate):
    if not shutil.which("cargo"):
        return True
    env = {**os.environ, "DSP_ENGINE_LIB_DIR": str(BIN), "CARGO_TARGET_DIR": str(room / "cargo")}
    return ends_right("the crate for Rust", ["cargo", "test", "--quiet", "--offline", "--manifest-path", crate / "Cargo.toml"], env=env)


def tests_of_python(_):
    env = {**os.environ, "DSP_ENGINE_LIBRARY": str(BIN / shared_names()[2])}
    return ends_right("the package for Python", [sys.executable, "-B", "-m", "unittest", "discover", EMBED / "python"], env=env)


# the tests in C, with what is compiled beside each
IN_C = (("answers.c",), ("questions.c",), ("clones.c", "soak_events.c"), ("states.c", "soak_events.c"), ("oss.c", "dsp_oss.c"),
        ("filters.c", "dsp_filter.c"))
# a test that takes minutes under valgrind, and the word by which it tries less there
LESS = {"states.c": "101"}


def runs_of(name, built):
    """How a test is run, with what is said of it: under valgrind where that is there, or by itself and with less under valgrind."""
    if name in LESS and watched():
        return (("", [built]), (under(), [*watched(), built, LESS[name]]))
    return ((under(), [*watched(), built]),)


def answers_right(room):
    """Whether the library, and the helpers over it, answer all as the tests expect it."""
    right = True
    for sources in IN_C:
        name = sources[0]
        built = compiled(["cc", *CFLAGS, *[EMBED / it for it in sources], BIN / ARCHIVE, "-lm"], room, name.partition(".")[0])
        for how, words in runs_of(name, built):
            status, said = played(words)
            right &= told(f"{name}{how}", ((f"{said.strip()}, status {status}", status != 0),), said.strip().replace("\n", "; "))
    return right


def filters_agree(_):
    """Whether filters and sections that are made in C are those of the tools."""
    return ends_right("dsp_filter.c and the tools", [ROOT / "scripts" / "compare-filters"])


def calls_at_random(_):
    """Ten seconds of calls at random, some of them replayed by the program that is built."""
    return ends_right("calls at random", [ROOT / "scripts" / "fuzz-calls", "--seconds", "10"])


def programs_are_played_to(room):
    """Programs that open /dev/dsp, by tools/live and tools/record; their scripts are replayed by the program that is built."""
    program = built()
    if not program:
        print("embed: no program is built, so tools/live and tools/record aren't tried")
        return True
    (room / "live").mkdir()
    faults = trials_live.try_all(program, room / "live")
    return told("tools/live and tools/record", (("\n".join(faults[:20]), faults),), "programs are played to, and their scripts replayed")


def stack_suffices(room):
    status, said = played([compiled(["cc", *CFLAGS, "-pthread", EMBED / "stack.c", BIN / ARCHIVE], room, "stack")])
    return told("stack.c", ((f"{said.strip()}: more than docs/EMBEDDING.md says", status != 0),), said.strip())


def commands(head):
    """The lines of the block of commands under a head of the page."""
    part = re.search(rf"(?ms)^## {head}$(.*?)(?=^## |\Z)", PAGE.read_text())[1]
    return re.search(r"(?ms)^```sh\n(.*?)^```", part)[1].splitlines()


def takes_own_memory(room):
    """The commands of the page by which a program brings memory of its own."""
    place = room / "own"
    place.mkdir()
    for it in (BIN / ARCHIVE, EMBED / "dsp_engine.h", EMBED / "own_memory.c"):
        shutil.copy(it, place)
    for line in commands("Memory of the program's own"):
        subprocess.run(["sh", "-c", line], cwd=place, check=True)
    status, said = played([*watched(), place / "own_memory"])
    return told(f"own_memory.c{under()}", ((f"{said.strip()}, status {status}", status != 0),), said.strip())


def flags_of(pc, words):
    """What pkg-config answers to these words, read by hand for where it isn't there."""
    text = pc.read_text()
    values = dict(re.findall(r"(?m)^(\w+)=(.*)$", text))

    def whole(value):
        return re.sub(r"\$\{(\w+)\}", lambda it: whole(values[it[1]]), value)

    fields = [whole(re.search(rf"(?m)^{field}: (.*)$", text)[1]) for word, field in (("--cflags", "Cflags"), ("--libs", "Libs")) if word in words]
    return " ".join([*fields, *(whole(values[it.partition("=")[2]]) for it in words if it.startswith("--variable="))])


def run_line(line, place, pc):
    """Runs a line of commands in a folder, with pkg-config or what it would say."""
    if not shutil.which("pkg-config"):
        line = ASKED.sub(lambda it: flags_of(pc, it[1].split()), line)
    subprocess.run(["sh", "-c", line], cwd=place, env={**os.environ, "PKG_CONFIG_PATH": str(pc.parent)}, check=True)


def flags_are_told(pc, lines):
    """Whether pkg-config, where it is there, answers the words of these lines as its file is read by hand."""
    if not shutil.which("pkg-config"):
        print("embed: pkg-config isn't there, so the commands of the page have the flags of its file")
        return True
    env = {**os.environ, "PKG_CONFIG_PATH": str(pc.parent)}
    asked = [it.split() for it in ASKED.findall("\n".join(lines))]
    wrong = [it for it in asked if played(["pkg-config", *it], env=env)[1].split() != flags_of(pc, it).split()]
    return told("dsp_engine.pc", ((f"other flags by {wrong}", wrong),), f"the flags of {len(asked)} calls of pkg-config")


def installed(room):
    """Installs the library in a folder, and answers where its file for pkg-config is."""
    prefix = room / "installed"
    how = {"env": {**os.environ, "PREFIX": str(prefix), "DESTDIR": ""}, "stdout": subprocess.DEVNULL, "check": True}
    subprocess.run([ROOT / "scripts" / "install-library"], **how)
    return prefix / "lib" / "pkgconfig" / "dsp_engine.pc"


def builds_by_the_page(room):
    """The page's program by each of the page's commands, in a folder with nothing else."""
    pc, place = installed(room), room / "by_the_page"
    place.mkdir()
    text = re.search(r"(?ms)^```c\n(.*?)^```", PAGE.read_text())[1]
    for it in ("my_program.c", "my_program.cpp"):
        (place / it).write_text(text)
    lines = [it for it in commands("A program") if shutil.which(it.split()[0])]
    right = flags_are_told(pc, lines)
    for line in lines:
        run_line(line, place, pc)
        name = re.search(r"-o (\w+)", line)[1]
        said = played([*watched(), place / name], env={**os.environ, "LD_LIBRARY_PATH": str(pc.parent.parent)})
        right &= told(f"{name} of docs/EMBEDDING.md{under()}", ((f"{said[1].strip()}, status {said[0]}", said != (0, PRINTED)),), said[1].strip())
    return right


def plays_examples(room):
    """The programs of examples/embed, by the command at the head of each."""
    pc, place, right = installed(room), room / "examples", True
    shutil.copytree(ROOT / "examples" / "embed", place)
    for file in sorted(place.glob("*.c")):
        line = re.search(r"(?m)^ \*     (cc .*?)(?: && .*)?$", file.read_text())[1]
        run_line(line, place, pc)
        how = {"cwd": place, "env": {**os.environ, "LD_LIBRARY_PATH": str(pc.parent.parent)}}
        status, said = played([*watched(), place / file.stem, *(["out.wav"] if file.stem == "emulator" else [])], **how)
        right &= told(f"{file.name}{under()}", ((f"{said.strip()}, status {status}", status != 0),), said.strip())
    return right and sounds_right(place / "out.wav")


def sounds_right(wave):
    """The emulator's wave: 120 pictures of 800 frames, and the sums of both chips' levels. 160 of `u8` is 8192 of 16 bits on each side; the
    other chip has 4096 on the left and 2048 on the right."""
    content = wave.read_bytes()
    samples = struct.unpack(f"<{(len(content) - 44) // 2}h", content[44:])
    found = len(content), max(samples[0::2]), max(samples[1::2]), min(samples)
    expected = 44 + 120 * 800 * 4, 8192 + 4096, 8192 + 2048, 0
    return told("emulator.c's wave", ((f"{found}, and not {expected}", found != expected),), "as long and as loud as its chips")


TRIALS = (names_are_hidden, level_is_told, plays_in_c, plays_in_cpp, plays_in_rust, tests_of_python, answers_right, filters_agree,
          stack_suffices, takes_own_memory, builds_by_the_page, plays_examples, programs_are_played_to,
          calls_at_random)


def try_all(room):
    """Makes all trials. Answers whether all was right."""
    return all([trial(pathlib.Path(room)) for trial in TRIALS])
