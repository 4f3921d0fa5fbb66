"""Makes the files that C programs link of what the prover compiled: the archive, and the shared library.

Both are one object: the C of embed/, the compiled crates, and the kit's part of the C library, linked with each other. The functions that
the headers declare are global in it, and no other name is.
"""
import pathlib
import subprocess

from sources import ROOT
from surface import ARCHIVE, EMBED, exported, major, put_shared, put_there, shared_names

BIN = ROOT / "bin"
SOURCES = ("dsp_engine.c", "dsp_answers.c")
CFLAGS = ["-std=c99", "-O2", "-Wall", "-Wextra", "-Werror", "-pedantic"]
SHARED = ["-shared", "-Wl,-z,defs", "-Wl,-z,text", "-Wl,-z,relro", "-Wl,-z,now"]


def make_object(room, archives):
    """Compiles the C and links it with what it needs of the archives, to one object whose own names are hidden."""
    parts, whole = [], room / "dsp_engine_whole.o"
    for it in SOURCES:
        parts.append(room / pathlib.Path(it).with_suffix(".o"))
        subprocess.run(["cc", *CFLAGS, "-fPIC", "-c", EMBED / it, "-o", parts[-1]], check=True)
    subprocess.run(["ld", "-r", "-o", whole, *parts, *archives], check=True)
    subprocess.run(["objcopy", *[f"--keep-global-symbol={it}" for it in exported()], whole], check=True)
    return whole


def make_archive(room, whole):
    subprocess.run(["ar", "-rcsD", room / ARCHIVE, whole], check=True)
    put_there(room / ARCHIVE, BIN)


def make_shared(room, whole):
    file, soname, _ = shared_names()
    names = "".join(f"        {it};\n" for it in exported())
    (room / "names").write_text(f"DSP_ENGINE_{major()} {{\n    global:\n{names}    local:\n        *;\n}};\n")
    how = [*SHARED, f"-Wl,-soname,{soname}", f"-Wl,--version-script,{room / 'names'}"]
    subprocess.run(["cc", *how, whole, "-o", room / file], check=True)
    # `rt` takes no tree with a link in it
    put_shared(room / file, BIN, is_copied=True)


def make(room, archives):
    """Makes the archive and the shared library in bin/."""
    whole = make_object(pathlib.Path(room), archives)
    make_archive(pathlib.Path(room), whole)
    make_shared(pathlib.Path(room), whole)
