"""What the library for C shows: its headers with their functions, its version, and the names of its files."""
import os
import pathlib
import re
import shutil

ROOT = pathlib.Path(__file__).resolve().parent.parent
EMBED = ROOT / "embed"
HEADERS = ("dsp_engine.h",)
ARCHIVE = "libdsp_engine.a"
FUNCTION = re.compile(r"(?m)^(?:const )?\w+ \*?(dsp_\w+)\(")


def exported():
    """The functions that the headers declare."""
    return sorted(name for it in HEADERS for name in FUNCTION.findall((EMBED / it).read_text()))


def version():
    """The version of the header, as MAJOR.MINOR.PATCH."""
    number = int(re.search(r"#define DSP_ENGINE_VERSION (0x\w+)", (EMBED / "dsp_engine.h").read_text())[1], 16)
    return f"{number >> 16}.{number >> 8 & 255}.{number & 255}"


def major():
    return version().partition(".")[0]


def shared_names():
    """The shared library's file, the name by which programs find it, and the one by which they are linked."""
    base = "libdsp_engine.so"
    return f"{base}.{version()}", f"{base}.{major()}", base


def put_there(made, folder, mode=0o644):
    """Puts a file into a folder, where it stands whole or not at all."""
    folder.mkdir(parents=True, exist_ok=True)
    fresh = folder / f"{made.name}.new"
    shutil.copyfile(made, fresh)
    fresh.chmod(mode)
    os.replace(fresh, folder / made.name)


def put_shared(made, folder, is_copied=False):
    """Puts the shared library into a folder, with the two names that lead to it: links, or copies where no link may stand."""
    put_there(made, folder, 0o755)
    to, *names = shared_names()
    for name in names:
        (folder / name).unlink(missing_ok=True)
        if is_copied:
            shutil.copy(made, folder / name)
        else:
            (folder / name).symlink_to(to)
