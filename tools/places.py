"""Where the program is: in a build, in a package, where `rt ci` leaves it, and what scripts/try keeps."""
import pathlib

ROOT = pathlib.Path(__file__).resolve().parent.parent
PLACES = (ROOT / "bin" / "dsp_replay", ROOT / "dsp_replay", ROOT / "crates" / "dsp_replay" / "out" / "dsp_replay")
TRIED = ROOT / "bin" / "tried"


def built():
    """The first program that is proved and there, or None."""
    return next((it for it in PLACES if it.is_file()), None)


def tried():
    """The newest program that scripts/try keeps, which isn't proved, or None."""
    kept = [it for it in TRIED.glob("*") if it.is_file() and not it.suffix]
    return max(kept, key=lambda it: it.stat().st_mtime, default=None)
