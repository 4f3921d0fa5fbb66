"""What scripts/build, scripts/try and scripts/test share: the crates, what each stands on, and what they are made of."""
import hashlib
import pathlib
import shutil
import subprocess
import sys

ROOT = pathlib.Path(__file__).resolve().parent.parent
PROGRAM = "dsp_replay"
PARTS = ("src", "specs", "proofs")


def look_for_rt(script):
    """Ends the script where the kit's command is not there."""
    if not shutil.which("rt"):
        print(f"{script}: the command rt of the kit is not in the path", file=sys.stderr)
        sys.exit(2)


def lines():
    """The line of crates.txt of each crate, in their order."""
    texts = [line.partition("#")[0] for line in (ROOT / "crates.txt").read_text().splitlines()]
    return {line.partition(":")[0].split()[0]: line for line in texts if line.strip()}


def needed(top):
    """A crate and all of the repository that it stands on, in the order of crates.txt."""
    listed, found, left = lines(), set(), [top]
    while left:
        name = left.pop()
        if name not in found:
            found.add(name)
            left += [it for it in listed[name].partition(":")[2].split() if it in listed]
    return [it for it in listed if it in found]


def checksum(names):
    """The checksum of what these crates are made of: their lines and sources, and the kit."""
    version = subprocess.run(["rt", "version"], stdout=subprocess.PIPE, check=True).stdout
    files = [it for name in names for part in PARTS for it in sorted((ROOT / "crates" / name / part).rglob("*")) if it.is_file()]
    read = [(str(it.relative_to(ROOT)), it.read_bytes()) for it in [ROOT / "HANDLES", *files]]
    listed = lines()
    return hashlib.sha256(repr((version, [listed[name] for name in names], read)).encode()).hexdigest()
