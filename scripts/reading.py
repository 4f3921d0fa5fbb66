"""What the parts of scripts/tidy-check share: the crates, their files, a file's text, and other scripts."""
import importlib.machinery
import importlib.util
import pathlib
import re

ROOT = pathlib.Path(__file__).resolve().parent.parent

RUST_USE = re.compile(r"^[ \t]*(pub(?:\([a-z]+\))? )?(?:ghost )?use ([^;]+);", re.M)
# what begins a clause or a ghost field, and a function
CLAUSE = re.compile(r"(?m)^[ \t]*(?:requires|ensures\*?|ghost)\b")
FUNCTION = re.compile(r"\bfn (\w+)")
# the text of a file with a planted bug, while it is tried
PLANTED = {}


def script_of(name):
    """Another script of this folder, as a module."""
    loader = importlib.machinery.SourceFileLoader(name, str(ROOT / "scripts" / name))
    module = importlib.util.module_from_spec(importlib.util.spec_from_loader(name, loader))
    loader.exec_module(module)
    return module


def sources(crate=None):
    """The .rt and .antt files of a crate, or of all."""
    parts = [it for part in ("src", "specs", "proofs") for it in ROOT.glob(f"crates/{crate or '*'}/{part}")]
    return sorted(it for part in parts for it in part.rglob("*") if it.suffix in (".rt", ".antt"))


def code_of(file):
    """A file's text without its comments."""
    mark = "//" if file.suffix == ".rt" else "--"
    return re.sub(rf"(?m)(^|(?<=\s)){mark}.*$", "", PLANTED.get(file) or file.read_text())


def body_of(file):
    """The code of a .rt file without its comments, imports, clauses and ghost fields."""
    text, kept, start = RUST_USE.sub("", code_of(file)), [], 0
    while found := CLAUSE.search(text, start):
        kept.append(text[start : found.start()])
        start = closing(text, found.end())
    return "".join(kept) + text[start:]


def closing(text, start, pair="{}"):
    """Where the brackets end that are the first after a place."""
    depth = 0
    for at in range(text.index(pair[0], start), len(text)):
        depth += {pair[0]: 1, pair[1]: -1}.get(text[at], 0)
        if depth == 0:
            return at + 1
    return len(text)


def listed():
    """The crates of crates.txt, and what each lists."""
    crates = {}
    for line in (ROOT / "crates.txt").read_text().splitlines():
        name, _, below = line.partition("#")[0].partition(":")
        if name.strip():
            crates[name.split()[0]] = below.split()
    return crates


def below(roots):
    """Crates, and all that they use."""
    crates, found, rest = listed(), set(), list(roots)
    while rest:
        name = rest.pop()
        if name in crates and name not in found:
            found.add(name)
            rest += crates[name]
    return found


def edits():
    """The planted bugs of all crates."""
    return sorted([*ROOT.glob("crates/*/must-fail/*.edit"), *ROOT.glob("crates/*/planted/*.edit")])


def marked(edit):
    """The lines of a planted bug: what each is marked as, and its text."""
    return [(mark, text) for mark, _, text in (line.partition(": ") for line in edit.read_text().splitlines())]
