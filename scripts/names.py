"""The names and clauses that pages cite: the part of scripts/tidy-check that looks them up.

Each name in back quotes is declared that is a path, as `Owner::member` or `Module.word`, or that has an underscore or a capital inside, and a
path's last name is declared in what stands before it; so are the names after a path, as in `Owner::one`, `other`, and those before a module,
as in `word`, `other` (Module). A clause that is cited as `function: label` is one that the function promises, or a field of a record that such a
clause is. A table of constants has their numbers. Names of others stand in scripts/names-of-others.txt.
"""
import collections
import re

from reading import ROOT, closing, code_of, sources

OTHERS = ROOT / "scripts" / "names-of-others.txt"
# a block of code, and what was refused, which nothing declares; a text in back quotes
BLOCK = re.compile(r"(?ms)^```.*?^```$|\*Refused\.\*.*?(?=\*[A-Z]|\n)")
QUOTED = re.compile(r"`([^`\n]+)`")
# a name by itself, or after what it is declared in
NAME = re.compile(r"(?<![\w./<-])(?:[A-Za-z_][\w-]*(?:::|\.))*[A-Za-z_][\w-]*(?![\w./>-]|::)")
WORD = re.compile(r"[A-Za-z_]\w*(?:-\w+)*")
# names after a path of the same type or after their crate, and names before the module that declares them
BEHIND = re.compile(r"`(\w+)::\w+`((?:, `\w+`(?!:))+)|`(pcm_\w+|feed_\w+)`: ((?:`\w+`, )*`\w+`)")
BEFORE = re.compile(r"((?:`[\w-]+`, )*`[\w-]+`) \((?:`(\w+)` )?([A-Z]\w+)\)")
# of .rt: what has members, and the members
OWNER = re.compile(r"\b(?:impl\b(?:<[^{]*?>)?(?:\s+([\w:]+)(?:<[^{]*?>)?\s+for)?\s+|(?:trait|struct|enum) )(?:\w+::)*(\w+)[^{;]*\{")
MEMBER = re.compile(r"\b(?:fn|const|type|ghost) (\w+)|(?m:^\s+(?:pub(?:\(\w+\))? )?(?:ghost )?(\w+)\s*[:({,])")
ITEM = re.compile(r"\b(?:fn|struct|enum|trait|type|const|mod) (\w+)")
ALIAS = re.compile(r"\btype (\w+) = (?:\w+::)*(\w+)")
CLAUSE = re.compile(r"\bfn (\w+)|\b(requires|ensures)\*? (?:(\w+) )?\{")
# of .antt: a declaration, a record or a type by cases with its body, and a field or a case
STATED = re.compile(r"(?m)^(?:(?:abbrev|unfoldable|opaque) )?(?:pub )?(?:record |data )?([^\s:({]+)(?= *[:({])")
BODY = re.compile(r"(?m)^(?:pub )?(?:record|data) ([^\s:({]+).*\n((?:[ \t]+.*\n|\n)*)")
FIELD = re.compile(r"(?m)^\s+(?:pub )?(?:ghost )?([^\s:]+) :")
PART = re.compile(r"(?m)^\s+(?:pub )?(\w+) : (\w*)")


class Declared:
    """What the crates declare: the members of each type, trait, record, module and crate, and the clauses of each function."""

    def __init__(self):
        self.members, self.promised, self.asked = (collections.defaultdict(set) for _ in range(3))
        # the fields of each record, with the record that a field is, if it is one
        self.fields = collections.defaultdict(dict)
        self.records = collections.defaultdict(set)
        self.same = collections.defaultdict(set)
        for file in sources():
            crate = file.relative_to(ROOT / "crates").parts[0]
            (self.read_code if file.suffix == ".rt" else self.read_words)(crate, file.stem, code_of(file))
        for function, names in self.records.items():
            self.promised[function] |= {it for name in names for it in self.fields_of(name)}
        for name in list(self.members):
            self.members[name] |= {it for other in self.named(name) for it in self.members[other]}

    def read_words(self, crate, module, code):
        """A file of specs/ or proofs/."""
        stated, bodies = set(STATED.findall(code)), BODY.findall(code)
        self.members[crate] |= stated
        self.members[module] |= stated | {it for _, body in bodies for it in FIELD.findall(body)}
        for name, body in bodies:
            self.members[name] |= set(FIELD.findall(body))
            self.fields[name].update(PART.findall(body))

    def fields_of(self, name):
        """The fields of a record, and those of each record that is one of its fields."""
        own = self.fields.get(name, {})
        return {*own, *(it for kind in own.values() for it in self.fields.get(kind, {}))}

    def read_code(self, crate, module, code):
        """A file of src/."""
        spans = [(it.start(), closing(code, it.start()), it[2]) for it in OWNER.finditer(code)]
        self.members[crate] |= {module, *ITEM.findall(code)}
        for start, end, owner in spans:
            self.members[owner] |= {it for pair in MEMBER.findall(code[start:end]) for it in pair if it}
        pairs = [(it[2], it[1].rpartition("::")[2]) for it in OWNER.finditer(code) if it[1]] + ALIAS.findall(code)
        for name, other in pairs:
            self.same[name].add(other)
        function = None
        for found in CLAUSE.finditer(code):
            if found[1]:
                function = ([name for start, end, name in spans if start <= found.start() < end] or [crate])[-1], found[1]
                self.promised[function].add(None)
            elif function:
                (self.asked if found[2] == "requires" else self.promised)[function].add(found[3])
                head = re.match(r"\s*([A-Z]\w+)", code[found.end() :])
                if head and found[2] == "ensures":
                    self.records[function].add(head[1])

    def named(self, name):
        """A type's own name, and those of what it stands for and of its traits."""
        found, rest = set(), [name]
        while rest:
            it = rest.pop()
            if it not in found:
                found.add(it)
                rest += self.same[it]
        return found

    def labels(self, kind, path):
        """The labels of the clauses of a kind of a function, by its path or its name alone."""
        owner, _, name = path.rpartition("::")
        owners = self.named(owner.rpartition("::")[2]) if owner else None
        return {it for (by, function), found in kind.items() if function == name and (owners is None or by in owners) for it in found}


def words():
    """All words that stand somewhere in the crates or in what is built with them, and the names of files."""
    found = {it for file in sources() for it in WORD.findall(code_of(file))}
    for part in ("embed", "embed/*", "embed/python/dsp_engine", "embed/rust/src", "scripts", "tools"):
        found |= {it for file in ROOT.glob(f"{part}/*") if file.is_file() for it in WORD.findall(file.read_text())}
    return found | {it.name for it in ROOT.glob("crates/*")} | {it.stem for it in ROOT.rglob("*.*") if ".git" not in it.parts}


def is_name(text):
    """Whether a text looks like a name that something declares."""
    return "_" in text.strip("_") or "::" in text or re.search(r"[a-z][A-Z]|\w\.[A-Za-z]", text)


def wrong_in(page, declared, known, others):
    """The names of a page that nothing declares, each with why."""
    text = BLOCK.sub("", page.read_text())
    for name in [it for quoted in QUOTED.findall(text) for it in NAME.findall(quoted) if is_name(it)]:
        *owners, last = re.split(r"::|\.", name)
        owner = owners[-1] if owners else None
        if any(others.fullmatch(it) for it in (*owners, last)):
            continue
        if owner in declared.members and ("::" in name or not owner.islower()):
            if last not in declared.members[owner]:
                yield f"{owner} has no {last}"
        elif not known.issuperset([*owners, last]):
            yield f"nothing declares {name}"
    behind = [(owner or crate, more or modules) for owner, more, crate, modules in BEHIND.findall(text)]
    for owner, more in [*behind, *((module, more) for more, _, module in BEFORE.findall(text))]:
        yield from (f"{owner} has no {name}" for name in QUOTED.findall(more) if owner in declared.members and name not in declared.members[owner])


def cited(text, known):
    """The functions that a page cites with labels: `function: a, b`, and `function`: `a`, `b` of a known function."""
    for name, found in re.findall(r"`([A-Za-z_][\w:]*\w): ((?:[a-z]\w*, )*[a-z]\w*)`", text):
        if (name, found) != ("function", "label"):
            yield name, found.split(", ")
    for name, found in re.findall(r"`([\w:]*\w)`: ((?:`\w+`, )*`\w+`)", text):
        if name.rpartition("::")[2] in known:
            yield name, found.replace("`", "").split(", ")


def wrong_citations_in(page, declared):
    """The clauses that a page cites and no function promises."""
    for path, labels in cited(page.read_text(), {name for _, name in declared.promised}):
        for label in set(labels) - declared.labels(declared.promised, path):
            yield f"{path} {'asks' if label in declared.labels(declared.asked, path) else 'has no clause'} {label}"


def wrong_limits(page):
    """Where the table of limits has another number than its constant, in the file that it names."""
    rows = re.findall(r"(?m)^\| [^|]*\| ([^|]*)\| ((?:`[A-Z_]+`[,; ]*)+)\| ([^|]*)\|$", page.read_text())
    for numbers, constants, files in rows:
        told = {int(it.replace(",", ""), 0) for it in re.findall(r"\b0x[0-9a-f]+|\b\d[\d,]*\b(?<!,)", numbers)}
        code = "".join(code_of(ROOT / "crates" / file) for file in QUOTED.findall(files))
        for name in QUOTED.findall(constants):
            value = re.search(rf"\bconst {name}: \w+ = (0x[0-9a-f]+|\d+);", code)
            if value and int(value[1], 0) not in told:
                yield f"{name} is {value[1]}"
            elif not re.search(rf"\bconst {name}\b", code):
                yield f"{name} does not stand there"


def wrong_names(pages):
    """What pages cite and the crates don't have."""
    declared, known = Declared(), words()
    names = [it for line in OTHERS.read_text().splitlines() if not line.startswith("#") for it in line.partition(": ")[2].split()]
    others = re.compile("|".join(names).replace("*", r"\w*"))
    for page in pages:
        place = page.relative_to(ROOT)
        is_looked_up = place.parts[0] in ("docs", "crates") or place.name == "README.md"
        for wrong in [*(wrong_in(page, declared, known, others) if is_looked_up else []), *wrong_citations_in(page, declared), *wrong_limits(page)]:
            yield f"{place}: {wrong}"
