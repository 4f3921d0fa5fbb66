"""Where memory may be taken: the part of scripts/tidy-check that looks for it.

In a stage, in the engine, in the calls over it and in all below these, what takes memory stands in a function that is handed an allocator,
or is a word that scripts/takes-memory.txt has for its file. Of a crate whose functions are handed the heap anyway, as the library for C, that
list has the functions that may take from it. After the call that creates a file nothing takes memory.
"""
import collections
import re

from reading import FUNCTION, ROOT, below, body_of, closing, code_of, listed, sources

TAKES = ROOT / "scripts" / "takes-memory.txt"
# what events and calls go through, besides the stages
ROOTS = ("pcm_engine", "pcm_report", "pcm_session", "pcm_engine_c", "pcm_outside", "pcm_convert_command", "pcm_soak_command", "pcm_replay")
# the types that take memory, and what asks a value for its allocator or makes it take from that
MEMORY = (
    r"\b(?:Vec|VecDeque|String|Rc|Arc|LinkedList|BTree\w+|HashMap|HashSet|Heap\w+|BoxedSlice|BoxedStr"
    r"|allocator|into_vec|reserve\w*|resize\w*|push_str|to_vec|to_owned|to_string|collect|clone)\b|\bBox::|\b(?:vec|format)!"
)
# what makes a list with room take more, in a file that names one
GROWS = re.compile(r"\.(push|insert|append|extend\w*|splice|split_off)\(")
# a list that is only read
LENT = re.compile(r"&\[(?:String|Vec<\w+>)\]")
# what ends the head of a function, where no array does
HEAD_END, ARRAY = re.compile(r"[{;]"), re.compile(r"\[[^\[\]]*\]")
# the heap, and how a function has its own box out of it again
HEAP = re.compile(r"\b(?:alloc|Global)\b")
HAS_BACK = re.compile(r"\balloc: Global\b|\.(?:take|into_box)\(alloc\)")

Function = collections.namedtuple("Function", "name start body end is_handed")


def memory_words():
    """What takes memory: the words above, and what makes a list of a vector."""
    made = [name for file in sources() if file.suffix == ".rt" for name in re.findall(r"\btype (\w+) = Sequence<", code_of(file))]
    return re.compile(rf"{MEMORY}|\b(?:{'|'.join(['Sequence', *made])})::new\b")


def reached():
    """The .rt files that events and calls go through, each with its code."""
    stages = [name for name in listed() if name.startswith("feed_") and name != "feed_tests"]
    return {it: body_of(it) for crate in below([*ROOTS, *stages]) for it in sources(crate) if it.suffix == ".rt"}


def blanked(form, code):
    """A text with blanks for what has a form."""
    return form.sub(lambda it: " " * len(it[0]), code)


def functions(code):
    """The functions of a text, those without a body too."""
    heads = blanked(ARRAY, code)
    for found in FUNCTION.finditer(code):
        mark = HEAD_END.search(heads, found.end())
        end = closing(code, mark.start()) if mark[0] == "{" else mark.end()
        yield Function(found[1], found.start(), mark.start(), end, "alloc: Global" in code[found.start() : mark.start()])


def taken(code, words, is_heap):
    """What takes memory in a text: each word, the function that it stands in, and whether that is handed an allocator. Where all functions are
    handed the heap, each word for it counts, and being handed it doesn't."""
    within = list(functions(code))
    code = blanked(HAS_BACK if is_heap else LENT, code)
    has_room = is_heap
    for form in (words, *([HEAP] if is_heap else []), GROWS):
        for found in form.finditer(code) if form is not GROWS or has_room else []:
            at = [it for it in within if it.start <= found.start() < it.end]
            is_handed = bool(at) and at[-1].is_handed and not is_heap
            has_room |= not is_handed
            yield found[found.lastindex or 0].rstrip(":!"), at[-1].name if at else None, is_handed


def allowed():
    """What the list has for a file or a crate."""
    lines = [line.split(": ", 2) for line in TAKES.read_text().splitlines() if line and not line.startswith("#")]
    return {place: set(words.split()) for place, words, reason in lines if reason.strip()}


def taken_without_an_allocator(code_by_file, words):
    """What stands where no allocator is handed in, and what the list has that isn't needed."""
    lists, used = allowed(), set()
    for file, code in sorted(code_by_file.items()):
        place = str(file.relative_to(ROOT / "crates"))
        crate = place.partition("/")[0]
        for word, name in [(word, name) for word, name, is_handed in taken(code, words, crate in lists) if not is_handed]:
            excuses = {(it, by) for it in (place, crate) for by in (word, name) if by in lists.get(it, ())}
            used |= excuses
            if not excuses:
                yield f"{place}: {word} stands where no allocator is handed in"
    for place, word in sorted({(place, word) for place, found in lists.items() for word in found} - used):
        yield f"{TAKES.name}: {place} needs no {word}: remove it"


def behind(code, at):
    """Where the text begins that runs after a call at a place: after the call, or after the other arms where it is an arm."""
    at = closing(code, at, "()")
    if code[at:].lstrip().startswith(","):
        depth = 0
        while depth >= 0 and at < len(code):
            depth += {"{": 1, "}": -1}.get(code[at], 0)
            at += 1
    return at


def creating(code_by_file):
    """How the functions are called that create a file, or call one that does."""
    bodies = [(it.name, code[it.body : it.end]) for code in code_by_file.values() for it in functions(code)]
    names, more = set(), {name for name, body in bodies if ".create(" in body}
    while more - names:
        names |= more
        calls = re.compile(rf"\.create\(|(?<![\w.])(?:{'|'.join(sorted(names))})\(")
        more = {name for name, body in bodies if calls.search(body)}
    return calls


def taken_behind_a_file(code_by_file, words):
    """What takes memory, or may, after a call that creates a file."""
    calls = creating(code_by_file)
    for file, code in sorted(code_by_file.items()):
        for function in functions(code):
            for call in calls.finditer(code, function.body, function.end):
                rest = code[behind(code, call.start()) : function.end]
                for found in [*words.finditer(rest), *HEAP.finditer(rest)]:
                    yield f"{file.relative_to(ROOT / 'crates')}: {found[0]} stands after {function.name} has created a file"


def memory_taken():
    """Where memory is taken and may not be."""
    code, words = reached(), memory_words()
    return [*taken_without_an_allocator(code, words), *taken_behind_a_file(code, words)]
