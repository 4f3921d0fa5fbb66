"""Whether the C of embed/ says what the library has: the part of scripts/tidy-check that compares them.

The fields of each struct that C and Rattle share stand in the same order under the same names (dsp_engine.h), and the parameters of each
function that the library exports, with the same types (dsp_raw.h). What a program calls has the parameters that dsp_engine.h declares, and
hands each on in its place (dsp_engine.c). A list of Rattle is a pointer and a number for C.
"""
import re

from reading import ROOT, code_of, sources

HEADER, RAW, CALLS = (ROOT / "embed" / it for it in ("dsp_engine.h", "dsp_raw.h", "dsp_engine.c"))
LIBRARY = ("pcm_engine_c", "pcm_session", "pcm_foreign")
# the structs of C, and what they are in Rattle
STRUCTS = {
    "dsp_engine": "Handle",
    "dsp_device": "DeviceNumbers",
    "dsp_filter": "FilterNumbers",
    "dsp_section": "SectionNumbers",
    "dsp_answer": "AnswerNumbers",
    "dsp_settings": "SettingsNumbers",
    "dsp_slot": "SlotNumbers",
}
TYPES = {"bool": "bool", "u8": "uint8_t", "i32": "int32_t", "u32": "uint32_t", "u64": "uint64_t", "i64": "int64_t", "Slot": "void *"}
TYPES.update({ours: f"struct {theirs}" for theirs, ours in STRUCTS.items()})
# fields that have a name of their own on each side
NAMES = {("Handle", "slot"): "at"}
# the functions that a function of another name hands its arguments on to, and those of its arguments that it keeps
OUTER = {"dsp_raw_discard": "dsp_engine_interrupt"}
WITHOUT = {"dsp_raw_discard": ("out", "room")}


def type_in_c(text):
    """The types of C that a type of Rattle is for a call."""
    pointed = re.fullmatch(r"&(mut )?(\[)?(\w+)\]?", text)
    if not pointed:
        return [TYPES[text]]
    to_one = f"{'' if pointed[1] else 'const '}{TYPES[pointed[3]]} *"
    return [to_one, "size_t"] if pointed[2] else [to_one]


def pairs(text, form):
    """Names and types of a list of fields or parameters."""
    return [(it["name"], re.sub(r"\s+", " ", it["type"]).strip()) for it in form.finditer(text)]


OURS = re.compile(r"(?P<name>\w+): (?P<type>[&\w\[\] ]+?)(?=,|$)", re.M)
THEIRS = re.compile(r"(?P<type>(?:const )?(?:struct |enum )?\w+ \*{0,2})(?P<name>\w+)(?=[;,]|$)", re.M)
# an argument that is a parameter: as it is, as another type, or unless it is null
HANDED = re.compile(r"(?:\(\w+\))?(?P<name>\w+)|(?P<unless>\w+) == NULL \? &\w+ : (?P=unless)")


def c_of(file):
    """The text of a file in C without its comments."""
    return re.sub(r"/\*.*?\*/", "", file.read_text(), flags=re.S)


def declared(name, text):
    """The names and types of the parameters that a header declares a function with."""
    return pairs(re.search(rf"\b{name}\(([^)]*)\);", text)[1], THEIRS)


def structs(code):
    """Where a struct of the library has other fields than its own of C."""
    header = c_of(HEADER)
    for theirs, ours in STRUCTS.items():
        fields = re.search(rf"#\[repr\(C\)\][^{{]*\bstruct {ours} \{{(.*?)^\}}", code, re.S | re.M)[1]
        fields = re.sub(r"(?m)^\s*(?:pub )?ghost .*$", "", fields)
        wanted = [(NAMES.get((ours, name), name), TYPES[kind]) for name, kind in pairs(fields, OURS)]
        found = pairs(re.search(rf"struct {theirs} \{{(.*?)\}};", header, re.S)[1], THEIRS)
        if wanted != found:
            yield f"{HEADER.name}: struct {theirs} has other fields than {ours}"


def functions(code):
    """Where a function of the library has other parameters than C hands it."""
    raw = c_of(RAW)
    for name, text in re.findall(r'extern "C" fn (\w+)\(([^)]*)\)', code):
        mine, found = pairs(text, OURS)[1:], declared(name, raw)
        if [it for _, kind in mine for it in type_in_c(kind)] != [kind for _, kind in found]:
            yield f"{RAW.name}: {name} has parameters of other types"
        numbers = [it for it, kind in mine if not kind.startswith("&")]
        if [it for it, _ in found if it in numbers] != numbers:
            yield f"{RAW.name}: {name} has its numbers in another order"
        yield from handed_on(OUTER.get(name, name.replace("raw", "engine")), name, {}, WITHOUT.get(name, ()))


def handed_on(outer, inner, own, without=()):
    """Where a function that programs call has other parameters than are declared, or hands on others, or in another order. A parameter may
    be handed on under a name of the function's own, or not at all."""
    calls = c_of(CALLS)
    head, body = re.search(rf"\b{outer}\(([^)]*)\) \{{(.*?)^\}}", calls, re.S | re.M).groups()
    names = [it for it, _ in pairs(head, THEIRS)]
    if pairs(head, THEIRS) != declared(outer, c_of(HEADER)):
        yield f"{CALLS.name}: {outer} has other parameters than {HEADER.name} declares"
    handed = re.search(rf"\b{inner}\((.*?)\);", body, re.S)[1].split(",")
    found = [HANDED.fullmatch(it.strip()) for it in handed]
    if [it and (it["name"] or it["unless"]) for it in found] != [own.get(it, it) for it in names if it not in without]:
        yield f"{CALLS.name}: {outer} hands its arguments on in another order"


def wrong_header():
    """What the C of embed/ says wrongly."""
    code = "".join(code_of(file) for crate in LIBRARY for file in sources(crate) if file.suffix == ".rt")
    found = [*structs(code), *functions(code), *handed_on("dsp_engine_create", "dsp_engine_new", {"engine": "made"})]
    return [f"embed/{it}" for it in found]
