"""Trials of tools/filter, tools/equaliser and tools/sweep."""
import random
import re
import subprocess
import sys
import xml.etree.ElementTree

from trials_shared import ROOT, TOOLS, Device, ask, called, equal, put_wave, samples_of, tool

CONSTANT = """open 0 play s16le 1 8000
send 0 constant 0 4000
close 0
intr 4096
intr 4096
"""
SOUND = "".join(f"write 0 {random.Random(at).getrandbits(8 * 64):0128x}\n" for at in range(32))


def tone_of(said, hertz):
    """The gain that a sweep prints at a number of Hz."""
    return next((line.split("gain")[1].split("dB")[0].strip() for line in said.splitlines() if line.split()[:2] == [str(hertz), "Hz"]), said)


def try_filter(program, folder):
    """Each row adds up to one, so that a constant passes as it is. Two taps in two rows are lines to twice the rate: a tone of w between
    two outputs is (1 + cos w) / 2 of it."""
    status, table = tool("filter", 8000, 12000, 12, 16)
    rows = [[int(number) for number in row.split(",")] for row in re.findall(r"(?m)^\[([-\d,]+)\],$", table)]
    shift = int(re.search(r"(?m)^shift = (\d+)$", table)[1])
    equal("filter", (status, {len(row) for row in rows}, [sum(row) for row in rows]), (0, {16}, [1 << shift] * 12))
    put_wave(folder / "constant.wav", "s16le", 1, 8000, (1234).to_bytes(2, "little") * 2000)
    (folder / "config").write_text("[device]\nrate = 12000\nchannels = 1\nhw_block = 2048\nhw_blocks = 2\n[vchans]\nquality = 2\n"
                                   f"[files]\nconstant = '{folder / 'constant.wav'}'\n{table}")
    (folder / "script").write_text(CONSTANT)
    ask(program, "run", folder / "script", folder / "out", folder / "config")
    heard = samples_of((folder / "out").read_bytes()[2 * 4096:], Device("s16le", 1, 12000, 0, 0))
    equal("a constant", set(heard[16:2980]), {(1234,)})
    equal("filter of an odd number", tool("filter", 8000, 12000, 12, 15), (2, "filter: TAPS is even, and 2 to 64; filter --help says more\n"))


def try_sweep_filters(program, folder):
    """Of two filters the first is measured with a word, and the other one by its number."""
    lines, table = tool("filter", 8000, 16000, 2, 2)[1], folder / "table"
    table.write_text(lines)
    equal("sweep of lines", tone_of(tool("sweep", table, "--program", program)[1], 1999), "-1.374")
    table.write_text(tool("filter", 4000, 12000, 3, 2)[1] + lines)
    status, said, errors = called("sweep", table, "--program", program)
    equal("two filters", (status, errors), (0, "sweep: 2 filters are there, and the first is measured: --table N measures another\n"))
    equal("the first of two", tone_of(said, 1999) != "-1.374", True)
    status, said, errors = called("sweep", table, "--table", 2, "--program", program)
    equal("the second of two", (status, tone_of(said, 1999), errors), (0, "-1.374", ""))
    for out, status, fault in (("x.jpg", 2, f"--picture is FILE.svg or FILE.png: '{folder / 'x.jpg'}' isn't; sweep --help says more"),
                               ("x.png", 1, "a PNG needs rsvg-convert, inkscape or ImageMagick in the path")):
        words = [sys.executable, TOOLS / "sweep", table, "--picture", folder / out, "--program", program]
        ran = subprocess.run(list(map(str, words)), env={"PATH": ""}, stdout=subprocess.PIPE, stderr=subprocess.PIPE, universal_newlines=True, check=False)
        equal(out, (ran.returncode, ran.stdout, ran.stderr), (status, "", f"sweep: {fault}\n"))
    (folder / "sections").write_text(tool("equaliser", 8000, "peak", 1000, 6, 1)[1])
    equal("no filter", called("sweep", folder / "sections", "--table", 2, "--program", program), (1, "", "sweep: filter 2: 0 are there\n"))
    equal("no third", called("sweep", table, "--table", 3, "--program", program), (1, "", "sweep: filter 3: 2 are there\n"))


def try_equaliser(program, folder):
    """A peak of no decibels changes no sample; one of six has them where it stands."""
    device = "[device]\nrate = 8000\n"
    (folder / "script").write_text(f"open 0 play s16le 2 8000\n{SOUND}close 0\nintr 1024\nintr 1024\n")
    outs = []
    for sections in ("", tool("equaliser", 8000, "peak", 1000, 0, 1)[1]):
        (folder / "config").write_text(device + sections)
        ask(program, "run", folder / "script", folder / "out", folder / "config")
        outs.append((folder / "out").read_bytes())
    equal("a peak of no decibels", (outs[0] == outs[1], any(outs[0][4096:])), (True, True))
    equal("no section", tool("equaliser", 8000), (2, "equaliser: there are 1 to 4 sections; equaliser --help says more\n"))


def try_sweep_rates(program, folder):
    """A peak of six decibels has them at its Hz where it is measured at its rate: that of the mix, or the one that it was made for."""
    sections, config = tool("equaliser", 8000, "peak", 1000, 6, 1)[1], folder / "config"
    for text, said in (("[device]\nrate = 16000\n[vchans]\nrate = 8000\n", ""), ("", (
            "sweep: no rate is given: the sections are measured at 8000, for which they were made; --rate R measures at another\n"))):
        config.write_text(text + sections)
        status, told, errors = called("sweep", config, "--picture", folder / "drawn.svg", "--program", program)
        equal(f"a peak of six decibels {text!r}", (status, tone_of(told, 1000), errors), (0, "6.000", said))
    look_at_response(folder / "drawn.svg")
    plain = "".join(line for line in sections.splitlines(True) if not line.startswith("#"))
    config.write_text(plain)
    status, _, errors = called("sweep", config, "--rate", 4000, "--program", program)
    equal("a rate that is given", (status, errors), (0, ""))
    config.write_text("[device]\nrate = 4000\n" + sections)
    errors = called("sweep", config, "--program", program)[2]
    equal("another rate", errors, "sweep: the sections were made for 8000, and are measured at 4000, at which they are others\n")


def look_at_response(path):
    """A picture has a title, two curves that touch where the tones are, and no octave without a tone."""
    root = xml.etree.ElementTree.parse(path).getroot()
    texts = [it.text for it in root.iter() if it.tag.endswith("text")]
    curves = [[tuple(map(float, point.split(","))) for point in it.get("points").split()] for it in root.iter() if it.tag.endswith("polyline")]
    equal("a response", (texts[0], len(curves), "20 Hz" in texts, "5 kHz" in texts), ("Gain of the equaliser of config at 8000", 2, True, False))
    asked, measured = curves
    equal("the ends of the curves", (asked[0][0], asked[-1][0]), (measured[0][0], measured[-1][0]))
    # 1000 Hz is 17 thirds of an octave above 20: the curve that was asked for is highest there, too
    equal("where the curves are highest", abs(min(asked, key=lambda it: it[1])[0] - min(measured, key=lambda it: it[1])[0]) < 3, True)


def try_sweep_example(program, folder):
    """The drawn response of the example is the one that stands beside it."""
    place = ROOT / "examples" / "10-an-equaliser"
    status, _ = tool("sweep", "--picture", folder / "response.svg", place / "an_equaliser.toml", "--program", program)
    equal("response.svg", (status, (folder / "response.svg").read_bytes() == (place / "response.svg").read_bytes()), (0, True))


TRIALS = (try_sweep_rates, try_sweep_filters, try_filter, try_equaliser)
