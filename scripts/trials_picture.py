"""Trials of tools/picture: those of the examples, devices, events, axes, and what is asked of long scripts."""
import itertools
import re
import struct
import subprocess
import sys
import xml.etree.ElementTree

from trials_shared import DEVICE_FORMATS, HALF, LAYOUTS, LOUD, ROOT, TOOLS, config_of, device, equal, put_wave, tool

# what pictures say, by what the pages of their examples work out
SAID = {
    "03-a-shortage": {
        "slot 0 is short from frame 1024 to 1535", "limited in frames 0 to 511 of the mix", "slot 0 plays from frame 0 to 2303",
        "slot 1 drains from frame 0 to 1535", "interrupt 2 hands over frames 768 to 1535", "frames 2304 to 3327 are still in the ring"},
    "04-a-surround-client": {"slot 0 is limited by its own stages in frames 2 to 2 of the mix"},
    "12-a-mix-of-one-channel": {"limited in frames 2 to 2 of the mix"},
    "14-a-group-that-starts": {
        "group 1 starts at frame 7: slot 0, recording 0", "slot 0 waits from frame 3 to 6", "slot 0 plays from frame 7 to 10",
        "slot 0 drains from frame 11 to 18", "recording 0 records from frame 7 to 18"},
    "15-a-game-that-pokes": {
        "slot 4 is poked 16 bytes at frame 0", "slot 4 is poked 16 bytes at frame 4", "slot 4 is poked 16 bytes at frame 8",
        "slot 4 is poked 16 bytes at frame 12", "slot 4 plays from frame 0 to 19"},
    "16-a-fade": {"limited in frames 0 to 21 of the mix", "line 9: mixer master 0x5a5a", "line 27: mixer master 0x0000"},
    "17-a-mute": {"line 9: mixer mute 0 1", "line 13: mixer mute 0 0"},
}
# a client that is halted before it starts, one that plays in eight bits, and a recording whose ring has room for eight frames
DROPS = """open 0 play s16le 2 48000
open 1 rec s16le 2 48000
ioctl 1 setfragment 0x00020004
write 0 0100010002000200
ioctl 1 settrigger 1
intr 4
ioctl 0 halt
write 0 01000100
intr 6
read 1 8
close 1
"""


def drawn(program, script, configs, folder):
    """A picture as elements, each that says something by what it says."""
    out = folder / "drawn.svg"
    equal(f"picture {script.name}", tool("picture", script, *configs, "--out", out, "--program", program, folder=script.parent), (0, ""))
    root = xml.etree.ElementTree.parse(out).getroot()
    return root, {title.text: it for it in root.iter() for title in it if title.tag.endswith("title")}


def try_pictures(program, folder):
    """The pictures of the examples are those that are drawn, and say what their pages work out."""
    for place in sorted({it.parent for it in (ROOT / "examples").glob("*/*.script")}):
        script = sorted(place.glob("*.script"))[0]
        root, said = drawn(program, script, config_of(script), folder)
        look_at_labels(place.name, root)
        equal(f"{place.name}/picture.svg", (folder / "drawn.svg").read_bytes() == (place / "picture.svg").read_bytes(), True)
        equal(f"what is said of {place.name}", SAID.get(place.name, set()) - set(said), set())


def texts_of(root):
    return [it for it in root.iter() if it.tag.endswith("text")]


def span_of(text):
    """From where to where a text goes, by some 5.5 for each of its letters."""
    x, wide = float(text.get("x")), 5.5 * len(text.text)
    kind = text.get("class", "")
    return (x - wide, x) if "right" in kind else (x - wide / 2, x + wide / 2) if "middle" in kind else (x, x + wide)


def look_at_labels(name, root):
    """No two small texts of one height lie over each other, and all numbers of the axis are round."""
    heights = {}
    for it in texts_of(root):
        if "small" in it.get("class", ""):
            heights.setdefault(it.get("y"), []).append(it)
    for row in heights.values():
        spans = sorted(map(span_of, row))
        equal(f"labels of {name}", [(a, b) for a, b in zip(spans, spans[1:]) if b[0] < a[1]], [])
    numbers = [int(it.text) for it in heights.get("78", []) if it.text.isdigit()]
    step = min((b - a for a, b in zip(numbers, numbers[1:])), default=1)
    equal(f"numbers of {name}", (bool(numbers), re.fullmatch("[125]0*", str(step)) is not None, {it % step for it in numbers}), (True, True, {0}))


def paths_of(root, kind):
    return [it.get("d") for it in root.iter() if it.get("class") == kind and it.get("d")]


def words_of(root):
    return [it.text or "" for it in texts_of(root)]


def try_rings(program, folder):
    """How many bytes wait at most, of a ring as it is then: two fragments of 16 bytes were asked for in three examples."""
    for name, wanted in (("06", "32 of 32 bytes"), ("09", "16 of 32 bytes"), ("14", "16 of 32 bytes"), ("01", "16 of 16384 bytes")):
        script = next((ROOT / "examples").glob(f"{name}-*/*.script"))
        equal(f"the ring of {name}", wanted in words_of(drawn(program, script, config_of(script), folder)[0]), True)


def try_picture_devices(program, folder):
    """Two frames of a quarter of the range, on a device of each format and of each layout: four frames are handed over, and the ring has 16."""
    script, layouts = folder / "two", itertools.cycle(LAYOUTS)
    script.write_text("open 0 play s16le 2 48000\nwrite 0 0040004000400040\nclose 0\nintr 4\n")
    for form, channels in ((form, next(layouts)) for form in DEVICE_FORMATS):
        root, _ = drawn(program, script, [device(folder, form, channels)], folder)
        words = " ".join(words_of(root))
        bits = int(form.strip("sulbe"))
        equal(f"picture on {form} {channels}", (f"the device reaches {1 << bits - 2}" in words, f"{form} {channels} 48000" in words), (True, True))
        # 788 for twenty frames: a frame is 39.4 wide, and the device gets the first one 16 later
        sounding = min(channels, 2)
        shapes = [re.sub(r"(M\S+) \S+?(h\S+?)v.*", r"\1 \2", path) for kind in ("slot", "mix", "device") for path in paths_of(root, kind)]
        equal(f"the shapes on {form} {channels}", shapes, ["M190 h78.8"] * 2 * sounding + ["M820.4 h78.8"] * sounding)


def try_picture_events(program, folder):
    """What is dropped and lost, a limit in a mix of its own, what a mute leaves out, and no picture."""
    script = folder / "drops"
    script.write_text(DROPS)
    root, said = drawn(program, script, [], folder)
    equal("drops", {"slot 0 drops 8 bytes at frame 4", "slot 0 waits from frame 0 to 9", "recording 0 records from frame 0 to 9",
                    "recording 0 loses frames of those from 8 to 9", "recording 0 drops 24 bytes at frame 10"} - set(said), set())
    (folder / "loud").write_text(LOUD)
    (folder / "half.toml").write_text(HALF)
    root, said = drawn(program, folder / "loud", [folder / "half.toml"], folder)
    equal("a limit at half the rate", [it for it in said if it.startswith("limited")], ["limited in frames 0 to 1 of the mix"])
    root, _ = drawn(program, next((ROOT / "examples").glob("17-*/*.script")), list((ROOT / "examples").glob("17-*/*.toml")), folder)
    # 788 for 28 frames: on both sides of slot 0 frames 0 to 3 and 8 to 11
    equal("a mute", [re.match(r"M\S+", path)[0] for path in paths_of(root, "slot")][:4], ["M190", "M415.1"] * 2)
    words = [sys.executable, TOOLS / "picture", script, "--out", folder / "drawn.png", "--program", program]
    for words[4] in (folder / "drawn.png", folder / "drawn.PNG"):
        ran = subprocess.run(list(map(str, words)), env={"PATH": ""}, stderr=subprocess.PIPE, universal_newlines=True, check=False)
        equal("no converter", (ran.returncode, ran.stderr), (1, "picture: a PNG needs rsvg-convert, inkscape or ImageMagick in the path\n"))
    for out in ("drawn.jpg", "drawn.PDF"):
        equal(out, (tool("picture", script, "--out", folder / out, "--program", program), (folder / out).exists()), (
            (2, f"picture: --out is FILE.svg or FILE.png: '{folder / out}' isn't; picture --help says more\n"), False))


def try_kept_frames(program, folder):
    """What was kept of an interrupt with an overrun stands where it came, and what was lost begins where that ends: of a hundred frames 16
    have room in a ring of 32 bytes."""
    script, config = folder / "full", folder / "full.toml"
    put_wave(folder / "ones.wav", "s16le", 1, 48000, bytes([1, 0]) * 100)
    config.write_text(f"[device]\nchannels = 1\nhw_block = 50\nhw_blocks = 2\ncapture = 'ones'\n[files]\nones = '{folder / 'ones.wav'}'\n")
    script.write_text("open 0 rec s16le 1 48000\nioctl 0 setfragment 0x00020004\nioctl 0 post\nintr 100\nread 0 64\n")
    root, said = drawn(program, script, [config], folder)
    kept = [re.match(r"M(\S+) \S+?h([\d.]+)", path) for path in paths_of(root, "recording")]
    lost = [float(it.get("x")) for it in root.iter() if it.get("class") == "short" and it.get("width") != "12"]
    equal("kept", [round(float(it[1]) + float(it[2]), 1) for it in kept], lost)
    equal("lost", "recording 0 loses frames of those from 16 to 99" in said, True)


def try_windows(program, folder):
    """A part of a picture, by frames and by seconds: 0.02 s are 960 frames, 0.03 are 1440, of interrupts of 768 frames. What is left out,
    what is said, and to whom a row belongs."""
    script = next((ROOT / "examples").glob("03-*/*.script"))
    for begin, end in (("960", "1440"), ("0.02", "0:00.03"), ("0.02s", ".03s")):
        out = folder / "part.svg"
        equal(f"from {begin}", tool("picture", script, "--from", begin, "--to", end, "--out", out, "--program", program), (0, ""))
        root = xml.etree.ElementTree.parse(out).getroot()
        said = {title.text for it in root.iter() for title in it if title.tag.endswith("title")}
        equal(f"interrupts from {begin}", sorted(it for it in said if it.startswith("interrupt")), ["interrupt 2 hands over frames 768 to 1535"])
        # frame 1024 is 64 of 480 frames from the left, of 788 in all
        bars = [it.get("x") for it in root.iter() if it.get("class") == "short" and it.get("y") > "11"]
        equal(f"a shortage from {begin}", bars[:1], ["295"])
        look_at_labels(f"from {begin}", root)
    one, chime = (next((ROOT / "examples").glob(f"{it}-*/*.script")) for it in ("01", "07"))
    root, words = drawn(program, script, [], folder)[0], words_of(drawn(program, one, [], folder)[0])
    equal("a legend", ("short, or lost" in words_of(root), "limited" in words_of(root), "poked" in words_of(root), "limited" in words), (True, True, False, False))
    equal("stretches that are left out", (len(paths_of(root, "broken")), len(paths_of(drawn(program, one, [], folder)[0], "broken"))), (0, 4))
    equal("a wave", "chime.wav" in words_of(drawn(program, chime, config_of(chime), folder)[0]), True)
    (folder / "game").write_text("open 0 play s16le 2 48000 # the player\nintr 4\n")
    equal("a program", "the player" in words_of(drawn(program, folder / "game", [], folder)[0]), True)


def try_long_pictures(program, folder):
    """More lines than are asked one by one: of 2000 writes of four frames one is left out, and the client is halted and starts again."""
    script, lines = folder / "long", ["open 0 play s16le 2 48000"]
    for at in range(2000):
        lines += [] if at == 1000 else ["write 0 " + "0100" * 8]
        lines += ["ioctl 0 post"] * (at in (0, 1500)) + ["intr 4"] + ["ioctl 0 halt"] * (at == 1499)
    script.write_text("\n".join(lines) + "\n")
    said = drawn(program, script, [], folder)[1]
    # the halt comes after 1500 interrupts, and the post before the next: it plays from then on again
    equal("a long script", {"slot 0 is short from frame 4000 to 4003", "slot 0 plays from frame 0 to 7999"} - set(said), set())
    equal("how large it is", (folder / "drawn.svg").stat().st_size < 100000, True)


def try_own_limits(program, folder):
    """A client's own stages are at their limit in 20 frames of a mix of twice the device's rate: 40 to 59, after the 48 of the device."""
    script, config = folder / "twice", folder / "twice.toml"
    written = "".join(struct.pack("<hh", value, value).hex() * count for value, count in ((100, 40), (10000, 20), (100, 20)))
    script.write_text("\n".join(["open 0 play s16le 2 48000", f"write 0 {written}", "close 0", *["intr 8"] * 6]) + "\n")
    config.write_text("[device]\nhw_block = 4\nhw_blocks = 2\nrate = 24000\n[vchans]\nrate = 48000\n[[eq]]\nshift = 1\nb0 = 8\nb1 = 0\nb2 = 0\na1 = 0\na2 = 0\n")
    drawn = tool("picture", script, config, "--out", "-", "--program", program)[1]
    equal("limits after the device's frames", re.findall(r"limited by its own stages in frames (\d+ to \d+) of the mix", drawn), ["40 to 59"])


TRIALS = (try_pictures, try_picture_devices, try_picture_events, try_windows, try_rings, try_kept_frames, try_long_pictures, try_own_limits)
