"""Trials of tools/explain: sums, runs, lines and bytes, recordings, areas, groups, and clicks."""
import json
import struct

from trials_shared import HALF, LOUD, ROOT, called, config_of, equal, put_wave, tool
from scripts import device_of

# the sums of the second example, as its page works them out
SUMS = """frame 1024 is 22767 22767
line 12 hands it over: intr 1
line 11 mixed it: intr 1024
slot 0, opened by line 2 (open 0 play s16le 2 48000), adds 30000 30000: 30000 30000
  frame 0 of its run 1: line 5: write 0, its byte 0
slot 1, opened by line 3 (open 1 play s16le 2 48000), adds 10000 10000: 32767 32767, limited
  frame 0 of its run 1: line 7: write 1, its byte 0
slot 2, opened by line 4 (open 2 play s16le 2 48000), adds -10000 -10000: 22767 22767
  frame 0 of its run 1: line 9: write 2, its byte 0
"""
SHORT = """open 0 play s16le 2 48000
write 0 0100
ioctl 0 settrigger 0
write 0 0100ffff
ioctl 0 settrigger 2
intr 2
intr 1024
"""


# two runs of a client, of which the second begins with position 3 of the mix; one at half the rate, which drains; and a mapped one
# whose area of eight frames goes round
RUNS = """open 0 play s16le 2 48000
open 1 play s16le 1 24000
open 2 map s16le 2 48000
ioctl 2 setfragment 0x00020004
poke 2 0 {area}
write 0 0500050006000600
write 1 64006600
close 1
ioctl 0 sync
intr 3
ioctl 2 settrigger 2
intr 16
write 0 0a000a000b000b000c000c00
ioctl 0 post
intr 5
intr 16
"""
# the frame of OUT, and what is said of each slot: after 16 frames of the ring's silence the first run gives positions 0 and 1, and is over
# with 19 frames handed over; the second begins at position 19. Outputs 0 to 3 of the slow client lie at its frames 0, 0.5, 1 and 1.5, of which
# 0 needs frame 0 and 1. The mapped one starts at position 3: frame 18 of its run is that of the area at 18 - 16.
SLOW = "up to frame 1 of its run 1, at 24000, was taken by then: line 7: write 1, its byte 2"
TOLD = {
    16: ["frame 0 of its run 1: line 6: write 0, its byte 0", SLOW, "none of its runs goes on there"],
    18: ["no frame of its run 1", SLOW, "none of its runs goes on there"],
    19: ["no frame of its run 1", SLOW, "frame 0 of its run 1, byte 0 of its area: line 5: poke 2, its byte 0"],
    37: ["frame 2 of its run 2: line 13: write 0, its byte 8", "none of its runs goes on there",
         "frame 18 of its run 1, byte 8 of its area: line 5: poke 2, its byte 8"],
    38: ["no frame of its run 2", "it is short there", "none of its runs goes on there",
         "frame 19 of its run 1, byte 12 of its area: line 5: poke 2, its byte 12"],
}
SMALL = "[device]\nhw_block = 8\nhw_blocks = 2\n"


def try_explain(program, folder):
    """Frames whose sums were worked by hand, one that is short, and a frame of each example: what is said last is the frame."""
    three = next((ROOT / "examples").glob("02-*/*.script"))
    # 0.02134 seconds are 1024.3 frames, and the first frame of the mix is handed over 1024 later
    for words in (["1024"], ["0.02134"], ["0:00.02134"], [".02134s"], ["0", "--mix"], ["0s", "--mix"]):
        equal(f"explain {words}", tool("explain", three, *words, "--program", program), (0, SUMS))
    equal("past the end", tool("explain", three, 1025, "--program", program), (1, "explain: OUT has 1025 frames, which is 0.021 s: 1025 is frame 1025\n"))
    (folder / "short").write_text(SHORT)
    said = tool("explain", folder / "short", 1025, "--program", program)[1].splitlines()
    equal("a shortage", said[3:], ["slot 0, opened by line 1 (open 0 play s16le 2 48000), adds 0 0: 0 0", "  no frame of its run 2", "  it is short there"])
    for script in sorted((ROOT / "examples").glob("*/*.script")):
        configs = config_of(script)
        ring = device_of(configs[0].read_text() if configs else "").ring
        status, said = tool("explain", script, ring, *configs, "--program", program, folder=script.parent)
        whole, *others = said.splitlines()
        sums = [line for line in others if line.startswith(("slot", "the master"))]
        last = sums[-1].replace(" of it", "").replace(", limited", "") if sums else whole
        equal(f"explain {script.name}", (status, last.endswith(whole.split(" is ")[-1])), (0, True))


def told_of(program, script, config, position, folder=ROOT):
    """What is said of the clients of a frame."""
    return [line[2:] for line in tool("explain", script, position, *config, "--program", program, folder=folder)[1].splitlines() if line.startswith("  ")]


def try_explain_runs(program, folder):
    """Which frame of which run it is, of two runs, of a client at another rate, and of a mapped one."""
    script, config = folder / "runs", folder / "runs.toml"
    script.write_text(RUNS.format(area="".join(f"{k:02x}00{k:02x}00" for k in range(1, 9))))
    config.write_text(SMALL + "[vchans]\nmapped = 1\n")
    for position, wanted in TOLD.items():
        equal(f"runs at {position}", told_of(program, script, [config], position), wanted)
    said = tool("explain", script, 38, config, "--program", program)[1].splitlines()
    equal("the area", [line for line in said if line.startswith("slot 4")], ["slot 4, opened by line 3 (open 2 map s16le 2 48000), adds 4 4: 4 4"])


# the ring has 16 frames. A frame lies over two writes; a client at half the rate goes on, whose output 2 lies at its frame 1, and output 3
# between that and the next; and a wave is sent in parts of ten frames, of which the first begins with byte 4 of the body
ORIGINS = """open 0 play s16le 2 48000
write 0 010002
write 0 0002000300
ioctl 0 post
open 1 play s16le 1 24000
write 1 6400660068006a006c006e00
ioctl 1 post
open 2 play s16le 1 48000
send 2 tones 4 20
send 2 tones 24 20
ioctl 2 post
intr 16
intr 16
"""


def try_origins(program, folder):
    """The line and the byte of frames that were written, sent and poked, of recordings, and of members of a group."""
    script, config = folder / "origins", folder / "origins.toml"
    script.write_text(ORIGINS)
    put_wave(folder / "tones.wav", "s16le", 1, 48000, bytes(range(1, 101)))
    config.write_text(SMALL + f"[files]\ntones = '{folder / 'tones.wav'}'\n")
    equal("over two writes", told_of(program, script, [config], 16)[0], "frame 0 of its run 1: line 2: write 0, its byte 0, to line 3: write 0, its byte 0")
    equal("within a write", told_of(program, script, [config], 17)[0], "frame 1 of its run 1: line 3: write 0, its byte 1")
    for position in (18, 19):
        equal(f"at half the rate, {position}", told_of(program, script, [config], position)[2], (
            "frames 1 to 2 of its run 1, at 24000: line 6: write 1, its byte 2, to its byte 5"))
    wanted = [f"frame 12 of its run 1: line 10: send 2 tones, its byte 4, byte 28 of the body of {folder / 'tones.wav'}"]
    equal("of a wave", [it for it in told_of(program, script, [config], 28) if "send" in it], wanted)


def try_other_origins(program, folder):
    """Recordings, at another rate and in a group; and what a member of a group wrote."""
    group, recording = (next((ROOT / "examples").glob(f"{it}-*/*.script")) for it in ("14", "09"))
    lines = tool("explain", group, 15, *config_of(group), "--program", program, folder=group.parent)[1].splitlines()
    # the group starts with frame 7, which is handed over 8 later. Of the recording's frames reads get 4 each, the third one 8 to 11
    equal("a group", lines[4:], ["  frame 0 of its run 1: line 9: write 0, its byte 0", (
        "recording 0, opened by line 3 (open 1 rec s16le 2 48000), gets frame 15 of mic (mic.wav): frame 8 of what it keeps, read by line 21: read 1, its byte 0")])
    # at half the rate frame 4 comes of frames 8 and 9, and the first four were read before
    for position, wanted in ((8, "no frame comes of that"), (9, "frame 4 of what it keeps, read by line 15: read 1, its byte 0")):
        said = tool("explain", recording, position, *config_of(recording), "--program", program, folder=recording.parent)[1].splitlines()
        equal(f"a recording at {position}", said[-1], f"recording 0, opened by line 3 (open 1 rec s16le 1 24000), gets frame {position} of mic (mic.wav): {wanted}")


def try_explain_a_mix(program, folder):
    """In a mix of its own rate a sum is limited where one is that the frame needs: frames 0 and 1 of the mix, and not 2 and 3."""
    (folder / "loud").write_text(LOUD)
    (folder / "half.toml").write_text(HALF)
    for position, is_limited in ((8, True), (10, True), (12, False), (13, False)):
        said = tool("explain", folder / "loud", position, folder / "half.toml", "--program", program)[1]
        equal(f"limited at {position}", (said.count("limited"), said.count("slot")), (int(is_limited), 2))


def written(descriptor, value, count):
    return f"write {descriptor} {struct.pack('<h', value).hex() * count}"


# a client of 1000, 9000 from its frame 1500 on, whose slot is set to a half, muted and let be heard, under a master that is set to a half;
# a loud one that is halted; a shortage, and what comes after it until its end. Frames are handed over 1024 later than they are mixed
CLICKS = [
    "open 0 play s16le 1 48000", "open 1 play s16le 1 48000", written(0, 1000, 1000), written(0, 1000, 500), written(0, 9000, 500), "ioctl 0 post", "intr 64",
    "mixer slot 0 0x3232", "intr 64", "mixer mute 0 1", "intr 64", "mixer mute 0 0", "intr 64", "mixer master 0x3232", "intr 64", "mixer master 0x6464",
    "mixer slot 0 0x6464", "intr 1000", written(1, 30000, 100), "ioctl 1 post", "intr 100", "ioctl 1 halt", "intr 800", written(0, 5000, 300), "intr 200", "close 0",
    "intr 200", "intr 1000"]
CAUSES = [
    "2344, 0.0488 s, jumps, by 30000: slot 1: a start: frame 0 of its run 1, line 19: write 1, its byte 0",
    "2444, 0.0509 s, jumps, by 30000: slot 1: an end, line 22: ioctl 1 halt",
    "3024, 0.0630 s, falls silent, by 9000: slot 0: a shortage, which begins; opened by line 1: open 0 play s16le 1 48000",
    "2524, 0.0526 s, jumps, by 8000: slot 0: a jump in what was written: frame 1500 of its run 1, line 5: write 0, its byte 0",
    "3244, 0.0676 s, comes back, by 5000: slot 0: a shortage, which ends; opened by line 1: open 0 play s16le 1 48000",
    "3544, 0.0738 s, falls silent, by 5000: slot 0: an end: frame 2299 of its run 1, line 24: write 0, its byte 598",
    "1024, 0.0213 s, comes back, by 1000: slot 0: a start: frame 0 of its run 1, line 3: write 0, its byte 0",
    "1344, 0.0280 s, jumps, by 750: slot 0: a volume, line 17: mixer slot 0 0x6464",
    "1088, 0.0227 s, jumps, by 500: slot 0: a volume, line 8: mixer slot 0 0x3232",
    "1152, 0.0240 s, falls silent, by 500: slot 0: a mute, line 10: mixer mute 0 1",
    "1216, 0.0253 s, comes back, by 500: slot 0: a mute, line 12: mixer mute 0 0",
    "1280, 0.0267 s, jumps, by 250: a volume, line 14: mixer master 0x3232",
]
# four times 10000, at 32 bits, passes the range, and 100 doesn't
FOURFOLD = "[[eq]]\nshift = 1\nb0 = 8\nb1 = 0\nb2 = 0\na1 = 0\na2 = 0\n"


def try_clicks(program, folder):
    """Places whose causes were worked by hand, the loudest first; a limit of a sum, and one of an equaliser."""
    script, config = folder / "script", folder / "eq.toml"
    script.write_text("\n".join(CLICKS) + "\n")
    equal("clicks", called("explain", "--clicks", script, "--program", program), (0, "".join(f"frame {it}\n" for it in CAUSES), ""))
    equal("three clicks", called("explain", "--clicks", "--most", 3, script, "--program", program)[1], "".join(f"frame {it}\n" for it in CAUSES[:3]))
    script.write_text("\n".join(["open 0 play s16le 1 48000", "open 1 play s16le 1 48000", written(0, 30000, 100), written(1, 10000, 50), "close 0", "close 1", "intr 1024", "intr 200"]))
    equal("a limit", called("explain", "--clicks", script, "--program", program)[1].splitlines()[0], (
        "frame 1024, 0.0213 s, is limited, by 40000: a limit of the sum of slots 0 and 1, for 50 frames"))
    config.write_text(FOURFOLD)
    script.write_text("\n".join(["open 0 play s16le 1 48000", written(0, 100, 20), written(0, 10000, 40), written(0, 100, 40), "close 0", "intr 1024", "intr 200"]))
    equal("a limit of an equaliser", called("explain", "--clicks", script, config, "--program", program)[1].splitlines()[0], (
        "frame 1044, 0.0217 s, is limited, by 32767: slot 0: a limit of its own stages, an equaliser or a matrix, for 40 frames: "
        "frame 20 of its run 1, line 3: write 0, its byte 0"))
    equal("one of its frames", told_of(program, script, [config], 1050), ["frame 26 of its run 1: line 3: write 0, its byte 12", "it is limited there by its own stages, before its volume"])
    script.write_text("intr 10\n")
    equal("no clicks", called("explain", "--clicks", script, "--program", program)[1], "nothing jumps, is limited or falls silent\n")


def two_of(folder, values):
    """A script of two clients that play the same samples, and its configuration."""
    put_wave(folder / "wave.wav", "s16le", 1, 48000, struct.pack(f"<{len(values)}h", *values))
    (folder / "two.toml").write_text(f"[files]\nwave = {json.dumps(str(folder / 'wave.wav'))}\n")
    lines = [word for at in (0, 1) for word in (f"open {at} play s16le 1 48000", f"ioctl {at} setfragment 0x00020010", f"send {at} wave 0 {2 * len(values)}", f"close {at}")]
    (folder / "two").write_text("\n".join([*lines, *["intr 1024"] * (len(values) // 1024 + 2)]) + "\n")
    return folder / "two", folder / "two.toml"


def try_many_limits(program, folder):
    """A sum that is limited at every second frame, by 40000 and more, and one that is for 18000 frames, whose first 16384 count."""
    # sample 2 * k is 20000 + k % 2500, so the greatest are those of k = 2499 and 4999
    script = two_of(folder, [0 if at % 2 else 20000 + at // 2 % 2500 for at in range(10000)])
    wanted = [f"frame {1024 + 2 * k}, {(1024 + 2 * k) / 48000:.4f} s, is limited, by {2 * (20000 + k % 2500)}: a limit of the sum of slots 0 and 1, for 1 frames\n"
              for k in (2499, 4999, 2498, 4998)]
    equal("many limits", called("explain", "--clicks", "--most", 4, *script, "--program", program), (0, "".join(wanted), ""))
    script = two_of(folder, [21000 if at == 5000 else 22000 if at == 17000 else 20000 for at in range(18000)])
    equal("a long limit", called("explain", "--clicks", "--most", 1, *script, "--program", program)[1], (
        "frame 1024, 0.0213 s, is limited, by 42000: a limit of the sum of slots 0 and 1, for 18000 frames\n"))


TRIALS = (try_explain, try_explain_runs, try_clicks, try_many_limits, try_explain_a_mix, try_origins, try_other_origins)
