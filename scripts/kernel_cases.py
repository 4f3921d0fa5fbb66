"""The scripts that scripts/kernel performs: which a card can perform, what a kernel is asked of each, and what the program answers."""
import collections
import re
import shutil
import subprocess

from calls import wave_of
from commands import fail
from places import ROOT
from scripts import Script, device_of, has_entries, keys_of, rates_of, value_of, write_lines
from sounds import sound_of

# what an opening has in this program until it asks for others; and how many can play and record where a configuration doesn't say
FRAGMENTS, USUAL = "0x0004000c", {"play": "4", "record": "4", "mapped": "0"}
# a longer script is left out: it is for limits of the program
EVENTS_MOST = 20000
# a script by its name, as playing/a_volume; its events, and the text of its configuration
Case = collections.namedtuple("Case", "name path events config")
# what a kernel is asked: lines, and of each whether the script has it
Asked = collections.namedtuple("Asked", "lines own")


def text_of_lines(description):
    """The script that lines `N x TEXT` describe."""
    rows = (it.split(" x ", 1) for it in description.splitlines())
    return "".join(int(count) * f"{text}\n" for count, text in rows)


def case_of(path):
    """The case of a script, or of the lines that one is given by."""
    config = path.with_suffix(".toml")
    text = path.read_text(encoding="utf-8", errors="surrogateescape")
    text = text_of_lines(text) if path.suffix == ".lines" else text
    name = f"{path.parent.name}/{path.stem}"
    return Case(name, path, Script(text).events, config.read_text() if config.exists() else "")


def all_paths():
    """The scripts of examples and corpus, and the files that others are made of, but for those of faults."""
    every = [it for top in ("examples", "corpus") for end in ("script", "lines") for it in sorted(ROOT.glob(f"{top}/*/*.{end}"))]
    return [it for it in every if it.parent.name != "faults"]


def why_not(case, card):
    """Why a card can't perform a script, or None."""
    keys = keys_of(case.config)
    reasons = (
        (not any(it.startswith("open") for it in case.events), "nothing is opened"),
        (len(case.events) > EVENTS_MOST, f"it has more than {EVENTS_MOST} events"),
        (device_of(case.config).format != "s16le", "the device isn't s16le"),
        (has_entries(case.config, "tables") or has_entries(case.config, "eq"), "the card has no filters and no equaliser"),
        (case.config and not keys, "the configuration is refused"),
        (rates_of(case.config), "the card has no mix of its own"),
        ("device.capture" in keys and card == "aloop", "what is captured would have to be played to the other end"),
    )
    return next((why for applies, why in reasons if applies), None)


def has_own_fragments(events, at, descriptor):
    """Whether an opening asks for fragments until it is closed."""
    for event in events[at + 1:]:
        words = event.split(" ")
        if words[:2] == ["close", descriptor]:
            return False
        if words[:3] == ["ioctl", descriptor, "setfragment"]:
            return True
    return False


def asked_of(events, replies):
    """What a kernel is asked for a script. After an open come the fragments of this program where the script asks for none; and in front
    of a trigger that starts a recording or a mapped channel one that stops it, as a kernel starts these by a change alone."""
    lines, own, ways = [], [], {}
    for at, (event, reply) in enumerate(zip(events, replies)):
        words = [*event.split(" "), "", ""]
        if words[0] == "open" and reply != "refused exist":
            ways[words[1]] = words[2]
        starts = words[2] == "settrigger" and ways.get(words[1]) in ("rec", "map") and value_of(words[3]) > 0
        wants = words[0] == "open" and reply != "refused exist" and not has_own_fragments(events, at, words[1])
        lines += [f"ioctl {words[1]} settrigger 0"] * starts + [event] + [f"ioctl {words[1]} setfragment {FRAGMENTS}"] * wants
        own += [False] * starts + [True] + [False] * wants
    return Asked(lines, own)


def count_of(config, name):
    return int(keys_of(config).get(f"vchans.{name}", USUAL[name]))


def put_files(case, replies, folder):
    """Writes what the machine needs of a script into a folder: it, its waves, the settings of the card, and what that captures."""
    folder.mkdir(parents=True)
    device, keys = device_of(case.config), keys_of(case.config)
    mapped = count_of(case.config, "mapped")
    play, record = (min(count_of(case.config, it) + mapped, 16) for it in ("play", "record"))
    write_lines(folder / "script", asked_of(case.events, replies).lines)
    (folder / "set").write_text(f"{device.rate} {device.channels} {play} {record}\n")
    (folder / "options").write_text(f"--block {device.block}\n")
    files = {key.partition(".")[2]: case.path.parent / path for key, path in keys.items() if key.startswith("files.")}
    for name, path in files.items():
        shutil.copy(path, folder / f"{name}.wav")
    (folder / "waves").write_text("".join(f"{name}={name}.wav\n" for name in files))
    if "device.capture" in keys:
        put_captured(files[keys["device.capture"]], folder / "captured", device)


def put_captured(path, out, device):
    """The frames of a wave as the card captures them."""
    wave = wave_of(path)
    if wave.format != device.format:
        fail(f"{path}: the card captures {device.format}, and not {wave.format}")
    out.write_bytes(path.read_bytes()[wave.at:wave.at + wave.size])


def frames_of(events, device):
    """How many frames all interrupts have."""
    turns = [it.split(" ") for it in events if re.match(r"intr\b", it)]
    return sum(value_of(it[1]) if len(it) > 1 else device.block for it in turns)


def answered_by(program, case, folder):
    """What the program answers to a script, and the bytes that its interrupts mix; or None where it ends with a fault. A last interrupt
    hands over what the device's ring holds, whose first frames were silence."""
    folder.mkdir(parents=True)
    device, script, out = device_of(case.config), folder / "script", folder / "out"
    write_lines(script, [*case.events, f"intr {device.ring}"])
    words = ["run", script, out, *([case.path.with_suffix(".toml")] if case.config else [])]
    ran = subprocess.run([str(it) for it in (program, *words)], cwd=case.path.parent, stdin=subprocess.DEVNULL, stdout=subprocess.PIPE,
                         stderr=subprocess.DEVNULL, universal_newlines=True, check=False)
    if ran.returncode:
        return None
    replies = [it.partition(": ")[2] for it in ran.stdout.splitlines()[:-1]]
    (folder / "replies").write_text("".join(f"{number}: {it}\n" for number, it in enumerate(replies, 1)))
    sound = sound_of(out, device)
    return replies, sound.data(device.ring, device.ring + frames_of(case.events, device))
