"""Trials of tools/page: in a browser its pages of the examples, of a long run and of strange names; and its file. Without a browser the
trials that need one are left out, and say so."""
import base64
import json
import random
import re
import zlib

from browser import Browser, chromium
from trials_shared import ROOT, called, config_of, equal, put_wave, tool

# keeps the clock of the page's sound where a trial finds it
CLOCK = "window.AudioContext = class extends AudioContext { constructor() { super(); window.heard = this; } };"
# what the canvas of the lanes shows: how many colours
COLOURS = """(() => { const it = document.getElementById("waves"), data = it.getContext("2d").getImageData(0, 0, it.width, it.height).data, found = new Set();
for (let at = 0; at < data.length; at += 40) found.add(data[at] << 16 | data[at + 1] << 8 | data[at + 2]); return found.size; })()"""
# the lines of the reason that is shown, as tools/explain prints them
LINES = """[...document.querySelectorAll("#why .why > p:not(.gains, .note, .command, .before)")].map((it) => (it.className === "inner" ? "  " : "") + it.textContent)"""
FOCUS = "document.getElementById('drawn').focus()"
# a wave of a name that would be run, if it were not escaped, and a comment and a script that would
STRANGE = "<script>window.wrong=1<\u2044script><img src=x onerror=window.wrong=1>"


def paged(program, script, configs, folder, *words):
    """The page of a script as a file."""
    out = folder / f"{script.parent.name}-{script.name}.html"
    equal(f"page {script.name}", tool("page", script.name, *(it.name for it in configs), "--out", out, *words, "--program", program, folder=script.parent), (0, ""))
    return out


def told_in(out):
    """What the file says."""
    return json.loads(zlib.decompress(base64.b64decode(re.search(r'id="told">([^<]*)<', out.read_text())[1])))


def shown(browser, out, **how):
    """A tab that shows a page, once it is read whole."""
    tab = browser.open("about:blank", **how)
    tab.ask("Page.addScriptToEvaluateOnNewDocument", source=CLOCK)
    tab.show(out.as_uri(), how.get("width", 1280), how.get("height", 800))
    tab.wait("document.body.dataset.ready === 'yes'")
    return tab


def text_of(tab, name):
    return tab.value(f"document.getElementById('{name}').textContent")


def frame_of(tab):
    """The frame at which the cursor is."""
    return int(re.search(r"frame ([\d\u202f]+)", text_of(tab, "time"))[1].replace("\u202f", ""))


def look_at_silence(name, tab, address):
    """Nothing is said on the console, and nothing is asked for but the file."""
    others = [it for it in tab.requests if it != address and not it.startswith(("data:", "blob:"))]
    equal(f"what {name} says and asks for", (tab.said, others), ([], []))


def explained(program, script, configs, frame):
    return called("explain", script.name, frame, *(it.name for it in configs), "--program", program, folder=script.parent)[1].splitlines()


def look_at_page(program, browser, script, configs, out):
    """A page draws, plays, reaches single frames, and gives the reasons that tools/explain gives."""
    name, tab = script.parent.name, shown(browser, out)
    equal(f"what {name} draws", tab.value(COLOURS) > 5, True)
    clicks = called("explain", "--clicks", script.name, *(it.name for it in configs), "--program", program, folder=script.parent)[1].splitlines()
    found = tab.value("[...document.querySelectorAll('#clicks button')].map((it) => it.textContent)")
    equal(f"the clicks of {name}", found or ["nothing jumps, is limited or falls silent"], clicks)
    if found:
        tab.value("document.querySelector('#clicks button').click()")
        frame = int(re.match(r"frame (\d+)", found[0])[1])
        equal(f"the reason of {name}'s loudest click", tab.value(LINES), explained(program, script, configs, frame))
    look_at_frames(program, tab, script, configs)
    look_at_sound(name, tab)
    look_at_silence(name, tab, out.as_uri())


def look_at_frames(program, tab, script, configs):
    """At the closest a press on the device's lane gives the reason of the frame there."""
    tab.value(FOCUS)
    tab.key("1")
    tab.value("new Promise((then) => requestAnimationFrame(() => requestAnimationFrame(then)))")
    box = tab.value("(({ left, top, width }) => ({ left, top, width }))(document.getElementById('waves').getBoundingClientRect())")
    button = tab.value("(({ top, height }) => top + height / 2)([...document.querySelectorAll('.choose')].find((it) => it.textContent === 'the device').getBoundingClientRect())")
    tab.press(box["left"] + box["width"] * 0.61, button)
    frame = frame_of(tab)
    found = tab.value(LINES)
    equal(f"the frame of {script.name} that was pressed", found[0].startswith(f"frame {frame} is "), True)
    wanted = explained(program, script, configs, frame)
    if wanted:
        equal(f"the reason of frame {frame} of {script.name}", found, wanted)
    tab.key("ArrowRight")
    equal(f"a step at the closest of {script.name}", frame_of(tab), min(frame + 1, int(tab.value("document.getElementById('drawn').getAttribute('aria-valuemax')"))))


def look_at_sound(name, tab):
    """What is played goes on by its clock, and stops."""
    for key in ("Home", "l"):
        tab.key(key)
    tab.key(" ", " ")
    tab.wait("window.heard && window.heard.currentTime > 0.02")
    before = tab.value("window.heard.currentTime")
    tab.wait(f"window.heard.currentTime > {before}")
    tab.key(" ", " ")
    equal(f"{name} stops", tab.value("document.getElementById('play').textContent"), "Play")


def look_at_examples(program, folder, which):
    """The pages of every third example, in a browser."""
    if not chromium():
        print("tool-tests: there is no chromium, so no page is looked at\n" * (which == 0), end="")
        return
    with Browser() as browser:
        for script in sorted((ROOT / "examples").glob("*/*.script"))[which::3]:
            configs = config_of(script)
            look_at_page(program, browser, script, configs, paged(program, script, configs, folder))


def try_page_examples(program, folder):
    look_at_examples(program, folder, 0)


def try_page_more_examples(program, folder):
    look_at_examples(program, folder, 1)


def try_page_other_examples(program, folder):
    look_at_examples(program, folder, 2)


def try_page_script(program, folder):
    """The script and the lanes lead to each other, and keys do what the pointer does."""
    if not chromium():
        return
    script = ROOT / "examples" / "03-a-shortage" / "a_shortage.script"
    with Browser() as browser:
        tab = shown(browser, paged(program, script, [], folder))
        # before line 8 one interrupt of 768 frames was handed over, and frame 1600 is of the third one, line 10
        tab.value("document.getElementById('line-8').click()")
        equal("the time of a line", frame_of(tab), 768)
        tab.value(FOCUS)
        tab.key("End")
        equal("the last frame", (frame_of(tab), tab.value("document.querySelector('.chosen').dataset.line")), (3327, "10"))
        tab.key("Home")
        tab.key("n")
        # after frame 0 the first that happens is a shortage, at frame 1024
        equal("what happens next", (frame_of(tab), text_of(tab, "status").startswith("slot 0 is short from frame 1024 to 1535")), (1024, True))
        tab.value("(() => { const it = document.getElementById('search'); it.value = 'OK 3072'; it.dispatchEvent(new Event('input')); })()")
        equal("what is found", (text_of(tab, "found"), tab.value("document.querySelector('.chosen').dataset.line")), ("1 of 1", "9"))
        tab.key("Home")
        tab.value(FOCUS)
        tab.key("l")
        tab.key(" ", " ")
        tab.wait("document.querySelector('.present') !== null")
        tab.key("ArrowDown")
        equal("another row", tab.value("document.querySelector('.choose[aria-pressed=true]').textContent"), "slot 0")
        tab.key(" ", " ")
        look_at_selection(tab)
        look_at_media(tab)
        look_at_silence("the script", tab, tab.value("location.href"))


def look_at_selection(tab):
    """A drag selects, what is selected is played again and again, and the wheel shows fewer frames around the pointer."""
    tab.key("0")
    box = tab.value("(({ left, top, width }) => ({ left, top, width }))(document.getElementById('waves').getBoundingClientRect())")
    at = [box["left"] + box["width"] * part for part in (0.25, 0.5)]
    tab.press(at[0], box["top"] + 40, (at[1], box["top"] + 40))
    begin, end = (int(it.replace("\u202f", "")) for it in re.match(r"selected: ([\d\u202f]+) to ([\d\u202f]+)", text_of(tab, "selection")).groups())
    # of 3328 frames a quarter and a half
    equal("what is selected", (abs(begin - 832) < 12, abs(end - 1663) < 12), (True, True))
    tab.key(" ", " ")
    before = tab.value("window.heard.currentTime")
    tab.wait(f"window.heard.currentTime > {before} + 0.1")
    equal("a loop over the selection", [at for at in (frame_of(tab) for _ in range(5)) if not begin <= at <= end], [])
    tab.key(" ", " ")
    tab.key("Escape")
    tab.wheel(at[0], box["top"] + 40, -600)
    tab.wait("!document.getElementById('seen').hidden && parseFloat(document.getElementById('seen').style.width) < 300")
    equal("nothing is selected", text_of(tab, "selection"), "")


def look_at_media(tab):
    """Dark and light are those of the system, a narrow window has no part that is wider, and what is printed is the picture."""
    ground = "getComputedStyle(document.body).backgroundColor"
    for scheme, wanted in (("dark", "rgb(20, 24, 29)"), ("light", "rgb(255, 255, 255)")):
        tab.ask("Emulation.setEmulatedMedia", features=[{"name": "prefers-color-scheme", "value": scheme}])
        equal(f"the ground where it is {scheme}", tab.value(ground), wanted)
    tab.resize(380, 700)
    equal("a narrow window", tab.value("document.documentElement.scrollWidth"), 380)
    equal("rings in it", tab.value("[...document.querySelectorAll('.ring')].filter((it) => it.getBoundingClientRect().left < 0).length"), 0)
    tab.ask("Emulation.setEmulatedMedia", media="print")
    shown_parts = "['picture', 'stage'].map((it) => document.getElementById(it).checkVisibility())"
    equal("what is printed", (tab.value(shown_parts), tab.value("document.getElementById('picture').naturalWidth")), ([True, False], 1000))


def try_page_names(program, folder):
    """What comes from outside stays text: a wave, a comment, a script and a configuration of strange names run nothing, and are shown as they are."""
    wave, script, config = (folder / f"{STRANGE}{it}" for it in (".wav", ".script", ".toml"))
    put_wave(wave, "s16le", 1, 48000, bytes([0, 32]) * 100)
    config.write_text(f"[files]\nw = {json.dumps(str(wave))}\n")
    script.write_text("open 0 play s16le 1 48000 # </script><script>window.wrong=1</script>\nsend 0 w 0 200\nclose 0\nintr 100\nintr 1024\n")
    out = folder / "out.html"
    equal("page of strange names", tool("page", script, config, "--out", out, "--program", program), (0, ""))
    text = out.read_text()
    equal("nothing of them in the text", ("window.wrong" in re.sub(r"<title>.*?</title>|<h1.*?</h1>|<img.*", "", text), text.count("</script>")), (False, text.count("<script")))
    equal("a policy", re.findall(r"""(default-src|script-src|style-src) ('none'|'sha256-[\w+/=]+')""", text) != [], True)
    if chromium():
        with Browser() as browser:
            tab = shown(browser, out)
            equal("what is run", (tab.value("window.wrong === undefined"), tab.value("document.querySelectorAll('main img, main script').length")), (True, 0))
            equal("the name of a wave", tab.value("[...document.querySelectorAll('.word')].some((it) => it.textContent.startsWith('<script>'))"), True)
            tab.value("(() => { const it = document.createElement('script'); it.textContent = 'window.wrong = 2'; document.body.append(it); })()")
            equal("what is put in by others", tab.value("window.wrong === undefined"), True)


def long_noise(folder, frames):
    """A script of a client that plays noise, which can't be packed, in eight channels of 32 bits, and its configuration."""
    script, config = folder / "long.script", folder / "long.toml"
    put_wave(folder / "noise.wav", "s32le", 8, 48000, random.Random(frames).getrandbits(256 * frames).to_bytes(32 * frames, "little"))
    lines = [f"send 0 noise {at * 32} 32768\nintr 1024" for at in range(0, frames, 1024)]
    script.write_text("\n".join(["open 0 play s32le 8 48000", "ioctl 0 setfragment 0x0002000f", *lines]) + "\n")
    config.write_text('[device]\nformat = "s32le"\nchannels = 8\n[files]\nnoise = "noise.wav"\n')
    return script, [config]


def try_page_size(program, folder):
    """A run that has no room whole leaves something out, and says so; a window of it has its frames, and what is heard of the rest is a copy."""
    script, configs = long_noise(folder, 28672)
    out = paged(program, script, configs, folder, "--megabytes", 1, "--from", 6000, "--to", 7000)
    told = told_in(out)
    equal("how large it is", out.stat().st_size <= 1000000, True)
    equal("what it says", (told["whole"], len(told["notes"]), "--megabytes 4" in told["notes"][2]), ([6000, 7000], 3, True))
    equal("what it has", [(bool(it["copy"]), len(it["levels"]) > 1) for it in told["tracks"][:2]], [(True, True)] * 2)
    if chromium():
        with Browser() as browser:
            tab = shown(browser, out)
            tab.value(FOCUS)
            for key in ("Home", "l", "1"):
                tab.key(key)
            tab.key(" ", " ")
            tab.wait("window.heard && window.heard.currentTime > 0.02")
            equal("what is played", "a copy" in text_of(tab, "status"), True)
            tab.key(" ", " ")
            tab.key("End")
            said = text_of(tab, "why")
            equal("what isn't there", ("isn't in this file whole" in said, "still in the device's ring" in said), (True, True))
            look_at_silence("a long page", tab, out.as_uri())
    told = told_in(paged(program, script, configs, folder, "--megabytes", 4))
    equal("all of it", (told["whole"], told["notes"]), ([0, told["frames"]], []))


def try_page_words(program, folder):
    """What is wrong is said in a line."""
    short = ROOT / "examples" / "03-a-shortage" / "a_shortage.script"
    for words in (["--megabytes", "0", short], ["--from", "x", short], [short, short, short], ["-", "-"]):
        status, said, errors = called("page", *words, "--program", program)
        equal(f"page {words}", (status, said, errors.count("\n"), errors.startswith("page: ")), (2, "", 1, True))
    for words in ([short, "--out", folder], [short, "--out", "/dev/full"], [folder / "gone"], [short, "--from", "99999"]):
        status, said, errors = called("page", *words, "--program", program)
        equal(f"page {words}", (status, said, errors.count("\n"), "Traceback" in errors), (1, "", 1, False))
    (folder / "large").write_text("".join(f"# {random.Random(at).getrandbits(4000):x}\n" for at in range(3000)) + "intr 4\n")
    equal("a page without room", called("page", folder / "large", "--megabytes", 1, "--out", folder / "x.html", "--program", program), (
        1, "", "page: the page would be larger than it may be, even without its sound: --megabytes N allows more\n"))
    equal("standard input and output", called("page", "-", "--out", "-", "--program", program, stdin="intr 4\n")[:2][1].startswith("<!doctype html>"), True)


TRIALS = (try_page_examples, try_page_more_examples, try_page_other_examples, try_page_size, try_page_names, try_page_script, try_page_words)
