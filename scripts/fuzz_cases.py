"""Cases of the corpus that are changed at random, for scripts/fuzz."""
import dataclasses
import re
import struct

# numbers at the ends of ranges, as a script or a configuration states them
ENDS = (
    "0 1 2 3 4 8 9 15 16 17 31 32 33 63 64 65 100 101 127 128 255 256 257 512 1023 1024 1025 3999 4000 4095 4096 4097 8192 8193 "
    "16384 22050 48000 65535 65536 131072 131073 192000 192001 16777216 16777217 2147483647 2147483648 4294967295 4294967296 "
    "9999999999 10000000000 18446744073709551615 18446744073709551616 -1 -16777216 -16777217 0x0 0xffffffff 0x100000000 00 007 1.5 1e9"
).split()
# words of the languages of scripts and configurations
WORDS = (
    "open write send poke read ioctl close intr play rec map u8 s8 s16le s16be u16le u16be s24le s24be u24le u24be "
    "s32le s32be u32le u32be setfmt speed channels getfmts getcaps getblksize setfragment getospace getispace getoptr getiptr getodelay "
    "geterror settrigger gettrigger setplayvol getplayvol post sync halt syncgroup syncstart mixer master slot mute - # w 00 ff 0a0b nosuch "
    "[device] [vchans] [files] [[tables]] rate format channels container capture hw_block hw_blocks quality record mapped shift rows "
    "src dst = , \" ' { } [ ] true raw wav 1979-05-27"
).split()
# sizes and numbers in the header of a wave
FIELDS = (0, 1, 2, 3, 4, 8, 15, 16, 17, 18, 24, 32, 40, 255, 65534, 65535, 2**24, 0x7EFFFFFF, 0x7F000000, 2**31, 2**32 - 1)
FEWEST_WORDS = (["run", "script", "out"], ["run", "script", "out", "config"], ["check", "script"], ["check", "script", "config"])
# a text that grows beyond this is cut
MOST = 200000


@dataclasses.dataclass
class Case:
    """The words of a call, and the files that it finds."""

    words: list
    files: dict


def repeated(description):
    """The script that the lines `N x TEXT` describe."""
    parts = (line.split(" x ", 1) for line in description.splitlines())
    return b"".join(text.encode() + b"\n" for count, text in parts for _ in range(min(int(count), 2000)))


class Cases:
    """All cases of a folder, each of which may be changed and joined with others."""

    def __init__(self, corpus, draws):
        self.draws = draws
        self.scripts = [it.read_bytes()[:MOST] for it in sorted(corpus.glob("*/*.script"))]
        self.scripts += [repeated(it.read_text()) for it in sorted(corpus.glob("*/*.lines"))]
        self.configurations = [it.read_bytes()[:MOST] for it in sorted(corpus.glob("*/*.toml"))]
        self.waves = [(it.name, it.read_bytes()[:MOST]) for it in sorted(corpus.glob("*/*.wav"))]
        self.texts = {"script": self.scripts, "config": self.configurations}

    def next(self):
        """A case: a script, a configuration that knows all waves, and these."""
        draws = self.draws
        files = {name: draws.choice(self.texts[name]) for name in self.texts}
        named = set(re.findall(rb'"([^"\n]*\.wav)"', files["config"]))
        files |= {name: body for name, body in self.waves if name.encode() in named or draws.random() < 0.05}
        words = list(draws.choice(FEWEST_WORDS))
        if self.waves and draws.random() < 0.15:
            name, files["in"] = draws.choice(self.waves)
            words = ["convert", "in", "out", draws.choice(("48000", "44100", "4000", "192000", *ENDS)), *self.form()]
        for name in draws.sample(sorted(files), draws.choice((1, 1, 1, 2))):
            files[name] = self.changed(name, files[name])
        if draws.random() < 0.02:
            words = self.shuffled(words)
        return Case(words, files)

    def form(self):
        """The format and the number of channels of a conversion."""
        return [self.draws.choice(("u8", "s16le", "s24le", "s32le", "s16be")), self.draws.choice(("1", "2", "4", "6", "8", "3"))]

    def shuffled(self, words):
        """Words with one that misses, or one more."""
        at = self.draws.randrange(len(words))
        return words[:at] + words[at + 1 :] if self.draws.random() < 0.5 else words[:at] + [self.draws.choice(ENDS)] + words[at:]

    def changed(self, name, content):
        """Content with one to four changes."""
        ways = (self.bytes, self.wave) if name.endswith(".wav") or name == "in" else (self.bytes, self.word, self.word, self.line, self.join)
        for _ in range(self.draws.choice((1, 1, 2, 4))):
            content = self.draws.choice(ways)(name, content)[:MOST]
        return content

    def bytes(self, _, content):
        """A byte or a part that is changed, cut out, doubled or put in."""
        draws, many = self.draws, bytearray(content)
        at = draws.randrange(len(many) + 1)
        to = min(len(many), at + draws.choice((1, 1, 2, 4, 16, 100, 4096)))
        way = draws.randrange(5)
        if way == 0:
            many[at:to] = draws.randbytes(to - at)
        elif way == 1:
            del many[at:to]
        elif way == 2:
            many[at:at] = many[at:to] * draws.choice((1, 2, 50))
        elif way == 3:
            many[at:at] = bytes([draws.choice((0, 9, 10, 13, 32, 35, 128, 255))]) * draws.choice((1, 2, 1000))
        else:
            del many[at:]
        return bytes(many)

    def word(self, _, content):
        """Another word in the place of one."""
        places = list(re.finditer(rb"[^\s=,\[\]]+", content))
        if not places:
            return content
        place = self.draws.choice(places)
        word = self.draws.choice(ENDS if self.draws.random() < 0.6 else WORDS).encode()
        return content[: place.start()] + word + content[place.end() :]

    def line(self, _, content):
        """A line that moves, is doubled, or misses."""
        lines = content.split(b"\n")
        at, to = self.draws.randrange(len(lines)), self.draws.randrange(len(lines) + 1)
        line = lines[at]
        way = self.draws.randrange(3)
        if way != 1:
            del lines[at]
        if way != 2:
            lines[to:to] = [line] * self.draws.choice((1, 1, 3, 100))
        return b"\n".join(lines)

    def join(self, name, content):
        """The front of one text before the end of another."""
        other = self.draws.choice(self.texts[name])
        return content[: self.draws.randrange(len(content) + 1)] + other[self.draws.randrange(len(other) + 1) :]

    def wave(self, _, content):
        """Another number in the header of a wave."""
        if len(content) < 48:
            return content
        at, form = self.draws.choice(((4, "<I"), (16, "<I"), (20, "<H"), (22, "<H"), (24, "<I"), (32, "<H"), (34, "<H"), (40, "<I")))
        number = self.draws.choice(FIELDS) % (1 << 8 * struct.calcsize(form))
        return content[:at] + struct.pack(form, number) + content[at + struct.calcsize(form) :]
