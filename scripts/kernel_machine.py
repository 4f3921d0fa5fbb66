"""The machine that scripts/kernel boots: its kernel, its modules, what it finds there, and how it is run."""
import gzip
import lzma
import os
import pathlib
import re
import shlex
import shutil
import subprocess
import tarfile
import time

from commands import fail, say
from places import ROOT

# what has to be there: a command, and the package that has it
COMMANDS = {"qemu-system-x86_64": "qemu-system-x86", "busybox": "busybox-static", "cpio": "cpio", "modinfo": "kmod", "make": "make", "cc": "gcc",
            "dpkg-deb": "dpkg", "apt-get": "apt"}
HEADERS, SOURCES = "linux-headers-amd64", pathlib.Path("/usr/src")
# the modules of the kernel's own that each card wants, and what of tools/kernel/ it is made of
CARDS = {"clockless": ["snd-pcm-oss", "snd-mixer-oss"], "aloop": ["snd-aloop", "snd-pcm-oss", "snd-mixer-oss"]}
# without a limit to what all channels of a card take together
WORDS = {"snd-pcm.ko": "max_alloc_per_card=0"}
KERNEL_WORDS = "console=ttyS0 quiet no_timer_check oops=panic panic=-1"
# time goes by instructions there, so that it is as steady as it can be
QEMU = ["qemu-system-x86_64", "-accel", "tcg", "-icount", "shift=0,sleep=off", "-m", "512", "-nographic", "-no-reboot", "-nodefaults", "-net", "none",
        "-monitor", "none"]
SECONDS = 900
# what a terminal does not print
ESCAPED = re.compile(r"\x1b(\[[0-9;?]*[A-Za-z]|.)|\r")
CFLAGS = ["-std=gnu99", "-O1", "-Wall", "-Wextra", "-Werror", "-pthread", "-static", "-I", ROOT / "embed"]


def told(words, does, **more):
    """What a command prints, which has to end with 0."""
    ran = subprocess.run(list(map(str, words)), stdout=subprocess.PIPE, stderr=subprocess.STDOUT, check=False, **more)
    said = ran.stdout.decode(errors="replace")
    if ran.returncode:
        lines = said.strip().splitlines() or ["it says nothing"]
        why = next((it for it in lines if "No space left" in it), lines[-1])
        fail(f"{does}: {pathlib.Path(words[0]).name} ended with {ran.returncode}: {why}")
    return said


def look_for_commands():
    """Fails where something is missing, with the packages that have it."""
    os.environ["PATH"] += ":/usr/sbin:/sbin"
    missing = {name: package for name, package in COMMANDS.items() if not shutil.which(name)}
    if not versions():
        missing["the headers of a kernel"] = HEADERS
    if missing:
        fail(f"missing: {', '.join(missing)}: apt-get install --no-install-recommends {' '.join(missing.values())}")
    if b"/ld-linux" in pathlib.Path(shutil.which("busybox")).read_bytes()[:4096]:
        fail("busybox isn't static: apt-get install busybox-static")


def versions():
    """The kernels whose headers are there, the newest last."""
    found = [it.name[len("linux-headers-"):] for it in SOURCES.glob("linux-headers-*-amd64") if (it / "Makefile").exists()]
    found = [it for it in found if not re.search(r"-(cloud|rt)-", it)]
    return sorted(found, key=lambda it: list(map(int, re.findall(r"\d+", it))))


class Kernel:
    """The kernel whose headers are there: its image, and where its modules are. Where it isn't installed its package is fetched and unpacked."""

    def __init__(self, kept):
        self.version, self.root = versions()[-1], pathlib.Path("/")
        if not self.has_all():
            self.root = kept / self.version
            if not self.has_all():
                self.fetch()

    def image(self):
        return self.root / "boot" / f"vmlinuz-{self.version}"

    def modules(self):
        return self.root / "lib" / "modules" / self.version / "kernel"

    def has_all(self):
        return self.image().is_file() and any(self.modules().rglob("snd-pcm-oss.ko*"))

    def fetch(self):
        """Fetches the package, and keeps its image and its modules of sound."""
        package, room = f"linux-image-{self.version}", self.root.parent / f"{self.version}.part"
        shutil.rmtree(room, ignore_errors=True)
        room.mkdir(parents=True)
        say(f"{package} is fetched")
        told(["apt-get", "-o", "APT::Sandbox::User=root", "download", package], f"{package} can't be fetched", cwd=room)
        told(["dpkg-deb", "-x", next(room.glob("*.deb")), room], f"{package} can't be unpacked")
        for kept in (self.image(), self.modules() / "sound"):
            kept.parent.mkdir(parents=True, exist_ok=True)
            shutil.move(str(room / kept.relative_to(self.root)), str(kept))
        shutil.rmtree(room)
        if not self.has_all():
            fail(f"{self.root}: the package {package} has no image of this kernel, or no snd-pcm-oss")

    def module(self, name):
        """The file of a module, or None where it is a part of the image."""
        names = {f"{it}.ko{end}" for it in (name, name.replace("_", "-"), name.replace("-", "_")) for end in ("", ".xz")}
        return next((it for it in sorted(self.modules().rglob("*.ko*")) if it.name in names), None)

    def with_needed(self, names):
        """Modules with those that each needs in front of it."""
        found = {}
        for name in names:
            file = self.module(name)
            if file:
                needs = told(["modinfo", "-F", "depends", file], name).strip()
                found.update(self.with_needed(needs.split(",") if needs else []))
                found[file.name] = file
        return found

    def build_module(self, room):
        """The card without a clock, built in a folder."""
        shutil.copytree(ROOT / "tools" / "kernel", room)
        told(["make", "-C", room, f"KERNEL={SOURCES}/linux-headers-{self.version}"], "the module isn't built")
        return room / "clockless.ko"


def put_module(file, folder):
    """Puts a module into a folder, unpacked. Answers its name there."""
    name = file.name.partition(".ko")[0] + ".ko"
    body = file.read_bytes()
    (folder / name).write_bytes(lzma.decompress(body) if file.suffix == ".xz" else body)
    return name


def put_programs(room):
    """Puts what runs in the machine into its folder."""
    (room / "bin").mkdir()
    shutil.copy(shutil.which("busybox"), room / "bin" / "busybox")
    shutil.copy(ROOT / "tools" / "kernel" / "init", room / "init")
    (room / "init").chmod(0o755)
    for name, source in (("perform", ROOT / "tools" / "perform.c"), ("listen", ROOT / "tools" / "kernel" / "listen.c")):
        told(["cc", *CFLAGS, "-o", room / name, source], f"{source} isn't compiled")


def put_modules(kernel, card, room, built):
    """Puts the modules of a card into the machine's folder, with the order in which they are loaded."""
    (room / "modules").mkdir()
    files = [*kernel.with_needed(CARDS[card]).values()]
    files = [*kernel.with_needed(["snd-pcm"]).values(), built, *files] if card == "clockless" else files
    names = list(dict.fromkeys(put_module(it, room / "modules") for it in files))
    (room / "modules" / "order").write_text("".join(f"{it} {WORDS.get(it, '')}\n" for it in names))


def pack(room, out):
    """Packs a folder as what a kernel unpacks first."""
    names = "".join(f"{it.relative_to(room)}\n" for it in sorted(room.rglob("*"))).encode()
    ran = subprocess.run(["cpio", "-o", "-H", "newc", "-R", "0:0", "--quiet"], cwd=room, input=names, stdout=subprocess.PIPE, check=False)
    if ran.returncode:
        fail(f"cpio ended with {ran.returncode}")
    with gzip.open(out, "wb", 1) as packed:
        packed.write(ran.stdout)


class Boot:
    """A machine that runs. What its first process says goes to `console`, and what it sends to `results.tar.gz`."""

    def __init__(self, kernel, card, folder):
        self.card, self.folder, self.begun = card, folder, time.monotonic()
        words = [*QEMU, "-kernel", kernel.image(), "-initrd", folder / "initramfs.gz", "-append", f"{KERNEL_WORDS} card={card}",
                 "-serial", f"file:{folder / 'console'}", "-serial", f"file:{folder / 'results.tar.gz'}"]
        with open(folder / "qemu", "wb") as said:
            # of its own session, so that Ctrl-C reaches this script first
            self.ran = subprocess.Popen(list(map(str, words)), stdin=subprocess.DEVNULL, stdout=said, stderr=said, start_new_session=True)
        (folder / "command").write_text(shlex.join(map(str, words)) + "\n")

    def last_said(self):
        files = [it for it in (self.folder / "console", self.folder / "qemu") if it.exists()]
        text = "\n".join(ESCAPED.sub("", it.read_text(errors="replace")) for it in files)
        lines = [it.strip() for it in text.split("\n") if it.strip()]
        return f"what it said last: {lines[-1]}" if lines else "it said nothing"

    def wait(self):
        """Waits until the machine ends. Answers the seconds that it took."""
        try:
            status = self.ran.wait(timeout=max(1, self.begun + SECONDS - time.monotonic()))
        except subprocess.TimeoutExpired:
            fail(f"the machine with {self.card} ran for {SECONDS} seconds and was ended; {self.last_said()}")
        if status:
            fail(f"{QEMU[0]} {f'ended with {status}' if status > 0 else f'was ended by signal {-status}'}; {self.last_said()}")
        return int(time.monotonic() - self.begun)

    def unpack(self, room):
        """Unpacks what the machine has sent."""
        if not (self.folder / "results.tar.gz").stat().st_size:
            fail(f"the machine with {self.card} sent nothing; {self.last_said()}")
        try:
            with tarfile.open(self.folder / "results.tar.gz") as sent:
                sent.extractall(room, filter="data") if hasattr(tarfile, "data_filter") else sent.extractall(room)
        except (tarfile.TarError, EOFError, OSError) as fault:
            fail(f"what the machine with {self.card} sent isn't whole: {fault}; {self.last_said()}")

    def end(self):
        """Ends the machine, if it still runs."""
        if self.ran.poll() is None:
            self.ran.kill()
            self.ran.wait()
