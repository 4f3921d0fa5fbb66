"""The file of a picture: an SVG, or a PNG that a converter makes of one."""
import pathlib
import shutil
import subprocess
import tempfile

from calls import look_at_out, put
from commands import fail, wrong

CONVERTERS = (("rsvg-convert", "{svg}", "-o", "{png}"), ("inkscape", "{svg}", "--export-filename={png}"),
              ("magick", "{svg}", "{png}"), ("convert", "{svg}", "{png}"))
# the endings of other pictures, of which none is written
OTHERS = (".bmp", ".gif", ".jpeg", ".jpg", ".pdf", ".tif", ".tiff", ".webp")


def suffix_of(out):
    return pathlib.Path(out).suffix.lower()


def converter():
    """The words of the converter that is there."""
    return next((it for it in CONVERTERS if shutil.which(it[0])), None) or fail("a PNG needs rsvg-convert, inkscape or ImageMagick in the path")


def look_at_picture(option, out):
    """Fails where a picture can't be written, before anything takes long."""
    if suffix_of(out) in OTHERS:
        wrong(f"{option} is FILE.svg or FILE.png: {out!r} isn't")
    look_at_out(out)
    if suffix_of(out) == ".png":
        converter()


def put_picture(out, text):
    """Writes the picture, or has a converter make a PNG of it."""
    if suffix_of(out) != ".png":
        put(out, text.encode())
        return
    words = converter()
    with tempfile.TemporaryDirectory() as room:
        svg = pathlib.Path(room) / "picture.svg"
        svg.write_text(text)
        ran = subprocess.run([word.format(svg=svg, png=out) for word in words], stdout=subprocess.PIPE, stderr=subprocess.STDOUT, check=False)
    if ran.returncode:
        fail(f"{words[0]} ended with {ran.returncode}: {ran.stdout.decode(errors='replace').strip()}")
