"""Where a drawing goes: standard output, a file, or a PNG by a converter that is installed."""
import os
import shutil
import subprocess
import sys
import tempfile

# The programs that make a PNG of an SVG, and how each is called. ImageMagick's older name, convert, belongs to other programs too, and is not tried.
CONVERTERS = {
    "rsvg-convert": ["rsvg-convert", "-o", "{png}", "{svg}"],
    "inkscape": ["inkscape", "{svg}", "--export-type=png", "--export-filename={png}"],
    "magick": ["magick", "{svg}", "{png}"],
}


class Unable(Exception):
    """A drawing cannot be written; the text says why."""


def png_of(svg):
    """Returns the bytes of a PNG of a drawing."""
    try:
        import cairosvg

        return cairosvg.svg2png(bytestring=svg.encode())
    except ImportError:
        pass
    for name, words in CONVERTERS.items():
        if not shutil.which(name):
            continue
        with tempfile.TemporaryDirectory() as folder:
            places = {"svg": f"{folder}/drawing.svg", "png": f"{folder}/drawing.png"}
            with open(places["svg"], "w", encoding="utf-8") as it:
                it.write(svg)
            done = subprocess.run([it.format(**places) for it in words], stdin=subprocess.DEVNULL, capture_output=True, text=True)
            if done.returncode or not os.path.exists(places["png"]):
                raise Unable(f"{name} made no PNG: {done.stderr.strip()[:200]}")
            with open(places["png"], "rb") as it:
                return it.read()
    raise Unable(f"a PNG needs one of {', '.join(CONVERTERS)}, or the Python package cairosvg, and none is installed here; --svg needs none")


def written_to(path, text):
    """Writes a drawing, or a text, to the file of this path, or to standard output if that is None or begins with `-.`; a path that ends with .png has a PNG."""
    data = png_of(text) if path and path.endswith(".png") else text.encode()
    if path is None or path.startswith("-."):
        sys.stdout.buffer.write(data)
        sys.stdout.buffer.flush()
        return
    try:
        with open(path, "wb") as it:
            it.write(data)
    except OSError as why:
        raise Unable(f"{path}: {why.strerror}") from None
