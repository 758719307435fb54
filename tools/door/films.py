"""The words gif, video and view."""
import os
import shutil
import subprocess
import sys
import tempfile

from door import pictures
from door.faults import FRAME, Stop, whole, write_bytes
from door.show import is_pictures, out_name, pictures_of

PACKAGES = {"ffmpeg": "ffmpeg", "ffplay": "ffmpeg", "feh": "feh", "chafa": "chafa"}
"""The Debian package of each tool."""


def need(tool):
    """Ends where a tool is missing."""
    if shutil.which(tool) is None:
        raise Stop(f"the tool {tool} is missing; it is in the Debian package {PACKAGES[tool]} (apt-get install {PACKAGES[tool]})")


def run_tool(words):
    """Runs a tool; ends where it fails."""
    ended = subprocess.run(words, stdin=subprocess.DEVNULL, stderr=subprocess.PIPE)
    if ended.returncode:
        said = ended.stderr.decode(errors="replace").strip().splitlines()
        raise Stop(f"{words[0]} ended with status {ended.returncode}" + (f": {said[-1]}" if said else ""))


def collected(path, room, times=1):
    """The pictures in a file of a folder ROOM, TIMES over; ends where their sizes differ. The file's name."""
    name, size = os.path.join(room, "all.ppm"), None
    with open(name, "wb") as file:
        for _, picture in pictures_of(path):
            if size not in (None, (picture.width, picture.height)):
                raise Stop(f"{path} has pictures of several sizes")
            size = (picture.width, picture.height)
            file.write(picture.p6())
    if times > 1:
        with open(name, "rb") as file:
            once = file.read()
        write_bytes(name, once * times)
    return name


def film_words(words):
    """The words that films share."""
    words.add_argument("scene", metavar="SCENE")
    words.add_argument("--rate", type=whole(1, 120), default=20, metavar="N", help="pictures a second; 20")


class Gif:
    TEXT = """The GIF begins again for ever. It has 256 colours, chosen for all pictures together. Without OUT.gif the name is the scene's, in this
folder. It needs ffmpeg (the Debian package ffmpeg).

  tools/gfx gif --rate 12 examples/gears.scene gears.gif"""

    @staticmethod
    def takes(words):
        film_words(words)
        words.add_argument("out", nargs="?", metavar="OUT.gif")

    @staticmethod
    def run(taken):
        need("ffmpeg")
        with tempfile.TemporaryDirectory(prefix="gfx-") as room:
            source = collected(taken.scene, room)
            colors = "split[a][b];[a]palettegen=stats_mode=full[p];[b][p]paletteuse=dither=none"
            made = ["-filter_complex", colors, "-loop", "0", "-f", "gif", out_name(taken.scene, taken.out, ".gif")]
            run_tool(["ffmpeg", "-v", "error", "-y", "-f", "image2pipe", "-framerate", str(taken.rate), "-c:v", "ppm", "-i", source, *made])


class Video:
    TEXT = """Without OUT.mp4 the name is the scene's, in this folder. The end of OUT says the kind of file to ffmpeg, which it needs (the Debian
package ffmpeg).

  tools/gfx video --scale 2 --times 3 examples/gears.scene gears.mp4"""

    @staticmethod
    def takes(words):
        film_words(words)
        words.add_argument("out", nargs="?", metavar="OUT.mp4")
        words.add_argument("--scale", type=whole(1, 16), default=2, metavar="N", help="each pixel becomes N by N; 2")
        words.add_argument("--times", type=whole(1, 1000), default=1, metavar="N", help="the pictures N times one after the other; 1")

    @staticmethod
    def run(taken):
        need("ffmpeg")
        with tempfile.TemporaryDirectory(prefix="gfx-") as room:
            source = collected(taken.scene, room, taken.times)
            # the sides of a video with this format of pixels are even
            sides = f"scale=iw*{taken.scale}:ih*{taken.scale}:flags=neighbor,pad=ceil(iw/2)*2:ceil(ih/2)*2"
            made = ["-vf", sides, "-pix_fmt", "yuv420p", out_name(taken.scene, taken.out, ".mp4")]
            run_tool(["ffmpeg", "-v", "error", "-y", "-f", "image2pipe", "-framerate", str(taken.rate), "-c:v", "ppm", "-i", source, *made])


class View:
    TEXT = """Without --with it takes, where there is a display, ffplay for an animation or feh for one picture if they are there; else it shows
one picture in this terminal, in half blocks of 24-bit colours, which needs no package. SCENE may be a file of pictures as well.
`tools/gfx watch` shows a scene in the browser and draws it again when it is saved.

  tools/gfx view examples/rings.scene
  tools/gfx view --with ffplay examples/gears.scene"""

    @staticmethod
    def takes(words):
        film_words(words)
        words.add_argument("--with", dest="tool", choices=("terminal", "chafa", "feh", "ffplay"), help="what shows it")
        words.add_argument("--frame", type=FRAME, metavar="K", help="which picture, counted from 0; the first (not for ffplay)")

    @staticmethod
    def run(taken):
        tool = taken.tool or chosen(taken)
        if tool != "terminal":
            need(tool)
        if tool == "ffplay":
            with tempfile.TemporaryDirectory(prefix="gfx-") as room:
                source = collected(taken.scene, room)
                run_tool(["ffplay", "-v", "error", "-autoexit", "-loop", "0", "-f", "image2pipe", "-framerate", str(taken.rate), "-vcodec", "ppm", source])
            return
        show(tool, next(picture for _, picture in pictures_of(taken.scene, taken.frame or 0)), f"{taken.scene}, frame {taken.frame or 0}")


def chosen(taken):
    """What shows the pictures where nobody said it."""
    if not (os.environ.get("DISPLAY") or os.environ.get("WAYLAND_DISPLAY")):
        return "terminal"
    wanted = "feh" if taken.frame is not None or is_pictures(taken.scene) else "ffplay"
    return wanted if shutil.which(wanted) else "terminal"


def show(tool, picture, title):
    """Shows one picture by a tool, or in the terminal."""
    if tool == "terminal":
        columns, lines = shutil.get_terminal_size()
        sys.stdout.write(pictures.in_terminal(picture, columns, lines - 1))
        return
    with tempfile.TemporaryDirectory(prefix="gfx-") as room:
        name = os.path.join(room, "picture.png")
        write_bytes(name, pictures.png(picture))
        run_tool(["feh", "--title", title, name] if tool == "feh" else ["chafa", name])


WORDS = {"gif": Gif, "video": Video, "view": View}
