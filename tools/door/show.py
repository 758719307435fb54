"""The words play and png."""
import os
import sys
import time

from door import pictures
from door.faults import FRAME, Stop, read_bytes, whole, write_bytes
from door.programs import play, tell_dropped
from door.scenes import read_scene, whole_scene


def is_pictures(path):
    """Whether a file has pictures and no scene."""
    return path.endswith((".ppm", ".png"))


def pictures_of(path, frame=None):
    """The pictures of a scene that is played, or of a file of pictures; FRAME alone where it is given. Pairs of number and picture."""
    if is_pictures(path):
        found = pictures.pictures_of_file(path)
    else:
        scene = read_scene(path)
        played = play(scene)
        tell_dropped(scene, played)
        found = played.pictures()
    count = 0
    for number, picture in enumerate(found):
        count += 1
        if frame is None or number == frame:
            yield number, picture
        if number == frame:
            return
    if frame is not None:
        raise Stop(f"{path} has no frame {frame}; it has {count}, counted from 0")


def out_name(path, given, ending):
    """The name of what is written: as given, else that of the scene, in this folder."""
    base = "scene" if path == "-" else os.path.splitext(os.path.basename(path))[0]
    return given or base + ending


class Progress:
    """Says on standard error how many pictures stand in a file that grows."""

    def __init__(self, out, scene):
        self.out, self.each, self.frames = out, scene.picture_bytes(), scene.frames
        self.start = time.monotonic()

    def __call__(self):
        have, took = os.fstat(self.out.fileno()).st_size // self.each, time.monotonic() - self.start
        rate = have / took if took else 0
        left = f", {(self.frames - have) / rate:.0f} s left" if rate else ""
        print(f"\r\x1b[K{have} of {self.frames} frames, {rate:.1f} a second{left}", end="", file=sys.stderr, flush=True)


class Play:
    TEXT = """The pictures are in the P6 form of Netpbm, one behind the other, into OUT.ppm: the scene's name in this folder where it is left
out, standard output for -. The notes go to standard error: a line for each frame, with its items and its dropped lines.

  tools/gfx play examples/triangle.scene triangle.ppm
  tools/gfx play --journal rings.journal examples/rings.scene rings.ppm
  tools/gfx play --by rings.journal examples/rings.scene again.ppm"""

    @staticmethod
    def takes(words):
        words.add_argument("scene", metavar="SCENE")
        words.add_argument("out", nargs="?", metavar="OUT.ppm")
        words.add_argument("--journal", metavar="FILE", help="write the journal there: the order in which the encoders' items came")
        words.add_argument("--by", metavar="FILE", help="draw in the order of this journal")
        words.add_argument("--progress", action="store_true", help="say meanwhile how far it is")

    @staticmethod
    def run(taken):
        scene = whole_scene(taken.scene)
        name = out_name(taken.scene, taken.out, ".ppm")
        order = None if taken.by is None else read_bytes(taken.by)
        if taken.scene == taken.out:
            raise Stop(f"{taken.out} is the scene, and would be written over", 2)
        with (os.fdopen(os.dup(sys.stdout.fileno()), "wb") if name == "-" else opened(name)) as out:
            progress = Progress(out, scene) if taken.progress and scene.size and name != "-" else None
            try:
                played = play(scene, order, out, progress)
            except Stop:
                if name != "-":
                    os.remove(name)
                raise
        print(("\r\x1b[K" if progress else "") + "\n".join(played.notes), file=sys.stderr)
        tell_dropped(scene, played)
        if progress:
            print(f"{scene.frames} frames in {played.seconds:.2f} s, {scene.frames / played.seconds:.1f} a second", file=sys.stderr)
        if taken.journal:
            write_bytes(taken.journal, played.journal)


def opened(name):
    """A file to write to."""
    try:
        return open(name, "wb")
    except OSError as fault:
        raise Stop(f"{name} can't be written: {fault.strerror}") from None


class Png:
    TEXT = """Each byte of a picture is kept. A scene of several frames gives OUT-0.png, OUT-1.png and so on. Without OUT.png the name is the
scene's, in this folder. SCENE may be a file of pictures (.ppm) as well.

  tools/gfx png examples/rings.scene rings.png
  tools/gfx png --frame 3 examples/gears.scene gears-3.png
  tools/gfx png --strip 0,8,16,24,32 examples/turning-triangle.scene strip.png"""

    @staticmethod
    def takes(words):
        words.add_argument("scene", metavar="SCENE")
        words.add_argument("out", nargs="?", metavar="OUT.png")
        which = words.add_mutually_exclusive_group()
        which.add_argument("--frame", type=FRAME, metavar="K", help="the picture of frame K alone, counted from 0")
        which.add_argument("--strip", type=frames, metavar="K,K,..", help="the pictures of these frames side by side, as one")
        words.add_argument("--scale", type=whole(1, 64), default=1, metavar="N", help="each pixel becomes N by N; 1")

    @staticmethod
    def run(taken):
        name = out_name(taken.scene, taken.out, ".png")
        if taken.scene == name:
            raise Stop(f"{name} is what is read, and would be written over", 2)
        found = pictures_of(taken.scene, taken.frame) if taken.strip is None else [(0, strip(taken))]
        waiting, several = None, False
        for number, picture in found:
            if waiting:
                several = True
                write_png(name, *waiting, taken.scale, several)
            waiting = (number, picture)
        write_png(name, *waiting, taken.scale, several)


def write_png(name, number, picture, times, several):
    """Writes one picture: by its name, with its number where there are several."""
    to = f"{name[:-4] if name.endswith('.png') else name}-{number}.png" if several else name
    write_bytes(to, pictures.png(pictures.enlarged(picture, times)))


def frames(text):
    """A list of frames."""
    return [FRAME(part) for part in text.split(",")]


def strip(taken):
    """The wanted pictures as one."""
    found = {number: picture for number, picture in pictures_of(taken.scene) if number in taken.strip}
    for number in taken.strip:
        if number not in found:
            raise Stop(f"{taken.scene} has no frame {number}")
    return pictures.beside([found[number] for number in taken.strip])


WORDS = {"play": Play, "png": Png}
