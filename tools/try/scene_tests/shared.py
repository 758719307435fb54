"""What the tests share: where things are, and how scenes are played and scripts are run."""
import os
import subprocess
import sys
import tempfile
import unittest

TOP = os.path.dirname(os.path.dirname(os.path.dirname(os.path.dirname(os.path.abspath(__file__)))))
sys.path[:0] = [os.path.join(TOP, "tools", "scene"), os.path.join(TOP, "tools", "try")]

import second_player  # noqa: E402
import second_renderer  # noqa: E402

PROGRAM = os.environ.get("GFX_PLAY")


def played(text):
    """The notes and the pictures' pixels of a scene, by the second implementation, in the order of one thread."""
    text = text if isinstance(text, bytes) else text.encode("ascii")
    scene, _ = second_player.read_scene(text)
    plans = second_player.plans(scene)
    journal = [[(encoder, k) for encoder, items in enumerate(plan.items) for k in range(len(items))] for plan in plans]
    pictures = second_renderer.pictures(scene, plans, journal)
    return second_player.report(plans).decode(), [picture[picture.index(b"\n255\n") + 5 :] for picture in pictures]


def pixel(picture, width, x, y):
    """The colour of a pixel of a picture's bytes."""
    at = 3 * (y * width + x)
    return tuple(picture[at : at + 3])


def run(*words, **how):
    """A script of this repository, run by words at its top: status, standard output and standard error."""
    done = subprocess.run([sys.executable, *words], cwd=how.pop("cwd", TOP), stdout=subprocess.PIPE, stderr=subprocess.PIPE, **how)
    return done.returncode, done.stdout, done.stderr.decode(errors="replace")


class Folder(unittest.TestCase):
    """A test with a folder of its own."""

    def setUp(self):
        made = tempfile.TemporaryDirectory(prefix="scene-tests-")
        self.addCleanup(made.cleanup)
        self.folder = made.name

    def file(self, name, text):
        """A file in the folder: its path."""
        path = os.path.join(self.folder, name)
        with open(path, "wb") as file:
            file.write(text if isinstance(text, bytes) else text.encode("utf-8"))
        return path
