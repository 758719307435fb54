"""What a script asked for and can't have, told with the script's own line."""
import os
import sys

OWN = ("scene", "scene_parts.")
"""The module and its parts, whose lines are not the script's."""


def is_own(module):
    return module == OWN[0] or module.startswith(OWN[1])


def caller():
    """Where the script called this module: its file, its line, and the line of the same file that called the function there, or None."""
    frame = sys._getframe(1)
    while frame.f_back and is_own(frame.f_globals.get("__name__", "")):
        frame = frame.f_back
    before, file = frame.f_back, frame.f_code.co_filename
    called = before.f_lineno if before and before.f_code.co_filename == file and frame.f_code.co_name != "<module>" else None
    return file, frame.f_lineno, called


def told(place):
    """A place in words: `mine.py, line 12`, or `mine.py, line 12, called from line 40`."""
    path, line, called = place
    near = os.path.relpath(path) if os.path.isabs(path) and os.path.exists(path) else path
    return f"{near if len(near) < len(path) else path}, line {line}" + (f", called from line {called}" if called else "")


class SceneError(ValueError):
    """What a script can't have: its text begins with the script's file and line."""

    def __init__(self, what, place=None):
        self.what, self.place = what, place or caller()
        super().__init__(f"{told(self.place)}: {what}")


def in_one_line(before):
    """What a script that ends by a SceneError says: its one line in place of the way through this module."""

    def hook(kind, error, trace):
        if isinstance(error, SceneError):
            print(error, file=sys.stderr)
        else:
            before(kind, error, trace)

    return hook


if sys.excepthook is sys.__excepthook__:
    sys.excepthook = in_one_line(sys.__excepthook__)
