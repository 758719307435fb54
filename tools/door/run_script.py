"""Runs a script that writes a scene by tools/scene/scene.py, and keeps which of its lines wrote which line of the text.

usage: run_script.py LINES SCRIPT [WORD ..]

Into LINES go, as JSON, the texts that were asked of scenes, each with the script's file and line for each of its lines. A script that
fails ends with one line on standard error, which names its file and line.
"""
import functools
import json
import os
import runpy
import sys
import traceback

HERE = os.path.dirname(os.path.abspath(__file__))
MODULE = os.path.join(os.path.dirname(HERE), "scene")
GALLERY = os.path.join(MODULE, "gallery")


@functools.lru_cache(maxsize=None)
def is_scripts_own(file):
    """Whether a file is none of the library, of the module's folder or of this file; the script itself always is."""
    file = os.path.abspath(file)
    if file == os.path.abspath(sys.argv[0]):
        return True
    return file not in (__file__, os.path.join(GALLERY, "shapes.py")) and os.path.dirname(file) != MODULE and os.path.exists(file)


@functools.lru_cache(maxsize=None)
def near(file):
    """A file's name, from this folder where it stands below it."""
    return os.path.relpath(file) if file.startswith(os.getcwd() + os.sep) else file


def caller():
    """Who writes a line: file and line, and the line of the same file that called the function there, or None."""
    frame = sys._getframe(2)
    while frame is not None:
        file = frame.f_code.co_filename
        if is_scripts_own(file):
            before = frame.f_back
            called = before.f_lineno if before is not None and before.f_code.co_filename == file else None
            return near(file), frame.f_lineno, called
        frame = frame.f_back
    return None


class Noting(list):
    """The lines of a scene, with the caller of each."""

    def __init__(self, lines=()):
        super().__init__(lines)
        self.callers = [None] * len(self)

    def append(self, line):
        self.callers.append(caller())
        super().append(line)

    def __iadd__(self, lines):
        for line in lines:
            self.append(line)
        return self


def note_lines(scenes, texts):
    """Has each scene of the module tell who wrote its lines: by its `places`, or by a list that notes it."""
    begin, text = scenes.Scene.__init__, scenes.Scene.text

    def begun(self, *words, **named):
        begin(self, *words, **named)
        if isinstance(self.lines, list) and not hasattr(self, "places"):
            self.lines = Noting(self.lines)

    def told(self, *words, **named):
        whole = text(self, *words, **named)
        places = getattr(self, "places", None) or getattr(self.lines, "callers", None)
        if isinstance(whole, str) and places:
            texts.append({"text": whole, "lines": [*places, caller()]})
        return whole

    scenes.Scene.__init__, scenes.Scene.text = begun, told


def fault_line(script, fault):
    """A fault in one line: where the script stood, and what Python says."""
    if isinstance(fault, SyntaxError):
        return f"{fault.filename}:{fault.lineno}: {fault.msg}"
    if type(fault).__name__ == "SceneError":
        return str(fault)
    steps = [step for step in traceback.extract_tb(fault.__traceback__) if os.path.abspath(step.filename) == os.path.abspath(script)]
    place = f"{script}:{steps[-1].lineno}" if steps else script
    return f"{place}: {type(fault).__name__}: {fault}"


def main():
    kept, script, *words = sys.argv[1:]
    sys.path[0] = os.path.dirname(os.path.abspath(script))
    sys.path.insert(1, MODULE)
    sys.path.append(GALLERY)
    texts = []
    try:
        import scene

        note_lines(scene, texts)
    except (ImportError, AttributeError):
        pass  # the script has a module of its own by this name: there is nothing to note
    sys.argv = [script, *words]
    try:
        runpy.run_path(script, run_name="__main__")
    except SystemExit as end:
        if end.code not in (None, 0):
            if not isinstance(end.code, int):
                print(end.code, file=sys.stderr)
            sys.exit(1)
    except BaseException as fault:
        sys.stdout.flush()
        print(fault_line(script, fault), file=sys.stderr)
        sys.exit(1)
    with open(kept, "w", encoding="utf-8") as file:
        json.dump(texts, file)


if __name__ == "__main__":
    main()
