"""Scenes as people name them: a text, a script in Python that prints one, a model, or standard input."""
import functools
import json
import os
import re
import subprocess
import sys
import tempfile

from door.faults import Stop, read_bytes

LONGEST = 300
"""How many seconds a script may take."""
HERE = os.path.dirname(os.path.abspath(__file__))
TOOLS = os.path.dirname(HERE)
MODELS = {".obj": "scene/obj_to_scene.py", ".gltf": "scene/gltf_to_scene.py", ".glb": "scene/gltf_to_scene.py"}
"""The scripts that make a scene of a model, by the ending of its name."""


class Scene:
    """A scene's text, where it came from, and for a script its line of each line of the text."""

    def __init__(self, path, text, script_lines=()):
        self.path, self.text, self.script_lines = path, text, script_lines

    @property
    def name(self):
        """The file's name without its folder and its ending."""
        return "scene" if self.path == "-" else os.path.splitext(os.path.basename(self.path))[0]

    @functools.cached_property
    def lines(self):
        """The lines of the text; line N is the element N - 1."""
        return self.text.split(b"\n")

    @functools.cached_property
    def frames(self):
        """How many frames the text has."""
        return len(re.findall(rb"^frame$", self.text, re.M))

    @property
    def size(self):
        """Width and height as the text says them, or None."""
        found = re.search(rb"^size (\d{1,4}) (\d{1,4})$", self.text, re.M)
        return found and (int(found[1]), int(found[2]))

    @property
    def encoders(self):
        """How many encoders the text says."""
        found = re.search(rb"^encoders (\d)$", self.text, re.M)
        return int(found[1]) if found else 1

    def picture_bytes(self):
        """How many bytes one picture has in the P6 form, header and all."""
        width, height = self.size or (0, 0)
        return len(b"P6\n%d %d\n255\n" % (width, height)) + 3 * width * height

    def writer(self, line):
        """Where a script wrote a line: its file and its line, or None."""
        found = self.script_lines[line - 1] if 0 < line <= len(self.script_lines) else None
        if not found:
            return None
        file, number, called = found
        return file, f"{number}" + (f", called from {called}" if called else "")

    def place(self, line):
        """Where a line of the text stands for its writer: of a script the line that wrote it as well."""
        found = self.writer(line)
        return f"{found[0]}:{found[1]} (line {line} of its scene)" if found else f"{self.path}:{line}"

    def place_in_text(self, line):
        """The same, short: without the name of the text and without folders."""
        found = self.writer(line)
        return f"{os.path.basename(found[0])}:{found[1]}" if found else f"line {line}"

    def shown(self, line, most=100):
        """The text of a line, cut off where it is long."""
        text = self.lines[line - 1].decode("ascii", "replace") if line <= len(self.lines) else ""
        return text if len(text) <= most else text[: most - 4] + " .."


def read_scene(path, words=()):
    """The scene of a file, by the ending of its name; WORDS go to the script or to the model's script."""
    ending = os.path.splitext(path)[1].lower()
    if path == "-":
        return Scene("-", sys.stdin.buffer.read())
    if ending == ".py" or ending in MODELS:
        read_bytes(path)
        return written(path, words) if ending == ".py" else of_model(path, os.path.join(TOOLS, MODELS[ending]), words)
    if words:
        raise Stop(f"{path} is a text: words behind -- are for a script or a model", 2)
    return Scene(path, read_bytes(path))


def run_quietly(words, path):
    """Runs a script that writes a scene; ends where it does not come to an end."""
    try:
        return subprocess.run(words, stdout=subprocess.PIPE, stderr=subprocess.PIPE, stdin=subprocess.DEVNULL, timeout=LONGEST)
    except subprocess.TimeoutExpired:
        raise Stop(f"{path}: no scene was written within {LONGEST} seconds") from None


def written(path, words):
    """The scene that a script prints."""
    with tempfile.TemporaryDirectory(prefix="gfx-") as room:
        kept = os.path.join(room, "lines")
        runner = [sys.executable, os.path.join(HERE, "run_script.py"), kept, path, *words]
        ended = run_quietly(runner, path)
        if ended.returncode:
            raise Stop(f"the script {path} wrote no scene: {ended.stderr.decode(errors='replace').strip() or f'status {ended.returncode}'}")
        sys.stderr.write(ended.stderr.decode(errors="replace"))
        if not ended.stdout.strip():
            raise Stop(f"the script {path} printed nothing; a script ends with print(scene.text(), end=\"\")")
        lines = []
        if os.path.exists(kept):
            with open(kept, encoding="utf-8") as file:
                texts = json.load(file)
            lines = next((it["lines"] for it in texts if it["text"].encode() == ended.stdout), [])
    return Scene(path, ended.stdout, lines)


def of_model(path, maker, words):
    """The scene of a model."""
    if not os.path.exists(maker):
        raise Stop(f"{path}: nothing here reads such a model ({os.path.relpath(maker, os.path.dirname(TOOLS))} is not there)")
    ended = run_quietly([sys.executable, maker, *words, path], path)
    said = ended.stderr.decode(errors="replace").strip()
    if ended.returncode:
        raise Stop(f"no scene was made of {path}: {said or f'status {ended.returncode}'}", 2 if ended.returncode == 2 else 1)
    if said:
        print(said, file=sys.stderr)
    return Scene(path, ended.stdout)


def whole_scene(path, words=()):
    """The scene of a file; ends where it is a stream of pictures, which no word that plays takes."""
    if path.endswith((".ppm", ".png")):
        raise Stop(f"{path} has pictures, and a scene is wanted here", 2)
    return read_scene(path, words)
