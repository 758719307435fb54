"""The words example and scene."""
import os
import re
import sys

from door.faults import Stop, many, read_bytes, write_bytes
from door.programs import TOP
from door.scenes import MODELS, whole_scene

EXAMPLES, SCRIPTS = os.path.join(TOP, "examples"), os.path.join(TOP, "tools", "scene", "gallery")


def examples():
    """The files of each example, by its name: those of folders behind the others."""
    found = {}
    for folder, _, names in os.walk(EXAMPLES):
        for name in names:
            base, ending = os.path.splitext(os.path.relpath(os.path.join(folder, name), EXAMPLES))
            if ending in (".scene", ".py"):
                found.setdefault(base, {})[ending] = os.path.join(folder, name)
    for base, files in found.items():
        script = os.path.join(SCRIPTS, f"{base}.py")
        if os.path.exists(script):
            files[".py"] = script
    return {base: found[base] for base in sorted(found, key=lambda base: (os.sep in base, base))}


def about(files):
    """One line on an example: the head of its script, else its first comment."""
    said = None
    if ".scene" in files:
        said = re.search(r"^# (.*)$", read_bytes(files[".scene"])[:2000].decode("ascii", "replace"), re.M)
    if ".py" in files:
        said = re.search(r'"""(.*?)(?:\n\n|""")', read_bytes(files[".py"]).decode(), re.S) or said
    return " ".join(said[1].split()).split(". ")[0].rstrip(".") if said else "a scene"


class Example:
    TEXT = """Without NAME it lists them. With NAME it copies the scene to OUT.scene, and the script that wrote it, if one did, to OUT.py. Without
OUT the copies have the example's name, in this folder. Nothing is written over. The words of tools/gfx run the script as it is, for
they know where the module of scenes stands.

  tools/gfx example
  tools/gfx example mirror my-mirror.scene"""

    @staticmethod
    def takes(words):
        words.add_argument("name", nargs="?", metavar="NAME")
        words.add_argument("out", nargs="?", metavar="OUT.scene")

    @staticmethod
    def run(taken):
        known = examples()
        if taken.name is None:
            print("\n".join(f"{name:17} {about(files)}" for name, files in known.items()))
            return
        name = os.path.splitext(taken.name)[0] if taken.name.endswith((".scene", ".py")) else taken.name
        if name not in known:
            raise Stop(f"there is no example {taken.name}; `tools/gfx example` lists them", 2)
        base = os.path.splitext(taken.out)[0] if taken.out else os.path.basename(name)
        copies = {source: base + ending for ending, source in sorted(known[name].items(), reverse=True)}
        for copy in copies.values():
            if os.path.exists(copy):
                raise Stop(f"{copy} is there already; name another OUT")
        for source, copy in copies.items():
            write_bytes(copy, read_bytes(source))
            print(copy)


class MakeScene:
    PASSES_ON = True
    """Words behind -- are not read here."""
    TEXT = """FROM is a Python script that prints a scene (tools/scene/scene.py is its module), or a model (.obj, .gltf, .glb). The scene goes into
OUT.scene, or to standard output where it is left out. With --about nothing is written but what is in the scene; FROM may be a
scene's text then. Words behind -- go to the script, or to the script of the model.

  tools/gfx scene FROM [OUT.scene] -- WORD ..
  tools/gfx scene tools/scene/gallery/rings.py rings.scene
  tools/gfx scene examples/models/lighthouse.obj turning.scene -- --frames 24 --size 160 120
  tools/gfx scene --about examples/encoders.scene"""

    @staticmethod
    def takes(words):
        words.add_argument("source", metavar="FROM")
        words.add_argument("out", nargs="?", metavar="OUT.scene")
        words.add_argument("--about", action="store_true", help="say what is in the scene")

    @staticmethod
    def run(taken):
        if not taken.about and taken.source != "-" and os.path.splitext(taken.source)[1].lower() not in (".py", *MODELS):
            raise Stop(f"{taken.source} is neither a script nor a model; --about says what is in a scene's text", 2)
        scene = whole_scene(taken.source, taken.passed or ())
        if taken.about:
            print(contents(scene))
        elif taken.out and taken.out != "-":
            if taken.out == taken.source:
                raise Stop(f"{taken.out} is what is read, and would be written over", 2)
            write_bytes(taken.out, scene.text)
        else:
            sys.stdout.buffer.write(scene.text)
            sys.stdout.buffer.flush()


def contents(scene):
    """What is in a scene, by the words of its lines."""
    counts = {}
    for line in scene.lines:
        word = line.split(b" ", 1)[0].decode("ascii", "replace")
        counts[word] = counts.get(word, 0) + 1
    things = [f"{counts[word]} {word}" for word in ("layout", "vb", "ib", "texture", "fb", "program", "uniform") if word in counts]
    width, height = scene.size or ("?", "?")
    return "\n".join([
        f"{scene.path}: {len(scene.text)} bytes, {many(len(scene.lines) - 1, 'line')}",
        f"{many(scene.frames, 'frame')} of {width} by {height}, {many(scene.encoders, 'encoder')}",
        "things: " + (", ".join(things) or "none"),
        f"items: {many(counts.get('submit', 0), 'draw')}, {counts.get('touch', 0)} touches, {many(counts.get('blit', 0), 'blit')}",
    ])


WORDS = {"example": Example, "scene": MakeScene}
