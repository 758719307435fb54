"""The word shrink: the smallest scene on which a command still says what it says."""
import hashlib
import os
import subprocess
import tempfile

from door.checking import Fault, dropped_lines
from door.faults import Stop, many, whole, write_bytes
from door.golden import quoted
from door.scenes import Scene, whole_scene

HEAD = (b"scene", b"size", b"encoders", b"room", b"latency", b"done")
ITEMS = (b"submit", b"touch", b"blit")
SIZES = {b"u8": 1, b"i16": 2, b"fixed": 4}


class Shrinker:
    """Tries smaller scenes. A try counts where the text is a scene, drops lines only if the whole one does, and the command has the
    wanted status."""

    def __init__(self, command, seconds, room):
        self.command, self.seconds, self.room = command, seconds, room
        self.tries, self.known = 0, {}
        self.status, self.may_drop = None, True

    def begin(self, scene):
        """What the command says of the whole scene is what is looked for."""
        self.may_drop = bool(dropped_lines(scene))
        self.status = self.status_of(scene.text)
        if self.status == 0:
            raise Stop("the command ends with status 0 over the whole scene, so there is nothing to look for; it has to end with another where something is wrong")

    def status_of(self, text):
        """How the command ends over a text; None where it takes too long."""
        name = os.path.join(self.room, "try.scene")
        write_bytes(name, text)
        self.tries += 1
        silent = {"stdin": subprocess.DEVNULL, "stdout": subprocess.DEVNULL, "stderr": subprocess.DEVNULL}
        try:
            ended = subprocess.run(["sh", "-c", self.command.replace("{}", quoted(name))], timeout=self.seconds, **silent)
        except subprocess.TimeoutExpired:
            return None
        return ended.returncode

    def keeps(self, lines):
        """Whether these lines are a scene on which the command says the same."""
        text = b"\n".join(lines) + b"\n"
        key = hashlib.sha256(text).digest()
        if key not in self.known:
            self.known[key] = self.is_honest(text) and self.status_of(text) == self.status
        return self.known[key]

    def is_honest(self, text):
        """Whether the text is a scene that drops no line, or may."""
        try:
            return not dropped_lines(Scene("a try", text)) or self.may_drop
        except Fault:
            return False

    def fewer(self, pieces, joined):
        """The least of these pieces, as far as leaving out one run of them after the other goes; JOINED makes lines of pieces."""
        size = len(pieces)
        while size:
            at = 0
            while at < len(pieces):
                left = pieces[:at] + pieces[at + size :]
                if len(left) < len(pieces) and self.keeps(joined(left)):
                    pieces = left
                else:
                    at += size
            size //= 2
        return pieces


def flat(groups):
    """The lines of groups of lines."""
    return [line for group in groups for line in group]


def split_at(lines, begins):
    """The lines in groups, each of which begins with a line of which BEGINS says so; the first may begin with another."""
    groups = []
    for line in lines:
        if begins(line) or not groups:
            groups.append([])
        groups[-1].append(line)
    return groups


def word(line):
    """A line's first field."""
    return line.split(b" ", 1)[0]


def by_frames(shrinker, lines):
    """Without the frames that are not needed."""
    groups = split_at(lines[:-1], lambda line: word(line) == b"frame")
    return flat([groups[0]] + shrinker.fewer(groups[1:], lambda left: flat([groups[0]] + left) + lines[-1:])) + lines[-1:]


def by_items(shrinker, lines):
    """Without the items that are not needed, each with the lines of its state."""
    groups, behind = [], True
    for line in lines:
        alone = word(line) in HEAD + (b"frame", b"encoder", b"beside")
        if behind or alone:
            groups.append([])
        groups[-1].append(line)
        behind = alone or word(line) in ITEMS
    return flat(shrinker.fewer(groups, flat))


def by_lines(shrinker, lines):
    """Without the lines that are not needed."""
    return shrinker.fewer(lines, list)


def by_triangles(shrinker, lines):
    """Without the triangles of `tvertices` lines that are not needed."""
    strides = {line.split(b" ")[1]: stride(line) for line in lines if word(line) == b"layout"}
    for place in [place for place, line in enumerate(lines) if word(line) == b"tvertices"]:
        first, name, data = lines[place].split(b" ")
        step = 6 * strides[name]
        pieces = [data[at : at + step] for at in range(0, len(data), step)]

        def joined(left, place=place, front=first + b" " + name + b" "):
            return lines[:place] + [front + (b"".join(left) or b"-")] + lines[place + 1 :]

        lines = joined(shrinker.fewer(pieces, joined))
    return lines


def stride(line):
    """The bytes of a vertex of a layout's line."""
    parts = [part.split(b":") for part in line.split(b" ")[2:]]
    return sum(int(part[1]) if part[0] == b"skip" else SIZES[part[1]] * int(part[2]) for part in parts)


class Shrink:
    PASSES_ON = True
    TEXT = """COMMAND is run by the shell; {} stands for the file of a scene. Over the whole scene it has to end with a status that is not 0, as
`tools/gfx diff` does where something differs. Frames, items, lines and triangles are left out as long as the status stays the same, the
text is a scene, and no line is dropped unless the whole scene has dropped lines. Without OUT.scene the name is NAME-small.scene.

  tools/gfx shrink SCENE [OUT.scene] -- COMMAND
  tools/gfx shrink bad.scene -- './my_renderer {} > mine.ppm; tools/gfx diff --near 2 mine.ppm {}'"""

    @staticmethod
    def takes(words):
        words.add_argument("scene", metavar="SCENE")
        words.add_argument("out", nargs="?", metavar="OUT.scene")
        words.add_argument("--seconds", type=whole(1, 3600), default=60, metavar="N", help="how long a try may take; 60")

    @staticmethod
    def run(taken):
        command = " ".join(taken.passed or ())
        if "{}" not in command:
            raise Stop("wanted is -- and a command with {} in it, which stands for the file of a scene", 2)
        scene = whole_scene(taken.scene)
        lines = [line for line in scene.text.split(b"\n") if line and not line.startswith(b"#")]
        with tempfile.TemporaryDirectory(prefix="gfx-") as room:
            shrinker = Shrinker(command, taken.seconds, room)
            shrinker.begin(scene)
            if not shrinker.keeps(lines):
                raise Stop("the command says something else of the same scene without its comments, or not the same each time")
            small, count = lines, None
            while count != sum(map(len, small)):
                count = sum(map(len, small))
                for way in (by_frames, by_items, by_lines, by_triangles):
                    small = way(shrinker, small)
        out = taken.out or f"{scene.name}-small.scene"
        write_bytes(out, b"\n".join(small) + b"\n")
        items = sum(word(line) in ITEMS for line in small)
        print(f"{out}: {many(len(lines), 'line')} became {many(len(small), 'line')}, {many(items, 'item')}; {many(shrinker.tries, 'try').replace('trys', 'tries')}")


WORDS = {"shrink": Shrink}
