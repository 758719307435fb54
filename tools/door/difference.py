"""The word diff, and what tells two pictures apart."""
import itertools
import re
import tempfile

from door.faults import Stop, many, whole, write_bytes
from door.pictures import Picture, png
from door.programs import found, program, run_over
from door.show import pictures_of


MOST_SIDE = 65535
"""The longest side of a picture that gfx_diff takes."""


class Difference:
    """Where two pictures of one size differ by more than NEAR in a channel."""

    def __init__(self, one, other, near=0):
        self.width, self.pixels, self.places = one.width, one.width * one.height, {}
        for y in range(one.height):
            row, beside = one.row(y), other.row(y)
            if row != beside:
                self.look(y, row, beside, near)

    def look(self, y, row, beside, near):
        """Takes in the pixels of one row: the greatest difference of the channels, by column and row."""
        for x in range(self.width):
            at = 3 * x
            if row[at : at + 3] != beside[at : at + 3]:
                most = max(abs(row[k] - beside[k]) for k in (at, at + 1, at + 2))
                if most > near:
                    self.places[x, y] = most

    def __bool__(self):
        return bool(self.places)

    def line(self, frame):
        """The frame's line: how many pixels differ, by how much at most, the first one, and the first and last column and row of the rectangle that has them all."""
        columns, rows = [x for x, _ in self.places], [y for _, y in self.places]
        first = next(iter(self.places))
        within = f"{min(columns)} {min(rows)} {max(columns)} {max(rows)}"
        head = f"frame {frame} pixels {self.pixels} differ {len(self.places)}"
        return f"{head} most {max(self.places.values())} first {first[0]} {first[1]} within {within}"


def heat(picture, difference):
    """The picture in dark grey, and over it each pixel that differs: dark red for a little, over yellow to white for 255."""
    pixels = bytearray(byte for at in range(0, len(picture.pixels), 3) for byte in [sum(picture.pixels[at : at + 3]) // 9] * 3)
    for (x, y), most in difference.places.items():
        at = 3 * (y * picture.width + x)
        strong = 96 + 659 * most // 255
        pixels[at : at + 3] = bytes((min(255, strong), min(255, max(0, strong - 255)), min(255, max(0, strong - 510))))
    return Picture(picture.width, picture.height, bytes(pixels))


def sides_line(frame, one, other):
    """The line of two pictures of different sides."""
    return f"frame {frame} sides {one.width} {one.height} and {other.width} {other.height}"


def line_of(frame, one, other, near):
    """The line of two pictures that differ, or None."""
    if one.sides() != other.sides():
        return sides_line(frame, one, other)
    found = Difference(one, other, near)
    return found.line(frame) if found else None


def by_program(path, pairs, near):
    """The same of pairs (frame, picture, picture) of the same sides by gfx_diff: the line of each frame that differs."""
    text = b"".join(one.p6() for _, one, _ in pairs) + b"".join(other.p6() for _, _, other in pairs)
    with tempfile.TemporaryFile() as out:
        status, said = run_over(path, ["--near", str(near), "--frames", str(len(pairs))], text, out)
        out.seek(0)
        lines = out.read().decode("ascii", "replace").splitlines()
    found = [re.match(r"frame (\d+) (pixels \d+ differ (\d+) most .*)$", line) for line in lines]
    if not all(found) or [int(it[1]) for it in found] != list(range(len(pairs))) or status != any(it[3] != "0" for it in found):
        raise Stop(f"{path} ended with status {status}: {said.strip() or 'its lines are not understood; is it older than tools/gfx?'}")
    return {pair[0]: f"frame {pair[0]} {it[2]}" for pair, it in zip(pairs, found) if it[3] != "0"}


def lines_by(path, pairs, near):
    """The lines of the frames that differ: by gfx_diff where its path is given and it takes the sides, else by this script."""
    fit = [pair for pair in pairs if path and pair[1].sides() == pair[2].sides() and max(pair[1].sides()) <= MOST_SIDE]
    lines = by_program(path, fit, near) if fit else {}
    taken = {pair[0] for pair in fit}
    return lines | {frame: line_of(frame, one, other, near) for frame, one, other in pairs if frame not in taken}


def batches(pairs, most):
    """The pairs (frame, picture, picture) in lists of so many bytes."""
    batch, size = [], 0
    for pair in pairs:
        batch.append(pair)
        size += len(pair[1].pixels) + len(pair[2].pixels)
        if size >= most or len(batch) == 1024:
            yield batch
            batch, size = [], 0
    if batch:
        yield batch


class Diff:
    TEXT = """A and B are files of pictures (.ppm with one or more behind each other, .png) or scenes, which are played. A line for each frame that differs:

  frame 7 pixels 120000 differ 412 most 37 first 118 96 within 118 96 161 140

so many pixels, so many of them differ, by so much at most in a channel; the first one, and the least rectangle that has them all: its
first column and row, and its last. By gfx_diff where it is built, else by this script. Status 0: no pixel differs by more than N.
1: some do, or sides or numbers of frames do. 2: these are no pictures.

A scene is played on threads. Where its encoders share a key, two plays of it may differ; `play --by` draws it in one order.

  tools/gfx diff --near 2 --heat heat.png mine.ppm examples/rings.scene"""

    @staticmethod
    def takes(words):
        words.add_argument("one", metavar="A")
        words.add_argument("other", metavar="B")
        words.add_argument("--near", type=whole(0, 255), default=0, metavar="N", help="differences up to N in a channel do not count; 0")
        words.add_argument("--heat", metavar="OUT.png", help="write where they differ, for each frame that does (OUT-K.png for frame K behind the first)")

    @staticmethod
    def run(taken):
        try:
            frames, differ = compare(taken)
        except Stop as stop:
            raise Stop(stop.message, 2) from None
        print(f"{many(frames, 'frame')}, {differ} differ")
        return 1 if differ else 0


def compare(taken):
    """Says what differs; answers how many frames there are, and how many differ."""
    frames = differ = 0
    short = []
    path = program("gfx_diff") if found("gfx_diff") else None
    for batch in batches(pairs_of(taken, short), 1 << 25 if path else 1):
        lines = lines_by(path, batch, taken.near)
        for frame, one, other in batch:
            frames += 1
            if lines.get(frame):
                differ += 1
                print(lines[frame])
                if taken.heat and " sides " not in lines[frame]:
                    write_heat(taken.heat, frame, heat(one, Difference(one, other, taken.near)))
    for line in short:
        frames, differ = frames + 1, differ + 1
        print(line)
    return frames, differ


def pairs_of(taken, short):
    """The pictures of both that have one number. SHORT gets a line where one has more."""
    for frame, (one, other) in enumerate(itertools.zip_longest(pictures_of(taken.one), pictures_of(taken.other))):
        if one is None or other is None:
            short.append(f"frame {frame} and what follows is only in {taken.one if other is None else taken.other}")
            return
        yield frame, one[1], other[1]


def write_heat(name, frame, picture):
    """Writes a picture of differences: by its name for frame 0, with the frame's number else."""
    base = name[:-4] if name.endswith(".png") else name
    write_bytes(name if frame == 0 else f"{base}-{frame}.png", png(picture))


WORDS = {"diff": Diff}
