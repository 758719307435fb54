"""What gfx_trace tells of a frame: the history of a pixel, the steps, and the deed that each pixel is of."""
import re
import tempfile

from door.checking import dropped_lines
from door.faults import Stop
from door.programs import debugger, judge, run_over, second, stream_over
from door.states import told_depth, told_stencil

DOER = r"(?: view (\d+))?(?: encoder (\d+) item (\d+))?(?: line (\d+))?"
STEP = re.compile(r"step (\d+)" + DOER + "$")
PIXEL = r"(\S+)(?: (\d+) (\d+))?"
STROKE = re.compile(r"deed (\d+)" + DOER + r"(?: clear| triangle (\d+) color (\S+) depth (\d+))? was " + PIXEL + " is " + PIXEL + r" (\w+)$")


class Doer:
    """Who does something in a frame: a view's clear, or an item of an encoder, with its line where it is told."""

    def __init__(self, view, encoder, item, line):
        self.view, self.encoder, self.item, self.line = map(number, (view, encoder, item, line))

    def told(self, scene, changes=True):
        """It in words; a clear that changes nothing is the beginning of its view."""
        if self.encoder is None:
            return f"view {self.view} " + ("clears" if changes else "begins")
        by = f"encoder {self.encoder}, " if scene.encoders > 1 else ""
        if self.line is None:
            return f"view {self.view}, {by}item {self.item}"
        return f"{by}{scene.place_in_text(self.line)}: {scene.shown(self.line, 60)}"

    def is_blit(self, scene):
        """Whether it is a blit, by its line."""
        return self.line is not None and scene.lines[self.line - 1].startswith(b"blit ")


class Stroke:
    """What one clear, one fragment or another deed did to a pixel. Values are (colour as eight hexadecimal digits, depth, stencil); of a frame
    buffer without depth the last two are None."""

    def __init__(self, deed, doer, triangle, color, depth, was, now, fate):
        self.deed, self.doer, self.triangle, self.color, self.depth = deed, doer, triangle, color, depth
        self.was, self.now, self.fate = was, now, fate

    def why(self, state=None):
        """What became of it, in words; STATE is that of its draw."""
        if self.fate in ("cleared", "stored", "changed"):
            return f"{self.was[0]} becomes {self.now[0]}" + self.beside()
        if self.fate == "depth":
            test = f"`{told_depth(state['state'])}` " if state else ""
            return f"the depth test {test}fails: its depth is {self.depth}, stored is {self.was[1]}" + self.stencil()
        if self.fate == "stencil":
            wanted = f", and the test is `{told_stencil(state['stencil'])}`" if state else ""
            return f"the stencil test fails: stored is {self.was[2]}{wanted}" + self.stencil()
        return "it writes no colour" + self.beside()

    def stencil(self):
        """How the stencil changed, where it did."""
        return "" if self.was[2] == self.now[2] else f", stencil {self.was[2]} becomes {self.now[2]}"

    def beside(self):
        """How depth and stencil changed, where they did."""
        return ("" if self.was[1] == self.now[1] else f", depth {self.was[1]} becomes {self.now[1]}") + self.stencil()


def run_trace(scene, words, journal, run):
    """Runs gfx_trace by RUN (path, words, text); answers what it put on standard error. Where a build does not know the word, the second
    implementation takes its place."""
    path, text, words = debugger("gfx_trace"), scene.text + (journal or b""), [str(word) for word in words]
    status, said = run(path, words, text)
    if status == 1 and path != second("gfx_trace"):
        lacking = "flag --target" if "--target" in words else f"word {words[0]}"
        status, said = run(second("gfx_trace", f"has no {lacking}"), words, text)
    if status == 9:
        raise Stop(f"{scene.path} has no frame {words[1]}; it has {scene.frames}, counted from 0")
    if status == 10:
        raise Stop(no_pixel(scene, words, said))
    if status == 2 and not said:
        dropped_lines(scene)  # says what is wrong with the text, which the program does not
    judge(scene, "gfx_trace", status, said)
    return said


def no_pixel(scene, words, said):
    """Why there is no such pixel; SAID is the line of the program."""
    frame, x, y, *target = words[1:]
    if not target:
        return f"{scene.path} has no pixel in column {x}, row {y}; its pictures have {scene.size[0]} by {scene.size[1]}"
    if said.startswith("no view "):
        return f"in frame {frame} of {scene.path} no view draws on {target[1]}; `view V target NAME` gives a view the frame buffer NAME"
    return f"{target[1]} has no pixel in column {x}, row {y}; a frame buffer has the sides of its colour texture"


def with_lines(scene, frame, doers):
    """The doers, each item with the line of the text that made it, also where the program does not tell it."""
    lacking = [doer for doer in doers if doer.encoder is not None and doer.line is None]
    if lacking:
        lines = item_lines(scene, frame)
        for doer in lacking:
            doer.line = lines.get((doer.encoder, doer.item))
    return doers


def item_lines(scene, frame):
    """The number of the line of each item of a frame, by its encoder and its ordinal."""
    dropped, found = {line.line for line in dropped_lines(scene)}, {}
    at, encoder, counts = -1, None, {}
    for number, line in enumerate(scene.lines, 1):
        word, *fields = line.split(b" ")
        if word == b"frame":
            at, encoder = at + 1, None
        elif word == b"encoder" and fields:
            encoder = int(fields[0])
        elif at == frame and word in (b"submit", b"touch", b"blit") and number not in dropped:
            ordinal = counts.get(encoder, 0)
            counts[encoder] = ordinal + 1
            found[encoder, ordinal] = number
    return found


def pixel_history(scene, frame, x, y, journal=None, target=None):
    """The strokes of a pixel in a frame, in order: of the picture, or of the frame buffer TARGET."""
    words = ["pixel", frame, x, y] + ([] if target is None else ["--target", target])
    with tempfile.TemporaryFile() as out:
        run_trace(scene, words, journal, lambda *run: run_over(*run, out))
        out.seek(0)
        lines = out.read().decode("ascii", "replace").splitlines()
    strokes = [stroke_of(line) for line in lines]
    with_lines(scene, frame, [stroke.doer for stroke in strokes])
    return strokes


def stroke_of(line):
    """A line of a history."""
    found = STROKE.match(line)
    if not found:
        raise Stop(f"gfx_trace wrote a line that is not understood: {line[:80]}")
    deed, doer = int(found[1]), Doer(*found.groups()[1:5])
    triangle, color, depth, *values, fate = found.groups()[5:]
    return Stroke(deed, doer, number(triangle), color, number(depth), value(*values[:3]), value(*values[3:]), fate)


def number(text):
    """A number, or None where none stands."""
    return None if text is None else int(text)


def value(color, depth, stencil):
    """What a pixel has."""
    return color, number(depth), number(stencil)


def changes_of(before, after):
    """How many pixels differ."""
    count = 0
    for y in range(after.height):
        row, other = before.row(y), after.row(y)
        if row != other:
            count += sum(row[at : at + 3] != other[at : at + 3] for at in range(0, len(row), 3))
    return count


class Steps:
    """The steps of a frame: who does each (`doers`), and how many pixels it changes (`changes`). Of the pictures after those that change
    some, the last KEPT stay. No more pictures than these are held."""

    def __init__(self, scene, frame, journal=None, kept=0):
        self.changes, self.pictures, self.most, self.before = [], [], kept, None
        said = run_trace(scene, ["steps", frame], journal, lambda *run: stream_over(*run, self.see))
        found = [STEP.match(line) for line in said.splitlines() if line.startswith("step ")]
        if not all(found) or len(found) != len(self.changes):
            raise Stop("gfx_trace wrote steps that are not understood; is it older than tools/gfx?")
        self.doers = with_lines(scene, frame, [Doer(*it.groups()[1:]) for it in found])

    def see(self, picture):
        """Takes in the next picture."""
        if self.before is not None:
            self.changes.append(changes_of(self.before, picture))
            if self.changes[-1] and self.most:
                self.pictures = [*self.pictures, picture][-self.most :]
        self.before = picture


def blamed(scene, frame, journal=None):
    """For each pixel, row by row, the number of the deed that stored it last, counted from 1; 0 where none did."""
    found = []
    run_trace(scene, ["blame", frame], journal, lambda *run: stream_over(*run, found.append))
    if len(found) != 1:
        raise Stop("gfx_trace wrote no map; is it older than tools/gfx?")
    pixels = found[0].pixels
    return [pixels[at] << 16 | pixels[at + 1] << 8 | pixels[at + 2] for at in range(0, len(pixels), 3)]
