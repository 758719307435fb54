"""The words pixel, steps and blame: looking into a frame."""
import colorsys

from door.checking import dropped_lines
from door.faults import FRAME, Stop, many, read_bytes, whole, write_bytes
from door.pictures import Picture, png
from door.scenes import whole_scene
from door.show import out_name
from door.states import state_at
from door.tracing import Steps, blamed, pixel_history


def frame_words(words):
    """The words that all three share."""
    words.add_argument("scene", metavar="SCENE")
    words.add_argument("frame", type=FRAME, metavar="FRAME", help="counted from 0")
    words.add_argument("--by", metavar="JOURNAL", help="in the order of this journal, as `golden record` keeps it; without it as on one thread")


def journal_of(taken):
    """The journal that was named, or None."""
    return None if taken.by is None else read_bytes(taken.by)


class Pixel:
    TEXT = """A line for each clear and for each triangle's fragment that met the pixel, in order, with what became of it. Colours are red, green,
blue and alpha in hexadecimal; depths go from 0 (near) to 16777215. With --target the pixel is one of the frame buffer's colour texture; a blit
into its textures, and another frame buffer that shares one, have a line where they change it.

  tools/gfx pixel examples/mirror.scene 0 200 200
  tools/gfx pixel examples/targets.scene 0 80 60 --target canvas"""

    @staticmethod
    def takes(words):
        frame_words(words)
        words.add_argument("x", type=whole(0, 2047), metavar="X", help="the column, from 0 at the left")
        words.add_argument("y", type=whole(0, 2047), metavar="Y", help="the row, from 0 at the top")
        words.add_argument("--target", metavar="NAME", help="of the frame buffer that NAME stands for at the frame's end, on which a view of the frame draws; without it of the picture")

    @staticmethod
    def run(taken):
        scene = whole_scene(taken.scene)
        strokes = pixel_history(scene, taken.frame, taken.x, taken.y, journal_of(taken), taken.target)
        of = "" if taken.target is None else f", frame buffer {taken.target}"
        print(f"{scene.path}, frame {taken.frame}{of}, column {taken.x}, row {taken.y}")
        for line in history_lines(scene, strokes, taken.target):
            print(line)


def history_lines(scene, strokes, target=None):
    """A history in words, of a pixel of the picture or of the frame buffer TARGET; clears that change nothing are left out."""
    strokes = [stroke for stroke in strokes if stroke.fate != "cleared" or stroke.was != stroke.now]
    if not strokes:
        return ["  nothing touches this pixel in this frame"]
    heads = [stroke.doer.told(scene) + ("" if stroke.triangle is None else f", triangle {stroke.triangle}") for stroke in strokes]
    width = min(80, max(map(len, heads)))
    states = states_of(scene, strokes)
    lines = [f"  {head:{width}}  {painted(scene, stroke)}{stroke.why(states.get(stroke.doer.line))}" for head, stroke in zip(heads, strokes)]
    last = strokes[-1].now[0]
    return lines + [f"  in the picture: {last[:6]}" if target is None else f"  in the colour texture: {last}"]


def painted(scene, stroke):
    """What stands before a stroke's words: the colour of a fragment, or by which way another deed came here."""
    if stroke.color is not None:
        return f"{stroke.color}: "
    is_other = stroke.fate == "changed" and not stroke.doer.is_blit(scene)
    return "through another frame buffer: " if is_other else ""


def states_of(scene, strokes):
    """The state of each draw of which a fragment failed a test, by its line."""
    lines = {stroke.doer.line for stroke in strokes if stroke.fate in ("depth", "stencil") and stroke.doer.line}
    dropped = {it.line for it in dropped_lines(scene)} if lines else set()
    return {line: state_at(scene, line, dropped) for line in lines}


class StepsWord:
    TEXT = """A line for each clear, blit, draw and touch of the frame, in their order, with how many pixels it changed. Into OUT.png go the pictures after
those that changed some, in rows from the left, a thin line between two. Without OUT.png no picture is written.

  tools/gfx steps examples/mirror.scene 0 steps.png"""

    @staticmethod
    def takes(words):
        frame_words(words)
        words.add_argument("out", nargs="?", metavar="OUT.png")
        words.add_argument("--most", type=whole(1, 400), default=48, metavar="N", help="at most so many pictures, the last ones; 48")

    @staticmethod
    def run(taken):
        scene = whole_scene(taken.scene)
        steps = Steps(scene, taken.frame, journal_of(taken), taken.most if taken.out else 0)
        for number, (doer, changes) in enumerate(zip(steps.doers, steps.changes), 1):
            print(f"step {number}: {doer.told(scene, changes)}: " + (f"{many(changes, 'pixel')} changed" if changes else "no pixel changed"))
        if taken.out and not steps.pictures:
            raise Stop(f"no step of frame {taken.frame} changes a pixel, so {taken.out} was not written")
        if taken.out:
            write_bytes(taken.out, png(sheet(steps.pictures)))


def sheet(pictures, columns=4):
    """The pictures in rows, with a thin line between two."""
    columns, width, height = min(columns, len(pictures)), pictures[0].width, pictures[0].height
    line, gap = bytes([128]) * 3, bytes([128]) * 3 * ((width + 1) * columns - 1)
    rows = []
    for at in range(0, len(pictures), columns):
        group = pictures[at : at + columns]
        for y in range(height):
            row = line.join(picture.row(y) for picture in group)
            rows.append(row + bytes(len(gap) - len(row)))
        rows.append(gap)
    return Picture((width + 1) * columns - 1, len(rows) - 1, b"".join(rows[:-1]))


class Blame:
    TEXT = """A map of who stored each pixel last: a colour for each draw, or with --encoders for each encoder; grey is a clear, black is nobody. A line
on standard output says which colour is whose, and how many pixels it has. Without OUT.png the name is the scene's, in this folder.

  tools/gfx blame --encoders examples/encoders.scene 0 blame.png"""

    @staticmethod
    def takes(words):
        frame_words(words)
        words.add_argument("out", nargs="?", metavar="OUT.png")
        words.add_argument("--encoders", action="store_true", help="a colour for each encoder, not for each draw")

    @staticmethod
    def run(taken):
        scene = whole_scene(taken.scene)
        picture, legend = owners(scene, taken.frame, journal_of(taken), taken.encoders)
        write_bytes(out_name(taken.scene, taken.out, "-blame.png"), png(picture))
        for color, count, who in legend:
            print(f"{color}  {many(count, 'pixel')}: {who}")


def owners(scene, frame, journal, by_encoder):
    """A picture with a colour for each owner of pixels, and the owners: colour, number of pixels and words, the greatest first."""
    doers, deeds = Steps(scene, frame, journal).doers, blamed(scene, frame, journal)
    if max(deeds) > len(doers):
        raise Stop("gfx_trace blames a deed that is no step; is it older than tools/gfx?")
    whose = [owner(doers[deed - 1], deed, by_encoder) if deed else None for deed in deeds]
    counts = {it: whose.count(it) for it in set(whose)}
    numbers = range(scene.encoders) if by_encoder else sorted(it for it in counts if isinstance(it, int))
    colors = {None: bytes(3), "clear": bytes([64] * 3), **{it: palette(place) for place, it in enumerate(numbers)}}
    legend = [(colors[it].hex(), counts[it], owner_told(it, doers, scene, by_encoder)) for it in sorted(counts, key=lambda it: -counts[it])]
    return Picture(*scene.size, b"".join(colors[it] for it in whose)), legend


def owner(doer, deed, by_encoder):
    """Whose pixel it is: "clear", or the number of the encoder or of the deed."""
    if doer.encoder is None:
        return "clear"
    return doer.encoder if by_encoder else deed


def owner_told(it, doers, scene, by_encoder):
    """The owner of a pixel in words."""
    if it is None:
        return "as the frame before left it"
    if it == "clear":
        return "a view's clear"
    return f"encoder {it}" if by_encoder else doers[it - 1].told(scene)


def palette(place):
    """A colour for the owner of this place: far from those of its neighbours."""
    hue = place * 0.381966 % 1
    return bytes(round(255 * part) for part in colorsys.hsv_to_rgb(hue, 0.55 + 0.4 * (place // 8 % 2), 1 - 0.3 * (place // 16 % 2)))


WORDS = {"pixel": Pixel, "steps": StepsWord, "blame": Blame}
