#!/usr/bin/env python3
"""Writes scenes for gfx_play from Python, so that nobody writes HEX, state words or fixed numbers by hand.

usage: tools/scene/scene.py --help     shows this text
       tools/scene/scene.py --test     tries the examples of this file and its parts, which are those of docs/rules/formats.md

It is a module: a script imports it, makes a `Scene`, calls a method for each line, and prints `scene.text()`.
docs/use/scene-module.md explains it on one page; the scripts in tools/scene/gallery/ are examples. It needs Python 3.8 or later and
nothing else. Its parts stand in tools/scene/scene_parts/ by topic, and are handed on here.

What can't be written is a SceneError that begins with the script's own file and line.
"""
import argparse
import errno
import inspect
import os
import re
import sys

from scene_parts import checking
from scene_parts.bits import (
    BLENDS, COLOR, CULLS, DEPTH, EQUATIONS, FACTORS, KEEP_ALL, KEEP_BINDINGS, KEEP_INDICES, KEEP_STATE, KEEP_TRANSFORM, KEEP_VERTICES,
    OPERATIONS, RESET_ALL, STENCIL, TESTS, state, stencil, stencil_names,
)  # fmt: skip
from scene_parts.colors import lit, mixed, rgba, shares, texel_bytes
from scene_parts.faults import SceneError, caller
from scene_parts.figures import at_pixel, fixed, many, screen, whole
from scene_parts.layouts import ATTRIBUTES, QUAD_TEXTURE, TYPES, Layout, indexed, pack_indices, quad
from scene_parts.lettering import CORNER, PAINT, TEXTURE, Lettering, checked
from scene_parts.motion import EASES, bytes_of, ease, keys
from scene_parts.perspective import Perspective, perspective
from scene_parts.shapes import BOX_FACES, box, cylinder, grid, light, painted, plane, sphere
from scene_parts.transforms import IDENTITY, apply, camera, cross, directed, flat, look_at, move, scale, then, turn, twelve, unit

LONGEST = 16_777_216
"""The program reads no longer text."""
MOST_BYTES = 524_288
"""The most bytes of a vertex or index buffer."""
NAME = re.compile(r"[a-z][a-z0-9_]{0,31}\Z")
PROGRAMS, UNIFORMS, FORMATS = ("solid", "color", "texture", "texcolor"), ("vec4", "int"), ("rgba8", "d24s8")
STATES = tuple(inspect.signature(state).parameters)
MODES = ("default", "sequential", "ascending", "descending")
KINDS = {"layout": "a layout", "vb": "a vertex buffer", "ib": "an index buffer", "texture": "a texture", "fb": "a frame buffer",
         "program": "a program", "uniform": "a uniform"}

__all__ = [
    "ATTRIBUTES", "BLENDS", "BOX_FACES", "COLOR", "CULLS", "DEPTH", "EASES", "EQUATIONS", "FACTORS", "IDENTITY", "KEEP_ALL",
    "KEEP_BINDINGS", "KEEP_INDICES", "KEEP_STATE", "KEEP_TRANSFORM", "KEEP_VERTICES", "LONGEST", "Layout", "OPERATIONS", "Perspective",
    "QUAD_TEXTURE", "RESET_ALL", "STENCIL", "Scene", "SceneError", "TESTS", "TYPES", "apply", "at_pixel", "box", "bytes_of", "camera",
    "cross", "cylinder", "directed", "ease", "fixed", "flat", "grid", "indexed", "keys", "light", "lit", "look_at", "mixed", "move",
    "pack_indices", "painted", "parser", "perspective", "plane", "quad", "rgba", "scale", "screen", "script", "shares", "sphere",
    "state", "stencil", "then", "turn", "unit",
]  # fmt: skip


def one_of(word, words, what):
    """WORD where it is one of WORDS."""
    if word not in words:
        raise SceneError(f"{word!r} is no {what}; there are {', '.join(words)}")
    return word


class Scene:
    """A scene, line by line. Each method writes the line of its name; the order of calls is the order of lines.

    Begin with `frame`. Things and views come first, then `encoder` and its lines, then `beside` with more things and
    views. A call that can't stand where it is, a name that is not there and a number out of its range are a SceneError.
    What a play alone shows, as a thing that was destroyed, `check` finds. `line` writes anything unasked.

    `lines` are the lines so far, and `places` the script's file and line of each.
    """

    heading = None
    """A comment with which each scene begins; `script` sets it."""

    def __init__(self, width, height, encoders=1, version=1, room=None, latency=None):
        self.lines, self.places = [], []
        self.note(self.heading or "")
        self.width, self.height = whole(width, 1, 2048, "the width"), whole(height, 1, 2048, "the height")
        self.version, self.encoders = whole(version, 1, 2, "the version"), whole(encoders, 1, 8, "the number of encoders")
        self.line("scene", self.version)
        self.line("size", self.width, self.height)
        self.line("encoders", self.encoders)
        self.at, self.frames, self.last_encoder, self.things_end = "head", 0, -1, 0
        self.things, self.told, self.views = {}, {}, {}
        self.lettering = Lettering()
        if room is not None:
            room = many(room, "the room's numbers")
            if len(room) != 3:
                raise SceneError(f"the room is {room!r}; it is three numbers: items, bytes and uniform values")
            ranges = ((1, 8191, "items"), (0, 1_048_576, "bytes"), (0, 8191, "uniform values"))
            self.line("room", *(whole(n, least, most, f"the room's {what}") for n, (least, most, what) in zip(room, ranges)))
        if latency is not None:
            if self.version == 1:
                raise SceneError("a latency wants version=2")
            self.line("latency", whole(latency, 1, 3, "the latency"))

    def line(self, *fields):
        """Any line, by its fields, as it is: nothing of it is looked at."""
        self.lines.append(" ".join(map(str, fields)))
        self.places.append(caller())

    def note(self, text):
        """A comment, one line for each line of TEXT."""
        for line in str(text).rstrip("\n").split("\n") if text else ():
            self.line(*(["#", line] if line else ["#"]))

    def text(self):
        """The whole text, with `done`. It is an error where it has no frame, or is longer than the program reads."""
        if not self.frames:
            raise SceneError("the scene has no frame; call frame() first")
        whole_text = "\n".join([*self.lines, "done", ""])
        size = len(whole_text) if whole_text.isascii() else len(whole_text.encode("utf-8"))
        if size > LONGEST:
            raise SceneError(f"the scene has {size} bytes, and the program reads {LONGEST}")
        return whole_text

    def check(self):
        """Plays the scene without pictures: what is refused or dropped is a SceneError that names the script's line of it.

        By the program gfx_check where it is built (GFX_CHECK may name another), else by the second implementation in
        tools/try, which is Python and slow with long scenes.
        """
        text = self.text()
        found = checking.faults(text.encode("utf-8"))
        if found:
            raise SceneError(checking.words_of(found, text, [*self.places, caller()]), self.place_of(found[0].line))

    def place_of(self, number):
        """The script's place of a line of the text."""
        return self.places[number - 1] if number <= len(self.places) else caller()

    # what stands where, and which names there are

    def stands(self, word, *at):
        if self.at not in at:
            where = {"head": "call frame() first", "things": "call encoder() first", "beside": "encoder lines stand before beside()",
                     "block": "things and views stand before encoder(), or behind beside()"}[self.at]
            raise SceneError(f"{word}() can't stand here: {where}")

    def thing_line(self, word, *fields):
        self.stands(word, "things", "beside")
        self.line(word, *fields)

    def encoder_line(self, word, *fields):
        self.stands(word, "block")
        self.line(word, *fields)

    def view_line(self, view, word, *fields):
        self.stands(word, "things", "beside")
        self.line("view", self.view(view), word, *fields)

    def view(self, view):
        """The number of a view."""
        return whole(view, 0, 255 if self.version == 1 else 511, "the view")

    def make(self, kind, name, *fields, **of):
        """The line that makes a thing; what is known OF it is kept."""
        self.stands(kind, "things", "beside")
        if not isinstance(name, str) or not NAME.match(name):
            raise SceneError(f"{name!r} is no name: 1 to 32 letters a to z, digits and _, a letter first")
        if name in self.things and not (kind == "uniform" and self.things[name] == kind):
            raise SceneError(f"the name {name!r} is taken by {KINDS[self.things[name]]}")
        self.line(kind, name, *fields)
        self.things[name], self.told[name] = kind, of

    def use(self, name, *kinds):
        """A name that is used, of a thing of one of these kinds."""
        name = name.name if isinstance(name, Layout) else name
        if not isinstance(name, str) or name not in self.things:
            raise SceneError(f"nothing has the name {name!r}; there are {', '.join(self.things) or 'no things yet'}")
        if kinds and self.things[name] not in kinds:
            raise SceneError(f"{name!r} is {KINDS[self.things[name]]}, and this takes {' or '.join(KINDS[kind] for kind in kinds)}")
        return name

    def layout_of(self, layout):
        """The Layout of a name or of itself."""
        return self.told[self.use(layout, "layout")]["layout"]

    # frames

    def frame(self):
        """A new picture."""
        if self.frames == 1024:
            raise SceneError("a scene has 1,024 frames at most")
        self.line("frame")
        self.at, self.last_encoder, self.frames, self.things_end = "things", -1, self.frames + 1, 0

    def beside(self):
        """From here on lines of things and views again, beside the encoders."""
        self.stands("beside", "things", "block")
        self.ends_things()
        self.line("beside")
        self.at = "beside"

    def encoder(self, number=0):
        """From here on this encoder records. In a frame the encoders' numbers rise."""
        self.stands("encoder", "things", "block")
        whole(number, 0, self.encoders - 1, "the encoder")
        if number <= self.last_encoder:
            raise SceneError(f"encoder {number} stands behind encoder {self.last_encoder}: in a frame their numbers rise")
        self.ends_things()
        self.line("encoder", number)
        self.at, self.last_encoder = "block", number

    def ends_things(self):
        self.things_end = self.things_end or len(self.lines)

    # things

    def layout(self, name, *parts):
        """A layout. It comes back, for its `pack`."""
        made = Layout(name, *parts)
        self.make("layout", name, *parts, layout=made)
        return made

    def vb(self, name, layout, vertices):
        """A vertex buffer. VERTICES are as `Layout.pack` takes them."""
        layout = self.layout_of(layout)
        data = sized(layout.pack(vertices), name)
        self.make("vb", name, layout.name, data.hex(), bytes=len(data), count=len(data) // layout.stride)

    def ib(self, name, indices):
        """An index buffer."""
        data = sized(pack_indices(indices), name)
        self.make("ib", name, data.hex(), bytes=len(data), count=len(data) // 2)

    def texture(self, name, width, height, texels=None, fill="000000ff", blit=False, kind="rgba8"):
        """A texture: of TEXELS (colours, row by row from the top), or of one colour. BLIT: a blit may write into it.

        KIND is `rgba8`, or `d24s8` for depth and stencil, whose FILL is the depth in three bytes, lowest first, and the
        stencil: `ffffff00` is the greatest depth and stencil 0.
        """
        one_of(kind, FORMATS, "kind of texture")
        width, height = whole(width, 1, 2048, "the width"), whole(height, 1, 2048, "the height")
        source = "fill:" + bytes(rgba(fill)).hex() if texels is None else "hex:" + texels_of(texels, width, height).hex()
        of = {"width": width, "height": height, "format": kind, "blit": bool(blit)}
        self.make("texture", name, width, height, kind, "dst" if blit else "-", source, **of)

    def fb(self, name, color, depth=None):
        """A frame buffer on a colour texture and perhaps a depth texture (kind `d24s8`) of the same sides."""
        of = self.told[self.use(color, "texture")]
        if of["format"] != "rgba8":
            raise SceneError(f"{color!r} is of kind d24s8, and the colour of a frame buffer is of kind rgba8")
        if depth is not None:
            other = self.told[self.use(depth, "texture")]
            if other["format"] != "d24s8" or (other["width"], other["height"]) != (of["width"], of["height"]):
                sides = f"{of['width']} by {of['height']}"
                raise SceneError(f"the depth texture {depth!r} is {other['format']}, {other['width']} by {other['height']}; it has to be d24s8, {sides}")
        self.make("fb", name, color, depth or "-", size=(of["width"], of["height"]))

    def program(self, name, kind):
        """A program: `solid`, `color`, `texture` or `texcolor`."""
        self.make("program", name, one_of(kind, PROGRAMS, "kind of program"))

    def uniform(self, name, kind="vec4"):
        """A uniform: `vec4` or `int`. `solid` reads `u_color`, and the textured programs read the stage from `s_tex`.

        A uniform that is there already may be made again, of the same kind; it ends when it was destroyed as often.
        """
        one_of(kind, UNIFORMS, "kind of uniform")
        there = self.told.get(name, {}) if self.things.get(name) == "uniform" else {}
        if there.get("made", 0) and there["value"] != kind:
            raise SceneError(f"there is a uniform {name!r} of kind {there['value']} already")
        self.make("uniform", name, kind, value=kind, made=there.get("made", 0) + 1)

    def update(self, name, offset, data):
        """New bytes in a buffer, from the byte OFFSET on."""
        size = self.told[self.use(name, "vb", "ib")]["bytes"]
        if whole(offset, 0, 2**32 - 1, "the offset") + len(data) > size:
            raise SceneError(f"{len(data)} bytes at {offset} pass the end of {name!r}, which has {size}")
        self.thing_line("update", name, offset, bytes(data).hex() or "-")

    def texupdate(self, name, x, y, width, height, texels):
        """New texels in a rectangle of a texture."""
        of = self.told[self.use(name, "texture")]
        x, y, width, height = rectangle(x, y, width, height)
        if x + width > of["width"] or y + height > of["height"]:
            raise SceneError(f"{width} by {height} texels at {x}, {y} pass the sides of {name!r}, which has {of['width']} by {of['height']}")
        self.thing_line("texupdate", name, x, y, width, height, texels_of(texels, width, height).hex() or "-")

    def destroy(self, name):
        """The end of a thing: its name is stale from the next frame on."""
        self.thing_line("destroy", self.use(name))
        self.told[name]["made"] = max(0, self.told[name].get("made", 1) - 1)

    # views

    def clear(self, view, color="000000ff", flags=COLOR | DEPTH | STENCIL, depth=16777215, stencil_value=0):
        """What the view clears before its first draw, by the flags COLOR, DEPTH and STENCIL: as it stands, all three."""
        depth, stencil_value = whole(depth, 0, 16777215, "the depth"), whole(stencil_value, 0, 255, "the stencil")
        self.view_line(view, "clear", whole(flags, 0, 7, "the flags"), bytes(rgba(color)).hex(), depth, stencil_value)

    def rect(self, view, x, y, width, height):
        """Where the view draws and clears, in pixels of its target."""
        self.view_line(view, "rect", *rectangle(x, y, width, height))
        self.views.setdefault(view, {})["rect"] = (width, height)

    def view_scissor(self, view, x, y, width, height):
        """What cuts the view's draws, in pixels of its target. All 0 is no scissor."""
        self.view_line(view, "scissor", *rectangle(x, y, width, height))

    def mode(self, view, mode):
        """The order in the view: `default`, `sequential`, `ascending` or `descending`."""
        self.view_line(view, "mode", one_of(mode, MODES, "mode"))

    def target(self, view, name=None):
        """The view's frame buffer; without a name the back buffer."""
        size = None if name is None else self.told[self.use(name, "fb")]["size"]
        self.view_line(view, "target", name or "-")
        self.views.setdefault(view, {})["target"] = size

    def view_transform(self, view, transform):
        """The view's transform, which comes after that of the draw."""
        self.view_line(view, "transform", *map(fixed, twelve(transform)))
        self.views.setdefault(view, {})["moves"] = tuple(transform) != IDENTITY

    def reset_view(self, view):
        """The view as at the start."""
        self.view_line(view, "reset")
        self.views.pop(view, None)

    def order(self, *views):
        """The views that come first, in this order."""
        if len(set(views)) < len(views):
            raise SceneError(f"a view stands twice in the order {' '.join(map(str, views))}")
        self.thing_line("order", *map(self.view, views))

    def size_of(self, view):
        """The sides of a view in pixels, as its lines so far have it."""
        of = self.views.get(view, {})
        return of["rect"] if any(of.get("rect", ())) else of.get("target") or (self.width, self.height)

    # encoders

    def state(self, **how):
        """The state word, by the names of the function `state`."""
        strange = how.keys() - STATES
        if strange:
            raise SceneError(f"state has no {min(strange)!r}; there are {', '.join(STATES)}")
        self.encoder_line("state", state(**how))

    def stencil(self, front, back=0):
        """The stencil words, as the function `stencil` makes them. Back 0: as the front."""
        for word, what in ((front, "the front word"), (back, "the back word")):
            if whole(word, 0, 2**32 - 1, what):
                stencil_names(word)
        self.encoder_line("stencil", int(front), int(back))

    def scissor(self, x, y, width, height):
        """What cuts the draws to come, in pixels of the target. All 0 is no scissor."""
        self.encoder_line("scissor", *rectangle(x, y, width, height))

    def transform(self, transform):
        """The transform of the draws to come, which comes before that of the view."""
        self.encoder_line("transform", *map(fixed, twelve(transform)))

    def vertices(self, name, first=0, count=None):
        """Vertices from a buffer; all behind the first where no count is given."""
        self.encoder_line("vertices", self.use(name, "vb"), *self.range_of(name, first, count, "vertices"))

    def indices(self, name, first=0, count=None):
        """Indices from a buffer; all behind the first where no count is given."""
        self.encoder_line("indices", self.use(name, "ib"), *self.range_of(name, first, count, "indices"))

    def range_of(self, name, first, count, what):
        there = self.told[name]["count"]
        first = whole(first, 0, there, "the first one")
        return first, whole(there - first if count is None else count, 0, there - first, f"the number of {what} of {name!r} behind {first}")

    def tvertices(self, layout, vertices):
        """Vertices for one frame, as `Layout.pack` takes them."""
        layout = self.layout_of(layout)
        self.encoder_line("tvertices", layout.name, layout.pack(vertices).hex() or "-")

    def tindices(self, indices):
        """Indices for one frame."""
        self.encoder_line("tindices", pack_indices(indices).hex() or "-")

    def bind(self, stage, name=None):
        """The texture of stage 0 or 1; without a name none."""
        if name is not None and self.told[self.use(name, "texture")]["format"] != "rgba8":
            raise SceneError(f"{name!r} is of kind d24s8, which can't be drawn from")
        self.encoder_line("bind", whole(stage, 0, 1, "the stage"), name or "-")

    def set(self, name, *numbers):
        """The value of a uniform: four plain numbers (1 becomes 65536) for `vec4`, or one whole number for `int`."""
        kind = self.told[self.use(name, "uniform")]["value"]
        if len(numbers) != (4 if kind == "vec4" else 1):
            raise SceneError(f"{name!r} is a uniform of kind {kind}, which takes {'four numbers' if kind == 'vec4' else 'one number'}; here are {len(numbers)}")
        values = map(fixed, numbers) if kind == "vec4" else [whole(numbers[0], -(2**31), 2**31 - 1, f"the value of {name!r}")]
        self.encoder_line("set", name, *values)

    def set_color(self, color, name="u_color"):
        """The colour of `solid`."""
        self.set(name, *(part / 255 for part in rgba(color)))

    def submit(self, view, program, depth=0, flags=RESET_ALL):
        """The draw. DEPTH orders the draws of the view; FLAGS say what is forgotten after it."""
        depth, flags = whole(depth, 0, 2**32 - 1, "the depth"), whole(flags, 0, 255, "the flags")
        self.encoder_line("submit", self.view(view), self.use(program, "program"), depth, flags)

    def touch(self, view):
        """An item that draws nothing: the view is entered and cleared."""
        self.encoder_line("touch", self.view(view))

    def blit(self, view, destination, x, y, source, from_x, from_y, width, height):
        """A copy between textures, which comes after the view's clear and before its draws."""
        to, of = self.told[self.use(destination, "texture")], self.told[self.use(source, "texture")]
        if to["format"] != of["format"]:
            raise SceneError(f"{source!r} is of kind {of['format']} and {destination!r} of kind {to['format']}; a blit wants equal kinds")
        if not to["blit"]:
            raise SceneError(f"{destination!r} was not made with blit=True, so no blit may write into it")
        x, y, width, height = rectangle(x, y, width, height)
        from_x, from_y, *_ = rectangle(from_x, from_y, 0, 0)
        self.encoder_line("blit", self.view(view), destination, x, y, source, from_x, from_y, width, height)

    def words(self, view, x, y, text, color="ffffff", size=1, depth=0):
        """Words in a view, by a font of 8 by 8 pixels: their upper left corner is at the pixel X, Y of the view.

        SIZE multiplies each pixel; a line feed begins a new line. It is a draw like others, half transparent pixels and all:
        DEPTH orders it, and afterwards all state is forgotten. The font's texture and program are made beside the other
        things of the frame, with the glyphs that are used. The view must have no transform.
        """
        self.stands("words", "block")
        x, y, size, color = checked(text, x, y, size, color)
        if self.views.get(self.view(view), {}).get("moves"):
            raise SceneError(f"view {view} has a transform, which would move the words; give them a view of their own behind it")
        for word, *fields in list(self.lettering.things(set(text) - {"\n"})):
            self.insert(word, *fields)
        corners = Lettering.corners(text, x, y, size, color, self.size_of(view))
        if corners:
            self.state(blend="alpha")
            self.bind(0, TEXTURE)
            self.bind(1, TEXTURE)
            self.tvertices(CORNER, corners)
            self.submit(view, PAINT, depth)

    def insert(self, word, *fields):
        """A line at the end of this frame's things, before its encoders."""
        lines, places, at = self.lines[self.things_end :], self.places[self.things_end :], self.at
        del self.lines[self.things_end :], self.places[self.things_end :]
        self.at = "things"
        try:
            if word == "texture":
                self.texture(*fields, fill="00000000")
            else:
                {"layout": self.layout, "program": self.program, "texupdate": self.texupdate}[word](*fields)
        finally:
            self.things_end, self.at = len(self.lines), at
            self.lines += lines
            self.places += places


def rectangle(x, y, width, height):
    """The four numbers of a rectangle."""
    return [whole(part, 0, 65535, what) for part, what in ((x, "x"), (y, "y"), (width, "the width"), (height, "the height"))]


def sized(data, name):
    """The bytes of a buffer, where it can have as many."""
    if not 1 <= len(data) <= MOST_BYTES:
        raise SceneError(f"the buffer {name} has {len(data)} bytes; it has 1 to {MOST_BYTES}")
    return data


def texels_of(texels, width, height):
    """The bytes of the texels of a rectangle."""
    data = texel_bytes(texels)
    if len(data) != 4 * width * height:
        raise SceneError(f"{len(data) // 4} texels are given for {width} by {height}, which are {width * height}")
    return data


# ---------------------------------------------------------------- scripts


class Parser(argparse.ArgumentParser):
    """A parser of words that ends without a traceback where nobody reads its help."""

    def exit(self, status=0, message=None):
        sys.exit(run(self.prog, lambda: super(Parser, self).exit(status, message)))


def parser(document):
    """A parser of words whose help is the script's own text."""
    return Parser(description=document, formatter_class=argparse.RawDescriptionHelpFormatter)


def write_scene(text, output=None):
    """A text to standard output, or into a file."""
    if output:
        with open(output, "wb") as file:
            file.write(text.encode("utf-8"))
    else:
        if sys.stdout is None:
            raise OSError(errno.EBADF, "it is closed")
        if text.isascii():
            sys.stdout.write(text)
        else:
            sys.stdout.buffer.write(text.encode("utf-8"))
        sys.stdout.flush()


def run(name, work):
    """Does WORK; what it can't have is one line of the script NAME, and status 1. A reader that goes away is no fault."""
    try:
        try:
            status = work() or 0
        except SystemExit as ended:
            status = ended.code
        if sys.stdout:
            sys.stdout.flush()
        return status
    except SceneError as error:
        print(error, file=sys.stderr)
    except OSError as error:
        if sys.stdout and not error.filename:
            os.dup2(os.open(os.devnull, os.O_WRONLY), sys.stdout.fileno())
        if isinstance(error, BrokenPipeError):
            return 0
        print(f"{name}: {error.filename or 'standard output'}: {error.strerror}", file=sys.stderr)
    return 1


def signed_by(document):
    """The comment at the head of a scene: what it is, and which script made it."""
    here = os.path.abspath(sys.argv[0])
    top = os.path.dirname(os.path.dirname(os.path.dirname(os.path.abspath(__file__))))
    name = os.path.relpath(here, top).replace(os.sep, "/") if here.startswith(top + os.sep) else os.path.basename(here)
    first = (document or "").strip().split("\n")[0].encode("ascii", "replace").decode()
    return f"{first.rstrip('.')}. Made by {name}." if first else f"Made by {name}."


def script(document, make, is_signed_last=False):
    """The `main` of a script that makes one scene: `--help`, or the scene to standard output or into `--output FILE`.

    The scene begins with a comment: the first line of DOCUMENT, and the script's name. Where it IS_SIGNED_LAST the comment stands
    before `done`, so that no line's number changes.
    """
    words = parser(document)
    words.add_argument("--output", metavar="FILE", help="write the scene there, not to standard output")
    words.add_argument("--check", action="store_true", help="play it first, and say which line of the script is to blame where one is dropped")
    taken = words.parse_args()

    def work():
        Scene.heading = None if is_signed_last else signed_by(document)
        scene = make()
        scene.note(signed_by(document) if is_signed_last else "")
        if taken.check:
            scene.check()
        write_scene(scene.text(), taken.output)

    sys.exit(run(os.path.basename(sys.argv[0]), work))


def main():
    words = parser(__doc__)
    words.add_argument("--test", action="store_true", help="try the examples of this file and its parts")
    if not words.parse_args().test:
        words.print_help()
        return 0
    import doctest
    import importlib

    names = sorted(name[:-3] for name in os.listdir(os.path.join(os.path.dirname(os.path.abspath(__file__)), "scene_parts")) if name.endswith(".py"))
    results = [doctest.testmod(importlib.import_module(f"scene_parts.{name}")) for name in names if name != "__init__"]
    failed, tried = (sum(result[k] for result in results) for k in (0, 1))
    print(f"{tried} tried, {failed} failed")
    return 1 if failed else 0


if __name__ == "__main__":
    sys.exit(main())
