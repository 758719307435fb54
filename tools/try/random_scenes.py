#!/usr/bin/env python3
"""Random scenes over all line forms: versions, latencies, encoders, rooms, full and broken lines, to try any renderer that reads scenes.

usage: tools/try/random_scenes.py [options] write FOLDER
       tools/try/random_scenes.py [options] against COMMAND [WORD ..]

  write FOLDER       N.scene for each number, and beside it what a renderer has to answer: N.ppm, the pictures behind each other, N.notes,
                     and N.journal, the order of the items. A broken text has N.notes alone, which names its line and cause.
  against COMMAND    runs COMMAND on each scene and compares the pictures that it writes on standard output. A word {} is the scene's
                     file; without one the scene comes on standard input. A word {journal} is the journal's file; without one scenes
                     have one encoder, whose items have one order. Of a broken text no picture may come, and the status may not be 0.
                     What differs is told and kept in the folder of --keep; the status is 1 where something did.

Scene N of a seed is always the same, so `--first N --count 1` makes it again. The answers are those of the second implementation
(second_player.py), or with --by PROGRAM those of a built gfx_play. For example:

    tools/try/random_scenes.py --count 100 against crates/gfx_play/out/gfx_play play
    tools/try/random_scenes.py --seed 7 --near 1 --without stencil,blit against ./my_renderer {}

As a module: `scene(random)` gives a text. Most lines are well formed and most calls accepted, so that something is drawn; the rest are
refused calls. `broken(random, text)` changes a text somewhere, so that it is mostly no scene any more.
"""
import argparse
import os
import random as chance
import shutil
import struct
import subprocess
import sys
import tempfile

PARTS = {
    "position": ["position:fixed:2", "position:fixed:3", "position:fixed:4", "position:i16:2", "position:i16:3", "position:u8:2"],
    "color0": ["color0:u8:4", "color0:u8:3", "color0:fixed:4", "color0:i16:3", "color0:u8:1", "color0:fixed:2"],
    "texcoord0": ["texcoord0:fixed:2", "texcoord0:i16:2", "texcoord0:u8:2", "texcoord0:fixed:1", "texcoord0:fixed:3"],
}
OTHER_PARTS = ["normal:fixed:1", "tangent:u8:3", "color1:i16:4", "texcoord1:fixed:2", "skip:1", "skip:7", "skip:3"]
SIZES = {"u8": 1, "i16": 2, "fixed": 4}
HUGE = [4294967295, 4294967294, 2147483648, 65536]


class Maker:
    """Makes one scene: what its names are, and which of them were destroyed."""

    def __init__(self, random, most_count, most_encoders=8):
        self.random, self.most_count = random, most_count
        self.version = random.choice([1, 2])
        self.width, self.height = [random.choice([1, 2, 3, 5, 8, 13, 16, 24]) for _ in range(2)]
        self.encoders = min(random.choice([1, 1, 2, 2, 3, 4, 5, 8]), most_encoders)
        self.names = {kind: [] for kind in ("layout", "vb", "ib", "texture", "depth", "fb", "program", "uniform")}
        self.parts, self.sides, self.strides, self.dead = {}, {}, {}, set()
        self.count, self.lines = 0, []
        known = [0, 1, 2, 255] if self.version == 1 else [0, 1, 300, 511]
        self.views = known[: random.choice([1, 2, 3, 4])]

    # ---- fields

    def chance(self, of_hundred):
        return self.random.randrange(100) < of_hundred

    def add(self, *fields):
        self.lines.append(" ".join(str(field) for field in fields))
        if self.chance(2):
            self.lines.append(self.random.choice(["", "# a line that is skipped", "#\t\x01 x", "# done"]))

    def fresh(self, kind):
        self.count += 1
        name = self.random.choice(["a", "n_", "thing", "x" * 20]) + str(self.count)
        self.names[kind].append(name)
        return name

    def named(self, kind, stray=3):
        """A name of a kind: now and then one that was destroyed, or of another kind."""
        if self.chance(stray):
            kind = self.random.choice(list(self.names))
        known = self.names[kind] or [name for names in self.names.values() for name in names]
        if not known:
            return "-" if kind in ("texture", "fb") else self.new_layout()
        living = [name for name in known if name not in self.dead]
        return self.random.choice(living if living and not self.chance(5) else known)

    def hexes(self, data):
        return data.hex() or "-"

    def view(self):
        return self.random.choice(self.views) if not self.chance(3) else self.random.choice([255, 256, 511, 512, 65535])

    def color(self):
        return "".join(self.random.choice(["00", "ff", "20", "80", "c3", "01"]) for _ in range(4))

    def rect(self):
        """A rectangle on or near the target, in a few cases with a side 0."""
        random = self.random
        x, y = random.choice([0, 0, 1, random.randrange(self.width + 2)]), random.choice([0, 0, 1, random.randrange(self.height + 2)])
        w, h = random.randrange(self.width + 3), random.randrange(self.height + 3)
        return random.choice([(x, y, w, h)] * 6 + [(0, 0, 0, 0), (x, y, 65535, 65535), (x, y, 0, h), (65535, y, w, h)])

    def coordinate(self, side):
        """A coordinate: on corners and centres of pixels, anywhere, and now and then outside the guard range."""
        random = self.random
        if self.chance(45):
            return -65536 + 65536 * random.randrange(-2, 2 * side + 3) // side
        if self.chance(90):
            return random.randrange(-80000, 80001)
        return random.choice([-65536, 65536, 3 * 65536, -3 * 65536, 524288, -524288, 524289, -524289, 2**31 - 1, -(2**31)])

    def component(self, attribute, place):
        random = self.random
        if attribute == "position":
            if place < 2:
                return self.coordinate(self.width if place == 0 else self.height)
            return random.choice([0, 0, 100, 32768, 65536, random.randrange(65537), random.choice([-1, 65537])])
        if attribute == "color0":
            return random.choice([0, 65536, 32768, random.randrange(65537), -5, 70000])
        return random.choice([0, 65536, 32768, random.randrange(-70000, 140000), random.randrange(-(2**31), 2**31)])

    def vertex(self, parts):
        data = b""
        for part in parts:
            pieces = part.split(":")
            if pieces[0] == "skip":
                data += bytes(int(pieces[1]))
                continue
            for place in range(int(pieces[2])):
                value = self.component(pieces[0], place)
                if pieces[1] == "fixed":
                    data += struct.pack("<i", value)
                elif pieces[1] == "i16":
                    data += struct.pack("<h", min(max(value // 2, -32768), 32767))
                else:
                    data += bytes([min(max(value * 255 // 65536, 0), 255)])
        return data

    def vertices(self, layout, count):
        data = b"".join(self.vertex(self.parts.get(layout, ["position:fixed:2"])) for _ in range(count))
        return data if not self.chance(5) else data[: self.random.randrange(len(data) + 1)]

    def indices(self, count):
        return b"".join(struct.pack("<H", self.random.choice([0, 1, 2, 3, 4, 5, self.random.randrange(9), 65535])) for _ in range(count))

    def state(self):
        random = self.random
        if self.chance(4):
            return random.choice([256, 8207, 2**64 - 1, random.randrange(2**64), 15 | 9 << 4, 15 | 3 << 36, 15 | 2 << 48, 15 | 5 << 28, 15 | 12 << 12])
        value = random.choice([15, 15, 15, 7, random.randrange(16)])
        if self.chance(40):
            value |= random.randrange(9) << 4
        if self.chance(40):
            factors = [random.randrange(1, 12) for _ in range(4)] if self.chance(70) else [2, 2, 2, 2]
            value |= sum(factor << 12 + 4 * place for place, factor in enumerate(factors))
        if self.chance(40):
            value |= random.randrange(5) << 28 | random.randrange(5) << 31
        return value | random.choice([0, 0, 1, 2]) << 36 | random.choice([0, 1]) << 38 | random.choice([0, 0, 0, 1]) << 48

    def stencil(self):
        random = self.random
        if self.chance(4):
            return random.choice([1, 256, 9 << 16, 8 << 16 | 8 << 20, 2**32 - 1])
        operations = sum(random.randrange(8) << at for at in (20, 24, 28))
        return random.choice([0, 1, 7, 255, random.randrange(256)]) | random.choice([255, 15, 0]) << 8 | random.randrange(1, 9) << 16 | operations

    def transform(self):
        random = self.random
        numbers = [65536, 0, 0, 0, 0, 65536, 0, 0, 0, 0, 65536, 0]
        for _ in range(random.randrange(4)):
            numbers[random.randrange(12)] = random.choice([0, 65536, -65536, 32768, 1, -1, random.randrange(-90000, 90000)])
        if self.chance(4):
            numbers[random.randrange(12)] = random.choice([2**31 - 1, -(2**31)])
        return numbers

    # ---- resource and view lines

    def new_layout(self):
        random = self.random
        parts = [random.choice(PARTS["position"])] if not self.chance(4) else []
        parts += [random.choice(PARTS[name]) for name in ("color0", "texcoord0") if self.chance(55)]
        parts += random.sample(OTHER_PARTS, random.choice([0, 0, 0, 1, 2]))
        random.shuffle(parts)
        if self.chance(3):
            parts += random.choice([["skip:255"], parts[:1], ["color1:fixed:4"] * 2])
        parts = parts or ["skip:4"]
        name = self.fresh("layout")
        self.parts[name] = parts
        self.add("layout", name, *parts)
        return name

    def new_vb(self):
        layout, count = self.named("layout"), self.random.choice([3, 4, 6, 7])
        self.add("vb", self.fresh("vb"), layout, self.hexes(self.vertices(layout, count)))

    def new_ib(self):
        data = self.indices(self.random.choice([3, 6, 8, 1]))
        self.add("ib", self.fresh("ib"), self.hexes(data + b"x" * self.chance(4)))

    def new_texture(self, form="", sides=None):
        random = self.random
        form = form or random.choice(["rgba8", "rgba8", "d24s8"])
        w, h = sides or [random.choice([1, 2, 3, 4, 7]) for _ in range(2)]
        name = self.fresh("texture" if form == "rgba8" else "depth")
        self.sides[name] = (w, h)
        source = "fill:" + self.color()
        if self.chance(50):
            texels = b"".join(bytes.fromhex(self.color()) for _ in range(w * h))
            source = "hex:" + self.hexes(texels if not self.chance(4) else texels[4:])
        w = w if not self.chance(2) else random.choice([0, 2049, 65535])
        self.add("texture", name, w, h, form, random.choice(["dst", "dst", "-"]), source)
        return name

    def new_fb(self):
        if self.chance(70):
            sides = [self.random.choice([self.width, 2, 4]), self.random.choice([self.height, 2, 5])]
            colors = self.new_texture("rgba8", sides)
            depths = self.new_texture("d24s8", sides) if self.chance(50) else "-"
        else:
            colors, depths = self.named("texture"), self.named("depth") if self.chance(50) else "-"
        self.add("fb", self.fresh("fb"), colors if colors != "-" else self.named("layout"), depths)

    def new_program(self, kind=None):
        self.add("program", self.fresh("program"), kind or self.random.choice(["solid", "color", "texture", "texcolor"]))

    def new_uniform(self):
        name = self.random.choice(["u_color", "s_tex", "u_other", "u_color"])
        kind = {"u_color": "vec4", "s_tex": "int"}.get(name) or self.random.choice(["vec4", "int"])
        if self.chance(4):
            kind = self.random.choice(["vec4", "int"])
        if name not in self.names["uniform"]:
            self.names["uniform"].append(name)
        self.dead.discard(name)
        self.add("uniform", name, kind)

    def update(self):
        data = bytes(self.random.randrange(256) for _ in range(self.random.choice([0, 1, 2, 4, 8])))
        self.add("update", self.named(self.random.choice(["vb", "ib"])), self.random.choice([0, 1, 2, 4, 8, 16, 60, *HUGE[:2]]), self.hexes(data))

    def texupdate(self):
        random, name = self.random, self.named(self.random.choice(["texture", "texture", "depth"]))
        w, h = self.sides.get(name, (2, 2))
        x, y = random.randrange(w + 1), random.randrange(h + 1)
        rw, rh = random.randrange(w - x + 1), random.randrange(h - y + 1)
        if self.chance(5):
            rw += 1
        data = b"".join(bytes.fromhex(self.color()) for _ in range(rw * rh))
        self.add("texupdate", name, x, y, rw, rh, self.hexes(data[4 * self.chance(4) :]))

    def destroy(self):
        name = self.named(self.random.choice(list(self.names)))
        self.dead.add(name)
        self.add("destroy", name)

    def set_view(self):
        random, view = self.random, self.view()
        setting = random.choice(["rect", "rect", "scissor", "clear", "clear", "clear", "mode", "mode", "target", "target", "transform", "reset"])
        fields = {
            "rect": self.rect,
            "scissor": self.rect,
            "clear": lambda: (
                random.choice([7, 7, 1, 2, 4, 3, random.choice([8, 255])]),
                self.color(),
                random.choice([16777215, 0, 8388607, random.randrange(16777216)]),
                random.choice([0, 1, 255, random.randrange(256)]),
            ),
            "mode": lambda: [random.choice(["default", "sequential", "ascending", "descending"])],
            "target": lambda: [self.named("fb") if self.names["fb"] and self.chance(75) else "-"],
            "transform": self.transform,
            "reset": list,
        }[setting]()
        self.add("view", view, setting, *fields)

    def order(self):
        listed = [view for view in self.views if self.chance(60)]
        self.random.shuffle(listed)
        if self.chance(6):
            listed += self.random.choice([[256], listed[:1], [512], [7, 9]])
        self.add("order", *listed)

    def resource_line(self):
        self.random.choices(
            [self.new_layout, self.new_vb, self.new_ib, self.new_texture, self.new_fb, self.new_program, self.new_uniform, self.update,
             self.texupdate, self.destroy, self.set_view, self.order],
            [2, 4, 2, 3, 2, 2, 3, 3, 3, 4, 14, 2],
        )[0]()  # fmt: skip

    # ---- encoder lines

    def encoder_line(self):
        random = self.random
        count = random.choice([3, 3, 4, 6])
        layout = self.named("layout")
        lines = {
            "state": lambda: [self.state()],
            "stencil": lambda: [self.stencil(), random.choice([0, self.stencil()])],
            "scissor": self.rect,
            "transform": self.transform,
            "vertices": lambda: [self.named("vb"), self.count_of([0, 0, 0, 1, 3, HUGE[0]]), self.count_of([3, 4, 6, 7, *HUGE])],
            "indices": lambda: [self.named("ib"), self.count_of([0, 0, 0, 1, HUGE[0]]), self.count_of([3, 4, 6, *HUGE])],
            "tvertices": lambda: [layout, self.hexes(self.vertices(layout, count))],
            "tindices": lambda: [self.hexes(self.indices(random.choice([0, 3, 4, 6])) + b"x" * self.chance(5))],
            "bind": lambda: [random.choice([0, 0, 1, 1, 2, 255]) if self.chance(15) else random.randrange(2), self.named("texture") if self.chance(90) else "-"],
            "set": self.value,
            "submit": lambda: [self.view(), self.named("program"), self.depth(), random.choice([255, 255, 0, 1, 2, 8, 16, 32, 4, random.randrange(256)])],
            "touch": lambda: [self.view()],
            "blit": self.blit,
        }
        form = random.choices(list(lines), [6, 3, 2, 2, 5, 2, 6, 1, 5, 6, 14, 2, 3])[0]
        self.add(form, *lines[form]())
        if form in ("vertices", "tvertices") and self.chance(70):
            self.add("submit", *lines["submit"]())

    def count_of(self, numbers):
        return min(self.random.choice(numbers), self.most_count)

    def depth(self):
        return self.random.choice([0, 0, 1, 2, 4294967295, self.random.randrange(2**32)])

    def value(self):
        random = self.random
        name = random.choice(self.names["uniform"]) if self.names["uniform"] and not self.chance(3) else self.named("uniform")
        is_number = name == "s_tex" or (name == "u_other" and self.chance(50))
        if is_number != self.chance(3):
            return [name, random.choice([0, 0, 1, 1, 2, -1, 2**31 - 1])]
        return [name, *[random.choice([0, 65536, 8224, 4112, 32768, -1, 99999, random.randrange(65537)]) for _ in range(4)]]

    def blit(self):
        random, kind = self.random, self.random.choice(["texture", "texture", "texture", "depth"])
        to, of = self.named(kind), self.named(kind)
        if self.chance(20):
            of = to
        places = [random.choice([0, 0, 1, 2, 3]) for _ in range(4)]
        sides = [random.choice([1, 2, 3, 9, 65535, 0]) for _ in range(2)]
        return [self.view(), to if to != "-" else "u_color", *places[:2], of if of != "-" else "u_color", *places[2:], *sides]

    # ---- the whole

    def head(self):
        random = self.random
        self.lines += [f"scene {self.version}", f"size {self.width} {self.height}", f"encoders {self.encoders}"]
        if self.chance(40):
            rooms = [(8191, 1048576, 8191), (1, 0, 0), (4, 100, 2), (9, 400, 5), (random.randrange(1, 9), random.randrange(300), random.randrange(6))]
            self.add("room", *random.choice(rooms))
        if self.version == 2 and self.chance(75):
            self.add("latency", random.choice([1, 2, 3]))

    def opening(self):
        self.new_layout()
        for kind in ("solid", "color", "texture", "texcolor"):
            if self.chance(70):
                self.new_program(kind)
        self.new_uniform()
        self.new_uniform()
        self.new_texture("rgba8")
        for view in self.views:
            if self.chance(60):
                self.add("view", view, "clear", 7, self.color(), 16777215, self.random.choice([0, 1, 255]))

    def text(self):
        random = self.random
        self.head()
        for number_of in range(random.choice([1, 2, 2, 3, 4, 5, 7])):
            self.lines.append("frame")
            if number_of == 0:
                self.opening()
            for _ in range(random.choice([0, 2, 5, 9]) + 6 * (number_of == 0)):
                self.resource_line()
            for encoder in range(self.encoders):
                if self.chance(80):
                    self.lines.append(f"encoder {encoder}")
                    for _ in range(random.choice([0, 3, 8, 14])):
                        self.encoder_line()
            if self.chance(45):
                self.lines.append("beside")
                for _ in range(random.choice([0, 1, 3, 6])):
                    self.resource_line()
        self.lines.append("done")
        return ("\n".join(self.lines) + "\n").encode("latin-1")


def scene(random, most_count=2**32 - 1, most_encoders=8):
    """The text of a random scene, with no first and no count of vertices and indices above a number, and no more encoders than that."""
    return Maker(random, most_count, most_encoders).text()


FIELDS = [
    b"0", b"00", b"01", b"-1", b"-0", b"+1", b"1.0", b"256", b"65536", b"4294967296", b"18446744073709551616", b"2049", b"9", b"abc", b"A", b"9a",
    b"-", b"", b"x" * 33, b"hex:0", b"fill:00", b"skip:0", b"position:fixed:5", b"position:u8:01", b"0g", b"abcde", b"ABCDEF00", b"done", b"u_color",
    b"j", b"99999999999999999999999999999999", b"scene", b"rect", b"colour", b"2147483648", b"-2147483648", b"-2147483649", b"16777216", b"8",
]  # fmt: skip
LINES = [
    b"scene 1", b"scene 2", b"scene 3", b"scene 255", b"scene 256", b"scene 0", b"scene 3 4", b"scene x", b"size 1 1", b"encoders 1", b"room 1 1 1",
    b"latency 1", b"latency 0", b"latency 4", b"frame", b"frame 1", b"encoder 0", b"encoder 7", b"encoder 8", b"encoder 99999999999 1", b"encoder",
    b"encoder x", b"beside", b"beside 1", b"done", b"done 1", b"j", b"j 0:0", b"touch 0", b"touch 65536", b"destroy nope", b"bind 0 nope", b"view",
    b"view 0", b"view x", b"view  rect 0 0 1 1", b"view 0 foo ", b"view 0 rect 1 2 3", b"view 0 rect  1 2 3", b"view 65536 foo", b" touch 0", b"Touch 0",
    b"order" + b" 0" * 257, b"order" + b" 0" * 513, b"layout q", b"layout q" + b" skip:1" * 16, b"program q solid ", b"uniform u_color int", b"set u_color 1 2",
    b"tindices 0", b"tindices -", b"state 18446744073709551616", b"ib q  00", b"x", b"\x00", b"touch\t0", b"caf\xc3\xa9", b"#", b"# \xff",
]  # fmt: skip


def broken(random, text):
    """The text with one to three changes."""
    for _ in range(random.choice([1, 1, 1, 2, 3])):
        lines = text.split(b"\n")
        at, form = random.randrange(len(lines)), random.randrange(10)
        fields = lines[at].split(b" ")
        if form == 0:
            lines.insert(at, random.choice(LINES))
        elif form == 1:
            lines[at] = random.choice(LINES)
        elif form == 2:
            del lines[at]
        elif form in (3, 4, 5):
            fields[random.randrange(len(fields))] = random.choice(FIELDS)
            lines[at] = b" ".join(fields)
        elif form == 6:
            fields.insert(random.randrange(len(fields) + 1), random.choice(FIELDS))
            lines[at] = b" ".join(fields)
        elif form == 7:
            del fields[random.randrange(len(fields))]
            lines[at] = b" ".join(fields)
        elif form == 8:
            other = random.randrange(len(lines))
            lines[at], lines[other] = lines[other], lines[at]
        text = b"\n".join(lines)
        if form == 9 and text:
            at = random.randrange(len(text))
            text = random.choice([text[:at], text[:at] + bytes([random.randrange(256)]) + text[at + 1 :], text[:-1], text + b"# end", text + b"x"])
    return text


# ---- scenes for other renderers

LEFT_OUT = ("state", "stencil", "scissor", "transform", "indices", "tindices", "bind", "set", "touch", "blit", "update", "texupdate", "destroy", "order", "view")
"""The words whose lines can be left out of a scene."""


class Wanted:
    """What a renderer has to answer for a scene: pictures, notes and journal; for a broken text notes alone."""

    def __init__(self, text, program=None):
        import second_player
        import second_renderer

        self.text, self.pictures, self.journal = text, [], b""
        try:
            read, _ = second_player.read_scene(text)
        except second_player.SceneFault as fault:
            self.notes = b"scene refused at line %d for cause %d\n" % (fault.line, fault.cause)
            return
        plans = second_player.plans(read)
        order = [[(encoder, k) for encoder, items in enumerate(plan.items) for k in range(len(items))] for plan in plans]
        self.notes, self.journal = second_player.report(plans), second_player.journal_text(order)
        if program is None:
            self.pictures = second_renderer.pictures(read, plans, order)
        else:
            done = subprocess.run([program, "replay"], input=text + self.journal, stdout=subprocess.PIPE, stderr=subprocess.PIPE)
            if done.returncode:
                raise OSError(0, f"it ended with status {done.returncode}", program)
            self.pictures = split_pictures(done.stdout)


def split_pictures(data):
    """The pictures of P6 texts behind each other; None where something else is among them."""
    found, at = [], 0
    while at < len(data):
        end = data.find(b"\n255\n", at, at + 40)
        fields = data[at:end].split() if end > 0 else []
        if len(fields) != 3 or fields[0] != b"P6" or not (fields[1] + fields[2]).isdigit():
            return None
        size = end + 5 + 3 * int(fields[1]) * int(fields[2]) - at
        if at + size > len(data):
            return None
        found.append(data[at : at + size])
        at += size
    return found


def difference(wanted, found, near):
    """What differs between two pictures by more than NEAR in a channel, or None."""
    head = wanted.index(b"\n255\n") + 5
    if wanted[:head] != found[:head]:
        return f"its head is {found[:head]!r}, wanted is {wanted[:head]!r}"
    width, away = int(wanted.split()[1]), []
    for at in range(head, len(wanted), 3):
        most = max(abs(a - b) for a, b in zip(wanted[at : at + 3], found[at : at + 3]))
        if most > near:
            away.append((most, (at - head) // 3))
    if not away:
        return None
    place = away[0][1]
    colors = [" ".join(map(str, picture[head + 3 * place : head + 3 * place + 3])) for picture in (found, wanted)]
    return f"{len(away)} pixels differ, by up to {max(away)[0]}; the first is column {place % width}, row {place // width}: {colors[0]}, wanted {colors[1]}"


def judged(options, wanted, folder):
    """Runs a command on a scene whose files stand in a folder: what differs, or None."""
    paths = {"{}": os.path.join(folder, "scene"), "{journal}": os.path.join(folder, "journal")}
    for path, data in zip(paths.values(), (wanted.text, wanted.journal)):
        with open(path, "wb") as file:
            file.write(data)
    command = [paths.get(word, word) for word in options.words]
    try:
        done = subprocess.run(command, input=None if "{}" in options.words else wanted.text, stdin=subprocess.DEVNULL if "{}" in options.words else None,
                              stdout=subprocess.PIPE, stderr=subprocess.PIPE, timeout=options.seconds)  # fmt: skip
    except subprocess.TimeoutExpired:
        return f"it did not end within {options.seconds} seconds"
    if not wanted.journal:
        return "a broken text was played" if done.stdout or not done.returncode else None
    found = split_pictures(done.stdout)
    if done.returncode:
        return f"it ended with status {done.returncode}: {done.stderr.decode(errors='replace').strip()[-200:]}"
    if found is None or len(found) != len(wanted.pictures):
        return f"{'something that is no P6 picture' if found is None else len(found)} came, wanted are {len(wanted.pictures)} pictures"
    for frame, pair in enumerate(zip(wanted.pictures, found)):
        differs = difference(*pair, options.near)
        if differs:
            return f"frame {frame}: {differs}"
    return None


def made(options, number, most_encoders):
    """Scene NUMBER of a seed."""
    random = chance.Random(f"{options.seed}/{number}")
    text = scene(random, most_encoders=most_encoders)
    if options.without:
        words = tuple(word.encode() + b" " for word in options.without)
        text = b"".join(line for line in text.splitlines(keepends=True) if not line.startswith(words))
    return broken(random, text) if options.broken and random.randrange(4) == 0 else text


def write(options):
    """Writes scenes and answers into a folder."""
    (folder,) = options.words
    os.makedirs(folder, exist_ok=True)
    for number in range(options.first, options.first + options.count):
        wanted = Wanted(made(options, number, 8), options.by)
        files = {"scene": wanted.text, "notes": wanted.notes, "journal": wanted.journal, "ppm": b"".join(wanted.pictures)}
        for ending, data in files.items():
            if data:
                with open(os.path.join(folder, f"{number:04}.{ending}"), "wb") as file:
                    file.write(data)
    return 0


def against(options):
    """Tries a command on scenes; 1 where something differed."""
    count = 0
    with tempfile.TemporaryDirectory(prefix="random-scenes-") as folder:
        for number in range(options.first, options.first + options.count):
            wanted = Wanted(made(options, number, 8 if "{journal}" in options.words else 1), options.by)
            differs = judged(options, wanted, folder)
            if differs:
                count += 1
                os.makedirs(options.keep, exist_ok=True)
                kept = os.path.join(options.keep, f"{options.seed}-{number}.scene")
                shutil.copyfile(os.path.join(folder, "scene"), kept)
                print(f"scene {number}: {differs} ({kept})", flush=True)
    print(f"{options.count} scenes, {count} differ")
    return 1 if count else 0


def main():
    words = argparse.ArgumentParser(description=__doc__, formatter_class=argparse.RawDescriptionHelpFormatter, usage=argparse.SUPPRESS)
    words.add_argument("--seed", default="1", help="of the scenes; 1")
    words.add_argument("--first", type=int, default=0, metavar="N", help="number of the first scene; 0")
    words.add_argument("--count", type=int, default=20, metavar="N", help="how many scenes; 20")
    words.add_argument("--broken", action="store_true", help="one scene of four is a broken text")
    words.add_argument("--without", default="", metavar="WORD,..", help=f"leave out the lines of some words: {', '.join(LEFT_OUT)}")
    words.add_argument("--near", type=int, default=0, metavar="N", help="channels may differ by N; 0")
    words.add_argument("--by", metavar="PROGRAM", help="a built gfx_play that answers in place of the second implementation")
    words.add_argument("--seconds", type=float, default=60, metavar="N", help="how long a command may take; 60")
    words.add_argument("--keep", default="differing", metavar="FOLDER", help="where scenes are kept that differ; differing")
    words.add_argument("work", choices=["write", "against"], metavar="write | against")
    words.add_argument("words", nargs=argparse.REMAINDER, metavar="FOLDER | COMMAND")
    options = words.parse_args()
    if not options.words or (options.work == "write" and len(options.words) != 1):
        words.error(f"{options.work} wants {'one folder' if options.work == 'write' else 'a command'}; --help says more")
    options.without = options.without.split(",") if options.without else []
    strange = [word for word in options.without if word not in LEFT_OUT]
    if strange:
        words.error(f"lines of {strange[0]!r} can't be left out; those of these words can: {', '.join(LEFT_OUT)}")
    if options.count < 1 or options.first < 0:
        words.error("--count is 1 or more, and --first 0 or more")
    try:
        return {"write": write, "against": against}[options.work](options)
    except OSError as error:
        print(f"random_scenes.py: {error.filename}: {error.strerror}", file=sys.stderr)
        return 1


if __name__ == "__main__":
    sys.exit(main())
