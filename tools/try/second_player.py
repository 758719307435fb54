"""A second implementation of the scene language and of its pictures, for comparison with the program.

It was written from the rules (docs/rules/behaviour.md, docs/rules/formats.md) and shares no code with the crates. It is slow and meant for
small targets. `read_scene` gives the scene of a text or its first fault, `read_journal` and `first_unlawful` judge a journal,
`plans` makes the calls of its lines, and `report` counts them. second_renderer.py draws what `plans` gives.
"""
import re

NUMBER = re.compile(rb"(0|[1-9][0-9]*)\Z")
SIGNED = re.compile(rb"(0|-?[1-9][0-9]*)\Z")
NAME = re.compile(rb"[a-z][a-z0-9_]{0,31}\Z")
HEX = re.compile(rb"(-|([0-9a-f]{2})+)\Z")
COLOR = re.compile(rb"[0-9a-f]{8}\Z")
U8, U16, U32, U64 = (2**bits - 1 for bits in (8, 16, 32, 64))
MOST_INPUT = 16_777_216
MOST_FRAMES = 1_024


class SceneFault(Exception):
    """The first fault of a scene's text: its line and its cause, and the field that is at fault, where one is."""

    def __init__(self, line, cause, field=None):
        super().__init__(line, cause)
        self.line, self.cause, self.field = line, cause, field


class JournalFault(Exception):
    """The first fault of a journal: how many entries stand before it."""

    def __init__(self, place):
        super().__init__(place)
        self.place = place


class Cause(Exception):
    """The cause of a line's fault, and the field that is at fault, where one is."""

    def __init__(self, cause, field=None):
        super().__init__(cause)
        self.cause, self.place = cause, getattr(field, "place", None)


class Field(bytes):
    """A field of a line, with its place among the line's fields."""

    def __new__(cls, text, place):
        made = super().__new__(cls, text)
        made.place = place
        return made


# ---- the text of a scene

ATTRIBUTES = [b"position", b"normal", b"tangent", b"color0", b"color1", b"texcoord0", b"texcoord1"]
COMPONENT_SIZES = {b"u8": 1, b"i16": 2, b"fixed": 4}


def number(field, least, most):
    """An unsigned number within a range."""
    if not NUMBER.match(field):
        raise Cause(6, field)
    if len(field) > 30 or not least <= int(field) <= most:
        raise Cause(7, field)
    return int(field)


def signed(field):
    """A signed number of 32 bits."""
    if not SIGNED.match(field):
        raise Cause(6, field)
    if len(field) > 30 or not -(2**31) <= int(field) < 2**31:
        raise Cause(7, field)
    return int(field)


def hex_bytes(field):
    if not HEX.match(field):
        raise Cause(11, field)
    return b"" if field == b"-" else bytes.fromhex(field.decode())


def color(field):
    if not COLOR.match(field):
        raise Cause(11, field)
    return tuple(bytes.fromhex(field.decode()))


def word(field, words):
    if field not in words:
        raise Cause(11, field)
    return field.decode()


def texture_source(field):
    """A texture's first texels: ('fill', colour) or ('hex', bytes)."""
    if field.startswith(b"fill:") and COLOR.match(field[5:]):
        return ("fill", color(field[5:]))
    if field.startswith(b"hex:") and HEX.match(field[4:]):
        return ("hex", hex_bytes(field[4:]))
    raise Cause(11, field)


def layout_part(field):
    """A part of a layout: (attribute, type, count) or ('skip', bytes)."""
    pieces = field.split(b":")
    if len(pieces) == 2 and pieces[0] == b"skip" and NUMBER.match(pieces[1]) and 1 <= int(pieces[1]) <= 255:
        return ("skip", int(pieces[1]))
    if len(pieces) == 3 and pieces[0] in ATTRIBUTES and pieces[1] in COMPONENT_SIZES and pieces[2] in (b"1", b"2", b"3", b"4"):
        return (pieces[0].decode(), pieces[1], int(pieces[2]))
    raise Cause(11, field)


FORMATS, PROGRAMS, UNIFORMS = (b"rgba8", b"d24s8"), (b"solid", b"color", b"texture", b"texcolor"), (b"vec4", b"int")
MODES = (b"default", b"sequential", b"ascending", b"descending")
PLACE = ("n", 0, U16)
RECT = [PLACE] * 4

# The fields of each line form behind its word: ('n', least, most) a number, 's' a signed one, 'new' a name that is bound, 'use' one that
# is used, 'use-' the same or '-', and so on.
RESOURCE_FORMS = {
    b"vb": ["new", "use", "hex"],
    b"ib": ["new", "hex"],
    b"texture": ["new", PLACE, PLACE, ("w", FORMATS), ("w", (b"dst", b"-")), "source"],
    b"fb": ["new", "use", "use-"],
    b"program": ["new", ("w", PROGRAMS)],
    b"uniform": ["new", ("w", UNIFORMS)],
    b"update": ["use", ("n", 0, U32), "hex"],
    b"texupdate": ["use", *RECT, "hex"],
    b"destroy": ["use"],
}
VIEW_FORMS = {
    b"rect": RECT,
    b"scissor": RECT,
    b"clear": [("n", 0, U8), "color", ("n", 0, 16_777_215), ("n", 0, U8)],
    b"mode": [("w", MODES)],
    b"target": ["use-"],
    b"transform": ["s"] * 12,
    b"reset": [],
}
ENCODER_FORMS = {
    b"state": [("n", 0, U64)],
    b"stencil": [("n", 0, U32)] * 2,
    b"scissor": RECT,
    b"transform": ["s"] * 12,
    b"vertices": ["use", ("n", 0, U32), ("n", 0, U32)],
    b"indices": ["use", ("n", 0, U32), ("n", 0, U32)],
    b"tvertices": ["use", "hex"],
    b"tindices": ["hex"],
    b"bind": [("n", 0, U8), "use-"],
    b"submit": [PLACE, "use", ("n", 0, U32), ("n", 0, U8)],
    b"touch": [PLACE],
    b"blit": [PLACE, "use", PLACE, PLACE, "use", PLACE, PLACE, PLACE, PLACE],
}
RESOURCE_WORDS = {*RESOURCE_FORMS, b"layout", b"view", b"order"}
ENCODER_WORDS = {*ENCODER_FORMS, b"set"}
HEAD_WORDS = (b"scene", b"size", b"encoders", b"room", b"latency", b"frame", b"encoder", b"beside", b"done")
ALL_WORDS = RESOURCE_WORDS | ENCODER_WORDS | set(HEAD_WORDS)


class Scene:
    """A scene as its text says it. Lines are tuples: the form's word and its fields.

    `numbers` has the numbers in the text of a part's lines, by the frame and the part: an encoder, "before" or "beside".
    """

    def __init__(self):
        self.version = self.width = self.height = self.encoders = 0
        self.room, self.latency = (8191, 262_144, 4096), 1
        self.frames, self.numbers = [], {}

    @property
    def views(self):
        return 256 if self.version == 1 else 512


class Reader:
    """Reads a scene line by line: where it is, which names are bound, and the number of the line that is read."""

    MAY_FOLLOW = {
        "start": (b"scene",),
        "scene": (b"size",),
        "size": (b"encoders",),
        "encoders": (b"room", b"latency", b"frame"),
        "room": (b"latency", b"frame"),
        "latency": (b"frame",),
        "before": (*RESOURCE_WORDS, b"encoder", b"beside", b"frame", b"done"),
        "block": (*ENCODER_WORDS, b"encoder", b"beside", b"frame", b"done"),
        "beside": (*RESOURCE_WORDS, b"frame", b"done"),
        "done": (),
    }

    def __init__(self):
        self.scene, self.at = Scene(), "start"
        self.bound, self.last_encoder, self.count = {}, -1, 0

    def line(self, text):
        """Reads one line; raises its cause."""
        fields = [Field(piece, place) for place, piece in enumerate(text.split(b" "))]
        for field in fields:
            if any(not 32 <= byte <= 126 for byte in field):
                raise Cause(1, field)
        first = fields[0]
        if first not in ALL_WORDS and first != b"j":
            raise Cause(3, first)
        if first == b"scene" and len(fields) == 2 and NUMBER.match(fields[1]) and len(fields[1]) < 4 and 3 <= int(fields[1]) <= 255:
            raise Cause(12, fields[1])
        self.stand(first, fields)
        if first == b"view":
            return self.view(fields)
        if b"" in fields:
            raise Cause(5, fields[fields.index(b"")])
        if first in HEAD_WORDS:
            return self.head(first, fields)
        if first == b"layout":
            return self.layout(fields)
        if first == b"order":
            if len(fields) > 1 + self.scene.views:
                raise Cause(5, fields[0])
            return self.add(("order", [number(field, 0, U16) for field in fields[1:]]))
        if first == b"set":
            if len(fields) not in (3, 6):
                raise Cause(5, fields[0])
            return self.add(("set", self.field("use", fields[1]), [signed(field) for field in fields[2:]]))
        forms = ENCODER_FORMS if self.at == "block" else RESOURCE_FORMS
        if len(fields) != 1 + len(forms[first]):
            raise Cause(5, fields[0])
        is_uniform = first == b"uniform"
        read = [self.field(form, field, is_uniform) for form, field in zip(forms[first], fields[1:])]
        if forms[first][0] == "new":
            self.bound[fields[1]] = is_uniform
        return self.add((first.decode(), *read))

    def stand(self, first, fields):
        """Whether the word can stand here."""
        if first not in self.MAY_FOLLOW[self.at] or (first == b"latency" and self.scene.version == 1):
            raise Cause(4, first)
        if first == b"encoder" and len(fields) > 1 and NUMBER.match(fields[1]):
            value = int(fields[1]) if len(fields[1]) < 10 else 10**10
            if value <= self.last_encoder or value >= self.scene.encoders:
                raise Cause(4, fields[1])

    def field(self, form, field, is_uniform=False):
        if form == "s":
            return signed(field)
        if form == "hex":
            return hex_bytes(field)
        if form == "color":
            return color(field)
        if form == "source":
            return texture_source(field)
        if form == "use-" and field == b"-":
            return None
        if form in ("use", "use-", "new"):
            if not NAME.match(field):
                raise Cause(8, field)
            if form == "new" and field in self.bound and not (is_uniform and self.bound[field]):
                raise Cause(9, field)
            if form != "new" and field not in self.bound:
                raise Cause(10, field)
            return field.decode()
        if form[0] == "n":
            return number(field, form[1], form[2])
        return word(field, form[1])

    def head(self, first, fields):
        scene, ranges = self.scene, {b"scene": [(1, 255)], b"size": [(1, 2048)] * 2, b"encoders": [(1, 8)]}
        ranges.update({b"room": [(1, 8191), (0, 1_048_576), (0, 8191)], b"latency": [(1, 3)], b"encoder": [(0, 7)]})
        wanted = ranges.get(first, [])
        if len(fields) != 1 + len(wanted):
            raise Cause(5, fields[0])
        read = [number(field, *bounds) for field, bounds in zip(fields[1:], wanted)]
        if first == b"scene":
            scene.version = read[0]
        elif first == b"size":
            scene.width, scene.height = read
        elif first == b"encoders":
            scene.encoders = read[0]
        elif first == b"room":
            scene.room = tuple(read)
        elif first == b"latency":
            scene.latency = read[0]
        elif first == b"frame":
            if len(scene.frames) == MOST_FRAMES:
                raise Cause(7, fields[0])
            scene.frames.append({"before": [], "blocks": {}, "beside": []})
            self.last_encoder = -1
        elif first == b"encoder":
            self.last_encoder = read[0]
            scene.frames[-1]["blocks"][read[0]] = []
        self.at = {b"frame": "before", b"encoder": "block"}.get(first, first.decode())

    def add(self, line):
        frame = self.scene.frames[-1]
        part = self.last_encoder if self.at == "block" else self.at
        (frame["blocks"] if self.at == "block" else frame)[part].append(line)
        self.scene.numbers.setdefault((len(self.scene.frames) - 1, part), []).append(self.count)

    def layout(self, fields):
        if not 3 <= len(fields) <= 17:
            raise Cause(5, fields[0])
        name = self.field("new", fields[1])
        parts = [layout_part(field) for field in fields[2:]]
        self.bound[fields[1]] = False
        self.add(("layout", name, parts))

    def view(self, fields):
        """A view line's second and third field are read before its number of fields is known."""
        short = Cause(5, fields[fields.index(b"") if b"" in fields else 0])
        if len(fields) < 2 or fields[1] == b"":
            raise short
        view = number(fields[1], 0, U16)
        if len(fields) < 3 or fields[2] == b"":
            raise short
        if fields[2] not in VIEW_FORMS:
            raise Cause(11, fields[2])
        forms = VIEW_FORMS[fields[2]]
        if len(fields) != 3 + len(forms) or b"" in fields:
            raise short
        read = [self.field(form, field) for form, field in zip(forms, fields[3:])]
        self.add(("view_" + fields[2].decode(), view, *read))


def read_scene(text, is_front=False):
    """The scene and the bytes behind it (none where it must be the whole text); raises SceneFault."""
    reader, at, count = Reader(), 0, 0
    while not (is_front and reader.at == "done"):
        count += 1
        end = text.find(b"\n", at)
        if end < 0:
            rest = text[at:]
            if rest == b"" and reader.at == "done":
                break
            bad = [any(not 32 <= byte <= 126 for byte in field) for field in rest.split(b" ")]
            if True not in bad or rest.startswith(b"#"):
                raise SceneFault(count, 2)
            raise SceneFault(count, 1, bad.index(True))
        line, at, reader.count = text[at:end], end + 1, count
        if line and not line.startswith(b"#"):
            try:
                reader.line(line)
            except Cause as fault:
                raise SceneFault(count, fault.cause, fault.place) from None
    return reader.scene, text[at:]


# ---- journals

ENTRY = re.compile(rb"(0|[1-9][0-9]*):(0|[1-9][0-9]*)\Z")


def read_journal(text, frames):
    """The journal of a text, a list of (encoder, ordinal) for each frame; raises JournalFault."""
    journal, count = [], 0
    pieces = text.split(b"\n")
    for index, piece in enumerate(pieces):
        is_last = index == len(pieces) - 1
        if is_last and piece == b"":
            break
        if not is_last and (piece == b"" or piece.startswith(b"#")):
            continue
        fields = piece.split(b" ")
        if fields[0] != b"j" or len(journal) == frames:
            raise JournalFault(count)
        entries = []
        for field in fields[1:]:
            found = ENTRY.match(field)
            if not found or len(field) > 40 or int(found[1]) > U8 or int(found[2]) > U32:
                raise JournalFault(count)
            entries.append((int(found[1]), int(found[2])))
            count += 1
        if is_last:
            raise JournalFault(count)
        journal.append(entries)
    if len(journal) != frames:
        raise JournalFault(count)
    return journal


def first_unlawful(journal, counts):
    """The place of the first entry that can't stand where it is, by the numbers of accepted items of each frame's encoders; or None."""
    place = 0
    for entries, accepted in zip(journal, counts):
        seen = [0] * len(accepted)
        for encoder, ordinal in entries:
            if encoder >= len(accepted) or ordinal != seen[encoder] or ordinal >= accepted[encoder]:
                return place
            seen[encoder] += 1
            place += 1
        if seen != list(accepted):
            return place
    return None


def journal_text(journal):
    return b"".join(b"j" + b"".join(b" %d:%d" % entry for entry in entries) + b"\n" for entries in journal)


# ---- things and calls

GREATEST = {"layout": 64, "vb": 1024, "ib": 1024, "texture": 1024, "fb": 128, "program": 256, "uniform": 256}
MOST_TEXELS, MOST_BYTES, MOST_REFERENCES = 33_554_432, 524_288, 65_535
IDENTITY = (65536, 0, 0, 0, 0, 65536, 0, 0, 0, 0, 65536, 0)


class Thing:
    """A thing: its kind, index, serial and frame of death, and what is told of it."""

    def __init__(self, kind, index, serial, told):
        self.kind, self.index, self.serial, self.death = kind, index, serial, None
        self.references = 1
        self.__dict__.update(told)


class View:
    def __init__(self):
        self.rect = self.scissor = (0, 0, 0, 0)
        self.clear = (0, (0, 0, 0, 0), 0, 0)
        self.mode, self.target, self.transform = "default", None, IDENTITY

    def copy(self):
        copy = View()
        copy.__dict__.update(self.__dict__)
        return copy


def is_state_word(value):
    """Whether a state word is admitted."""
    named = 0xFF | (2**34 - 2**12) | 7 << 36 | 7 << 48
    factors = [value >> at & 15 for at in (12, 16, 20, 24)]
    return (
        value & ~named == 0
        and value >> 31 & 7 <= 4
        and value >> 28 & 7 <= 4
        and value >> 4 & 15 <= 8
        and all(factor <= 11 for factor in factors)
        and (all(factors) or not any(factors))
        and value >> 36 & 3 <= 2
        and value >> 48 & 7 <= 1
    )


def is_stencil_word(value):
    """Whether a stencil word is admitted."""
    return value == 0 or (1 <= value >> 16 & 15 <= 8 and all(value >> at & 15 <= 7 for at in (20, 24, 28)))


def built_layout(parts):
    """The attributes (type, count, offset) and the stride of a layout's parts, or None."""
    attributes, offset = {}, 0
    for part in parts:
        if part[0] == "skip":
            offset += part[1]
            continue
        if part[0] in attributes:
            return None
        attributes[part[0]] = (part[1], part[2], offset)
        offset += COMPONENT_SIZES[part[1]] * part[2]
    return (attributes, offset) if 1 <= offset <= 255 else None


class Calls:
    """The calls of the resource and view lines, accepted or refused; what they tell the renderer is listed in `changes`."""

    def __init__(self, scene):
        self.latency, self.view_count, self.frame, self.serial = scene.latency, scene.views, 0, 1
        self.free = {kind: list(range(most - 1, -1, -1)) for kind, most in GREATEST.items()}
        self.waiting, self.names, self.things, self.changes = [], {}, [], []
        self.views = {}
        self.order = []

    def start_frame(self, frame):
        """Indices come back, and views lose targets that died."""
        self.frame, self.changes = frame, []
        back = [thing for thing in self.waiting if thing.death <= frame - 1 - self.latency]
        for thing in back:
            self.free[thing.kind].append(thing.index)
        self.waiting = [thing for thing in self.waiting if thing not in back]
        self.things = [thing for thing in self.things if thing not in back]
        for view in self.views.values():
            if view.target is not None and view.target.death is not None:
                view.target = None

    def named(self, name, *kinds):
        """The live thing of a name, if it is of one of these kinds."""
        thing = self.names.get(name)
        return thing if thing is not None and thing.kind in kinds and thing.death is None else None

    def make(self, name, kind, **told):
        if not self.free[kind]:
            return False
        thing = Thing(kind, self.free[kind].pop(), self.serial, told)
        self.serial += 1
        self.things.append(thing)
        self.names[name] = thing
        self.changes.append(("create", thing))
        return True

    def call(self, line):
        """Makes a line's call; whether it was accepted."""
        return getattr(self, "do_" + line[0])(*line[1:])

    def do_layout(self, name, parts):
        layout = built_layout(parts)
        return layout is not None and self.make(name, "layout", layout=layout)

    def do_vb(self, name, layout, data):
        of = self.named(layout, "layout")
        return of is not None and 1 <= len(data) <= MOST_BYTES and self.make(name, "vb", layout=of.layout, data=data)

    def do_ib(self, name, data):
        return 1 <= len(data) <= MOST_BYTES and len(data) % 2 == 0 and self.make(name, "ib", data=data)

    def do_texture(self, name, width, height, form, destination, source):
        texels = width * height
        if not (1 <= width <= 2048 and 1 <= height <= 2048) or (source[0] == "hex" and len(source[1]) != 4 * texels):
            return False
        if sum(thing.width * thing.height for thing in self.things if thing.kind == "texture") + texels > MOST_TEXELS:
            return False
        told = {"width": width, "height": height, "format": form, "is_destination": destination == "dst", "source": source}
        return self.make(name, "texture", **told)

    def do_fb(self, name, color_name, depth_name):
        of = self.named(color_name, "texture")
        if of is None or of.format != "rgba8":
            return False
        depth = None
        if depth_name is not None:
            depth = self.named(depth_name, "texture")
            if depth is None or depth.format != "d24s8" or (depth.width, depth.height) != (of.width, of.height):
                return False
        return self.make(name, "fb", color=of, depth=depth)

    def do_program(self, name, kind):
        return self.make(name, "program", program=kind)

    def do_uniform(self, name, kind):
        for thing in self.things:
            if thing.kind == "uniform" and thing.text == name and thing.death is None:
                if thing.value_kind != kind or thing.references == MOST_REFERENCES:
                    return False
                thing.references += 1
                self.names[name] = thing
                return True
        return self.make(name, "uniform", text=name, value_kind=kind)

    def do_update(self, name, offset, data):
        of = self.named(name, "vb", "ib")
        if of is None or offset + len(data) > len(of.data):
            return False
        self.changes.append(("bytes", of, offset, data))
        return True

    def do_texupdate(self, name, x, y, w, h, data):
        of = self.named(name, "texture")
        if of is None or x + w > of.width or y + h > of.height or len(data) != 4 * w * h:
            return False
        self.changes.append(("texels", of, (x, y, w, h), data))
        return True

    def do_destroy(self, name):
        thing = self.names.get(name)
        if thing is None or thing.death is not None:
            return False
        if thing.kind == "texture" and any(
            other.kind == "fb" and other.death is None and thing in (other.color, other.depth) for other in self.things
        ):
            return False
        if thing.references > 1:
            thing.references -= 1
            return True
        thing.death = self.frame
        self.waiting.append(thing)
        return True

    def view(self, view):
        return self.views.setdefault(view, View()) if view < self.view_count else None

    def set_view(self, number_of, **settings):
        view = self.view(number_of)
        if view is None:
            return False
        view.__dict__.update(settings)
        return True

    def do_view_rect(self, view, *rect):
        return self.set_view(view, rect=rect)

    def do_view_scissor(self, view, *rect):
        return self.set_view(view, scissor=rect)

    def do_view_clear(self, view, *clear):
        return clear[0] <= 7 and self.set_view(view, clear=clear)

    def do_view_mode(self, view, mode):
        return self.set_view(view, mode=mode)

    def do_view_transform(self, view, *transform):
        return self.set_view(view, transform=transform)

    def do_view_reset(self, view):
        return self.set_view(view, **View().__dict__)

    def do_view_target(self, view, name):
        if name is None:
            return self.set_view(view, target=None)
        of = self.named(name, "fb")
        return of is not None and self.set_view(view, target=of)

    def do_order(self, views):
        if any(view >= self.view_count for view in views) or len(views) != len(set(views)):
            return False
        self.order = views
        return True


class Encoder:
    """The fold of an encoder's lines: its accepted items and the number of dropped lines."""

    def __init__(self, calls, names, room):
        self.calls, self.names, self.room = calls, names, room
        self.items, self.pending = [], []
        self.dropped = self.used_bytes = self.used_values = 0
        self.now = {}
        self.reset(255)

    def reset(self, flags):
        now = self.now
        if flags & 1:
            now["textures"] = (None, None)
        if flags & 2:
            now["indices"] = None
        if flags & 8:
            now.update(state=15, front=0, back=0, scissor=(0, 0, 0, 0))
        if flags & 16:
            now["model"] = IDENTITY
        if flags & 32:
            now["vertices"] = None

    def used(self, name, *kinds):
        """The thing of a name, if it is of one of these kinds and may be named in this frame."""
        thing = self.names.get(name)
        if thing is None or thing.kind not in kinds or (thing.death is not None and thing.death < self.calls.frame):
            return None
        return thing

    def line(self, line):
        if not getattr(self, "do_" + line[0])(*line[1:]):
            self.dropped += 1

    def set(self, **values):
        self.now.update(values)
        return True

    def do_state(self, value):
        return is_state_word(value) and self.set(state=value)

    def do_stencil(self, front, back):
        return is_stencil_word(front) and is_stencil_word(back) and self.set(front=front, back=back)

    def do_scissor(self, *rect):
        return self.set(scissor=rect)

    def do_transform(self, *model):
        return self.set(model=model)

    def do_vertices(self, name, first, count):
        of = self.used(name, "vb")
        return of is not None and self.set(vertices=(of, first, count))

    def do_indices(self, name, first, count):
        of = self.used(name, "ib")
        return of is not None and self.set(indices=(of, first, count))

    def takes(self, data):
        if self.used_bytes + len(data) > self.room[1]:
            return False
        self.used_bytes += len(data)
        return True

    def do_tvertices(self, name, data):
        of = self.used(name, "layout")
        return of is not None and self.takes(data) and self.set(vertices=(of, data))

    def do_tindices(self, data):
        return self.takes(data) and self.set(indices=(data,))

    def do_bind(self, stage, name):
        of = None
        if name is not None:
            of = self.used(name, "texture")
            if of is None or of.format != "rgba8":
                return False
        if stage > 1:
            return False
        bound = list(self.now["textures"])
        bound[stage] = of
        return self.set(textures=tuple(bound))

    def do_set(self, name, values):
        of = self.used(name, "uniform")
        if of is None or (of.value_kind == "vec4") != (len(values) == 4) or self.used_values >= self.room[2]:
            return False
        self.used_values += 1
        self.pending.append((of, values))
        return True

    def has_room(self):
        return len(self.items) < self.room[0]

    def put(self, item, flags):
        item["values"], self.pending = self.pending, []
        self.items.append(item)
        self.reset(flags)
        return True

    def do_submit(self, view, name, depth, flags):
        of = self.used(name, "program")
        if view >= self.calls.view_count or of is None or not self.has_room():
            return False
        return self.put({"form": "draw", "view": view, "program": of, "depth": depth, **self.now}, flags)

    def do_touch(self, view):
        return view < self.calls.view_count and self.has_room() and self.put({"form": "touch", "view": view}, 255)

    def do_blit(self, view, destination, dx, dy, source, sx, sy, w, h):
        to, of = self.used(destination, "texture"), self.used(source, "texture")
        if view >= self.calls.view_count or to is None or of is None or to.format != of.format:
            return False
        if not to.is_destination or not self.has_room():
            return False
        self.items.append({"form": "blit", "view": view, "to": to, "dx": dx, "dy": dy, "of": of, "sx": sx, "sy": sy, "w": w, "h": h})
        return True


class Plan:
    """What one frame has: changes, views, each encoder's items, and the number of dropped lines."""

    def __init__(self, calls, encoders, dropped):
        self.frame, self.changes = calls.frame, calls.changes
        self.views = {number_of: view.copy() for number_of, view in calls.views.items()}
        self.order, self.items = calls.order, [encoder.items for encoder in encoders]
        self.dropped = dropped + sum(encoder.dropped for encoder in encoders)
        self.gone = [thing.serial for thing in calls.things if thing.death == calls.frame]
        self.names = dict(calls.names)


def plans(scene):
    """The frames of a scene by its lines' calls."""
    calls, found = Calls(scene), []
    for number_of, frame in enumerate(scene.frames):
        calls.start_frame(number_of)
        dropped = sum(not calls.call(line) for line in frame["before"])
        names = dict(calls.names)
        dropped_beside = sum(not calls.call(line) for line in frame["beside"])
        encoders = [Encoder(calls, names, scene.room) for _ in range(scene.encoders)]
        for number, lines in frame["blocks"].items():
            for line in lines:
                encoders[number].line(line)
        found.append(Plan(calls, encoders, dropped + dropped_beside))
    return found


def report(found):
    """The notes' lines of the frames."""
    lines = (f"frame {k} items {sum(map(len, plan.items))} dropped {plan.dropped}\n" for k, plan in enumerate(found))
    return "".join(lines).encode()
