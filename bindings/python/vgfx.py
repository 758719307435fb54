#!/usr/bin/env python3
"""The calls of libvgfx, a verified renderer front end, from Python, by ctypes over the shared library.

usage: bindings/python/vgfx.py --test     tries the calls, and compares this file with include/vgfx.h
       bindings/python/vgfx.py --help     shows this text

It is a module, for Python 3.8 or later and nothing else. VGFX_SHARED names the shared library; without it libvgfx.so.0.3 is looked for where
the machine looks for libraries.

    import vgfx
    with vgfx.Context(160, 120) as context:
        layout = context.create_layout("position:fixed:2")
        ...
        with context.begin(items=1) as encoder:
            encoder.set_vertices(vertices, 0, 3)
            encoder.submit(0, program)
        picture = bytearray(context.picture_bytes)
        report = context.frame(picture)
        pixels = context.pixels(picture, report)     # red, green, blue, row by row from the top

Words, parts of layouts and numbers are spelled as tools/scene/scene.py spells them, so that its `state`, `stencil`, `Layout.pack` and
transforms can be passed. What each call does stands in the header. A refusal is raised as `Error`. Each handle has a lock, so a call from
another thread waits for the one that runs; while a call runs, Python's other threads run beside it.
"""
import ctypes
import math
import os
import sys
import threading
from ctypes import POINTER, byref, c_char_p, c_int32, c_size_t, c_uint8, c_uint16, c_uint32, c_uint64, c_void_p

SONAME = "libvgfx.so.0.3"
VERSION = 0x000300
OK, ERROR_TRY_AGAIN, ERROR_TOO_SMALL, ERROR_NO_SCENE = 0, 101, 103, 106
ERRORS = {
    1: "FULL",
    2: "STALE",
    3: "BAD_RANGE",
    4: "BAD_SIZE",
    5: "NOT_BLIT_DST",
    6: "WRONG_KIND",
    7: "ATTACHED",
    8: "ROOM_FULL",
    9: "BYTES_FULL",
    10: "BAD_VIEW",
    11: "NO_ENCODER",
    12: "SERIALS_SPENT",
    13: "FRAMES_SPENT",
    14: "TEXELS_FULL",
    16: "BAD_STATE",
    17: "OUT_OF_MEMORY",
    100: "NO_OBJECT",
    101: "TRY_AGAIN",
    102: "ENDED",
    103: "TOO_SMALL",
    104: "BAD_VALUE",
    105: "TAKEN",
    106: "NO_SCENE",
    107: "TOO_LONG",
    108: "UNKNOWN",
    109: "NOT_THERE",
}
ATTRIBUTES = {"position": 0, "normal": 1, "tangent": 2, "color0": 3, "color1": 4, "texcoord0": 5, "texcoord1": 6, "skip": 255}
COMPONENTS = {"u8": 0, "i16": 1, "fixed": 2}
FORMATS = {"rgba8": 0, "d24s8": 1}
PIXELS = {"rgba8": 0, "d24s8": 1, "bgra8": 2}
PROGRAMS = {"solid": 0, "color": 1, "texture": 2, "texcolor": 3}
UNIFORMS = {"vec4": 0, "int": 1}
MODES = {"default": 0, "sequential": 1, "ascending": 2, "descending": 3}
KEEP_ALL, RESET_ALL = 0, 255


class Handle(ctypes.Structure):
    _fields_ = [("at", c_void_p)]


class Part(ctypes.Structure):
    _fields_ = [("attribute", c_uint8), ("component", c_uint8), ("count", c_uint8)]


class Transform(ctypes.Structure):
    _fields_ = [("m", c_int32 * 12)]


class FrameReport(ctypes.Structure):
    """A frame's number, the bytes of its picture, and the sum of the numbers that its encoders ended with."""

    _fields_ = [("number", c_uint32), ("picture", c_size_t), ("dropped", c_uint64)]


class PlayReport(ctypes.Structure):
    _fields_ = [("pictures", c_size_t), ("report", c_size_t), ("line", c_uint32), ("cause", c_uint32)]


HANDLE, ID = POINTER(Handle), c_uint64
RECT = [c_uint16] * 4
CALLS = {
    "vgfx_version": [],
    "vgfx_play": [c_void_p, c_size_t, c_void_p, c_size_t, c_void_p, c_size_t, POINTER(PlayReport)],
    "vgfx_init": [HANDLE, c_uint16, c_uint16],
    "vgfx_shutdown": [HANDLE],
    "vgfx_frame_number": [HANDLE, POINTER(c_uint32)],
    "vgfx_encoder_begin": [HANDLE, HANDLE, c_uint32, c_uint32, c_uint32],
    "vgfx_collect": [HANDLE, POINTER(c_uint32)],
    "vgfx_frame": [HANDLE, c_void_p, c_size_t, POINTER(FrameReport)],
    "vgfx_frame_begin": [HANDLE],
    "vgfx_pass_next": [HANDLE, HANDLE, c_size_t, POINTER(c_size_t)],
    "vgfx_band_draw": [HANDLE],
    "vgfx_pass_end": [HANDLE, HANDLE, c_size_t],
    "vgfx_frame_end": [HANDLE, c_void_p, c_size_t, POINTER(FrameReport)],
    "vgfx_read_pixels": [HANDLE, ID, c_uint32, c_void_p, c_size_t, c_size_t],
    "vgfx_create_layout": [HANDLE, POINTER(Part), c_size_t, POINTER(ID)],
    "vgfx_create_vertex_buffer": [HANDLE, ID, c_void_p, c_size_t, POINTER(ID)],
    "vgfx_create_index_buffer": [HANDLE, c_void_p, c_size_t, POINTER(ID)],
    "vgfx_create_texture": [HANDLE, c_uint16, c_uint16, c_uint32, c_uint8, c_void_p, c_size_t, POINTER(ID)],
    "vgfx_create_filled_texture": [HANDLE, c_uint16, c_uint16, c_uint32, *[c_uint8] * 5, POINTER(ID)],
    "vgfx_create_frame_buffer": [HANDLE, ID, ID, POINTER(ID)],
    "vgfx_create_program": [HANDLE, c_uint32, POINTER(ID)],
    "vgfx_create_uniform": [HANDLE, c_char_p, c_size_t, c_uint32, POINTER(ID)],
    "vgfx_update_buffer": [HANDLE, ID, c_uint32, c_void_p, c_size_t],
    "vgfx_update_texture": [HANDLE, ID, *RECT, c_void_p, c_size_t],
    "vgfx_destroy": [HANDLE, ID],
    "vgfx_set_view_rect": [HANDLE, c_uint16, *RECT],
    "vgfx_set_view_scissor": [HANDLE, c_uint16, *RECT],
    "vgfx_set_view_clear": [HANDLE, c_uint16, *[c_uint8] * 5, c_uint32, c_uint8],
    "vgfx_set_view_mode": [HANDLE, c_uint16, c_uint32],
    "vgfx_set_view_transform": [HANDLE, c_uint16, POINTER(Transform)],
    "vgfx_set_view_target": [HANDLE, c_uint16, ID],
    "vgfx_set_view_order": [HANDLE, POINTER(c_uint16), c_size_t],
    "vgfx_reset_view": [HANDLE, c_uint16],
    "vgfx_encoder_set_state": [HANDLE, c_uint64],
    "vgfx_encoder_set_stencil": [HANDLE, c_uint32, c_uint32],
    "vgfx_encoder_set_scissor": [HANDLE, *RECT],
    "vgfx_encoder_set_transform": [HANDLE, POINTER(Transform)],
    "vgfx_encoder_set_vertices": [HANDLE, ID, c_uint32, c_uint32],
    "vgfx_encoder_set_indices": [HANDLE, ID, c_uint32, c_uint32],
    "vgfx_encoder_set_transient_vertices": [HANDLE, ID, c_void_p, c_size_t],
    "vgfx_encoder_set_transient_indices": [HANDLE, c_void_p, c_size_t],
    "vgfx_encoder_set_texture": [HANDLE, c_uint8, ID],
    "vgfx_encoder_set_vec4": [HANDLE, ID, *[c_int32] * 4],
    "vgfx_encoder_set_int": [HANDLE, ID, c_int32],
    "vgfx_encoder_submit": [HANDLE, c_uint16, ID, c_uint32, c_uint8],
    "vgfx_encoder_discard": [HANDLE, c_uint8],
    "vgfx_encoder_touch": [HANDLE, c_uint16],
    "vgfx_encoder_blit": [HANDLE, c_uint16, ID, c_uint16, c_uint16, ID, *RECT],
    "vgfx_encoder_end": [HANDLE, c_uint32],
    "vgfx_encoder_drop": [HANDLE],
}


class Error(Exception):
    """A call that did nothing. `status` is its number in the header; of a text that is no scene, `line` and `cause` say where and why."""

    def __init__(self, status, line=None, cause=None):
        at = "" if line is None else f": line {line}, cause {cause}"
        super().__init__(f"VGFX_ERROR_{ERRORS.get(status, status)}{at}")
        self.status, self.line, self.cause = status, line, cause


_library = None


def library():
    """The shared library, which is loaded at the first call."""
    global _library
    if _library is None:
        loaded = ctypes.CDLL(os.environ.get("VGFX_SHARED") or SONAME)
        for name, kinds in CALLS.items():
            call = getattr(loaded, name)
            call.argtypes, call.restype = kinds, c_uint32
        if loaded.vgfx_version() != VERSION:
            raise ImportError(f"the library is of another version than this module: {loaded.vgfx_version():#x}, not {VERSION:#x}")
        _library = loaded
    return _library


def must(status):
    if status != OK:
        raise Error(status)


def within(value, bits, signed=False):
    """VALUE, where it is a whole number of so many bits; ctypes would cut it."""
    least, most = (-(1 << bits - 1), (1 << bits - 1) - 1) if signed else (0, (1 << bits) - 1)
    if not least <= int(value) <= most:
        raise OverflowError(f"{value} is not from {least} to {most}")
    return int(value)


SIZES = {c_uint8: (8, False), c_uint16: (16, False), c_uint32: (32, False), c_uint64: (64, False), c_int32: (32, True)}


def fixed(value):
    """A number as a whole number of 1/65536, rounded to the nearest."""
    return math.floor(value * 65536 + 0.5)


def address(data):
    """The address of bytes that are read: of one byte where there are none."""
    data = bytes(data)
    return ctypes.c_char_p(data or b"\0"), len(data)


def room_of(buffer):
    """The address of a buffer that is written (a bytearray, an array, a memoryview ..), and its length in bytes."""
    view = memoryview(buffer).cast("B")
    return (ctypes.c_char * max(len(view), 1)).from_buffer(buffer) if len(view) else ctypes.create_string_buffer(1), len(view)


def indices_of(numbers):
    """Indices as bytes, two each."""
    return b"".join(within(number, 16).to_bytes(2, "little") for number in numbers)


class Owner:
    """A handle, with the lock that lets one call at a time have it."""

    def __init__(self):
        self._handle, self._lock = Handle(None), threading.Lock()

    def _call(self, name, *words):
        kinds = CALLS[name][1:]
        if len(words) != len(kinds):
            raise TypeError(f"{name} takes {len(kinds)} words, not {len(words)}")
        words = [within(word, *SIZES[kind]) if kind in SIZES else word for kind, word in zip(kinds, words)]
        with self._lock:
            must(getattr(library(), name)(byref(self._handle), *words))

    def _made(self, name, *words):
        made = ID()
        self._call(name, *words, byref(made))
        return made.value


class Encoder(Owner):
    """What records draws for one frame. `with` ends it, and else what is left of it does. It knows the resources that were made before it began."""

    dropped = 0
    """The number that it ends with."""

    def __enter__(self):
        return self

    def __exit__(self, *_):
        self.end(self.dropped)

    def __del__(self):
        if _library is not None:
            _library.vgfx_encoder_end(byref(self._handle), 0)  # refused where it has ended

    def set_state(self, state):
        self._call("vgfx_encoder_set_state", state)

    def set_stencil(self, front, back=0):
        self._call("vgfx_encoder_set_stencil", front, back)

    def set_scissor(self, x, y, width, height):
        self._call("vgfx_encoder_set_scissor", x, y, width, height)

    def set_transform(self, transform):
        self._call("vgfx_encoder_set_transform", byref(transform_of(transform)))

    def set_vertices(self, buffer, first, count):
        self._call("vgfx_encoder_set_vertices", buffer, first, count)

    def set_indices(self, buffer, first, count):
        self._call("vgfx_encoder_set_indices", buffer, first, count)

    def set_transient_vertices(self, layout, data):
        self._call("vgfx_encoder_set_transient_vertices", layout, *address(data))

    def set_transient_indices(self, indices):
        self._call("vgfx_encoder_set_transient_indices", *address(indices_of(indices)))

    def set_texture(self, stage, texture=0):
        self._call("vgfx_encoder_set_texture", stage, texture)

    def set_vec4(self, uniform, x, y, z, w):
        self._call("vgfx_encoder_set_vec4", uniform, *map(fixed, (x, y, z, w)))

    def set_int(self, uniform, value):
        self._call("vgfx_encoder_set_int", uniform, value)

    def submit(self, view, program, depth=0, discard=RESET_ALL):
        self._call("vgfx_encoder_submit", view, program, depth, discard)

    def discard(self, flags=RESET_ALL):
        """Resets the parts of the state for the next draw that FLAGS name, and records nothing."""
        self._call("vgfx_encoder_discard", flags)

    def touch(self, view):
        self._call("vgfx_encoder_touch", view)

    def blit(self, view, destination, x, y, source, from_x, from_y, width, height):
        self._call("vgfx_encoder_blit", view, destination, x, y, source, from_x, from_y, width, height)

    def end(self, dropped=0):
        self._call("vgfx_encoder_end", dropped)


class Band(Owner):
    """Rows of a pass, which one thread draws. One that is let go before the end of its pass is given up, and its rows are drawn then."""

    def __init__(self, handle):
        super().__init__()
        self._handle = handle

    def __del__(self):
        if _library is not None:
            _library.vgfx_pass_end(byref(Handle(None)), byref(self._handle), 1)  # no context: it takes the band back, and refuses

    def draw(self):
        self._call("vgfx_band_draw")


class Context(Owner):
    """What draws: resources, views, a back buffer, and the frame that is being recorded. `with` shuts it down."""

    def __init__(self, width, height):
        super().__init__()
        self.width, self.height = within(width, 16), within(height, 16)
        self.picture_bytes = 3 * self.width * self.height + 17
        """How many bytes a buffer for a picture has at least."""
        self._call("vgfx_init", self.width, self.height)

    def __enter__(self):
        return self

    def __exit__(self, *_):
        self.shutdown()

    def __del__(self):
        if _library is not None:
            _library.vgfx_shutdown(byref(self._handle))  # refused where it was shut down

    def shutdown(self):
        self._call("vgfx_shutdown")

    def frame_number(self):
        number = c_uint32()
        self._call("vgfx_frame_number", byref(number))
        return number.value

    def begin(self, items=8191, bytes=0, uniforms=0):
        """An encoder with room for so many items, bytes of transient vertices and indices, and uniform values."""
        encoder = Encoder()
        self._call("vgfx_encoder_begin", byref(encoder._handle), items, bytes, uniforms)
        return encoder

    def collect(self):
        """Takes in the encoders that have ended, and tells how many have not."""
        out = c_uint32()
        self._call("vgfx_collect", byref(out))
        return out.value

    def frame(self, picture=b""):
        """Ends the frame and writes its picture, a P6 text, into PICTURE, a buffer of at least `picture_bytes` bytes, or nowhere."""
        report = FrameReport()
        self._call("vgfx_frame", *room_of(picture), byref(report))
        return report

    def begin_frame(self):
        """Begins the frame, which is drawn in passes: in place of `frame`."""
        self._call("vgfx_frame_begin")

    def next_pass(self, bands=1):
        """Begins the next pass, and answers its bands, at most so many, each of which one thread draws; none where no pass is left."""
        lent, count = (Handle * max(bands, 1))(), c_size_t()
        self._call("vgfx_pass_next", lent, bands, byref(count))
        return [Band(Handle(lent[number].at)) for number in range(count.value)]

    def end_pass(self, bands):
        """Takes the bands of the pass back and ends it: rows that were not drawn are drawn now."""
        given = (Handle * max(len(bands), 1))(*[Handle(band._handle.at) for band in bands])
        for band in bands:
            band._handle = Handle(None)
        self._call("vgfx_pass_end", given, len(bands))

    def end_frame(self, picture=b""):
        """Ends the frame that was drawn in passes, and writes its picture as `frame` does."""
        report = FrameReport()
        self._call("vgfx_frame_end", *room_of(picture), byref(report))
        return report

    def pixels(self, picture, report):
        """The pixels in the picture's buffer, as a view of it: red, green and blue, row by row from the top."""
        return memoryview(picture)[report.picture - 3 * self.width * self.height : report.picture]

    def read_pixels(self, buffer, texture=0, kind="rgba8", stride=None):
        """Reads a texture, or the back buffer by 0, as the last frame left it, into BUFFER, with STRIDE bytes from row to row (4 * width of the
        back buffer where none is given)."""
        self._call("vgfx_read_pixels", texture, PIXELS[kind], *room_of(buffer), 4 * self.width if stride is None else stride)

    def create_layout(self, *parts):
        """A layout of parts as `position:fixed:2`, `color0:u8:4` and `skip:3`."""
        made = []
        for part in parts:
            what, *rest = part.split(":")
            component = 0 if what == "skip" else COMPONENTS[rest[0]]
            made.append(Part(ATTRIBUTES[what], component, within(rest[-1], 8)))
        return self._made("vgfx_create_layout", (Part * max(len(made), 1))(*made), len(made))

    def create_vertex_buffer(self, layout, data):
        return self._made("vgfx_create_vertex_buffer", layout, *address(data))

    def create_index_buffer(self, indices):
        return self._made("vgfx_create_index_buffer", *address(indices_of(indices)))

    def create_texture(self, width, height, texels, kind="rgba8", blit=False):
        return self._made("vgfx_create_texture", width, height, FORMATS[kind], blit, *address(texels))

    def create_filled_texture(self, width, height, texel=(0, 0, 0, 255), kind="rgba8", blit=False):
        return self._made("vgfx_create_filled_texture", width, height, FORMATS[kind], blit, *texel)

    def create_frame_buffer(self, color, depth=0):
        return self._made("vgfx_create_frame_buffer", color, depth)

    def create_program(self, kind):
        return self._made("vgfx_create_program", PROGRAMS[kind])

    def create_uniform(self, name, kind="vec4"):
        return self._made("vgfx_create_uniform", *address(name.encode()), UNIFORMS[kind])

    def update_buffer(self, buffer, offset, data):
        self._call("vgfx_update_buffer", buffer, offset, *address(data))

    def update_texture(self, texture, x, y, width, height, texels):
        self._call("vgfx_update_texture", texture, x, y, width, height, *address(texels))

    def destroy(self, resource):
        self._call("vgfx_destroy", resource)

    def set_view_rect(self, view, x, y, width, height):
        self._call("vgfx_set_view_rect", view, x, y, width, height)

    def set_view_scissor(self, view, x, y, width, height):
        self._call("vgfx_set_view_scissor", view, x, y, width, height)

    def set_view_clear(self, view, color=None, depth=None, stencil=None):
        """What entering the view clears: what is given, to that."""
        flags = (color is not None) | (depth is not None) << 1 | (stencil is not None) << 2
        self._call("vgfx_set_view_clear", view, flags, *(color or (0, 0, 0, 0)), depth or 0, stencil or 0)

    def set_view_mode(self, view, mode):
        self._call("vgfx_set_view_mode", view, MODES[mode])

    def set_view_transform(self, view, transform):
        self._call("vgfx_set_view_transform", view, byref(transform_of(transform)))

    def set_view_target(self, view, frame_buffer=0):
        self._call("vgfx_set_view_target", view, frame_buffer)

    def set_view_order(self, *views):
        numbers = [within(view, 16) for view in views]
        self._call("vgfx_set_view_order", (c_uint16 * max(len(views), 1))(*numbers), len(views))

    def reset_view(self, view):
        self._call("vgfx_reset_view", view)


def transform_of(numbers):
    """Three rows of four plain numbers, as scene.py has them."""
    rows = [within(fixed(number), 32, True) for number in numbers]
    if len(rows) != 12:
        raise ValueError("a transform has twelve numbers")
    return Transform((c_int32 * 12)(*rows))


def play(text):
    """The pictures, P6 texts one behind the other, and the report that a scene's text plays to; both are bytes."""
    source, length = address(text.encode() if isinstance(text, str) else text)
    told, pictures, report = PlayReport(), bytearray(), bytearray()
    status = ERROR_TOO_SMALL
    while status == ERROR_TOO_SMALL:
        pictures, report = bytearray(told.pictures), bytearray(told.report)
        status = library().vgfx_play(source, length, *room_of(pictures), *room_of(report), byref(told))
    if status == ERROR_NO_SCENE:
        raise Error(status, told.line, told.cause)
    must(status)
    return bytes(pictures), bytes(report)


# ---------------------------------------------------------------- tests


def same_as_the_header():
    """Compares the calls and the statuses of this file with those of the header."""
    import re

    top = os.path.dirname(os.path.dirname(os.path.dirname(os.path.abspath(__file__))))
    with open(f"{top}/include/vgfx.h", encoding="utf-8") as file:
        text = re.sub(r"/\*.*?\*/", "", file.read(), flags=re.S)
    values = {f"uint{bits}_t": f"c_uint{bits}" for bits in (8, 16, 32, 64)}
    values.update({"int32_t": "c_int32", "size_t": "c_size_t", "vgfx_id": "c_uint64"})
    pointed = {"vgfx_context": HANDLE, "vgfx_encoder": HANDLE, "vgfx_band": HANDLE, "vgfx_layout_part": POINTER(Part), "vgfx_transform": POINTER(Transform)}
    pointed.update({"vgfx_frame_report": POINTER(FrameReport), "vgfx_play_report": POINTER(PlayReport), "void": c_void_p, "char": c_char_p})
    pointed.update({"uint16_t": POINTER(c_uint16), "uint32_t": POINTER(c_uint32), "vgfx_id": POINTER(ID), "size_t": POINTER(c_size_t)})
    found = {}
    for name, words in re.findall(r"^(?:VGFX_CALL|uint32_t) (vgfx_\w+)\(([^)]*)\);", text, re.M):
        kinds = [re.match(r"(.*?)\w+$", word.strip())[1].strip() for word in words.split(",") if word.strip() != "void"]
        found[name] = [pointed[kind.replace("const ", "").rstrip("* ")] if "*" in kind else getattr(ctypes, values.get(kind, "c_uint32")) for kind in kinds]
    assert found == CALLS, [name for name in {*found, *CALLS} if found.get(name) != CALLS.get(name)]
    assert {int(number): name for name, number in re.findall(r"VGFX_ERROR_(\w+) = (\d+)", text)} == ERRORS
    assert [int(part) for part in re.findall(r"#define VGFX_VERSION_M\w+ (\d+)", text)] == [VERSION >> 16, VERSION >> 8 & 255]


def refused(name, call, *words):
    try:
        call(*words)
    except Error as error:
        assert ERRORS[error.status] == name, (name, error)
        return error
    raise AssertionError(f"not refused: {name}")


def draws():
    """A frame of two halves, one of them textured, with a state and a layout of scene.py."""
    sys.path.insert(0, os.path.join(os.path.dirname(os.path.abspath(__file__)), "../../tools/scene"))
    import scene

    with Context(2, 1) as context:
        corner = scene.Layout("corner", "position:fixed:2", "texcoord0:fixed:2")
        vertices = corner.pack(list(zip(scene.quad(-1, 1, 1, -1), scene.QUAD_TEXTURE)))
        buffer = context.create_vertex_buffer(context.create_layout(*corner.parts), vertices)
        texture = context.create_texture(2, 1, bytes([10, 20, 30, 255, 40, 50, 60, 255]))
        program = context.create_program("texture")
        context.set_view_clear(0, color=(1, 2, 3, 255))
        with context.begin(items=2) as encoder:
            encoder.set_state(scene.state())
            encoder.set_scissor(1, 0, 1, 1)
            encoder.set_transform(scene.IDENTITY)
            encoder.set_vertices(buffer, 0, 6)
            encoder.set_texture(0, texture)
            encoder.submit(0, program)
            encoder.dropped = 3
        picture = bytearray(context.picture_bytes)
        report = context.frame(picture)
        assert (report.number, report.dropped, context.frame_number()) == (0, 3, 1)
        assert bytes(context.pixels(picture, report)) == bytes([1, 2, 3, 40, 50, 60])
        refused("TOO_SMALL", context.frame, bytearray(5))
        pixels = bytearray(8)
        context.read_pixels(pixels)
        assert bytes(pixels) == bytes([1, 2, 3, 255, 40, 50, 60, 255])
        context.read_pixels(pixels, texture, "bgra8", 8)
        assert bytes(pixels) == bytes([30, 20, 10, 255, 60, 50, 40, 255])
        refused("WRONG_KIND", context.read_pixels, pixels, texture, "d24s8")
        refused("BAD_SIZE", context.read_pixels, pixels, 0, "rgba8", 7)
        refused("TOO_SMALL", context.read_pixels, bytearray(7))
        with context.begin(items=1) as encoder:
            encoder.set_vertices(buffer, 0, 6)
            encoder.discard()
            encoder.submit(0, program)
        assert context.frame().picture == 0
        context.read_pixels(pixels)
        assert bytes(pixels) == bytes([1, 2, 3, 255] * 2)
        left = context.begin()
        refused("TRY_AGAIN", context.frame, picture)
        assert context.collect() == 1
        left.end()
        refused("NO_OBJECT", left.touch, 0)
        refused("UNKNOWN", context.destroy, 77)
        refused("BAD_VIEW", context.reset_view, 512)
    refused("NO_OBJECT", context.shutdown)
    refused("BAD_SIZE", Context, 0, 1)


def plays():
    pictures, report = play("scene 1\nsize 2 1\nencoders 1\nframe\nview 0 clear 1 ff0000ff 0 0\nencoder 0\ntouch 0\ndone\n")
    assert (pictures, report) == (b"P6\n2 1\n255\n" + bytes([255, 0, 0] * 2), b"frame 0 items 1 dropped 0\n")
    error = refused("NO_SCENE", play, "scene 1\nsize 1 x\n")
    assert (error.line, error.cause) == (2, 6)


def threads():
    """Eight threads record at once, each in a view of its own."""
    with Context(8, 1) as context:
        for view in range(8):
            context.set_view_rect(view, view, 0, 1, 1)
            context.set_view_clear(view, color=(view, 0, 255, 255))
        encoders = [context.begin(items=200) for _ in range(8)]

        def record(view):
            with encoders[view] as encoder:
                for _ in range(200):
                    encoder.touch(view)

        workers = [threading.Thread(target=record, args=(view,)) for view in range(8)]
        for worker in workers:
            worker.start()
        for worker in workers:
            worker.join()
        picture = bytearray(context.picture_bytes)
        pixels = context.pixels(picture, context.frame(picture))
        assert bytes(pixels) == bytes(part for view in range(8) for part in (view, 0, 255))


def passes():
    """Four threads draw a frame's rows, but for one band, and the picture is that of a frame."""
    with Context(4, 8) as context:
        context.set_view_clear(0, color=(1, 2, 3, 255))
        pictures = [bytearray(context.picture_bytes) for _ in range(2)]
        for number, picture in enumerate(pictures):
            with context.begin(items=1) as encoder:
                encoder.touch(0)
            if number == 0:
                context.frame(picture)
                continue
            context.begin_frame()
            refused("BAD_VALUE", context.begin, 1)
            refused("BAD_VALUE", context.frame, picture)
            bands = context.next_pass(5)
            refused("BAD_VALUE", context.end_frame, picture)
            workers = [threading.Thread(target=band.draw) for band in bands[1:]]
            for worker in workers:
                worker.start()
            for worker in workers:
                worker.join()
            refused("TRY_AGAIN", context.end_pass, bands[1:])
            context.end_pass(bands[:1])
            assert len(bands) == 5 and context.next_pass(5) == []
            assert context.end_frame(picture).number == 1
        assert pictures[0] == pictures[1]


def main():
    words = sys.argv[1:]
    if words != ["--test"]:
        print(__doc__, file=sys.stdout if words in (["--help"], ["-h"]) else sys.stderr)
        return 0 if words in (["--help"], ["-h"]) else 2
    for test in (same_as_the_header, draws, plays, threads, passes):
        test()
    print("the calls from Python are those of the header, and draw")
    return 0


if __name__ == "__main__":
    sys.exit(main())
