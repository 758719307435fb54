"""Vertex layouts, and the bytes of vertices and indices."""
import math
import struct

from scene_parts.faults import SceneError
from scene_parts.figures import many, plain, whole

ATTRIBUTES = ("position", "normal", "tangent", "color0", "color1", "texcoord0", "texcoord1")
TYPES = {"u8": (1, 0, 255, "B", 1), "i16": (2, -32768, 32767, "h", 32768), "fixed": (4, -(2**31), 2**31 - 1, "i", 65536)}
"""Of each type: bytes, least and greatest number, its sign for `struct`, and its unit."""


class Layout:
    """A vertex layout by its parts: `position:fixed:3`, `color0:u8:4`, `skip:2` and the like, in their order."""

    def __init__(self, name, *parts):
        self.name, self.parts, self.attributes = name, parts, []
        if not 1 <= len(parts) <= 15:
            raise SceneError(f"the layout {name} has {len(parts)} parts; a layout has 1 to 15")
        signs = "<"
        for part in parts:
            what, *rest = str(part).split(":")
            if what == "skip" and len(rest) == 1 and rest[0].isdigit() and rest[0][0] != "0" and int(rest[0]) <= 255:
                signs += rest[0] + "x"
            elif what in ATTRIBUTES and len(rest) == 2 and rest[0] in TYPES and rest[1] in ("1", "2", "3", "4"):
                signs += TYPES[rest[0]][3] * int(rest[1])
                self.attributes.append((part, rest[0], int(rest[1])))
            else:
                raise SceneError(f"{part!r} is no part of a layout: ATTRIBUTE:TYPE:COUNT or skip:N, as position:fixed:3, "
                                 f"with one of {', '.join(ATTRIBUTES)} and one of {', '.join(TYPES)}")
        names = [part.split(":")[0] for part, _, _ in self.attributes]
        if len(set(names)) < len(names):
            raise SceneError(f"the layout {name} has an attribute twice: {' '.join(parts)}")
        self.form = struct.Struct(signs)
        self.stride = self.form.size
        if self.stride > 255:
            raise SceneError(f"a vertex of {name} has {self.stride} bytes; it has 255 at most")

    def pack(self, vertices):
        """The bytes of VERTICES. A vertex is a tuple with one tuple of numbers for each attribute, in the layout's order.

        A `fixed` number is given as it is meant (1 becomes 65536), an `i16` as well (from -1 to just below 1), a `u8` as
        the byte, 0 to 255. What does not fit is an error.

        >>> Layout("p", "position:fixed:2").pack([((-1, 1),), ((3, 1),), ((-1, -3),)]).hex()
        '0000ffff0000010000000300000001000000ffff0000fdff'
        >>> Layout("q", "position:i16:2", "color0:u8:3").pack([((0.5, -0.5), (255, 128, 0))]).hex()
        '004000c0ff8000'
        """
        data, floor = bytearray(), math.floor
        for place, vertex in enumerate(many(vertices, "the vertices")):
            try:
                numbers = []
                for (_, kind, count), values in zip(self.attributes, vertex):
                    if len(values) != count:
                        raise ValueError
                    unit = TYPES[kind][4]
                    numbers += values if unit == 1 else [floor(value * unit + 0.5) for value in values]
                if len(vertex) != len(self.attributes):
                    raise ValueError
                data += self.form.pack(*numbers)
            except (TypeError, ValueError, OverflowError, struct.error):
                raise SceneError(self.fault(place, vertex)) from None
        return bytes(data)

    def fault(self, place, vertex):
        """Why a vertex can't be packed."""
        here = f"vertex {place} of the layout {self.name}"
        names = ", ".join(part for part, _, _ in self.attributes)
        if not isinstance(vertex, (tuple, list)) or len(vertex) != len(self.attributes):
            return f"{here} is {vertex!r}; it is a tuple of tuples of numbers, one for each attribute ({names})"
        for (part, kind, count), values in zip(self.attributes, vertex):
            if not isinstance(values, (tuple, list)) or len(values) != count:
                return f"{here} has {values!r} for {part}, which is a tuple of {count} numbers"
            for value in values:
                if isinstance(value, str) or not hasattr(value, "__float__") or not math.isfinite(value):
                    return f"{here} has {value!r} in {part}, which is no number"
                _, least, greatest, _, unit = TYPES[kind]
                if unit == 1 and not hasattr(value, "__index__"):
                    return f"{here} has {value!r} in {part}, whose numbers are whole bytes from 0 to 255"
                if not least <= math.floor(value * unit + 0.5) <= greatest:
                    end = f"just below {(greatest + 1) / unit:g}" if unit > 1 else f"{greatest}"
                    return f"{here} has {value!r} in {part}, which goes from {least / unit:g} to {end}"
        return f"{here} can't be packed: {vertex!r}"


def pack_indices(indices):
    """The bytes of indices, two each.

    >>> pack_indices([0, 1, 2]).hex()
    '000001000200'
    """
    indices = many(indices, "the indices")
    try:
        return struct.pack(f"<{len(indices)}H", *indices)
    except struct.error:
        for place, index in enumerate(indices):
            whole(index, 0, 65535, f"index {place}")
        return struct.pack(f"<{len(indices)}H", *map(int, indices))


def quad(left, top, right, bottom, z=None):
    """The positions of the two triangles of a rectangle, six corners, with Z where it is given. They are clockwise in the picture."""
    corners = [(left, top), (right, top), (right, bottom), (left, top), (right, bottom), (left, bottom)]
    return corners if z is None else [corner + (plain(z),) for corner in corners]


QUAD_TEXTURE = quad(0, 0, 1, 1)
"""The texture positions of `quad`: the whole texture, with its first row at the top."""


def indexed(corners):
    """The different ones of CORNERS, in the order of their first use, and the index of each corner.

    >>> indexed(["a", "b", "c", "a", "c", "d"])
    (['a', 'b', 'c', 'd'], [0, 1, 2, 0, 2, 3])
    """
    places = {}
    indices = [places.setdefault(corner, len(places)) for corner in corners]
    return list(places), indices
