"""Reads glTF 2.0: its buffers, accessors, pictures, nodes and animations, in plain numbers."""
import base64
import binascii
import json
import math
import os
import struct
from urllib.parse import unquote

from scene_parts import pictures
from scene_parts.models import Cannot
from scene_parts.transforms import then

COMPONENTS = {5120: ("b", 127), 5121: ("B", 255), 5122: ("h", 32767), 5123: ("H", 65535), 5125: ("I", 2**32 - 1), 5126: ("f", 1)}
"""Of each type of component: its sign for `struct`, and what stands for 1 where it is normalized."""
COUNTS = {"SCALAR": 1, "VEC2": 2, "VEC3": 3, "VEC4": 4, "MAT2": 4, "MAT3": 9, "MAT4": 16}
MOST_VALUES = 20_000_000
"""An accessor of more numbers is not read."""
KNOWN = {"KHR_materials_unlit", "KHR_texture_transform", "KHR_mesh_quantization"}
"""Extensions that a file may want and that are read, or matter to what is read in no way."""


class File:
    """A glTF file: its JSON, and what hangs on it."""

    def __init__(self, path):
        self.path, self.binary, self.buffers = path, None, {}
        try:
            with open(path, "rb") as file:
                data = file.read()
        except OSError as error:
            raise Cannot(f"{path}: {error.strerror}") from None
        if data[:4] == b"glTF":
            data = self.chunks(data)
        try:
            self.json = json.loads(data.decode("utf-8-sig"))
        except (UnicodeDecodeError, json.JSONDecodeError, RecursionError) as error:
            place = f", line {error.lineno}" if hasattr(error, "lineno") else ""
            raise Cannot(f"{path}{place}: it is no glTF, neither text nor binary") from None
        version = self.json.get("asset", {}).get("version") if isinstance(self.json, dict) else None
        if not str(version).startswith("2."):
            raise Cannot(f"{path}: its version is {version}, and 2.0 is read")
        strange = set(self.json.get("extensionsRequired", ())) - KNOWN
        if strange:
            raise Cannot(f"{path}: it wants the extension {sorted(strange)[0]}, which is not read")

    def chunks(self, data):
        """The JSON of a binary file; its other chunk is kept."""
        if len(data) < 20 or struct.unpack_from("<I", data, 4)[0] != 2:
            raise Cannot(f"{self.path}: it is no binary glTF of version 2")
        at, found = 12, {}
        while at + 8 <= len(data):
            size, kind = struct.unpack_from("<I4s", data, at)
            found.setdefault(kind, data[at + 8 : at + 8 + size])
            at += 8 + size
        self.binary = found.get(b"BIN\0")
        return found.get(b"JSON", b"")

    def item(self, many, number, what=None):
        """Item NUMBER of a list of the file."""
        found = self.json.get(many, [])
        if not isinstance(number, int) or isinstance(number, bool) or not isinstance(found, list) or not 0 <= number < len(found):
            raise Cannot(f"{self.path}: {what or 'something'} names {many}[{number}], and there are {len(found) if isinstance(found, list) else 'none'}")
        return found[number]

    def bytes_of(self, uri, what):
        """The bytes that a URI names: in itself, or in a file beside this one."""
        if uri.startswith("data:"):
            try:
                return base64.b64decode(uri.split(",", 1)[1], validate=True)
            except (IndexError, binascii.Error):
                raise Cannot(f"{self.path}: {what} is no data in base64") from None
        path = os.path.join(os.path.dirname(self.path), unquote(uri))
        try:
            with open(path, "rb") as file:
                return file.read()
        except (OSError, ValueError) as error:
            raise Cannot(f"{self.path}: {what} is {path}: {getattr(error, 'strerror', error)}") from None

    def buffer(self, number):
        if number not in self.buffers:
            of = self.item("buffers", number, "a view")
            what = f"buffers[{number}]"
            data = self.bytes_of(of["uri"], what) if "uri" in of else self.binary if number == 0 else None
            if data is None:
                raise Cannot(f"{self.path}: {what} has no data")
            if len(data) < of.get("byteLength", 0):
                raise Cannot(f"{self.path}: {what} has {len(data)} bytes, and {of['byteLength']} are said")
            self.buffers[number] = data
        return self.buffers[number]

    def view(self, number, what):
        """The bytes of a view of a buffer, and its stride or None."""
        of = self.item("bufferViews", number, what)
        start, size = of.get("byteOffset", 0), of.get("byteLength", 0)
        data = self.buffer(of.get("buffer"))
        if start + size > len(data):
            raise Cannot(f"{self.path}: bufferViews[{number}] passes the end of its buffer")
        return data[start : start + size], of.get("byteStride")

    def numbers(self, number, what):
        """The elements of an accessor: a tuple for each, of numbers as they are meant."""
        of = self.item("accessors", number, what)
        here = f"{self.path}: accessors[{number}]"
        count, kind, parts = of.get("count", 0), of.get("componentType"), COUNTS.get(of.get("type"))
        if kind not in COMPONENTS or not parts or not isinstance(count, int) or not 0 <= count * parts <= MOST_VALUES:
            raise Cannot(f"{here} is of no known type, or too long")
        found = [(0,) * parts] * count
        if "bufferView" in of:
            found = self.elements(of["bufferView"], of.get("byteOffset", 0), kind, parts, count, here)
        if "sparse" in of:
            sparse = of["sparse"]
            where, what, many = sparse["indices"], sparse["values"], sparse["count"]
            places = self.elements(where["bufferView"], where.get("byteOffset", 0), where["componentType"], 1, many, here)
            values = self.elements(what["bufferView"], what.get("byteOffset", 0), kind, parts, many, here)
            for (place,), value in zip(places, values):
                if place >= count:
                    raise Cannot(f"{here} has a sparse value past its end")
                found[place] = value
        if of.get("normalized") and kind != 5126:
            most = COMPONENTS[kind][1]
            found = [tuple(max(-1, part / most) for part in element) for element in found]
        return found

    def elements(self, view, offset, kind, parts, count, here):
        data, stride = self.view(view, here)
        if kind not in COMPONENTS:
            raise Cannot(f"{here} is of no known type")
        form = struct.Struct(f"<{parts}{COMPONENTS[kind][0]}")
        stride = stride or form.size
        if count and offset + (count - 1) * stride + form.size > len(data):
            raise Cannot(f"{here} passes the end of its view")
        if stride == form.size:
            found = list(form.iter_unpack(data[offset : offset + count * stride]))
        else:
            found = [form.unpack_from(data, offset + k * stride) for k in range(count)]
        if kind == 5126 and not all(math.isfinite(part) for element in found for part in element):
            raise Cannot(f"{here} has a number that is none")
        return found

    def picture(self, texture, what):
        """The picture of a texture; pictures.PictureFault where it can't be used."""
        source = self.item("textures", texture, what).get("source")
        if source is None:
            raise pictures.PictureFault("it has no picture of a kind that is read")
        of = self.item("images", source, what)
        data = self.bytes_of(of["uri"], what) if "uri" in of else self.view(of.get("bufferView"), what)[0]
        return pictures.read_picture(data)


# ---------------------------------------------------------------- nodes


def turned_by(x, y, z, w):
    """The transform of a quaternion."""
    length = math.sqrt(x * x + y * y + z * z + w * w) or 1
    x, y, z, w = (part / length for part in (x, y, z, w))
    return (1 - 2 * (y * y + z * z), 2 * (x * y - z * w), 2 * (x * z + y * w), 0,
            2 * (x * y + z * w), 1 - 2 * (x * x + z * z), 2 * (y * z - x * w), 0,
            2 * (x * z - y * w), 2 * (y * z + x * w), 1 - 2 * (x * x + y * y), 0)  # fmt: skip


def local(node, now):
    """A node's transform, with the values that an animation gives it NOW."""
    if "matrix" in node and not now:
        m = node["matrix"]
        return tuple(m[4 * column + row] for row in range(3) for column in range(4))
    sx, sy, sz = now.get("scale", node.get("scale", (1, 1, 1)))
    x, y, z = now.get("translation", node.get("translation", (0, 0, 0)))
    turned = turned_by(*now.get("rotation", node.get("rotation", (0, 0, 0, 1))))
    return then((sx, 0, 0, 0, 0, sy, 0, 0, 0, 0, sz, 0), turned, (1, 0, 0, x, 0, 1, 0, y, 0, 0, 1, z))


def placed(file, now):
    """(node's number, its transform to the world) of the nodes of the scene that have a mesh; NOW: by node, the animated values."""
    scenes = file.json.get("scenes", [])
    if scenes:
        roots = file.item("scenes", file.json.get("scene", 0), "the file").get("nodes", [])
    else:
        inner = {child for node in file.json.get("nodes", []) for child in node.get("children", ())}
        roots = [number for number in range(len(file.json.get("nodes", []))) if number not in inner]
    found, left, seen = [], [(root, None) for root in reversed(roots)], set()
    while left:
        number, above = left.pop()
        node = file.item("nodes", number, "a scene or a node")
        if number in seen:
            raise Cannot(f"{file.path}: nodes[{number}] hangs on two nodes, or on itself")
        seen.add(number)
        try:
            here = local(node, now.get(number, {}))
        except (TypeError, ValueError, IndexError):
            raise Cannot(f"{file.path}: nodes[{number}] has no right matrix, translation, rotation or scale") from None
        here = here if above is None else then(here, above)
        if "mesh" in node:
            found.append((number, here))
        left += [(child, here) for child in reversed(node.get("children", ()))]
    return found


# ---------------------------------------------------------------- animations


def chosen(file, name):
    """The animation of a name or number; the first one where none is named, None where there is none."""
    many = file.json.get("animations", [])
    if name is None or name == "none":
        return many[0] if many and name is None else None
    for number, one in enumerate(many):
        if name in (str(number), one.get("name")):
            return one
    raise Cannot(f"{file.path}: there is no animation {name!r}; there are {', '.join(one.get('name', str(k)) for k, one in enumerate(many)) or 'none'}")


class Animation:
    """Channels: node, path, times, values and the way between them."""

    def __init__(self, file, of, warnings):
        self.channels, self.length = [], 0.0
        for place, channel in enumerate(of.get("channels", [])):
            target, here = channel.get("target", {}), f"{file.path}: channel {place} of the animation"
            if target.get("node") is None:
                continue
            if target.get("path") not in ("translation", "rotation", "scale"):
                warnings.warn(here, f"it moves {target.get('path')}, which is passed over")
                continue
            samplers = of.get("samplers", [])
            if not 0 <= channel.get("sampler", -1) < len(samplers):
                raise Cannot(f"{here} has no sampler")
            sampler = samplers[channel["sampler"]]
            times = [time for (time,) in file.numbers(sampler.get("input"), here)]
            values = file.numbers(sampler.get("output"), here)
            way = sampler.get("interpolation", "LINEAR")
            if not times or len(values) != len(times) * (3 if way == "CUBICSPLINE" else 1) or times != sorted(times):
                raise Cannot(f"{here} has not one value for each time, or times that don't rise")
            self.channels.append((target["node"], target["path"], times, values, way))
            self.length = max(self.length, times[-1])

    def now(self, time):
        """By node the values of its paths at a TIME."""
        found = {}
        for node, path, times, values, way in self.channels:
            found.setdefault(node, {})[path] = sampled(times, values, way, path == "rotation", time)
        return found


def sampled(times, values, way, is_turn, time):
    """The value at a time."""
    cubic = way == "CUBICSPLINE"
    if time <= times[0] or time >= times[-1]:
        place = 0 if time <= times[0] else len(times) - 1
        return values[3 * place + 1] if cubic else values[place]
    after = next(k for k, other in enumerate(times) if other > time)
    before, step = after - 1, times[after] - times[after - 1]
    s = (time - times[before]) / step
    if way == "STEP":
        return values[before]
    if cubic:
        one, leaves, comes, other = values[3 * before + 1], values[3 * before + 2], values[3 * after], values[3 * after + 1]
        a, b, c, d = 2 * s**3 - 3 * s**2 + 1, (s**3 - 2 * s**2 + s) * step, 3 * s**2 - 2 * s**3, (s**3 - s**2) * step
        return tuple(a * p + b * m + c * q + d * n for p, m, q, n in zip(one, leaves, other, comes))
    return between_turns(values[before], values[after], s) if is_turn else tuple(p + (q - p) * s for p, q in zip(values[before], values[after]))


def between_turns(one, other, s):
    """The quaternion on the short way between two."""
    cosine = sum(p * q for p, q in zip(one, other))
    if cosine < 0:
        other, cosine = tuple(-part for part in other), -cosine
    if cosine > 0.9995:
        return tuple(p + (q - p) * s for p, q in zip(one, other))
    angle = math.acos(min(1, cosine))
    a, b = math.sin((1 - s) * angle) / math.sin(angle), math.sin(s * angle) / math.sin(angle)
    return tuple(a * p + b * q for p, q in zip(one, other))
