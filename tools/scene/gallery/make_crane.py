#!/usr/bin/env python3
"""Writes the model of a crane that turns and lifts: crane.gltf, with its bytes and its texture in it.

usage: tools/scene/gallery/make_crane.py [FOLDER]

FOLDER must be there; without it the model goes to examples/models. The model was made for this repository and is in the public domain
(CC0).
"""
import base64
import json
import os
import struct
import sys
import zlib

from shapes import apply, box, cylinder, directed, indexed, move, parser, scale, then, turn
from scene import run  # noqa: I001, found by shapes

SECONDS = 4.0


class Writer:
    """A glTF file in the making: all bytes in one buffer."""

    def __init__(self):
        self.data, self.json = bytearray(), {
            "asset": {"version": "2.0", "copyright": "in the public domain (CC0)", "generator": "tools/scene/gallery/make_crane.py"},
            "scene": 0, "scenes": [{"nodes": [0]}], "nodes": [], "meshes": [], "materials": [], "accessors": [], "bufferViews": [],
        }  # fmt: skip

    def view(self, data):
        self.data += bytes(-len(self.data) % 4)
        self.json["bufferViews"].append({"buffer": 0, "byteOffset": len(self.data), "byteLength": len(data)})
        self.data += data
        return len(self.json["bufferViews"]) - 1

    def accessor(self, kind, rows, code=5126, **more):
        form = {5126: "f", 5123: "H"}[code]
        data = b"".join(struct.pack(f"<{len(row)}{form}", *row) for row in rows)
        self.json["accessors"].append({"bufferView": self.view(data), "componentType": code, "count": len(rows), "type": kind, **more})
        return len(self.json["accessors"]) - 1

    def node(self, name, corners, material, children=(), **more):
        """A node with a mesh of CORNERS (position, normal, texture position); its number."""
        # shapes go with the clock, and glTF's triangles against it
        corners = [corner for k in range(0, len(corners), 3) for corner in (corners[k], corners[k + 2], corners[k + 1])]
        vertices, indices = indexed([tuple(tuple(round(part, 5) for part in attribute) for attribute in corner) for corner in corners])
        points = [vertex[0] for vertex in vertices]
        attributes = {
            "POSITION": self.accessor("VEC3", points, min=[min(line) for line in zip(*points)], max=[max(line) for line in zip(*points)]),
            "NORMAL": self.accessor("VEC3", [vertex[1] for vertex in vertices]),
            "TEXCOORD_0": self.accessor("VEC2", [vertex[2] for vertex in vertices]),
        }
        primitive = {"attributes": attributes, "indices": self.accessor("SCALAR", [(index,) for index in indices], 5123), "material": material}
        self.json["meshes"].append({"name": name, "primitives": [primitive]})
        node = {"name": name, "mesh": len(self.json["meshes"]) - 1, **more}
        self.json["nodes"].append({**node, "children": list(children)} if children else node)
        return len(self.json["nodes"]) - 1

    def material(self, name, color, **more):
        base = {"baseColorFactor": [round((part / 255) ** 2.2, 4) for part in color] + [1], **more}
        self.json["materials"].append({"name": name, "pbrMetallicRoughness": base})
        return len(self.json["materials"]) - 1

    def animate(self, node, path, kind, values):
        times = [(SECONDS * k / (len(values) - 1),) for k in range(len(values))]
        animation = self.json.setdefault("animations", [{"name": "work", "channels": [], "samplers": []}])[0]
        animation["samplers"].append({"input": self.accessor("SCALAR", times, min=[0.0], max=[SECONDS]), "output": self.accessor(kind, values), "interpolation": "LINEAR"})
        animation["channels"].append({"sampler": len(animation["samplers"]) - 1, "target": {"node": node, "path": path}})

    def text(self):
        uri = "data:application/octet-stream;base64," + base64.b64encode(self.data).decode()
        return json.dumps({**self.json, "buffers": [{"byteLength": len(self.data), "uri": uri}]}, indent=1) + "\n"


def stripes():
    """A picture of 8 by 8 pixels with bars that slope, as a PNG."""
    rows = b"".join(b"\0" + b"".join(b"\xff\xd1\x66" if (x + y) % 8 < 4 else b"\x1d\x35\x57" for x in range(8)) for y in range(8))

    def chunk(name, data):
        return struct.pack(">I", len(data)) + name + data + struct.pack(">I", zlib.crc32(name + data))

    head = struct.pack(">IIBBBBB", 8, 8, 8, 2, 0, 0, 0)
    return b"\x89PNG\r\n\x1a\n" + chunk(b"IHDR", head) + chunk(b"IDAT", zlib.compress(rows, 9)) + chunk(b"IEND", b"")


def placed(transform, corners, normals=None, texture=1):
    """Corners after a transform; NORMALS turns their directions, TEXTURE multiplies the height of their texture positions."""
    return [(apply(transform, point), directed(normals or scale(1), normal), (u, v * texture)) for point, normal, (u, v) in corners]


def crane():
    """The model's text."""
    out = Writer()
    out.json.update(images=[{"mimeType": "image/png", "bufferView": out.view(stripes())}], textures=[{"source": 0}])
    red, dark, warn, grass = (out.material("red", (230, 57, 70)), out.material("dark", (29, 53, 87)),
                              out.material("warning", (255, 255, 255), baseColorTexture={"index": 0}), out.material("ground", (138, 201, 38)))  # fmt: skip
    ground = out.node("ground", placed(then(scale(1.6, 0.08, 1.6), move(0, -0.08, 0)), box()), grass)
    out.node("foot", placed(then(scale(0.42, 0.12, 0.42), move(0, 0.12, 0)), box()), dark)
    out.node("tower", placed(move(0, 1.0, 0), cylinder(0.14, 1.8, 16), texture=6), warn)
    load = out.node("load", placed(scale(0.2), box()), red, translation=[1.15, -1, 0])
    rope = out.node("rope", placed(move(0, -0.5, 0), cylinder(0.02, 1, 6)), dark, translation=[1.15, 0, 0])
    weight = out.node("weight", placed(then(scale(0.22, 0.18, 0.22), move(-0.6, 0, 0)), box()), dark)
    arm = out.node("arm", placed(then(turn("z", -90), move(0.35, 0.05, 0)), cylinder(0.09, 2.1, 12, top=0.06), turn("z", -90)), red, [rope, load, weight],
                   translation=[0, 1.95, 0])  # fmt: skip
    out.json["nodes"][ground]["children"] = [1, 2, arm]
    turns = [turned(degrees) for degrees in (0, 60, 120, 180, 240, 300, 360)]
    out.animate(arm, "rotation", "VEC4", turns)
    lengths = (1, 0.5, 1.4, 1)
    out.animate(rope, "scale", "VEC3", [(1, length, 1) for length in lengths])
    out.animate(load, "translation", "VEC3", [(1.15, -length, 0) for length in lengths])
    return out.text()


def turned(degrees):
    """The quaternion of a turn about the y axis."""
    from math import cos, radians, sin

    return (0, round(sin(radians(degrees) / 2), 6), 0, round(cos(radians(degrees) / 2), 6))


def main():
    words = parser(__doc__)
    here = os.path.dirname(os.path.abspath(__file__))
    words.add_argument("folder", nargs="?", metavar="FOLDER", default=os.path.join(here, "..", "..", "..", "examples", "models"))

    def write():
        with open(os.path.join(words.parse_args().folder, "crane.gltf"), "w", encoding="ascii", newline="\n") as file:
            file.write(crane())

    return run("make_crane.py", write)


if __name__ == "__main__":
    sys.exit(main())
