"""gltf_to_scene.py on models that are made here: text and binary, textures, nodes, animations, and what is broken."""
import base64
import json
import os
import struct
import subprocess
import unittest

from shared import PROGRAM, TOP, Folder, pixel, played, run, second_player
from test_obj import png

from scene_parts import gltf, pictures

SCRIPT = "tools/scene/gltf_to_scene.py"
FLAT = ("--side", "0", "--above", "0", "--size", "20", "20", "--ambient", "1", "--background", "000000")
SQUARE = [(-1, -1, 0), (1, -1, 0), (1, 1, 0), (-1, 1, 0)]


class Maker:
    """A glTF file in the making: accessors and views over one buffer."""

    def __init__(self):
        self.data, self.json = bytearray(), {"asset": {"version": "2.0"}, "accessors": [], "bufferViews": [], "materials": [], "meshes": [], "nodes": []}

    def view(self, data, **more):
        self.data += bytes(-len(self.data) % 4)
        self.json["bufferViews"].append({"buffer": 0, "byteOffset": len(self.data), "byteLength": len(data), **more})
        self.data += data
        return len(self.json["bufferViews"]) - 1

    def accessor(self, kind, sign, elements, **more):
        """Elements (numbers, or tuples of them) as an accessor: its number."""
        rows = [element if isinstance(element, tuple) else (element,) for element in elements]
        data = b"".join(struct.pack(f"<{len(row)}{sign}", *row) for row in rows)
        code = {"f": 5126, "H": 5123, "I": 5125, "B": 5121, "b": 5120, "h": 5122}[sign]
        self.json["accessors"].append({"bufferView": self.view(data), "componentType": code, "count": len(rows), "type": kind, **more})
        return len(self.json["accessors"]) - 1

    def mesh(self, primitive, **node):
        """A node with a mesh of one primitive."""
        self.json["meshes"].append({"primitives": [primitive]})
        self.json["nodes"].append({"mesh": len(self.json["meshes"]) - 1, **node})
        return len(self.json["nodes"]) - 1

    def square(self, color=(1, 1, 1, 1), node=(), **material):
        self.json["materials"].append({"pbrMetallicRoughness": {"baseColorFactor": list(color), **material.pop("base", {})}, "extensions": {"KHR_materials_unlit": {}}, **material})
        primitive = {"attributes": {"POSITION": self.accessor("VEC3", "f", SQUARE)}, "indices": self.accessor("SCALAR", "H", [0, 1, 2, 0, 2, 3]), "material": len(self.json["materials"]) - 1}
        self.mesh(primitive, **dict(node))
        return primitive

    def text(self):
        uri = "data:application/octet-stream;base64," + base64.b64encode(self.data).decode()
        return json.dumps({**self.json, "buffers": [{"byteLength": len(self.data), "uri": uri}]})

    def binary(self):
        head = json.dumps({**self.json, "buffers": [{"byteLength": len(self.data)}]}).encode()
        head += b" " * (-len(head) % 4)
        data = bytes(self.data) + bytes(-len(self.data) % 4)
        chunks = struct.pack("<I4s", len(head), b"JSON") + head + struct.pack("<I4s", len(data), b"BIN\0") + data
        return struct.pack("<4sII", b"glTF", 2, 12 + len(chunks)) + chunks


class Script(Folder):
    def made(self, text, *words, status=0, name="m.gltf"):
        path = self.file(name, text)
        found, out, said = run(SCRIPT, *words, path)
        self.assertEqual(found, status, said)
        self.assertNotIn("Traceback", said)
        if status:
            self.assertEqual((out, said.count("\n")), (b"", 1), said)
        return out, said.replace(path, name)

    def drawn(self, text, *words):
        out, said = self.made(text, *FLAT, *words)
        notes, pictures = played(out)
        self.assertTrue(all(note.endswith("dropped 0") for note in notes.splitlines()), notes)
        return pictures, said

    def test_text_and_binary_are_one(self):
        maker = Maker()
        maker.square((0, 1, 0, 1))
        one, two = self.made(maker.text())[0], self.made(maker.binary(), name="m.glb")[0]
        self.assertEqual(one.split(b"\n")[1:], two.split(b"\n")[1:])
        (picture,), said = self.drawn(maker.text())
        self.assertEqual((pixel(picture, 20, 10, 10), pixel(picture, 20, 1, 1), said), ((0, 255, 0), (0, 0, 0), ""))

    def test_buffers_and_pictures_beside_the_file(self):
        maker = Maker()
        places = maker.accessor("VEC2", "f", [(0.0, 1.0), (1.0, 1.0), (1.0, 0.0), (0.0, 0.0)])
        maker.square(base={"baseColorTexture": {"index": 0}})["attributes"]["TEXCOORD_0"] = places
        maker.json.update(textures=[{"source": 0}], images=[{"uri": "two%20colours.png"}])
        self.file("two colours.png", png(2, 2, 2, 8, b"\0\xff\0\0\0\xff\0" + b"\0\0\0\xff\xff\xff\xff"))
        self.file("data.bin", bytes(maker.data))
        text = json.dumps({**maker.json, "buffers": [{"byteLength": len(maker.data), "uri": "data.bin"}]})
        (picture,), _ = self.drawn(text)
        # the first row of the texture is the top, and v goes down
        self.assertEqual([pixel(picture, 20, x, y) for x, y in ((6, 6), (13, 6), (6, 13), (13, 13))], [(255, 0, 0), (0, 255, 0), (0, 0, 255), (255, 255, 255)])
        maker.json["images"] = [{"uri": "nope.png"}]
        self.assertIn("nope.png: No such file", self.made(maker.text(), status=1)[1])
        maker.json["images"] = [{"uri": "data:image/webp;base64,UklGRg=="}]
        self.assertIn("materials[0]: it is no PNG, JPEG or PPM; it is drawn without", self.drawn(maker.text())[1])

    def test_nodes_hang_on_nodes(self):
        maker = Maker()
        maker.square((1, 0, 0, 1), {"translation": [-2, 0, 0]})
        maker.square((0, 0, 1, 1), {"matrix": [0, 1, 0, 0, -1, 0, 0, 0, 0, 0, 1, 0, 2, 0, 0, 1]})
        maker.json["nodes"].append({"children": [0, 1], "rotation": [0, 0, 0.7071067811865476, 0.7071067811865476]})
        maker.json.update(scenes=[{"nodes": [2]}], scene=0)
        (picture,), _ = self.drawn(maker.text())
        self.assertEqual([pixel(picture, 20, 10, y) for y in (4, 16)], [(0, 0, 255), (255, 0, 0)])

    def test_both_sides_and_mirrors(self):
        behind = {"rotation": [0, 1, 0, 0]}
        for node, more, seen in (({}, {}, True), (behind, {}, False), (behind, {"doubleSided": True}, True), ({"scale": [-1, 1, 1]}, {}, True)):
            maker = Maker()
            maker.square((1, 1, 1, 1), node, **more)
            (picture,), _ = self.drawn(maker.text())
            self.assertEqual(pixel(picture, 20, 10, 10) == (255, 255, 255), seen, node)

    def test_half_transparent_parts_come_last_and_from_behind(self):
        maker = Maker()
        for z, color in ((0.5, (0, 1, 0, 0.5)), (-0.5, (1, 0, 0, 0.5)), (-1, (0, 0, 1, 1))):
            maker.square(color, {"translation": [0, 0, z]}, alphaMode="BLEND" if color[3] < 1 else "OPAQUE")
        (picture,), _ = self.drawn(maker.text())
        self.assertEqual(pixel(picture, 20, 10, 10), (64, 128, 63))

    def test_strips_fans_colours_and_whole_numbers(self):
        square = [(-127, -127, 0), (127, -127, 0), (127, 127, 0), (-127, 127, 0)]
        for mode, order in ((5, [0, 1, 3, 2]), (6, [0, 1, 2, 3]), (4, [0, 1, 2, 0, 2, 3])):
            maker = Maker()
            colors = maker.accessor("VEC3", "B", [(255, 0, 255)] * 4, normalized=True)
            maker.mesh({"attributes": {"POSITION": maker.accessor("VEC3", "b", square, normalized=True), "COLOR_0": colors}, "indices": maker.accessor("SCALAR", "B", order), "mode": mode})
            (picture,), _ = self.drawn(maker.text())
            self.assertEqual([pixel(picture, 20, x, y) for x, y in ((6, 6), (13, 6), (6, 13), (13, 13))], [(255, 0, 255)] * 4, mode)

    def test_sparse_and_strided_accessors(self):
        maker = Maker()
        raw = b"".join(struct.pack("<3f4x", *point) for point in [(9, 9, 9), *SQUARE[1:]])
        places, values = maker.view(struct.pack("<H", 0)), maker.view(struct.pack("<3f", *SQUARE[0]))
        maker.json["accessors"].append({"bufferView": maker.view(raw, byteStride=16), "componentType": 5126, "count": 4, "type": "VEC3",
                                        "sparse": {"count": 1, "indices": {"bufferView": places, "componentType": 5123}, "values": {"bufferView": values}}})  # fmt: skip
        maker.mesh({"attributes": {"POSITION": 0}, "indices": maker.accessor("SCALAR", "I", [0, 1, 2, 0, 2, 3])})
        (picture,), _ = self.drawn(maker.text())
        self.assertEqual(pixel(picture, 20, 6, 13), (255, 255, 255))

    def animated(self, path, kind, values, way="LINEAR"):
        maker = Maker()
        maker.square((1, 1, 1, 1), {"translation": [0, 0, 0]})
        maker.square((1, 0, 0, 1), {"translation": [0, -6, 0]})
        maker.json["animations"] = [{"name": "go", "channels": [{"sampler": 0, "target": {"node": 0, "path": path}}],
                                     "samplers": [{"input": maker.accessor("SCALAR", "f", [0.0, 2.0]), "output": maker.accessor(kind, "f", values), "interpolation": way}]}]  # fmt: skip
        return maker

    def test_an_animation_moves_and_keeps_its_buffers(self):
        maker = self.animated("translation", "VEC3", [(-4.0, 0.0, 0.0), (4.0, 0.0, 0.0)])
        out, _ = self.made(maker.text(), *FLAT, "--frames", "4")
        self.assertEqual((out.count(b"\nvb "), out.count(b"\nframe\n"), out.count(b"\ntransform ")), (2, 4, 8))
        pictures = played(out)[1]
        columns = [[x for x in range(20) if pixel(picture, 20, x, 5) == (255, 255, 255)] for picture in pictures]
        self.assertTrue(all(a[0] < b[0] for a, b in zip(columns, columns[1:])), columns)
        with_none = self.made(maker.text(), "--frames", "4", "--animation", "none")[0]
        self.assertEqual(with_none.count(b"view 0 transform"), 4)
        self.assertIn("there is no animation 'nope'; there are go", self.made(maker.text(), "--animation", "nope", status=1)[1])

    def test_ways_between_keys(self):
        self.assertEqual(gltf.sampled([0, 2], [(0,), (4,)], "LINEAR", False, 0.5), (1,))
        self.assertEqual(gltf.sampled([0, 2], [(0,), (4,)], "STEP", False, 1.9), (0,))
        self.assertEqual(gltf.sampled([0, 2], [(0,), (1,), (0,), (0,), (5,), (0,)], "CUBICSPLINE", False, 1), (3,))
        self.assertEqual(gltf.sampled([0, 2], [(0,), (1,), (2,), (0,), (1,), (0,)], "CUBICSPLINE", False, 1), (1 + 2 * 0.125 * 2,))
        half = 0.7071067811865476
        turned = gltf.sampled([0, 1], [(0, 0, 0, 1), (0, 0, -1, 0)], "LINEAR", True, 0.5)
        self.assertTrue(all(abs(a - b) < 1e-9 for a, b in zip(turned, (0, 0, -half, half))) or all(abs(a + b) < 1e-9 for a, b in zip(turned, (0, 0, -half, half))), turned)
        for time, wanted in ((-1, 0), (9, 4)):
            self.assertEqual(gltf.sampled([0, 2], [(0,), (4,)], "LINEAR", False, time), (wanted,))

    def test_warnings_and_strict(self):
        def points(maker):
            maker.mesh({"attributes": {"POSITION": 0}, "mode": 0})

        def cut(maker):
            maker.json["materials"][0]["alphaMode"] = "MASK"

        def morphs(maker):
            maker.json["meshes"][0]["primitives"][0]["targets"] = [{}]

        def skins(maker):
            maker.json["nodes"][0]["skin"] = 0

        for change, said in ((points, "points and lines"), (cut, "a cut-out"), (morphs, "morph targets"), (skins, "its skin")):
            maker = Maker()
            maker.square()
            change(maker)
            self.assertIn(said, self.drawn(maker.text())[1])
            self.assertIn(said, self.made(maker.text(), "--strict", status=1)[1])

    def test_what_is_broken_is_one_line(self):
        def changed(change):
            maker = Maker()
            maker.square()
            change(maker.json)
            return maker.text()

        for change, said in (
            (lambda j: j["asset"].update(version="1.0"), "its version is 1.0"), (lambda j: j.update(extensionsRequired=["KHR_draco_mesh_compression"]), "KHR_draco"),
            (lambda j: j["nodes"][0].update(mesh=7), "names meshes[7]"), (lambda j: j["nodes"][0].update(children=[0]) or j.update(scenes=[{"nodes": [0]}]), "hangs on two nodes"),
            (lambda j: j["accessors"][1].update(count=99), "passes the end"), (lambda j: j["accessors"][0].update(type="VEC9"), "no known type"),
            (lambda j: j["accessors"][0].update(count=1), "has the index 3"), (lambda j: j["bufferViews"][0].update(byteLength=10**6), "passes the end"),
            (lambda j: j["bufferViews"][0].update(buffer=3), "names buffers[3]"), (lambda j: j["meshes"][0]["primitives"][0]["attributes"].clear(), "no positions"),
            (lambda j: j["meshes"][0].update(primitives=[]), "no triangle"), (lambda j: j["nodes"][0].update(matrix=[1]), "no right matrix"),
            (lambda j: j["nodes"][0].update(scale=["x", 1, 1]), "m.gltf"), (lambda j: j.update(scenes=[{"nodes": [5]}]), "names nodes[5]"),
            (lambda j: j["materials"][0].update(pbrMetallicRoughness={"baseColorFactor": [1, 2]}), "base colour"), (lambda j: j.update(nodes=7), "m.gltf"),
        ):  # fmt: skip
            self.assertIn(said, self.made(changed(change), status=1)[1])
        for text, said in (("{", "no glTF"), ("[]", "version is None"), (b"glTF\2\0\0\0", "no binary"), (b"\xff\xfe", "no glTF"), ("", "no glTF")):
            self.assertIn(said, self.made(text, status=1)[1])
        self.assertEqual(run(SCRIPT, "/nope.glb")[::2], (1, "gltf_to_scene.py: /nope.glb: No such file or directory\n"))

    def test_the_crane_is_the_one_that_is_kept(self):
        self.assertEqual(run("tools/scene/gallery/make_crane.py", self.folder)[0], 0)
        kept = os.path.join(TOP, "examples", "models", "crane.gltf")
        with open(os.path.join(self.folder, "crane.gltf"), "rb") as file, open(kept, "rb") as other:
            self.assertEqual(file.read(), other.read())
        status, out, said = run(SCRIPT, "--strict", "--frames", "24", "--size", "200", "150", "--zoom", "1.5", "--background", "8ecae6", kept)
        self.assertEqual((status, said, out.count(b"\nframe\n"), out.count(b"\nvb ")), (0, "", 24, 7))
        if PROGRAM:
            frames = subprocess.run([PROGRAM, "play"], input=out, stdout=subprocess.PIPE, stderr=subprocess.DEVNULL).stdout
            size = len(b"P6\n200 150\n255\n") + 3 * 200 * 150
            shown = [frames[k * size + size - 3 * 200 * 150 : (k + 1) * size] for k in (0, 4, 8, 12)]
            strip = b"".join(picture[600 * row : 600 * row + 600] for row in range(150) for picture in shown)
            data = pictures.load(os.path.join(TOP, "docs", "use", "pictures", "crane.png")).data
            self.assertEqual(b"".join(data[at : at + 3] for at in range(0, len(data), 4)), strip)

    def test_perspective(self):
        maker = self.animated("translation", "VEC3", [(-4.0, 0.0, 0.0), (4.0, 0.0, 0.0)])
        pictures, said = self.drawn(maker.text(), "--frames", "4", "--perspective", "40")
        columns = [[x for x in range(20) if pixel(picture, 20, x, 5) == (255, 255, 255)] for picture in pictures]
        self.assertTrue(all(a and b and a[0] < b[0] for a, b in zip(columns, columns[1:])), columns)
        self.assertEqual(said, "")

    def test_large_meshes_are_cut_into_buffers(self):
        side = 160
        maker = Maker()
        points = [(float(x), float(y), 0.0) for y in range(side) for x in range(side)]
        order = [k for y in range(side - 1) for x in range(side - 1) for k in (y * side + x, y * side + x + 1, (y + 1) * side + x + 1)]
        maker.mesh({"attributes": {"POSITION": maker.accessor("VEC3", "f", points), "NORMAL": maker.accessor("VEC3", "f", [(0.0, 0.0, 1.0)] * len(points))}, "indices": maker.accessor("SCALAR", "I", order)})
        out, _ = self.made(maker.text())
        scene, _ = second_player.read_scene(out)
        self.assertEqual(out.count(b"\nvb "), 2)
        self.assertEqual(second_player.report(second_player.plans(scene)), b"frame 0 items 2 dropped 0\n")
        self.assertLess(max(len(line) for line in out.split(b"\n")), 2 * 524_288 + 100)


if __name__ == "__main__":
    unittest.main()
