"""obj_to_scene.py: faces, fits, warnings, and what it refuses."""
import os
import random
import struct
import unittest
import zlib

from shared import Folder, pixel, played, run

from scene_parts import models, pictures

SCRIPT = "tools/scene/obj_to_scene.py"
SQUARE = "v -1 -1 0\nv 1 -1 0\nv 1 1 0\nv -1 1 0\n"
FLAT = ("--side", "0", "--above", "0", "--size", "20", "20", "--ambient", "1")


def png(width, height, kind, depth, rows, interlaced=0, **more):
    """A PNG of rows that are filtered already; MORE are chunks."""
    def chunk(name, data):
        return struct.pack(">I", len(data)) + name + data + struct.pack(">I", zlib.crc32(name + data))

    head = chunk(b"IHDR", struct.pack(">IIBBBBB", width, height, depth, kind, 0, 0, interlaced))
    others = b"".join(chunk(name.encode(), data) for name, data in more.items())
    return b"\x89PNG\r\n\x1a\n" + head + others + chunk(b"IDAT", zlib.compress(rows)) + chunk(b"IEND", b"")


class Pictures(unittest.TestCase):
    def test_kinds_of_png(self):
        for made, wanted in (
            (png(2, 1, 2, 8, b"\0\x01\x02\x03\x04\x05\x06"), "010203ff040506ff"),
            (png(2, 1, 6, 8, b"\0\x01\x02\x03\x80\x04\x05\x06\x07"), "0102038004050607"),
            (png(2, 1, 0, 8, b"\0\x10\x20"), "101010ff202020ff"),
            (png(2, 1, 4, 8, b"\0\x10\x20\x30\x40"), "1010102030303040"),
            (png(9, 1, 0, 1, b"\0\xa0\x80"), "ffffffff000000ffffffffff" + "000000ff" * 5 + "ffffffff"),
            (png(3, 1, 3, 2, b"\0\x1b", PLTE=bytes(range(12)), tRNS=b"\x00\x80"), "000102000304058006070" + "8ff"),
            (png(1, 1, 2, 16, b"\0\x12\x34\x56\x78\x9a\xbc"), "12569aff"),
            (png(2, 1, 0, 4, b"\0\x1f", tRNS=b"\x00\x01"), "11111100ffffffff"),
            (png(1, 1, 2, 8, b"\0\x01\x02\x03", tRNS=b"\x00"), "010203ff"),
        ):
            self.assertEqual(pictures.read_png(made).data.hex(), wanted)

    def test_filters(self):
        """Each row by another filter: what comes out is what was filtered."""
        chance = random.Random(5)
        width, rows, raw, above = 7, [], b"", bytes(21)
        for way in (0, 1, 2, 3, 4, 4, 3, 2, 1):
            line = bytes(chance.randrange(256) for _ in range(3 * width))
            coded = []
            for k, byte in enumerate(line):
                a, b, c = (line[k - 3] if k >= 3 else 0), above[k], (above[k - 3] if k >= 3 else 0)
                p = a + b - c
                paeth = a if abs(p - a) <= abs(p - b) and abs(p - a) <= abs(p - c) else b if abs(p - b) <= abs(p - c) else c
                coded.append((byte - (0, a, b, (a + b) // 2, paeth)[way]) & 255)
            raw += bytes([way, *coded])
            rows.append(line)
            above = line
        data = pictures.read_png(png(width, len(rows), 2, 8, raw)).data
        self.assertEqual(b"".join(data[4 * k : 4 * k + 3] for k in range(len(data) // 4)), b"".join(rows))

    def test_interlaced(self):
        width, height = 11, 9
        values = [[(7 * x + 31 * y) % 256 for x in range(width)] for y in range(height)]
        raw = b"".join(b"\0" + bytes(values[r][x::dx]) for x, y, dx, dy in pictures.PASSES if x < width for r in range(y, height, dy))
        data = pictures.read_png(png(width, height, 0, 8, raw, 1)).data
        self.assertEqual(list(data[0::4]), [value for row in values for value in row])

    def test_broken_ones_are_told(self):
        whole = png(2, 2, 2, 8, b"\0\x01\x02\x03\x04\x05\x06" * 2)
        for broken in (whole[:20], whole[:-30], png(2, 2, 2, 8, b"\0\x01"), png(2, 1, 2, 8, b"\x05\x01\x02\x03\x04\x05\x06"), png(0, 1, 2, 8, b""), png(1, 1, 5, 8, b"\0\0"),
                       png(99999, 1, 2, 8, b""), b"", b"GIF89a", b"P6\n2 2\n255\n12", b"P6\n2 2\n65535\n", b"P3 x"):  # fmt: skip
            with self.assertRaises(pictures.PictureFault):
                pictures.read_picture(broken)

    def test_halving(self):
        picture = pictures.Picture(4, 2, bytes(range(32))).within(2)
        self.assertEqual((picture.width, picture.height, picture.data[:4].hex()), (2, 2, "02030405"))


class Faces(unittest.TestCase):
    def test_faces_are_cut_rightly(self):
        """The areas of the triangles make that of the face, none is turned round, whatever its plane and where it begins."""
        shapes = [
            [(0, 0), (4, 0), (4, 4), (2, 1), (0, 4)],
            [(0, 0), (3, 0), (3, 1), (1, 1), (1, 2), (3, 2), (3, 3), (0, 3)],
            [(0, 0), (1, 0), (2, 0), (2, 2), (1, 0.5), (0, 2)],
            [(2, 0), (0.5, 0.5), (0, 2), (-0.5, 0.5), (-2, 0), (-0.5, -0.5), (0, -2), (0.5, -0.5)],
        ]
        planes = [lambda x, y: (x, y, 0), lambda x, y: (y, x, 1), lambda x, y: (0, x, y), lambda x, y: (x, x + y, y - x)]
        for shape in shapes:
            for plane in planes:
                for start in range(len(shape)):
                    points = [plane(x, y) for x, y in shape[start:] + shape[:start]]
                    flat = shape[start:] + shape[:start]
                    found = models.cut_face(points)
                    areas = [models.turned(*(flat[k] for k in triangle)) for triangle in found]
                    whole = sum(a[0] * b[1] - a[1] * b[0] for a, b in zip(flat, flat[1:] + flat[:1]))
                    self.assertEqual(len(found), len(shape) - 2)
                    self.assertTrue(all(area >= 0 for area in areas))
                    self.assertAlmostEqual(sum(areas), whole)

    def test_faces_without_area_are_no_fault(self):
        self.assertEqual(len(models.cut_face([(0, 0, 0)] * 5)), 3)
        self.assertEqual(len(models.cut_face([(0, 0, 0), (2, 2, 0), (2, 0, 0), (0, 2, 0)])), 2)


class Script(Folder):
    def made(self, text, *words, status=0):
        path = self.file("m.obj", text)
        found, out, said = run(SCRIPT, *words, path)
        self.assertEqual(found, status, said)
        self.assertNotIn("Traceback", said)
        return out, said.replace(path, "m.obj")

    def test_a_notch_stays_open(self):
        out, _ = self.made("v -1 -1 0\nv 1 -1 0\nv 1 1 0\nv 0 -0.5 0\nv -1 1 0\nf 1 2 3 4 5\n", *FLAT)
        _, (picture,) = played(out)
        self.assertEqual(pixel(picture, 20, 10, 6), (0x14, 0x21, 0x3D))
        self.assertNotEqual(pixel(picture, 20, 4, 9), (0x14, 0x21, 0x3D))
        self.assertNotEqual(pixel(picture, 20, 10, 15), (0x14, 0x21, 0x3D))

    def test_vertices_that_no_face_uses_do_not_count(self):
        plain, _ = self.made(SQUARE + "f 1 2 3 4\n", *FLAT)
        stray, _ = self.made(SQUARE + "v 1000 1000 1000\nf 1 2 3 4\n", *FLAT)
        self.assertEqual(plain, stray)

    def test_warnings_and_strict(self):
        face = SQUARE + "f 1 2 3 4\n"
        for text, said in (
            ("mtllib nope.mtl\n" + face, "m.obj, line 1: there is no file"), ("usemtl x\n" + face, "m.obj, line 1: there is no material 'x'"),
            (face + "l 1 2\n", "m.obj, line 6: lines and points"), (face + "curv 1 2\n", "m.obj, line 6: curves"), (face + "cap 1\n", "'cap' is no word"),
            (face + "f 1 2\n", "m.obj, line 6: a face has three corners"),
        ):  # fmt: skip
            out, warned = self.made(text, *FLAT)
            self.assertIn("warning: ", warned)
            self.assertIn(said, warned)
            self.assertTrue(out.endswith(b"done\n"))
            out, warned = self.made(text, "--strict", *FLAT, status=1)
            self.assertEqual((out, warned.count("\n")), (b"", 1))
        self.assertEqual(self.made("\ufeff# mark\r\n" + face.replace("\n", "\r\n") + "lod 3\ns off\n", *FLAT)[1], "")

    def test_textures(self):
        self.file("red.png", png(1, 1, 2, 8, b"\0\xff\0\0"))
        self.file("m.mtl", "newmtl a\nmap_Kd red.png\nnewmtl b\nKd 0 1 0\nmap_Kd nope.png\nnewmtl c\nmap_Kd -s 1 1 1 red.png\n")
        for name, color, warned in (("a", (255, 0, 0), ""), ("b", (0, 255, 0), "m.mtl, line 5: "), ("c", (255, 0, 0), "m.mtl, line 7: ")):
            out, said = self.made(f"mtllib m.mtl\nusemtl {name}\n" + SQUARE + "f 1 2 3 4\n", *FLAT)
            self.assertEqual(pixel(played(out)[1][0], 20, 10, 10), color)
            self.assertTrue(warned in said)

    def test_refusals_name_the_line(self):
        face = SQUARE + "f 1 2 3 4\n"
        for text, said in (
            ("v 1 2\n", "m.obj, line 1: 3 numbers"), ("v 1 2 x\n", "no numbers"), (SQUARE + "f 1 2 9\n", "line 5: '9' names"), (SQUARE + "f 1 2 q\n", "no corner"),
            (SQUARE, "no face"), ("v 1 2 nan\n", "numbers are wanted"), ("v 1.7e308 0 0\nv -1.7e308 0 0\nv 0 1.7e308 1.7e308\nf 1 2 3\n", "too large"), ("", "no face"),
        ):  # fmt: skip
            out, told = self.made(text, status=1)
            self.assertIn(said, told)
            self.assertEqual((out, told.count("\n")), (b"", 1))
        for words, said in ((("--zoom", "1e9"), "--zoom"), (("--ambient", "7"), "--ambient"), (("--background", "zz"), "--background"), (("--side", "inf"), "--side"),
                            (("--size", "0", "5"), "--size"), (("--frames", "2000"), "--frames"), (("--texels", "0"), "--texels"), (("--zoom", "nan"), "--zoom")):  # fmt: skip
            self.assertIn(said, self.made(face, *words, status=1)[1])
        self.assertEqual(run(SCRIPT, "/nope.obj")[::2], (1, "obj_to_scene.py: /nope.obj: No such file or directory\n"))
        self.assertEqual(run(SCRIPT, self.file("x.obj", face), "--output", "/nope/x")[::2], (1, "obj_to_scene.py: /nope/x: No such file or directory\n"))

    def test_perspective(self):
        """A square that is far away is smaller than one that is near, by just the share of the distances."""
        text = "".join(f"v {x + c} {y} {z}\n" for c, z in ((-1.5, 1), (1.5, -1)) for x, y in ((-1, -1), (1, -1), (1, 1), (-1, 1))) + "f 1 2 3 4\nf 5 6 7 8\n"
        out, _ = self.made(text, "--side", "0", "--above", "0", "--size", "200", "100", "--perspective", "60", "--frames", "3", "--background", "000000")
        notes, pictures = played(out)
        self.assertEqual(notes, "".join(f"frame {k} items 1 dropped 0\n" for k in range(3)))
        rows = [[y for y in range(100) if pixel(pictures[0], 200, x, y) != (0, 0, 0)] for x in (74, 118)]
        reach = (1.5**2 + 1 + 1 + 2.5**2 - 1.5**2) ** 0.5
        away = 1.05 / 0.5
        wanted = [100 / reach / (away - z / reach) / 0.5773503 for z in (1, -1)]
        self.assertTrue(all(abs(len(found) - part) <= 1 for found, part in zip(rows, wanted)), (rows, wanted))
        self.assertEqual((out.count(b"\nvb "), out.count(b"\ndestroy ")), (3, 4))
        self.assertIn("--perspective", self.made(text, "--perspective", "170", status=1)[1])

    def test_the_lighthouse_is_the_one_that_is_kept(self):
        with open(os.path.join(os.path.dirname(__file__), "..", "..", "..", "examples", "lighthouse.scene"), "rb") as file:
            self.assertEqual(run(SCRIPT, "--zoom", "1.15", "examples/models/lighthouse.obj")[1], file.read())


if __name__ == "__main__":
    unittest.main()
