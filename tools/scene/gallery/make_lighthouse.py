#!/usr/bin/env python3
"""Writes the model of a lighthouse: lighthouse.obj, lighthouse.mtl and the texture lighthouse.ppm.

usage: tools/scene/gallery/make_lighthouse.py [FOLDER]

FOLDER must be there; without it they go to examples/models. The model was made for this repository and is in the public domain (CC0).
"""
import math
import os
import sys

from shapes import parser
from scene import run  # noqa: I001, found by shapes

SIDES = 20


class Writer:
    """The lines of an OBJ file, with the places of its vertices counted."""

    def __init__(self):
        self.lines, self.points, self.places = [], 0, 0

    def material(self, name):
        self.lines.append(f"usemtl {name}")

    def point(self, x, y, z):
        self.lines.append(f"v {x:.4f} {y:.4f} {z:.4f}")
        self.points += 1
        return self.points

    def place(self, u, v):
        self.lines.append(f"vt {u:.4f} {v:.4f}")
        self.places += 1
        return self.places

    def face(self, *corners):
        self.lines.append("f " + " ".join(str(one) for one in corners))

    def ring(self, radius, y, rough=0.0):
        """A ring of vertices about the axis; ROUGH bends it in and out."""
        found = []
        for k in range(SIDES):
            reach = radius * (1 + rough * (math.sin(3.1 * k) + math.sin(1.7 * k + radius)))
            angle = 2 * math.pi * k / SIDES
            found.append(self.point(reach * math.cos(angle), y, reach * math.sin(angle)))
        return found

    def band(self, low, high):
        for k in range(SIDES):
            n = (k + 1) % SIDES
            self.face(low[k], high[k], high[n], low[n])

    def cap(self, ring, y):
        top = self.point(0, y, 0)
        for k in range(SIDES):
            n = (k + 1) % SIDES
            self.face(ring[k], top, ring[n])

    def tower(self, low_radius, high_radius, low, high):
        """A band with the texture once round and once up."""
        bottom, top = self.ring(low_radius, low), self.ring(high_radius, high)
        places = [(self.place(4 * k / SIDES, 0), self.place(4 * k / SIDES, 1)) for k in range(SIDES + 1)]
        for k in range(SIDES):
            n = (k + 1) % SIDES
            self.face(f"{bottom[k]}/{places[k][0]}", f"{top[k]}/{places[k][1]}", f"{top[n]}/{places[k + 1][1]}", f"{bottom[n]}/{places[k + 1][0]}")
        return top

    def block(self, x, y, z, width, height, depth):
        a = [self.point(x + i * width, y + j * height, z + k * depth) for i in (0, 1) for j in (0, 1) for k in (0, 1)]
        for face in ((0, 1, 3, 2), (4, 6, 7, 5), (0, 4, 5, 1), (2, 3, 7, 6), (1, 5, 7, 3), (0, 2, 6, 4)):
            self.face(*(a[i] for i in face))
        return a


def lighthouse():
    """The lines of the model."""
    out = Writer()
    out.lines += ["# A lighthouse, in the public domain (CC0). Made by tools/scene/gallery/make_lighthouse.py.", "mtllib lighthouse.mtl", "o lighthouse"]
    out.material("sea")
    sea = out.ring(2.3, -0.42)
    out.cap(sea, -0.42)
    out.material("rock")
    foot, shore, top = out.ring(1.75, -0.6, 0.06), out.ring(1.5, -0.2, 0.08), out.ring(1.1, 0, 0.05)
    out.band(foot, shore)
    out.material("grass")
    out.band(shore, top)
    out.cap(top, 0.08)
    out.material("wall")
    out.tower(0.46, 0.3, 0, 2.1)
    out.material("iron")
    low, high = out.ring(0.44, 2.1), out.ring(0.44, 2.2)
    out.cap(low, 2.1)
    out.band(low, high)
    out.cap(high, 2.2)
    out.material("lamp")
    low, high = out.ring(0.24, 2.2), out.ring(0.24, 2.52)
    out.band(low, high)
    out.material("roof")
    eaves = out.ring(0.36, 2.5)
    out.cap(eaves, 2.9)
    out.material("house")
    out.block(0.35, -0.05, 0.15, 0.62, 0.42, 0.46)
    out.material("roof")
    a = [out.point(x, y, z) for x, y, z in ((0.3, 0.37, 0.1), (1.02, 0.37, 0.1), (1.02, 0.37, 0.66), (0.3, 0.37, 0.66), (0.3, 0.65, 0.38), (1.02, 0.65, 0.38))]
    for face in ((0, 4, 5, 1), (3, 2, 5, 4), (0, 3, 4), (1, 5, 2)):
        out.face(*(a[i] for i in face))
    return out.lines


MATERIALS = {"sea": (0.13, 0.42, 0.62), "rock": (0.45, 0.42, 0.42), "grass": (0.42, 0.65, 0.27), "iron": (0.2, 0.22, 0.26),
             "lamp": (1.0, 0.87, 0.4), "roof": (0.8, 0.2, 0.2), "house": (0.96, 0.92, 0.84)}


def texture():
    """The tower's texture, 16 by 40: bands of red and white with rows of bricks."""
    rows = []
    for row in range(40):
        band = (214, 60, 60) if row // 8 % 2 == 0 else (245, 240, 232)
        row_texels = []
        for column in range(16):
            joint = row % 4 == 3 or (column + 4 * (row // 4 % 2)) % 8 == 7
            row_texels.append(" ".join(str(part * (84 if joint else 100) // 100) for part in band))
        rows.append("  ".join(row_texels))
    return ["P3", "# the tower of lighthouse.obj, in the public domain (CC0)", "16 40", "255", *rows]


def main():
    words = parser(__doc__)
    here = os.path.dirname(os.path.abspath(__file__))
    words.add_argument("folder", nargs="?", metavar="FOLDER", default=os.path.join(here, "..", "..", "..", "examples", "models"))
    return run("make_lighthouse.py", lambda: write(words.parse_args().folder))


def write(folder):
    """Writes the three files into a folder that is there."""
    materials = ["# the materials of lighthouse.obj, in the public domain (CC0)", "newmtl wall", "Kd 1 1 1", "map_Kd lighthouse.ppm"]
    for name, color in MATERIALS.items():
        materials += [f"newmtl {name}", "Kd " + " ".join(map(str, color))]
    for name, lines in (("obj", lighthouse()), ("mtl", materials), ("ppm", texture())):
        with open(os.path.join(folder, f"lighthouse.{name}"), "w", encoding="ascii", newline="\n") as file:
            file.write("\n".join(lines) + "\n")


if __name__ == "__main__":
    sys.exit(main())
