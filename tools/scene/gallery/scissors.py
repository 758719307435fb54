#!/usr/bin/env python3
"""Scissors: one field of discs in three palettes, each cut to windows.

usage: tools/scene/gallery/scissors.py [--output FILE]

View 0 draws the field in grey, uncut. In view 1 each draw has a scissor of its own: a tall window each. View 2 has a
scissor for the whole view, the wide window at the bottom, and one draw of it a scissor besides: it shows where both agree.
"""
from shapes import *


CORNERS = 24


def field(palette):
    """The vertices of the field in one palette: of each disc its middle and its rim."""
    vertices = []
    for row in range(6):
        for column in range(8):
            x, y = -0.875 + 0.25 * column, 0.83 - 0.333 * row
            color = rgba(palette[(row * 3 + column) % len(palette)])
            rim = disc(x, y, 0.15, 0.75, CORNERS)[1::3]
            vertices += [(corner, color) for corner in [(x, y), *rim]]
    return vertices


def triangles():
    """The indices of all discs."""
    indices = []
    for first in range(0, 48 * (CORNERS + 1), CORNERS + 1):
        for k in range(CORNERS):
            indices += [first, first + 1 + k, first + 1 + (k + 1) % CORNERS]
    return indices


def make():
    scene = Scene(400, 300)
    scene.frame()
    vertex = scene.layout("vertex", "position:fixed:2", "color0:u8:4")
    scene.program("paint", "color")
    palettes = {"grey": ["343a40", "495057", "6c757d"], "bright": PALETTE, "blue": ["90e0ef", "00b4d8", "caf0f8"]}
    for name, palette in palettes.items():
        scene.vb(name, vertex, field(palette))
    indices = triangles()
    scene.ib("discs", indices)

    def draw(view, name, depth=0):
        scene.vertices(name, 0, 48 * (CORNERS + 1))
        scene.indices("discs", 0, len(indices))
        scene.submit(view, "paint", depth)

    scene.clear(0, "212529ff")
    scene.view_scissor(2, 20, 215, 360, 70)
    scene.encoder()
    draw(0, "grey")
    for window in range(4):
        scene.scissor(30 + 90 * window, 15 + 20 * (window % 2), 70, 165)
        draw(1, "bright")
    draw(2, "blue", 0)
    scene.scissor(150, 0, 100, 300)
    draw(2, "bright", 1)
    return scene


if __name__ == "__main__":
    script(__doc__, make)
