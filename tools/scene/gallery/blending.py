#!/usr/bin/env python3
"""Blending and its orders: six panels of the same three discs over the same stripes.

usage: tools/scene/gallery/blending.py [--output FILE]

Above: alpha in the order of the text, alpha with the greatest depth first, and in the default mode, which draws what does
not blend first. Below: the discs added, multiplied, and the greater of both.
"""
from shapes import *

DISCS = [("e63946", -0.25, 0.2), ("8ac926", 0.25, 0.2), ("3a86ff", 0, -0.25)]
PANELS = [("sequential", ["alpha"] * 3), ("descending", ["alpha"] * 3), ("default", ["alpha", "alpha", "none"]),
          ("sequential", ["add"] * 3), ("sequential", ["multiply"] * 3), ("sequential", ["lighten"] * 3)]


def make():
    scene = Scene(400, 300)
    scene.frame()
    vertex = scene.layout("vertex", "position:fixed:2", "color0:u8:4")
    scene.program("paint", "color")
    for panel, (mode, _) in enumerate(PANELS):
        x, y = 8 + 130 * (panel % 3), 8 + 144 * (panel // 3)
        for view in (2 * panel, 2 * panel + 1):
            scene.rect(view, x, y, 124, 140)
        scene.clear(2 * panel, "495057ff")
        scene.mode(2 * panel + 1, mode)
    scene.encoder()
    for panel, (_, blends) in enumerate(PANELS):
        # the stripes, in a view of their own, which comes before that of the discs
        for k in range(7):
            stripe = quad(-1 + k * 2 / 7, 1, -1 + (k + 0.5) * 2 / 7, -1)
            scene.tvertices(vertex, [(corner, rgba("ced4da")) for corner in stripe])
            scene.submit(2 * panel, "paint")
        for number, ((color, x, y), blend) in enumerate(zip(DISCS, blends)):
            alpha = 160 if blend == "alpha" else 255
            scene.state(blend=blend)
            scene.tvertices(vertex, [(corner, rgba(color)[:3] + (alpha,)) for corner in disc(x, y, 0.48, 140 / 124)])
            scene.submit(2 * panel + 1, "paint", number)
    return scene


if __name__ == "__main__":
    script(__doc__, make)
