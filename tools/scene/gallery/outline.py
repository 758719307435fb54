#!/usr/bin/env python3
"""An outline by the stencil: five cubes, of which two have a bright rim.

usage: tools/scene/gallery/outline.py [--output FILE]

A chosen cube sets the stencil where it is drawn. Then the same cube, somewhat larger, is painted in one colour where the
stencil is not set.
"""
from shapes import *

CHOSEN = {1: "ffd166", 3: "06d6a0"}


def make():
    scene = Scene(400, 300)
    scene.frame()
    vertex = scene.layout("vertex", "position:fixed:3", "color0:u8:4")
    scene.program("paint", "color")
    scene.uniform("u_color")
    scene.program("rim", "solid")
    scene.clear(0, SKY)
    scene.view_transform(0, camera(400, 300, 0, 0, 2.3))
    scene.view_transform(1, camera(400, 300, 0, 0, 2.3))
    places = [then(turn("y", 40 * k + 20), turn("x", 30), move(1.1 * (k - 2), 0.75 if k % 2 else -0.75)) for k in range(5)]
    for number, place in enumerate(places):
        scene.vb(f"cube{number}", vertex, painted(place, box(0.55), PALETTE[number + 3]))
    scene.encoder()
    for number in range(5):
        scene.state(depth="less", write_depth=True)
        if number in CHOSEN:
            scene.stencil(stencil("always", 1, both="replace"))
        scene.vertices(f"cube{number}", 0, 36)
        scene.submit(0, "paint")
    for number, color in CHOSEN.items():
        x, y, _ = apply(places[number], (0, 0, 0))
        scene.set_color(color)
        scene.stencil(stencil("notequal", 1))
        # about the cube's own middle
        scene.transform(then(move(-x, -y), scale(1.13, 1.13, 1), move(x, y)))
        scene.vertices(f"cube{number}", 0, 36)
        scene.submit(1, "rim")
    return scene


if __name__ == "__main__":
    script(__doc__, make)
