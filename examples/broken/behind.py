#!/usr/bin/env python3
"""Broken on purpose: a yellow label should stand on the red plate, and half of it is missing. docs/use/debugging.md says why."""
from scene import *

scene = Scene(240, 120)
scene.frame()
corner = scene.layout("corner", "position:fixed:3")
scene.program("paint", "solid")
scene.uniform("u_color")
scene.clear(0, "14213d")
scene.encoder()


def draw(corners, color):
    scene.state(depth="less", write_depth=True)
    scene.set_color(color)
    scene.tvertices(corner, [(place,) for place in corners])
    scene.submit(0, "paint")


# the plate leans: its left side is near, its right side far
draw([(x, y, 0.2 + 0.3 * (x + 0.8) / 1.6) for x, y in quad(-0.8, 0.8, 0.8, -0.8)], "e63946")
# the label is upright, and has one depth
draw(quad(-0.4, 0.2, 0.4, -0.2, 0.35), "ffd166")
print(scene.text(), end="")
