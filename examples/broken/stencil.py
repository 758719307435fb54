#!/usr/bin/env python3
"""Broken on purpose: the blue disc should be seen within the diamond, and nothing of it is. docs/use/debugging.md says why."""
import math

from scene import *

scene = Scene(240, 240)
scene.frame()
corner = scene.layout("corner", "position:fixed:2")
scene.program("paint", "solid")
scene.uniform("u_color")
scene.clear(0, "14213d")
scene.mode(0, "sequential")
scene.encoder()


def draw(corners, color, word, **how):
    scene.state(**how)
    scene.stencil(word)
    scene.set_color(color)
    scene.tvertices(corner, [(place,) for place in corners])
    scene.submit(0, "paint")


# the diamond sets the stencil, and no colour
draw([(-0.6, 0), (0, 0.6), (0.6, 0), (-0.6, 0), (0.6, 0), (0, -0.6)], "ffffff", stencil("always", 1, both="replace"), write="")
# the disc is drawn where the diamond was
rim = [(0.5 * math.cos(k * math.pi / 20), 0.5 * math.sin(k * math.pi / 20)) for k in range(41)]
draw([place for a, b in zip(rim, rim[1:]) for place in ((0, 0), a, b)], "3a86ff", stencil("equal", 2))
print(scene.text(), end="")
