#!/usr/bin/env python3
"""Broken on purpose: two encoders draw over each other, and the picture is another one from run to run. docs/use/debugging.md says why."""
from scene import *

scene = Scene(240, 120, encoders=2)
scene.frame()
corner = scene.layout("corner", "position:fixed:2")
scene.program("paint", "solid")
scene.uniform("u_color")
scene.clear(0, "14213d")
for number, (left, color) in enumerate(((-0.7, "e63946"), (-0.3, "3a86ff"))):
    scene.encoder(number)
    scene.set_color(color)
    scene.tvertices(corner, [(place,) for place in quad(left, 0.6, left + 1, -0.6)])
    scene.submit(0, "paint")
print(scene.text(), end="")
