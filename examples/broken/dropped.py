#!/usr/bin/env python3
"""Broken on purpose: the right square should show a copy of the left one's picture, and is black. docs/use/debugging.md says why."""
from scene import *


def square(view, name, left):
    """Draws a square with a texture."""
    scene.bind(0, name)
    scene.tvertices(corner, list(zip(quad(left, 0.8, left + 0.8, -0.8), QUAD_TEXTURE)))
    scene.submit(view, "paint")


scene = Scene(240, 120)
scene.frame()
corner = scene.layout("corner", "position:fixed:2", "texcoord0:fixed:2")
scene.program("paint", "texture")
checks = ["ffd166" if (x // 4 + y // 4) % 2 else "e63946" for y in range(16) for x in range(16)]
scene.texture("picture", 16, 16, checks)
scene.texture("copy", 16, 16, blit=True)
scene.clear(0, "14213d")
scene.encoder()
square(0, "picture", -0.9)
scene.beside()
scene.destroy("picture")
scene.frame()
scene.encoder()
scene.blit(1, "copy", 0, 0, "picture", 0, 0, 16, 16)
square(1, "copy", 0.1)
print(scene.text(), end="")
