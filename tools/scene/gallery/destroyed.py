#!/usr/bin/env python3
"""A texture that is destroyed while frames use it: six frames, up to three of which are out at once.

usage: tools/scene/gallery/destroyed.py [--output FILE]

Each frame adds a square to the picture by the texture `old`, and one above it by `kept`. `old` is destroyed in frame 3,
before the encoder records: frame 3 still draws it. From frame 4 on the line that binds it is dropped as stale, the notes
count it, and the square is painted without a texture, which is black. So the frames that were given before, and may be
drawn later, keep what they named.
"""
from shapes import *


def make():
    scene = Scene(400, 300, version=2, latency=3)
    for frame in range(6):
        scene.frame()
        if frame == 0:
            vertex = scene.layout("vertex", "position:fixed:2", "texcoord0:fixed:2")
            scene.program("show", "texture")
            scene.texture("kept", 16, 16, tile())
            scene.texture("old", 16, 16, tile(16, "ffe8d6", "e63946", "6a040f"))
            scene.clear(0, SKY)
        if frame == 1:
            scene.clear(0, SKY, 0)
        if frame == 3:
            scene.destroy("old")
        scene.encoder()
        for name, top in (("kept", 90), ("old", 160)):
            left = 20 + 61 * frame
            corners = quad(*at_pixel(left, top, 400, 300), *at_pixel(left + 54, top + 54, 400, 300))
            scene.bind(0, name)
            scene.tvertices(vertex, list(zip(corners, QUAD_TEXTURE)))
            scene.submit(0, "show")
    return scene


if __name__ == "__main__":
    # the page on dropped lines and a proof name the lines of this scene by their numbers
    script(__doc__, make, is_signed_last=True)
