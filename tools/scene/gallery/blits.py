#!/usr/bin/env python3
"""Blits: a picture, and beside it the same picture cut into sixteen pieces and put together wrongly.

usage: tools/scene/gallery/blits.py [--output FILE]

Fifteen blits copy a piece each from one texture to the other; the sixteenth place keeps the texture's fill.
"""
from shapes import *

SIDE = 88
ORDER = [6, 1, 11, 3, 0, 5, 14, 7, 8, 2, 10, 4, 12, 9, 13]


def make():
    scene = Scene(400, 300)
    scene.frame()
    vertex = scene.layout("vertex", "position:fixed:2", "texcoord0:fixed:2")
    scene.program("show", "texture")
    scene.texture("picture", SIDE, SIDE, painting(SIDE))
    scene.texture("puzzle", SIDE, SIDE, fill="212529ff", blit=True)
    scene.clear(0, "adb5bdff")
    scene.encoder()
    piece = SIDE // 4
    for place, number in enumerate(ORDER):
        x, y = place % 4 * piece, place // 4 * piece
        scene.blit(0, "puzzle", x + 1, y + 1, "picture", number % 4 * piece, number // 4 * piece, piece - 2, piece - 2)
    for name, left in (("picture", 16), ("puzzle", 208)):
        # each texel is two by two pixels
        corners = quad(*at_pixel(left, 62, 400, 300), *at_pixel(left + 2 * SIDE, 62 + 2 * SIDE, 400, 300))
        scene.bind(0, name)
        scene.tvertices(vertex, list(zip(corners, QUAD_TEXTURE)))
        scene.submit(0, "show")
    return scene


if __name__ == "__main__":
    script(__doc__, make)
