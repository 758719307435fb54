#!/usr/bin/env python3
"""Textured cubes: 63 draws of one vertex buffer, each with a transform of its own.

usage: tools/scene/gallery/cubes.py [--output FILE]

The program `texcolor` multiplies the texture by the colours of the corners.
"""
from shapes import *


def make():
    scene = Scene(400, 300)
    scene.frame()
    vertex = scene.layout("vertex", "position:fixed:3", "color0:u8:4", "texcoord0:fixed:2")
    scene.program("paint", "texcolor")
    scene.texture("tile", 16, 16, tile())
    scene.clear(0, SKY)
    scene.view_transform(0, camera(400, 300, 0, 0, 10.5, -20, 20))
    corners = [(position, tuple(round(120 + 115 * part) for part in position), place) for position, _, place in box()]
    scene.vb("cube", vertex, [(position, color + (255,), place) for position, color, place in corners])
    scene.encoder()
    for row in range(7):
        for column in range(9):
            scene.state(depth="less", write_depth=True)
            scene.transform(then(turn("x", 21 * row + 10), turn("y", 23 * column + 13), move(3 * column - 12, 9 - 3 * row)))
            scene.vertices("cube", 0, 36)
            scene.bind(0, "tile")
            scene.submit(0, "paint")
    return scene


if __name__ == "__main__":
    script(__doc__, make)
