#!/usr/bin/env python3
"""Perspective and words: a colonnade that goes into the distance, worked out in the script, with its title.

usage: tools/scene/gallery/perspective.py [--output FILE]

The renderer's transforms do not divide. So the script cuts the triangles of the floor and the columns, divides by the distance, and draws
what comes out without transforms. View 1 has the title.
"""
from shapes import *


def make():
    scene = Scene(400, 300)
    scene.frame()
    vertex = scene.layout("vertex", "position:fixed:3", "color0:u8:4", "texcoord0:fixed:2")
    scene.program("paint", "texcolor")
    scene.texture("tiles", 16, 16, tile(16, "f1faee", "a8dadc", "457b9d"))
    scene.clear(0, "bde0fe")
    eye = look_at((1.1, 1.7, 4.5), (-0.2, 1.15, -6))
    lens = perspective(400, 300, 55, 0.4, 40)
    corners = [(position, rgba("ffffff"), (8 * u, 24 * v)) for position, _, (u, v) in plane(8, 24)]
    corners = [((x, y, z - 8), color, place) for (x, y, z), color, place in corners]
    for row in range(6):
        for x, color in ((-2.2, "e9c46a"), (2.2, "f4a261")):
            for shape, place in ((cylinder(0.3, 2.4, 12, closed=False), move(x, 1.2, -3 * row)), (box(0.42), then(scale(1, 0.2, 1), move(x, 2.48, -3 * row)))):
                # white is a texel of the tiles that all of these use
                corners += [(position, shade, (0.2, 0.2)) for position, shade in painted(place, shape, color)]
    corners += [(position, shade, (0.2, 0.2)) for position, shade in painted(move(-0.5, 0.5, -1.5), sphere(0.5, 20, 12), "e63946")]
    vertices, order = indexed(lens.through(eye, vertex, corners))
    scene.vb("hall", vertex, vertices)
    scene.ib("order", order)
    scene.encoder()
    scene.state(depth="less", write_depth=True, cull="counter")
    scene.bind(0, "tiles")
    scene.vertices("hall")
    scene.indices("order")
    scene.submit(0, "paint")
    scene.words(1, 8, 8, "PERSPECTIVE", "1d3557", 2)
    scene.words(1, 8, 28, "cut and divided in the script", "457b9d")
    return scene


if __name__ == "__main__":
    script(__doc__, make)
