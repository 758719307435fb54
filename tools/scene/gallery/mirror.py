#!/usr/bin/env python3
"""A mirror by the stencil: a floor shows the ring that stands on it, and only within the floor.

usage: tools/scene/gallery/mirror.py [--output FILE]

View 0 draws the floor and sets the stencil where it is seen. View 1 draws the ring upside down where the stencil is set.
View 2 lays the floor over it, half transparent. View 3 draws the ring itself.
"""
from shapes import *


def make():
    scene = Scene(400, 300)
    scene.frame()
    vertex = scene.layout("vertex", "position:fixed:3", "color0:u8:4")
    scene.program("paint", "color")
    scene.clear(0, SKY)
    for view in range(4):
        scene.view_transform(view, then(move(0, -0.1), camera(400, 300, 25, 32, 1.8)))
    vertices, indices = torus(0.5, 0.2)
    standing = then(turn("y", 40), move(0, 0.72))
    scene.ib("ring", indices)
    scene.vb("real", vertex, painted(standing, vertices, "f4a261"))
    # the same colours at the mirrored places: a mirror turns y about and leaves the light as it is
    scene.vb("mirrored", vertex, [((x, -y, z), color) for (x, y, z), color in painted(standing, vertices, "f4a261")])
    floor = [(x, 0, z) for x, z in quad(-1.3, -1.3, 1.3, 1.3)]
    scene.vb("floor", vertex, [(corner, rgba("4cc9f0")[:3] + (110,)) for corner in floor])
    scene.encoder()
    scene.state(write="")
    scene.stencil(stencil("always", 1, both="replace"))
    scene.vertices("floor", 0, 6)
    scene.submit(0, "paint")
    scene.state(depth="less", write_depth=True)
    scene.stencil(stencil("equal", 1))
    scene.vertices("mirrored", 0, len(vertices))
    scene.indices("ring", 0, len(indices))
    scene.submit(1, "paint")
    scene.state(blend="alpha")
    scene.vertices("floor", 0, 6)
    scene.submit(2, "paint")
    # depths of the mirrored ring lie behind the floor, so the real one needs no clear between
    scene.state(depth="less", write_depth=True)
    scene.vertices("real", 0, len(vertices))
    scene.indices("ring", 0, len(indices))
    scene.submit(3, "paint")
    return scene


if __name__ == "__main__":
    script(__doc__, make)
