#!/usr/bin/env python3
"""Vertex colours and depth: two rings that are linked, so that neither stands before the other.

usage: tools/scene/gallery/rings.py [--output FILE]

Both rings have their colours at their vertices. No order of the two draws alone could paint them: the state tests each
pixel's depth and stores it.
"""
from shapes import *


def make():
    scene = Scene(400, 300)
    scene.frame()
    vertex = scene.layout("vertex", "position:fixed:3", "color0:u8:4")
    scene.program("paint", "color")
    scene.clear(0, SKY)
    scene.view_transform(0, camera(400, 300, 20, 25, 1.5))
    vertices, indices = torus(1, 0.3)
    scene.ib("ring", indices)
    places = {"left": (move(-0.55, 0, 0), "f4a261"), "right": (then(turn("x", 90), move(0.55, 0, 0)), "3a86ff")}
    for name, (place, color) in places.items():
        scene.vb(name, vertex, painted(place, vertices, color))
    scene.encoder()
    for name in places:
        scene.state(depth="less", write_depth=True)
        scene.vertices(name, 0, len(vertices))
        scene.indices("ring", 0, len(indices))
        scene.submit(0, "paint")
    return scene


if __name__ == "__main__":
    script(__doc__, make)
