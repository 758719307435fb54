#!/usr/bin/env python3
"""Render to a texture and use it: a picture of two rings on the faces of a cube.

usage: tools/scene/gallery/targets.py [--output FILE]

View 0 draws into a frame buffer with colour and depth. View 1 draws the back buffer with its colour texture.
"""
from shapes import *


def make():
    scene = Scene(400, 300)
    scene.frame()
    vertex = scene.layout("vertex", "position:fixed:3", "color0:u8:4", "texcoord0:fixed:2")
    scene.program("paint", "color")
    scene.program("use", "texcolor")
    scene.texture("picture", 160, 160)
    scene.texture("picture_depth", 160, 160, kind="d24s8", fill="ffffff00")
    scene.fb("canvas", "picture", "picture_depth")
    scene.target(0, "canvas")
    scene.clear(0, "fefae0ff")
    scene.view_transform(0, camera(160, 160, 20, 25, 1.7))
    scene.clear(1, SKY)
    scene.view_transform(1, camera(400, 300, 35, 30, 1.75))
    vertices, indices = torus(0.85, 0.28, 32, 16)
    scene.ib("ring", indices)
    places = {"left": (move(-0.45, 0, 0), "e63946"), "right": (then(turn("x", 90), move(0.45, 0, 0)), "2a9d8f")}
    for name, (place, color) in places.items():
        scene.vb(name, vertex, [(position, shade, (0, 0)) for position, shade in painted(place, vertices, color)])
    cube = [(position, lit("ffffff", light(normal, 0.5)), place) for position, normal, place in box(0.95)]
    scene.vb("cube", vertex, cube)
    scene.encoder()
    for name in places:
        scene.state(depth="less", write_depth=True)
        scene.vertices(name, 0, len(vertices))
        scene.indices("ring", 0, len(indices))
        scene.submit(0, "paint")
    scene.state(depth="less", write_depth=True)
    scene.vertices("cube", 0, 36)
    scene.bind(0, "picture")
    scene.submit(1, "use")
    return scene


if __name__ == "__main__":
    script(__doc__, make)
