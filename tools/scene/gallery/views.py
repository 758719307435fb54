#!/usr/bin/env python3
"""Several views: a screen that is split in four, and a picture in the picture.

usage: tools/scene/gallery/views.py [--output FILE]

Four views show the same buffer from the front, the side, above and askew, each in a rectangle of its own. The fifth lies
on a sixth that is a little larger: its frame.
"""
from shapes import *


def make():
    scene = Scene(400, 300)
    scene.frame()
    vertex = scene.layout("vertex", "position:fixed:3", "color0:u8:4")
    scene.program("paint", "color")
    sides = [(0, 0, "1d3557ff"), (90, 0, "3c1642ff"), (0, 89, "133c2eff"), (35, 30, "402218ff")]
    for view, (side, above, color) in enumerate(sides):
        scene.rect(view, 202 * (view % 2), 152 * (view // 2), 198, 148)
        scene.clear(view, color)
        scene.view_transform(view, camera(198, 148, side, above, 1.6))
    scene.rect(4, 136, 101, 128, 98)
    scene.clear(4, "ffd166ff")
    scene.rect(5, 139, 104, 122, 92)
    scene.clear(5, SKY)
    scene.view_transform(5, camera(122, 92, -40, 35, 1.1))
    model = []
    for k, color in enumerate(PALETTE[:5]):
        step = then(turn("y", 12 * k), move(0.12 * k, 0.42 * k - 0.85, -0.1 * k))
        model += painted(step, [((x * (1.1 - 0.2 * k), y * 0.2, z * (0.8 - 0.13 * k)), n, t) for (x, y, z), n, t in box()], color)
    scene.vb("tower", vertex, model)
    scene.encoder()
    for view in range(6):
        if view == 4:
            scene.touch(view)
            continue
        scene.state(depth="less", write_depth=True)
        scene.vertices("tower", 0, len(model))
        scene.submit(view, "paint")
    return scene


if __name__ == "__main__":
    script(__doc__, make)
