#!/usr/bin/env python3
"""Many encoders: 640 columns of one buffer, recorded by eight encoders, each with a colour of its own.

usage: tools/scene/gallery/encoders.py [--output FILE]

In `play` each encoder but the first is recorded by a thread. Each draw has a depth of its own in `submit`, so no key is
shared between encoders, and the picture is the same in whatever order the threads record.
"""
from shapes import *

ACROSS, ALONG = 32, 20


def make():
    scene = Scene(400, 300, encoders=8)
    scene.frame()
    vertex = scene.layout("vertex", "position:fixed:3", "color0:u8:4")
    scene.program("paint", "color")
    scene.clear(0, SKY)
    scene.mode(0, "ascending")
    scene.view_transform(0, camera(400, 300, 38, 35, 14.2, -30, 30))
    for number, color in enumerate(PALETTE):
        scene.vb(f"column{number}", vertex, painted(IDENTITY, box(), color))
    for number in range(8):
        scene.encoder(number)
        for place in range(number, ACROSS * ALONG, 8):
            x, z = place % ACROSS - (ACROSS - 1) / 2, place // ACROSS - (ALONG - 1) / 2
            height = 1.9 + 1.6 * math.sin(0.42 * math.hypot(x, 1.3 * z))
            scene.state(depth="less", write_depth=True)
            scene.transform(then(scale(0.42, height / 2, 0.42), move(x, height / 2 - 2, z)))
            scene.vertices(f"column{number}", 0, 36)
            scene.submit(0, "paint", place)
    return scene


if __name__ == "__main__":
    script(__doc__, make)
