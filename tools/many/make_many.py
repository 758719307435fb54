#!/usr/bin/env python3
"""Writes many small scenes into a folder, to try what docs/use/many-machines.md says.

usage: tools/many/make_many.py [--count N] FOLDER

The scenes are 0000.scene, 0001.scene and so on, N of them (200 where it is left out). Each has four frames of 320 by 240,
and four encoders with twelve discs each, half transparent, with equal keys. So the pictures depend on the order in which
the encoders' threads record, and the journal is needed to draw them again.
"""
import argparse
import math
import os
import random
import sys

sys.path.insert(0, os.path.join(os.path.dirname(os.path.abspath(__file__)), "..", "scene"))
from scene import Scene, parser, rgba

COLORS = ["e63946", "f4a261", "8ac926", "3a86ff"]


def disc(x, y, radius):
    """The corners of a disc of 16 triangles in a picture of 320 by 240."""
    rim = [(x + 0.75 * radius * math.cos(k * math.pi / 8), y + radius * math.sin(k * math.pi / 8)) for k in range(17)]
    return [corner for a, b in zip(rim, rim[1:]) for corner in ((x, y), a, b)]


def make(number):
    """Scene NUMBER; the same number gives the same scene."""
    chance = random.Random(number)
    scene = Scene(320, 240, encoders=4)
    for frame in range(4):
        scene.frame()
        if frame == 0:
            layout = scene.layout("corner", "position:fixed:2", "color0:u8:4")
            scene.program("paint", "color")
            scene.clear(0, "14213dff")
        for encoder, color in enumerate(COLORS):
            scene.encoder(encoder)
            for _ in range(12):
                place = (chance.uniform(-0.8, 0.8), chance.uniform(-0.8, 0.8), chance.uniform(0.1, 0.5))
                scene.state(blend="alpha")
                scene.tvertices(layout, [(corner, rgba(color)[:3] + (140,)) for corner in disc(*place)])
                scene.submit(0, "paint")
    return scene


def count(text):
    """A number of scenes."""
    if not (text.isascii() and text.isdigit() and 1 <= int(text) <= 10000):
        raise argparse.ArgumentTypeError(f"{text!r} is no whole number from 1 to 10000")
    return int(text)


def main():
    words = parser(__doc__)
    words.add_argument("folder", metavar="FOLDER")
    words.add_argument("--count", type=count, default=200, metavar="N", help="how many scenes, 1 to 10000; 200")
    taken = words.parse_args()
    try:
        os.makedirs(taken.folder, exist_ok=True)
        for number in range(taken.count):
            with open(os.path.join(taken.folder, f"{number:04}.scene"), "w", encoding="ascii", newline="\n") as file:
                file.write(make(number).text())
    except OSError as fault:
        print(f"make_many.py: {fault.filename} can't be written: {fault.strerror}", file=sys.stderr)
        return 1
    return 0


if __name__ == "__main__":
    sys.exit(main())
