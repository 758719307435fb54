#!/usr/bin/env python3
"""An animation: three gears that turn each other, 30 frames.

usage: tools/scene/gallery/gears.py [--output FILE]

The gears are buffers that are made once; each frame turns them by transforms alone. In all frames each turns by two of its
teeth, so after the last frame the first fits again. `tools/gfx gif` and `tools/gfx video` make a file of it.
"""
from shapes import *

FRAMES = 30
GEARS = [(16, "e63946", None), (8, "2a9d8f", 20), (12, "e9c46a", -38)]
"""Teeth, colour, and in which direction of the first gear it stands, in degrees."""
TOOTH = 0.14
"""The width of a tooth along the gear's edge, in radians times radius."""


def gear(teeth, color):
    """The corners of a gear with its middle at (0, 0): a body, its teeth, a darker ring and a hole."""
    radius = teeth * TOOTH / math.pi
    outline = []
    for k in range(teeth):
        for share, reach in ((-0.26, -0.08), (-0.14, 0.065), (0.14, 0.065), (0.26, -0.08)):
            a = 2 * math.pi * (k + share) / teeth
            outline.append(((radius + reach) * math.cos(a), (radius + reach) * math.sin(a)))
    corners = []
    for a, b in zip(outline, outline[1:] + outline[:1]):
        corners += [((0, 0), lit(color, 1.1)), (a, lit(color, 0.85)), (b, lit(color, 0.85))]
    for reach, shade in ((0.62, 0.6), (0.5, 0.95)):
        corners += [(corner, lit(color, shade)) for corner in disc(0, 0, radius * reach, 1, 48)]
    for hole in range(teeth // 2):
        angle = hole * 4 * math.pi / teeth
        x, y = radius * 0.36 * math.cos(angle), radius * 0.36 * math.sin(angle)
        corners += [(corner, rgba(SKY)) for corner in disc(x, y, 0.035, 1, 16)]
    return corners + [(corner, rgba(SKY)) for corner in disc(0, 0, radius * 0.15, 1, 24)]


def place(number, share):
    """The transform of a gear where the first one has turned by SHARE of two teeth."""
    teeth, _, direction = GEARS[number]
    if direction is None:
        return turn("z", share * 720 / teeth)
    first, away = GEARS[0][0], (GEARS[0][0] + teeth) * TOOTH / math.pi
    # where a tooth of the first gear stands in this direction, this gear has a gap
    start = direction + 180 - 360 / teeth * (0.5 - direction / (360 / first))
    x, y = away * math.cos(math.radians(direction)), away * math.sin(math.radians(direction))
    return then(turn("z", start - share * 720 / teeth), move(x, y))


def make():
    scene = Scene(400, 300)
    shapes = [gear(teeth, color) for teeth, color, *_ in GEARS]
    fit = then(move(-0.4, 0.29), scale(0.86 * 0.75, 0.86, 1))
    for frame in range(FRAMES):
        scene.frame()
        if frame == 0:
            vertex = scene.layout("vertex", "position:fixed:2", "color0:u8:4")
            scene.program("paint", "color")
            scene.clear(0, SKY, COLOR)
            scene.view_transform(0, fit)
            for number, corners in enumerate(shapes):
                scene.vb(f"gear{number}", vertex, corners)
        scene.encoder()
        for number in range(len(GEARS)):
            scene.transform(place(number, frame / FRAMES))
            scene.vertices(f"gear{number}", 0, len(shapes[number]))
            scene.submit(0, "paint")
    return scene


if __name__ == "__main__":
    script(__doc__, make)
