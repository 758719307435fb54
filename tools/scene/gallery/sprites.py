#!/usr/bin/env python3
"""A thousand moving sprites: 30 frames of 1,000 draws, all of one small buffer and one texture of four sprites.

usage: tools/scene/gallery/sprites.py [--output FILE]

The scene is 3 MB of text, so it is made and not kept. After the last frame the first fits again.
"""
from shapes import *

FRAMES, SPRITES = 30, 1000


def sheet():
    """The texels of four sprites of 16 by 16 side by side; around them alpha is 0."""
    texels = []
    for row in range(16):
        for column in range(64):
            kind, x, y = column // 16, (column % 16 - 7.5) / 7.5, (row - 7.5) / 7.5
            away, angle = math.hypot(x, y), math.atan2(y, x)
            inside = (away < 0.95, abs(x) + abs(y) < 1.05, away < 0.7 + 0.28 * math.cos(5 * angle + 1.57), 0.5 < away < 0.95)[kind]
            color = lit(("ffd166", "06d6a0", "ff70a6", "4cc9f0")[kind], 1.15 - 0.5 * max(0, y))
            texels.append(color if inside else (0, 0, 0, 0))
    return texels


def make():
    scene = Scene(640, 480)
    for frame in range(FRAMES):
        scene.frame()
        if frame == 0:
            vertex = scene.layout("vertex", "position:fixed:2", "texcoord0:fixed:2")
            scene.program("show", "texture")
            scene.texture("sheet", 64, 16, sheet())
            for kind in range(4):
                texture = quad(kind / 4, 0, (kind + 1) / 4, 1)
                scene.vb(f"sprite{kind}", vertex, list(zip(quad(-0.025, 1 / 30, 0.025, -1 / 30), texture)))
            scene.mode(0, "sequential")
            scene.clear(0, SKY, COLOR)
        scene.encoder()
        for sprite in range(SPRITES):
            # each goes round a path of its own, once or twice in all frames
            turns = 2 * math.pi * (frame / FRAMES * (1 + sprite % 2) + sprite * 0.618)
            reach = math.sqrt((sprite + 0.5) / SPRITES)
            x = 0.92 * reach * math.cos(turns) + 0.06 * math.sin(3 * turns)
            y = reach * math.sin(turns) * (0.9 if sprite % 3 else -0.9)
            scene.state(blend="alpha")
            scene.transform(move(x, y))
            scene.bind(0, "sheet")
            scene.vertices(f"sprite{sprite % 4}", 0, 6)
            scene.submit(0, "show")
    return scene


if __name__ == "__main__":
    script(__doc__, make)
