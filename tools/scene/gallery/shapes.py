"""Shapes and small pictures that the scripts of the gallery share. It is a module: no scene of its own.

It finds `scene.py` in the folder above, so that a script needs `from shapes import *` alone.
"""
import math
import os
import sys

sys.path.insert(0, os.path.join(os.path.dirname(os.path.abspath(__file__)), ".."))

from scene import *  # noqa: E402,F403
from scene import mixed  # noqa: E402

SKY = "14213dff"
"""The dark blue behind most pictures."""
PALETTE = ["e63946", "f4a261", "e9c46a", "8ac926", "2a9d8f", "3a86ff", "8338ec", "ff70a6"]


def torus(radius, tube, around=40, across=20):
    """A ring in the plane of x and y: its vertices as (position, normal), and its indices."""
    vertices, indices = [], []
    for i in range(around):
        a = 2 * math.pi * i / around
        for j in range(across):
            b = 2 * math.pi * j / across
            normal = (math.cos(a) * math.cos(b), math.sin(a) * math.cos(b), math.sin(b))
            middle = (radius * math.cos(a), radius * math.sin(a), 0)
            vertices.append((tuple(m + tube * n for m, n in zip(middle, normal)), normal))
            here, next_i = i * across, (i + 1) % around * across
            next_j = (j + 1) % across
            indices += [here + j, next_i + j, next_i + next_j, here + j, next_i + next_j, here + next_j]
    return vertices, indices


def disc(x, y, radius, stretch=1, corners=40):
    """The corners of a disc as triangles from its middle; x is multiplied by STRETCH, for views that are not square."""
    rim = [(x + stretch * radius * math.cos(2 * math.pi * k / corners), y + radius * math.sin(2 * math.pi * k / corners))
           for k in range(corners + 1)]
    return [corner for a, b in zip(rim, rim[1:]) for corner in ((x, y), a, b)]


def tile(side=16, paper="f1faee", ink="457b9d", rim="1d3557"):
    """The texels of a square tile with a rim and a ring."""
    texels = []
    for row in range(side):
        for column in range(side):
            x, y = (column + 0.5) / side * 2 - 1, (row + 0.5) / side * 2 - 1
            away = math.hypot(x, y)
            edge = max(abs(x), abs(y)) > 1 - 2.1 / side
            texels.append(rim if edge else ink if 0.4 < away < 0.72 else paper)
    return texels


def painting(side):
    """The texels of a small landscape: sky, sun, hills, sea."""
    texels = []
    for row in range(side):
        for column in range(side):
            x, y = column / side, row / side
            color = mixed("3d5a80", "fbc490", y / 0.62)if y < 0.62 else mixed("2a6f97", "012a4a", (y - 0.62) / 0.38)
            if math.hypot(x - 0.68, y - 0.3) < 0.13:
                color = mixed("ffe066", "f25c54", (y - 0.17) / 0.26)
            if y < 0.62 and y > 0.44 - 0.14 * math.sin(5 * x + 0.4):
                color = mixed("6a4c93", "3c2a5e", y)
            if y < 0.62 and y > 0.54 - 0.1 * math.sin(8 * x + 2.6):
                color = mixed("386641", "1b3a2b", (y - 0.44) / 0.2)
            if y >= 0.62 and abs(x - 0.68) < 0.12 + 0.03 * math.sin(60 * y) and int(y * 40) % 3 != 0:
                color = mixed(color, "ffd166", 0.55)
            texels.append(color)
    return texels
