"""Shapes in space, as corners: three for each triangle, each (position, normal, texture position).

Seen from outside their triangles go with the clock, as `quad` does, so `cull="counter"` drops the far side. `painted` turns them
into positions and colours with light, `indexed` into different corners and indices.
"""
import math

from scene_parts.colors import lit
from scene_parts.faults import SceneError
from scene_parts.figures import plain, whole
from scene_parts.layouts import quad
from scene_parts.transforms import apply, directed

BOX_FACES = [((0, 0, 1), (1, 0, 0)), ((0, 0, -1), (-1, 0, 0)), ((1, 0, 0), (0, 0, -1)), ((-1, 0, 0), (0, 0, 1)),
             ((0, 1, 0), (1, 0, 0)), ((0, -1, 0), (1, 0, 0))]
"""Of each face of a box: where it looks, and where its texture's right side lies."""


def above_0(value, what):
    if not plain(value, what) > 0:
        raise SceneError(f"{what} is {value}; it is above 0")
    return value


def patch(columns, rows, corner_at):
    """The corners of COLUMNS by ROWS quadrangles, where CORNER_AT(i, j) is the corner of column i and row j. Seen with i to the
    right and j down they go with the clock; a triangle of no area is left out.
    """
    corners = []
    for j in range(rows):
        for i in range(columns):
            a, b, c, d = (corner_at(i + p, j + q) for p, q in ((0, 0), (1, 0), (1, 1), (0, 1)))
            for triangle in ((a, b, c), (a, c, d)):
                if len({corner[0] for corner in triangle}) == 3:
                    corners += triangle
    return corners


def box(half=1):
    """A cube's 36 corners: six faces of two triangles, HALF from the middle."""
    corners = []
    for normal, right in BOX_FACES:
        up = tuple(normal[(k + 1) % 3] * right[(k + 2) % 3] - normal[(k + 2) % 3] * right[(k + 1) % 3] for k in range(3))
        for u, v in quad(0, 0, 1, 1):
            position = tuple(half * (normal[k] + (2 * u - 1) * right[k] + (1 - 2 * v) * up[k]) for k in range(3))
            corners.append((position, normal, (u, v)))
    return corners


def plane(width=2, depth=2, columns=1, rows=1):
    """A rectangle that lies flat and looks up, in COLUMNS by ROWS pieces; its texture's first row is the far side.

    >>> len(plane()), plane()[0]
    (6, ((-1.0, 0, -1.0), (0, 1, 0), (0.0, 0.0)))
    """
    above_0(width, "the width"), above_0(depth, "the depth")
    columns, rows = whole(columns, 1, 10000, "the number of columns"), whole(rows, 1, 10000, "the number of rows")

    def corner_at(i, j):
        u, v = i / columns, j / rows
        return ((u - 0.5) * width, 0, (v - 0.5) * depth), (0, 1, 0), (u, v)

    return patch(columns, rows, corner_at)


def grid(columns=10, rows=10, step=1.0, line=0.03):
    """The lines between COLUMNS by ROWS squares, flat and looking up: thin rectangles, since there are no lines to draw.

    >>> len(grid(2, 1))
    30
    """
    columns, rows = whole(columns, 1, 1000, "the number of columns"), whole(rows, 1, 1000, "the number of rows")
    width, depth = columns * above_0(step, "the step") + above_0(line, "the line's width"), rows * step + line
    corners = []
    bars = [((i - columns / 2) * step, 0, line, depth) for i in range(columns + 1)]
    bars += [(0, (j - rows / 2) * step, width, line) for j in range(rows + 1)]
    for x, z, wide, deep in bars:
        corners += [((px + x, py, pz + z), normal, place) for (px, py, pz), normal, place in plane(wide, deep)]
    return corners


def sphere(radius=1, around=24, high=12):
    """A ball of AROUND by HIGH pieces. Its texture goes once round, with the first row at the top.

    >>> len(sphere(1, 8, 4)) // 3
    48
    """
    above_0(radius, "the radius")
    around, high = whole(around, 3, 1000, "the number of pieces around"), whole(high, 2, 1000, "the number of pieces up")

    def corner_at(i, j):
        a, b = 2 * math.pi * (i % around) / around, math.pi * j / high
        ring = math.sin(b) if 0 < j < high else 0
        normal = (ring * math.sin(a), math.cos(b) if ring else 1 - 2 * (j > 0), ring * math.cos(a))
        return tuple(radius * part for part in normal), normal, (i / around, j / high)

    return patch(around, high, corner_at)


def cylinder(radius=1, height=2, around=24, top=None, closed=True):
    """A cylinder about the y axis, or a cone where TOP, the radius of its upper end, is 0 or another one; CLOSED: with both ends.

    >>> len(cylinder(around=8)) // 3, len(cylinder(around=8, top=0)) // 3
    (32, 16)
    """
    above_0(radius, "the radius"), above_0(height, "the height")
    around, top = whole(around, 3, 1000, "the number of pieces around"), radius if top is None else plain(top, "the upper radius")
    if top < 0:
        raise SceneError(f"the upper radius is {top}; it is 0 or above")

    def rim(i, reach, y):
        a = 2 * math.pi * (i % around) / around
        return (reach * math.sin(a), y, reach * math.cos(a))

    def side(i, j):
        x, y, z = rim(i, 1, (radius - top) / height)
        length = math.sqrt(1 + y * y)
        return rim(i, (top, radius)[j], height * (0.5 - j)), (x / length, y / length, z / length), (i / around, j)

    corners = patch(around, 1, side)
    for reach, looks in ((top, 1), (radius, -1)) if closed else ():
        middle = ((0, looks * height / 2, 0), (0, looks, 0), (0.5, 0.5))
        for i in range(around if reach else 0):
            pair = []
            for k in (i, i + 1)[::-looks]:
                x, y, z = rim(k, reach, looks * height / 2)
                pair.append(((x, y, z), (0, looks, 0), (0.5 + x / reach / 2, 0.5 + looks * z / reach / 2)))
            corners += [middle, *pair]
    return corners


def light(normal, ambient=0.35):
    """The brightness of a face that looks along NORMAL: the light comes from the upper left, from the reader's side."""
    length = math.sqrt(sum(part * part for part in normal)) or 1
    toward = (-0.45, 0.74, 0.5)
    return ambient + (1.1 - ambient) * max(0, sum(a * b for a, b in zip(normal, toward)) / length)


def painted(transform, corners, color, ambient=0.35):
    """(position, colour) of corners (position, normal, ..) after a transform, with the light on them."""
    return [(apply(transform, corner[0]), lit(color, light(directed(transform, corner[1]), ambient))) for corner in corners]
