"""Perspective, worked out in the script: the renderer's transforms have none, since they do not divide.

A `Perspective` takes triangles in front of an eye, cuts what is outside of the picture, divides by the distance, and cuts
triangles into smaller ones where colours and textures would else slide. What comes out is drawn as it is, without transforms.
"""
import math

from scene_parts.faults import SceneError
from scene_parts.figures import many, plain, whole
from scene_parts.transforms import apply, twelve

DEEPEST = 12
"""How often a triangle is cut at most."""


def middle(a, b):
    """The corner half way between two; a corner is a tuple of tuples of numbers."""
    return tuple(tuple((p + q) / 2 for p, q in zip(one, other)) for one, other in zip(a, b))


def part_way(a, b, share):
    return tuple(tuple(p + (q - p) * share for p, q in zip(one, other)) for one, other in zip(a, b))


class Perspective:
    """A view of WIDTH by HEIGHT pixels that sees DEGREES from its lower to its upper side, from NEAR to FAR before the eye.

    `through(transform, corners)` is what there is to draw. Corners are vertices as `Layout.pack` takes them, three for each
    triangle, the position of three numbers first. The transform puts the eye to (0, 0, 0), looking along -z, as `look_at` does.
    ERROR is by how many pixels a colour or a texture may stand off its place in the middle of an edge. MOST is how many triangles may come
    out. No triangle is cut more often than DEEPEST times.
    """

    def __init__(self, width, height, degrees=50, near=0.1, far=100, error=0.5, most=100_000):
        self.width, self.height = whole(width, 1, 2048, "the width"), whole(height, 1, 2048, "the height")
        if not 0 < plain(degrees, "the angle") < 180:
            raise SceneError(f"the angle is {degrees} degrees; it is above 0 and below 180")
        if not 0 < plain(near, "near") < plain(far, "far"):
            raise SceneError(f"near is {near} and far is {far}; near is above 0 and below far, both measured from the eye")
        if not plain(error, "the error") > 0:
            raise SceneError(f"the error is {error} pixels; it is above 0")
        self.near, self.far, self.error, self.most = near, far, error, whole(most, 1, 10**9, "the most triangles")
        self.up = math.tan(math.radians(degrees) / 2)
        self.right = self.up * width / height
        # each tells by a number that is not below 0 where a corner is within the picture
        self.sides = [
            lambda p: -p[2] - near,
            lambda p: far + p[2],
            lambda p: p[0] - p[2] * self.right,
            lambda p: -p[0] - p[2] * self.right,
            lambda p: p[1] - p[2] * self.up,
            lambda p: -p[1] - p[2] * self.up,
        ]

    def seen(self, position):
        """Where a position before the eye stands: x and y from -1 to 1, and the depth from 0 at NEAR to 1 at FAR.

        >>> [round(part, 6) for part in Perspective(100, 100, 90, 1, 4).seen((1, 0, -2))]
        [0.5, 0.0, 0.666667]
        """
        x, y, z = position
        away = -z
        depth = self.far * (away - self.near) / (away * (self.far - self.near))
        return x / (away * self.right), y / (away * self.up), min(1, max(0, depth))

    def within(self, corners):
        """The part of a polygon that lies within the picture."""
        for side in self.sides:
            kept = []
            for a, b in zip(corners, corners[1:] + corners[:1]):
                here, there = side(a[0]), side(b[0])
                if here >= 0:
                    kept.append(a)
                if (here >= 0) != (there >= 0):
                    # always from the inner corner: two triangles at an edge find the same point
                    kept.append(part_way(a, b, here / (here - there)) if here >= 0 else part_way(b, a, there / (there - here)))
            corners = kept
            if len(corners) < 3:
                return []
        return corners

    def slides(self, a, b):
        """Whether the middle of an edge stands too far from the middle of the edge in the picture."""
        (ax, ay, _), (bx, by, _), (mx, my, _) = self.seen(a[0]), self.seen(b[0]), self.seen(middle(a, b)[0])
        return math.hypot((mx - (ax + bx) / 2) * self.width / 2, (my - (ay + by) / 2) * self.height / 2) > self.error

    def pieces(self, triangle, depth=0):
        """A triangle, cut at the middles of those edges that want it. An edge is judged by its two ends alone, so two triangles
        at one edge cut it alike, and no gap opens."""
        a, b, c = triangle
        cuts = [depth < DEEPEST and self.slides(p, q) for p, q in ((a, b), (b, c), (c, a))]
        if not any(cuts):
            yield triangle
            return
        while not cuts[0] or (cuts[2] and not cuts[1]):
            a, b, c = b, c, a
            cuts = cuts[1:] + cuts[:1]
        ab = middle(a, b)
        if all(cuts):
            bc, ca = middle(b, c), middle(c, a)
            parts = [(a, ab, ca), (ab, b, bc), (ca, bc, c), (ab, bc, ca)]
        elif cuts[1]:
            bc = middle(b, c)
            parts = [(ab, b, bc), (a, ab, bc), (a, bc, c)]
        else:
            parts = [(a, ab, c), (ab, b, c)]
        for part in parts:
            yield from self.pieces(part, depth + 1)

    def through(self, transform, layout, corners):
        """What is drawn of CORNERS, vertices of LAYOUT: positions in the picture, all else as it is between the corners.

        The numbers of parts of type `u8`, as colours, are rounded to bytes.
        """
        twelve(transform)
        corners = many(corners, "the corners")
        kinds = [kind for _, kind, _ in layout.attributes]
        if len(corners) % 3 or any(len(corner) != len(kinds) or len(corner[0]) != 3 for corner in corners):
            raise SceneError(f"perspective takes three corners for each triangle, each with {len(kinds)} attributes, a position of three numbers first")
        before = [(apply(transform, corner[0]), *corner[1:]) for corner in corners]
        found = []
        for first in range(0, len(before), 3):
            polygon = self.within(before[first : first + 3])
            for b, c in zip(polygon[1:], polygon[2:]):
                for piece in self.pieces((polygon[0], b, c)):
                    found += [(self.seen(corner[0]), *map(rounded, kinds[1:], corner[1:])) for corner in piece]
                if len(found) > 3 * self.most:
                    raise SceneError(f"the perspective has cut into more than {self.most} triangles; a greater error makes fewer")
        return found


def rounded(kind, numbers):
    """The numbers of an attribute, in whole bytes where its type is `u8`."""
    return tuple(math.floor(number + 0.5) for number in numbers) if kind == "u8" else numbers


def perspective(width, height, degrees=50, near=0.1, far=100, error=0.5, most=100_000):
    """A `Perspective`, which is used so:

        lens, eye = perspective(400, 300, 50, 0.5, 40), look_at((4, 2, 6))
        scene.tvertices(vertex, lens.through(eye, vertex, corners))
    """
    return Perspective(width, height, degrees, near, far, error, most)
