"""Transforms: three rows of four plain numbers, and the cameras that are made of them."""
import math

from scene_parts.faults import SceneError
from scene_parts.figures import many, plain

IDENTITY = (1, 0, 0, 0, 0, 1, 0, 0, 0, 0, 1, 0)
"""A transform is three rows of four numbers: a row a b c d makes a*x + b*y + c*z + d."""


def twelve(transform):
    """TRANSFORM where it has twelve numbers."""
    numbers = tuple(many(transform, "the numbers of a transform"))
    if len(numbers) != 12:
        raise SceneError(f"a transform has 12 numbers, three rows of four, and this has {len(numbers)}")
    return numbers


def move(x, y, z=0):
    """Adds X, Y and Z."""
    return (1, 0, 0, x, 0, 1, 0, y, 0, 0, 1, z)


def scale(x, y=None, z=None):
    """Multiplies by X, Y and Z; by X alone where the others are left out."""
    y, z = x if y is None else y, x if z is None else z
    return (x, 0, 0, 0, 0, y, 0, 0, 0, 0, z, 0)


def turn(axis, degrees):
    """Turns about the axis "x", "y" or "z", against the clock where the axis points at the reader.

    >>> [round(part) for part in apply(turn("z", 90), (1, 0, 0))]
    [0, 1, 0]
    """
    angle = math.radians(plain(degrees, "the angle"))
    c, s = math.cos(angle), math.sin(angle)
    if axis == "x":
        return (1, 0, 0, 0, 0, c, -s, 0, 0, s, c, 0)
    if axis == "y":
        return (c, 0, s, 0, 0, 1, 0, 0, -s, 0, c, 0)
    if axis == "z":
        return (c, -s, 0, 0, s, c, 0, 0, 0, 0, 1, 0)
    raise SceneError(f"{axis!r} is no axis; there are 'x', 'y' and 'z'")


def then(*transforms):
    """The transforms one after the other, the first one first.

    >>> apply(then(move(1, 0), scale(2)), (1, 1, 1))
    (4, 2, 2)
    """
    whole = IDENTITY
    for after in map(twelve, transforms):
        rows = []
        for r in range(0, 12, 4):
            a, b, c, d = after[r : r + 4]
            rows += [a * whole[k] + b * whole[4 + k] + c * whole[8 + k] + (d if k == 3 else 0) for k in range(4)]
        whole = tuple(rows)
    return whole


def apply(transform, point):
    """The point after the transform, in plain numbers."""
    try:
        x, y, z = point
    except (TypeError, ValueError):
        raise SceneError(f"{point!r} is no point of three numbers") from None
    return tuple(a * x + b * y + c * z + d for a, b, c, d in (transform[0:4], transform[4:8], transform[8:12]))


def directed(transform, direction):
    """DIRECTION after a transform without its move: what a face that looks along it looks along then.

    It is right for moves, turns and scales that are the same along x, y and z.
    """
    home = (transform[3], transform[7], transform[11])
    return tuple(a - b for a, b in zip(apply(transform, direction), home))


def cross(a, b):
    """The direction at right angles to A and B."""
    return (a[1] * b[2] - a[2] * b[1], a[2] * b[0] - a[0] * b[2], a[0] * b[1] - a[1] * b[0])


def unit(direction, what="a direction"):
    """DIRECTION with length 1."""
    length = math.sqrt(sum(plain(part, what) ** 2 for part in direction))
    if not length:
        raise SceneError(f"{what} has no length")
    return tuple(part / length for part in direction)


def flat(width, height, size=1.5, near=-4, far=4):
    """A view's transform without perspective: what is SIZE above or below the middle stands at the upper or lower side of a
    view of WIDTH by HEIGHT pixels. It looks along -z; from NEAR to FAR, measured towards the reader, is within the depths,
    and what is nearer has the smaller depth.
    """
    for number, what in ((width, "the width"), (height, "the height"), (size, "the size")):
        if not plain(number, what) > 0:
            raise SceneError(f"{what} is {number}; it is above 0")
    if not plain(near, "near") < plain(far, "far"):
        raise SceneError(f"near is {near} and far is {far}; near is below far, since both are measured towards the reader")
    return (1 / (size * width / height), 0, 0, 0, 0, 1 / size, 0, 0, 0, 0, -1 / (far - near), far / (far - near))


def camera(width, height, side=0, above=30, size=1.5, near=-4, far=4):
    """A view's transform for a scene in space: x to the right, y up, z towards the reader. It has no perspective.

    It looks at (0, 0, 0), from SIDE degrees to the right and from ABOVE degrees up. What is SIZE above or below the middle
    stands at the upper or lower side of a view of WIDTH by HEIGHT pixels. What is nearer has the smaller depth; from
    NEAR to FAR, measured towards the reader, is within the depths. A triangle with a corner outside of them is not drawn.

    >>> [round(part, 3) for part in apply(camera(200, 100, 0, 0, 2), (2, 1, 4))]
    [0.5, 0.5, 0.0]
    """
    return then(turn("y", -side), turn("x", above), flat(width, height, size, near, far))


def look_at(eye, at=(0, 0, 0), up=(0, 1, 0)):
    """The transform that puts EYE to (0, 0, 0) and AT straight ahead, which is along -z; UP points up in the picture.

    What it gives goes through a `perspective`, or through `flat` with NEAR and FAR below 0, since all that is seen lies there.

    >>> [round(part, 3) for part in apply(look_at((3, 0, 0)), (0, 1, 0))]
    [0.0, 1.0, -3.0]
    """
    back = unit([a - b for a, b in zip(eye, at)], "the way from `at` to the eye")
    right = unit(cross(up, back), "what is at right angles to up and to the way from `at` to the eye")
    over = cross(back, right)
    rows = []
    for axis in (right, over, back):
        rows += [*axis, -sum(a * b for a, b in zip(axis, eye))]
    return tuple(rows)
