"""Values between keys: how things move from frame to frame."""
import math

from scene_parts.faults import SceneError
from scene_parts.figures import plain

EASES = {
    "linear": lambda t: t,
    "smooth": lambda t: t * t * (3 - 2 * t),
    "in": lambda t: t * t * t,
    "out": lambda t: 1 - (1 - t) ** 3,
    "both": lambda t: 4 * t * t * t if t < 0.5 else 1 - 4 * (1 - t) ** 3,
    "hold": lambda t: float(t >= 1),
}
"""Ways from 0 to 1: even; slow at both ends; slow at the start; slow at the end; slower at both ends; a step at the end."""


def ease(share, kind="smooth"):
    """How far a movement is when SHARE of its time is over, both from 0 to 1. Below 0 and above 1 it stands.

    >>> ease(0.5), ease(0.25, "in"), ease(2)
    (0.5, 0.015625, 1)
    """
    if kind not in EASES:
        raise SceneError(f"{kind!r} is no way to ease; there are {', '.join(EASES)}")
    return EASES[kind](min(1, max(0, plain(share, "the share"))))


def between(one, other, share):
    """The value between ONE and OTHER, which are numbers, or rows of as many numbers."""
    if isinstance(one, (tuple, list)):
        return tuple(between(a, b, share) for a, b in zip(one, other))
    return one + (other - one) * share


def keys(*points, kind="smooth"):
    """The function from a frame to the value there, by POINTS `(frame, value)` with rising frames.

    Values are numbers, or tuples of as many numbers, as positions and transforms are; between two points the way is that of
    `ease`. Before the first point and after the last one the value stands. A colour goes through `rgba` first, and what
    comes out through `bytes_of`.

    >>> height = keys((0, 1), (10, 3), (20, 3), kind="linear")
    >>> height(0), height(5), height(99)
    (1.0, 2.0, 3.0)
    """
    if not points or any(not isinstance(point, (tuple, list)) or len(point) != 2 for point in points):
        raise SceneError("keys wants one (frame, value) or more")
    frames = [plain(frame, "a frame") for frame, _ in points]
    if any(a >= b for a, b in zip(frames, frames[1:])):
        raise SceneError(f"the frames of keys rise, and these are {', '.join(map(str, frames))}")
    kinds = {len(value) if isinstance(value, (tuple, list)) else None for _, value in points}
    if len(kinds) > 1 or any(isinstance(value, str) for _, value in points):
        raise SceneError("the values of keys are numbers, or tuples of as many numbers each; rgba makes a tuple of a colour's text")

    def value_at(frame):
        plain(frame, "the frame")
        for (start, one), (end, other) in zip(points, points[1:]):
            if frame < end:
                return between(one, other, float(ease((frame - start) / (end - start), kind)))
        return between(points[-1][1], points[-1][1], 0.0)

    ease(0, kind)
    return value_at


def bytes_of(color):
    """A colour between two, as `keys` gives it, in whole bytes.

    >>> bytes_of(keys((0, (0, 0, 0)), (2, (255, 9, 0)))(1))
    (128, 5, 0)
    """
    return tuple(min(255, max(0, math.floor(part + 0.5))) for part in color)
