"""Numbers of a scene: whole ones in their ranges, fixed ones, and where the program places a point."""
import math
import operator

from scene_parts.faults import SceneError


def whole(value, least, most, what):
    """VALUE as a whole number from LEAST to MOST.

    >>> whole(3, 0, 7, "the flags"), whole(160.0, 0, 65535, "a side")
    (3, 160)
    """
    try:
        number = int(value) if isinstance(value, float) and value.is_integer() else operator.index(value)
    except TypeError:
        raise SceneError(f"{what} is {value!r}; it is a whole number from {least} to {most}") from None
    if not least <= number <= most:
        raise SceneError(f"{what} is {number}; it goes from {least} to {most}")
    return number


def many(values, what):
    """VALUES as a list, where they can be gone through.

    >>> many((1, 2), "the indices")
    [1, 2]
    """
    try:
        return list(values)
    except TypeError:
        raise SceneError(f"{what} are {values!r}; they are a list") from None


def plain(value, what="a number"):
    """VALUE where it is a number that is not endless.

    >>> plain(0.5)
    0.5
    """
    if type(value) not in (int, float) and (isinstance(value, str) or not hasattr(value, "__float__")) or not math.isfinite(value):
        raise SceneError(f"{what} is {value!r}, which is no number")
    return value


def fixed(value):
    """A number as a whole number of 1/65536, rounded to the nearest: the unit of positions, transforms and `set`.

    >>> fixed(1), fixed(-0.5), fixed(0.6)
    (65536, -32768, 39322)
    """
    try:
        number = math.floor(value * 65536 + 0.5)
    except (TypeError, ValueError, OverflowError):
        number = plain(value)
    if not -(2**31) <= number < 2**31:
        raise SceneError(f"{value!r} is too far: fixed numbers go from -32768 to just below 32768")
    return number


def screen(x, y, z, rect):
    """Where the program places a point: column and row in 1/256 pixel (24.8 numbers), and the depth (0 to 16777215).

    X, Y and Z are fixed numbers, RECT is the view's rectangle. Both are exact, as docs/rules/formats.md says it.

    >>> screen(-65536, 65536, 0, (0, 0, 4, 4)), screen(0, -16384, 32768, (0, 0, 4, 4))
    ((0, 0, 0), (512, 640, 8388607))
    """
    left, top, width, height = rect
    return 256 * left + (x + 65536) * width // 512, 256 * top + (65536 - y) * height // 512, z * 16777215 // 65536


def at_pixel(column, row, width, height):
    """The position (x, y), from -1 to 1, of the upper left corner of a pixel in a view of WIDTH by HEIGHT pixels.

    Up to 512 pixels a side it is exact: the program places it on just this corner.

    >>> x, y = at_pixel(7, 100, 320, 240)
    >>> screen(fixed(x), fixed(y), 0, (0, 0, 320, 240))
    (1792, 25600, 0)
    """
    if not (plain(width, "the width") > 0 and plain(height, "the height") > 0):
        raise SceneError(f"a view of {width} by {height} pixels has no places")
    return math.ceil(131072 * plain(column) / width) / 65536 - 1, 1 - math.ceil(131072 * plain(row) / height) / 65536
