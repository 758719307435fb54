"""Colours: four bytes, from texts, from bytes, and from parts between 0 and 1."""
import operator
import re

from scene_parts.faults import SceneError
from scene_parts.figures import many, plain

WRITTEN = re.compile(r"#?([0-9a-fA-F]{6}|[0-9a-fA-F]{8})\Z")


def rgba(color):
    """A colour as four bytes: from `(r, g, b)`, `(r, g, b, a)`, or a text as `ffc857`, `#ffc857` or `ffc85780`.

    Alpha is 255 where it is left out. The parts of a tuple are bytes, 0 to 255; `shares` takes parts from 0 to 1.

    >>> rgba("ffc857"), rgba("#FFC857"), rgba((1, 2, 3, 4))
    ((255, 200, 87, 255), (255, 200, 87, 255), (1, 2, 3, 4))
    """
    if isinstance(color, str):
        found = WRITTEN.match(color)
        if not found:
            raise SceneError(f"{color!r} is no colour: a text has six or eight hexadecimal digits, as ffc857")
        parts = tuple(bytes.fromhex(found[1]))
    else:
        try:
            parts = tuple(map(operator.index, color))
        except TypeError:
            raise SceneError(f"{color!r} is no colour: its parts are whole bytes, 0 to 255; shares(r, g, b) takes parts from 0 to 1") from None
    if len(parts) == 3:
        parts += (255,)
    if len(parts) != 4 or not all(0 <= part <= 255 for part in parts):
        raise SceneError(f"{color!r} is no colour of three or four bytes")
    return parts


def shares(red, green, blue, alpha=1):
    """The colour whose parts are given from 0 to 1, as three.js and glTF have them.

    >>> shares(1, 0.5, 0)
    (255, 128, 0, 255)
    """
    if not all(0 <= plain(part) <= 1 for part in (red, green, blue, alpha)):
        raise SceneError(f"{(red, green, blue, alpha)!r} is no colour: its parts are from 0 to 1; rgba((r, g, b)) takes bytes")
    return tuple(int(part * 255 + 0.5) for part in (red, green, blue, alpha))


def mixed(one, other, share):
    """The colour between ONE (share 0) and OTHER (share 1)."""
    if not 0 <= plain(share, "the share") <= 1:
        raise SceneError(f"the share is {share!r}; it goes from 0 to 1")
    return tuple(round(a + (b - a) * share) for a, b in zip(rgba(one), rgba(other)))


def lit(color, brightness):
    """COLOR times BRIGHTNESS, cut to 255; alpha stays."""
    plain(brightness, "the brightness")
    *light, alpha = rgba(color)
    return tuple(min(255, max(0, round(part * brightness))) for part in light) + (alpha,)


def texel_bytes(texels):
    """The bytes of TEXELS, colours in any form that `rgba` takes; bytes are themselves, four for each texel.

    >>> texel_bytes(["ffc857", (1, 2, 3, 4)]).hex()
    'ffc857ff01020304'
    """
    return bytes(texels) if isinstance(texels, (bytes, bytearray)) else b"".join(bytes(rgba(texel)) for texel in many(texels, "the texels"))
