"""Words in a picture, by the font of `scene_parts.font`: a texture of the glyphs that are used, and two triangles for each."""
from scene_parts import font
from scene_parts.colors import rgba, texel_bytes
from scene_parts.faults import SceneError
from scene_parts.figures import at_pixel, whole
from scene_parts.layouts import quad

CORNER, PAINT, TEXTURE = "words_corner", "words_paint", "words_font"
"""The names of what words are drawn with."""


class Lettering:
    """What a scene has of the font so far: which glyphs stand in its texture."""

    def __init__(self):
        self.known = None

    def things(self, characters):
        """The lines that are wanted among the things of this frame before CHARACTERS can be drawn: (word, fields ..)."""
        if self.known is None:
            self.known = set()
            size = (8 * font.COLUMNS, 8 * font.LINES)
            yield ("layout", CORNER, "position:fixed:2", "color0:u8:4", "texcoord0:fixed:2")
            yield ("program", PAINT, "texcolor")
            yield ("texture", TEXTURE, *size)
        for character in sorted(set(characters) - self.known):
            self.known.add(character)
            texels = [(255, 255, 255, 255 * (pixel == "#")) for row in font.GLYPHS[character] for pixel in row]
            yield ("texupdate", TEXTURE, *font.cell(character), 8, 8, texel_bytes(texels))

    @staticmethod
    def corners(text, column, row, size, color, view):
        """The vertices of TEXT whose upper left corner stands at a pixel of a VIEW of so many pixels (width, height)."""
        made = []
        for down, line in enumerate(text.split("\n")):
            for across, character in enumerate(line):
                if character == " ":
                    continue
                left, top = column + 8 * size * across, row + 8 * size * down
                places = quad(*at_pixel(left, top, *view), *at_pixel(left + 8 * size, top + 8 * size, *view))
                x, y = font.cell(character)
                texture = quad(*(part / side for part, side in ((x, 128), (y, 48), (x + 8, 128), (y + 8, 48))))
                made += [(place, color, spot) for place, spot in zip(places, texture)]
        return made


def checked(text, column, row, size, color):
    """What `Scene.words` is given, where it can be drawn."""
    if not isinstance(text, str):
        raise SceneError(f"the words are {text!r}; they are a text")
    strange = sorted(set(text) - set(font.GLYPHS) - {"\n"})
    if strange:
        raise SceneError(f"the font has no {strange[0]!r}; it has the characters of plain ASCII")
    column, row = (whole(part, -100_000, 100_000, what) for part, what in ((column, "the column"), (row, "the row")))
    return column, row, whole(size, 1, 256, "the size"), rgba(color)
