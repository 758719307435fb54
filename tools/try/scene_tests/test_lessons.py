"""The tutorial's second part: its scenes are those of examples/lessons, its pictures are what they draw, and what it says holds."""
import os
import re
import subprocess
import unittest

from shared import PROGRAM, TOP, pixel, played

from scene import rgba, state, stencil
from scene_parts import pictures

LESSONS = os.path.join(TOP, "examples", "lessons")
PAGE = os.path.join(TOP, "docs", "use", "writing-scenes-2.md")
SKY = (0x14, 0x21, 0x3D)


def lesson(name):
    with open(os.path.join(LESSONS, name + ".scene"), encoding="ascii") as file:
        return file.read()


def colors(text):
    """The colours of the first picture."""
    picture = played(text)[1][0]
    return {tuple(picture[at : at + 3]) for at in range(0, len(picture), 3)}


class Lessons(unittest.TestCase):
    def setUp(self):
        with open(PAGE, encoding="utf-8") as file:
            self.page = file.read()

    def test_the_page_has_the_scenes(self):
        blocks = re.findall(r"!\[[^]]*\]\(pictures/lessons/([a-z]+)\.png\)\n\n```scene\n(.*?)```", self.page, re.S)
        self.assertEqual(sorted(name + ".scene" for name, _ in blocks), sorted(os.listdir(LESSONS)))
        for name, block in blocks:
            self.assertEqual(block, "".join(line + "\n" for line in lesson(name).split("\n")[1:-1]), name)
            self.assertLessEqual(len(block.split("\n")), 24, name)

    def test_the_pictures_are_what_the_scenes_draw(self):
        for name in sorted(os.listdir(LESSONS)):
            text = lesson(name[:-6])
            notes, (picture,) = played(text)
            self.assertTrue(notes.endswith("dropped 0\n"), name)
            kept = pictures.load(os.path.join(TOP, "docs", "use", "pictures", "lessons", name[:-6] + ".png"))
            self.assertEqual((kept.width, kept.height), (240, 160))
            self.assertEqual(b"".join(kept.data[at : at + 3] for at in range(0, len(kept.data), 4)), picture, name)
            if PROGRAM:
                done = subprocess.run([PROGRAM, "play"], input=text.encode(), stdout=subprocess.PIPE, stderr=subprocess.PIPE)
                self.assertEqual((done.stdout, done.stderr.decode()), (b"P6\n240 160\n255\n" + picture, notes), name)

    def test_the_words_of_the_page(self):
        for word, made in (("281474976710671", state(strip=True)), ("274877906975", state(depth="less", write_depth=True)), ("106319887", state(blend="alpha")),
                           ("555286273", stencil("always", 1, both="replace")), ("286523137", stencil("equal", 1))):  # fmt: skip
            self.assertEqual(word, str(made))
            self.assertIn(word, self.page)

    def test_depth_has_to_be_cleared(self):
        self.assertEqual(colors(lesson("depth").replace("clear 3", "clear 1")), {SKY})

    def test_what_does_not_blend_comes_first(self):
        text = lesson("blending")
        bar = rgba("ffd166")[:3]
        self.assertNotEqual(pixel(played(text)[1][0], 240, 120, 80), bar)
        self.assertEqual(pixel(played(text.replace("encoder 0", "view 0 mode sequential\nencoder 0"))[1][0], 240, 120, 80), bar)

    def test_a_triangle_out_of_range_is_dropped_whole(self):
        text = lesson("depth").replace("position:i16:3", "position:fixed:3")
        text = re.sub(r"tvertices corner .*", "tvertices corner 0000000000000100000000000000010000000000000000000000ffff0000ffff01000100", text)
        notes, (picture,) = played(text)
        self.assertEqual((notes, set(picture[at : at + 3] for at in range(0, len(picture), 3))), ("frame 0 items 2 dropped 0\n", {bytes(SKY)}))

    def test_a_uniform_that_was_never_set_is_black(self):
        text = re.sub(r"set u_color .*\n", "", lesson("buffers"))
        self.assertEqual(colors(text), {SKY, (0, 0, 0)})
        self.assertEqual(colors(text.replace("uniform u_color vec4\n", "")), {SKY, (255, 255, 255)})

    def test_a_view_cannot_sample_its_own_target(self):
        text = lesson("target").replace("view 1 clear", "view 1 target canvas\nview 1 clear")
        self.assertEqual(colors(text), {(0, 0, 0)})

    def test_cull_names_what_is_dropped(self):
        # the walls and the roof of the house go from below to the right and up: against the clock
        for bit, kept in ((1 << 36, True), (2 << 36, False)):
            text = lesson("buffers").replace("set u_color", f"state {15 | bit}\nset u_color", 1)
            self.assertEqual(rgba("f1faee")[:3] in colors(text), kept)


if __name__ == "__main__":
    unittest.main()
