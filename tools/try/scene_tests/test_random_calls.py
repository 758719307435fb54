"""Calls of the module at random, many of them wrong: what it takes is a scene, and its lines are dropped for reasons of a play alone."""
import random
import unittest

from shared import second_player

from scene import *
from scene_parts import checking

NAMES = ["a", "b", "paint", "corner", "wide", "v", "n", "t", "u", "d", "f", "u_color", "s_tex", "", "A", "9", "x" * 33, None, 7]
NUMBERS = [0, 1, 2, 3, 4, 7, 8, 255, 256, 512, 2048, 2049, 65535, 65536, 2**32 - 1, 2**32, -1, 0.5, 3.0, float("nan"), float("inf"), "1", None]
VERTICES = [[], [((0, 0),)], [((0, 0), (1, 2, 3, 4))] * 3, [((0.5, -1), (0, 0, 0, 255))] * 6, [((0, 40000), (1, 2, 3, 4))], [((0, 0), (0.5, 0, 0, 0))], [(1, 2)], 5, [((0, 0, 0),)] * 3]
COLORS = ["000000", "ffc857", "#ffc85780", "ffc8", (1, 2, 3), (1, 2, 3, 4), (0.5, 0, 0), (256, 0, 0), 7, None]
TRANSFORMS = [IDENTITY, scale(0.5), move(1, 2, 3), scale(1e9), (1, 2), [0] * 12, [float("nan")] * 12]
TEXELS = [None, [], ["000000"], ["ffffff"] * 4, ["ffffff"] * 16, bytes(16), bytes(15), [7]]
WAYS = ["rgba8", "d24s8", "solid", "color", "texture", "texcolor", "vec4", "int", "default", "sequential", "ascending", "descending", "phong", "seq", 3]
DATA = [b"", b"1234", bytes(36), bytes(200)]
PARTS = ["position:fixed:2", "color0:u8:4", "position:i16:3", "texcoord0:u8:2", "skip:4", "skip:255", "skip:0", "colour:u8:4", "position:fixed:5"]


class Caller:
    """Calls methods of a scene with values at random."""

    def __init__(self, seed):
        self.chance = random.Random(seed)
        self.scene = Scene(32, 24, encoders=2, version=self.chance.choice([1, 2]))
        self.refused = self.taken = 0

    def of(self, many):
        return self.chance.choice(many)

    def number(self):
        return self.chance.choice(NUMBERS if self.chance.random() < 0.3 else [0, 0, 1, 1, 2, 3, 4, 16])

    def name(self, *likely):
        return self.of(NAMES if self.chance.random() < 0.15 else likely or NAMES[:13])

    def calls(self):
        number, of, name = self.number, self.of, self.name
        rect = [number() for _ in range(4)]
        return {
            "frame": (), "beside": (), "encoder": (of([0, 0, 1, 2, number()]),), "layout": (name("corner", "wide"), *self.chance.choices(PARTS, k=self.chance.randrange(1, 4))),
            "vb": (name("v", "a"), name("corner", "wide"), of(VERTICES)), "ib": (name("n", "b"), [number() for _ in range(of([0, 3, 6]))]),
            "texture": (name("t", "u", "d"), of([2, 4, number()]), of([2, 4, number()]), of(TEXELS), of(COLORS), of([True, False]), of(WAYS[:3])),
            "fb": (name("f"), name("t", "u"), of([None, name("d")])), "program": (name("paint", "p"), of(WAYS)), "uniform": (name("u_color", "s_tex"), of(WAYS[4:9])),
            "update": (name("v", "n"), number(), of(DATA)), "texupdate": (name("t", "d"), *rect, of(TEXELS[1:])), "destroy": (name(),),
            "clear": (number(), of(COLORS), number(), number(), number()), "rect": (number(), *rect), "view_scissor": (number(), *rect), "mode": (number(), of(WAYS[8:])),
            "target": (number(), of([None, name("f")])), "view_transform": (number(), of(TRANSFORMS)), "reset_view": (number(),), "order": tuple(number() for _ in range(of([0, 1, 3]))),
            "stencil": (number(), of([0, stencil()])), "scissor": rect, "transform": (of(TRANSFORMS),), "vertices": (name("v", "a"), number(), of([None, number()])),
            "indices": (name("n", "b"), number(), of([None, number()])), "tvertices": (name("corner", "wide"), of(VERTICES)), "tindices": ([number() for _ in range(3)],),
            "bind": (number(), of([None, name("t", "u", "d")])), "set": (name("u_color", "s_tex"), *(number() for _ in range(of([1, 4, 2])))), "set_color": (of(COLORS),),
            "submit": (number(), name("paint", "p"), number(), number()), "touch": (number(),), "blit": (number(), name("t", "u"), number(), number(), name("t", "u", "d"), *rect),
            "words": (number(), number(), number(), of(["", "A", "B C", "caf\u00e9", "x\ny", 7]), of(COLORS), number()), "note": (of(["hello", "two\nlines", ""]),),
        }  # fmt: skip

    def step(self):
        calls = self.calls()
        word = self.of(list(calls)) if self.chance.random() < 0.95 else "frame"
        try:
            getattr(self.scene, word)(*calls[word])
            self.taken += 1
        except SceneError as error:
            assert str(error).startswith(checking.told(error.place)), error
            self.refused += 1


class Calls(unittest.TestCase):
    def test_what_is_taken_is_a_scene(self):
        taken = refused = 0
        for seed in range(60):
            caller = Caller(seed)
            caller.scene.frame()
            for _ in range(120):
                caller.step()
            taken, refused = taken + caller.taken, refused + caller.refused
            text = caller.scene.text().encode("ascii")
            second_player.read_scene(text)
            for fault in checking.by_second(text):
                line = caller.scene.lines[fault.line - 1]
                # what was destroyed, what hangs on it, and words of stencil that are any number
                self.assertTrue("was destroyed" in fault.why or "holds" in fault.why or "stands for nothing" in fault.why or line.startswith(("stencil ", "uniform ")), (seed, line[:80], fault.why))
        self.assertGreater(taken, 1000)
        self.assertGreater(refused, 1000)


if __name__ == "__main__":
    unittest.main()
