"""random_scenes.py as a program: what it writes, and what it says of renderers that are right and wrong."""
import os
import random
import sys
import unittest

from shared import PROGRAM, TOP, Folder, played, run

import random_scenes

SCRIPT = "tools/try/random_scenes.py"
RIGHT = f"""import sys
sys.path[:0] = [{os.path.join(TOP, 'tools', 'try')!r}]
import second_player, second_renderer
try:
    scene, _ = second_player.read_scene(open(sys.argv[1], "rb").read())
except second_player.SceneFault:
    sys.exit(2)
plans = second_player.plans(scene)
journal = second_player.read_journal(open(sys.argv[2], "rb").read(), len(plans)) if len(sys.argv) > 2 else \\
    [[(0, k) for k in range(len(plan.items[0]))] for plan in plans]
sys.stdout.buffer.write(b"".join(second_renderer.pictures(scene, plans, journal)))
"""


class Program(Folder):
    def test_the_same_seed_gives_the_same_scene(self):
        for number in range(5):
            self.assertEqual(*(random_scenes.scene(random.Random(f"9/{number}")) for _ in range(2)))

    def test_what_is_written_is_answered(self):
        folder = os.path.join(self.folder, "made")
        self.assertEqual(run(SCRIPT, "--seed", "3", "--count", "6", "--broken", "write", folder)[0], 0)
        names = sorted(os.listdir(folder))
        self.assertEqual(len([name for name in names if name.endswith(".scene")]), 6)
        for name in names:
            if name.endswith(".scene"):
                with open(os.path.join(folder, name), "rb") as file, open(os.path.join(folder, name[:-5] + "notes"), encoding="ascii") as notes:
                    said = notes.read()
                    if said.startswith("frame"):
                        self.assertEqual(played(file.read())[0], said)
                    else:
                        self.assertNotIn(name[:-5] + "ppm", names)

    def test_right_and_wrong_renderers(self):
        right, keep = self.file("right.py", RIGHT), os.path.join(self.folder, "kept")
        words = ("--count", "4", "--keep", keep, "--broken", "against", sys.executable)
        self.assertEqual(run(SCRIPT, *words, right, "{}")[:2], (0, b"4 scenes, 0 differ\n"))
        self.assertEqual(run(SCRIPT, *words, right, "{}", "{journal}")[:2], (0, b"4 scenes, 0 differ\n"))
        wrong = self.file("wrong.py", RIGHT.replace("b\"\".join(second_renderer.pictures(scene, plans, journal))", "b\"\".join(p[:-1] + bytes([p[-1] ^ 8]) for p in second_renderer.pictures(scene, plans, journal))"))
        status, out, _ = run(SCRIPT, *words, wrong, "{}")
        self.assertEqual(status, 1)
        self.assertIn("1 pixels differ, by up to 8", out.decode())
        self.assertTrue(os.listdir(keep))
        near = ("--near", "8", *words)
        self.assertEqual(run(SCRIPT, *near, wrong, "{}")[0], 0)

    def test_lines_are_left_out(self):
        folder = os.path.join(self.folder, "made")
        run(SCRIPT, "--count", "5", "--without", "stencil,state", "write", folder)
        for name in os.listdir(folder):
            if name.endswith(".scene"):
                with open(os.path.join(folder, name), "rb") as file:
                    self.assertFalse([line for line in file if line.startswith((b"stencil ", b"state "))])

    def test_wrong_words(self):
        for words in ((), ("write",), ("write", "a", "b"), ("--without", "frame", "write", "a"), ("--count", "0", "write", "a"), ("play", "x")):
            status, _, said = run(SCRIPT, *words)
            self.assertEqual((status, "Traceback" in said), (2, False), words)
        self.assertEqual(run(SCRIPT, "--count", "1", "against", "/nope")[::2], (1, "random_scenes.py: /nope: No such file or directory\n"))

    @unittest.skipUnless(PROGRAM, "GFX_PLAY names no program")
    def test_the_program(self):
        self.assertEqual(run(SCRIPT, "--count", "20", "--broken", "against", PROGRAM, "play")[:2], (0, b"20 scenes, 0 differ\n"))


if __name__ == "__main__":
    unittest.main()
