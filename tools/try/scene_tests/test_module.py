"""The module scene.py: its examples, its errors with the caller's line, and what its helps draw."""
import doctest
import importlib
import math
import os
import unittest

from shared import TOP, Folder, pixel, played, run, second_player

import scene as module
from scene import *

PARTS = ["bits", "checking", "colors", "faults", "figures", "font", "layouts", "lettering", "models", "motion", "perspective", "pictures",
         "shapes", "transforms"]  # fmt: skip


def begun(encoder=True, **how):
    """A scene of 32 by 24 pixels with some things."""
    made = Scene(32, 24, **how)
    made.frame()
    made.layout("corner", "position:fixed:2", "color0:u8:4")
    made.program("paint", "color")
    made.uniform("u_color")
    made.uniform("s_tex", "int")
    made.texture("t", 2, 2, ["ff0000", "00ff00", "0000ff", "ffffff"])
    made.texture("d", 2, 2, kind="d24s8", fill="ffffff00")
    made.vb("v", "corner", [((x, y), (255, 255, 255, 255)) for x, y in quad(-1, 1, 1, -1)])
    if encoder:
        made.encoder()
    return made


# what can't be written, and a part of what is said of it; `s` is a scene with an encoder begun, `t` one without
REFUSED = [
    ("rgba((0.5, 0.2, 1.0))", "shares(r, g, b)"), ("rgba('#12')", "six or eight"), ("rgba('ff c857')", "six or eight"), ("rgba((1, 2))", "three or four"),
    ("rgba((1, 2, 256))", "three or four"), ("rgba(7)", "no colour"), ("shares(255, 0, 0)", "from 0 to 1"), ("mixed('000000', 'ffffff', 2)", "share"),
    ("stencil(reference=300)", "the reference is 300"), ("stencil(mask=-1)", "the mask"), ("stencil('none')", "has a test"),
    ("stencil(fail='up')", "'up' is no operation"), ("state(write='x')", "r, g, b and a"), ("state(write='rr')", "each once"),
    ("state(depth='smaller')", "no depth test"), ("state(blend=('one',))", "no name"), ("state(blend=['one', 'two'])", "'two' is no factor"),
    ("state(cull='front')", "no cull"), ("turn('w', 3)", "no axis"), ("turn('x', float('nan'))", "no number"), ("then((1, 2, 3))", "12 numbers"),
    ("camera(10, 10, size=0)", "above 0"), ("camera(10, 10, near=4, far=4)", "near is 4"), ("look_at((0, 0, 0))", "no length"), ("fixed(40000)", "too far"),
    ("fixed('1')", "no number"), ("Layout('p', 'position:fixed:5')", "no part"), ("Layout('p', 'skip:0')", "no part"),
    ("Layout('p', 'skip:200', 'skip:56')", "255 at most"), ("Layout('p', 'position:u8:1', 'position:u8:1')", "twice"), ("Layout('p')", "1 to 15"),
    ("Layout('p', 'position:fixed:2').pack([((float('nan'), 0),)])", "vertex 0"), ("Layout('p', 'position:fixed:2').pack([((0, 0),), ((1,),)])", "vertex 1"),
    ("Layout('p', 'color0:u8:3').pack([((0.5, 0, 0),)])", "whole bytes"), ("Layout('p', 'color0:u8:3').pack([((256, 0, 0),)])", "goes from 0 to 255"),
    ("Layout('p', 'position:i16:1').pack([((1,),)])", "just below 1"), ("Layout('p', 'position:fixed:2').pack([(0, 0)])", "one for each attribute"),
    ("Layout('p', 'position:fixed:2').pack([(('a', 0),)])", "no number"), ("keys()", "one (frame, value)"), ("keys((3, 0), (3, 1))", "rise"),
    ("keys((0, 1), (1, (2, 3)))", "as many numbers"), ("ease(0.5, 'jump')", "no way to ease"), ("sphere(0)", "above 0"), ("sphere(1, 2)", "goes from 3"),
    ("perspective(10, 10, 180)", "below 180"), ("perspective(10, 10, near=0)", "near is 0"), ("at_pixel(0, 0, 0, 1)", "no places"),
    ("Scene(0, 1)", "the width"), ("Scene(1, 4000)", "the height"), ("Scene(1, 1, latency=2)", "version=2"), ("Scene(1, 1, room=(1, 2))", "three numbers"),
    ("Scene(1, 1).text()", "no frame"), ("Scene(1, 1).encoder()", "call frame() first"), ("t.submit(0, 'paint')", "call encoder() first"),
    ("s.program('q', 'solid')", "behind beside()"), ("s.encoder(1)", "the encoder is 1"), ("s.encoder(0)", "rise"), ("t.program('q', 'phong')", "kind of program"),
    ("t.program('Q', 'solid')", "no name"), ("t.program('paint', 'solid')", "taken by a program"), ("t.uniform('x', 'vec3')", "kind of uniform"),
    ("t.layout('x', 'position:fixed:2', 'colour:u8:4')", "no part"), ("t.vb('x', 'paint', [])", "is a program"), ("t.vb('x', 'nope', [])", "nothing has the name"),
    ("t.vb('x', 'corner', [])", "1 to 524288"), ("t.ib('x', [70000])", "index 0 is 70000"), ("t.ib('x', [0.5])", "index 0"), ("t.texture('x', 2, 2, ['000000'])", "1 texels"),
    ("t.texture('x', 0, 2)", "the width"), ("t.texture('x', 2, 2, kind='rgb')", "kind of texture"), ("t.fb('f', 'd')", "d24s8"), ("t.fb('f', 't', 't')", "has to be d24s8"),
    ("t.update('v', 140, b'12345678')", "pass the end"), ("t.texupdate('t', 1, 1, 2, 1, ['000000'] * 2)", "pass the sides"), ("t.destroy('nope')", "nothing has"),
    ("t.clear(0, '000000', 8)", "the flags"), ("t.clear(0, depth=2**24)", "the depth"), ("t.clear(256)", "the view is 256"), ("t.rect(0, 0, 0, 32.5, 10)", "32.5"),
    ("t.rect(0, -1, 0, 5, 5)", "x is -1"), ("t.view_scissor(0, 0, 0, 70000, 1)", "the width"), ("t.mode(0, 'seq')", "no mode"), ("t.target(0, 't')", "is a texture"),
    ("t.view_transform(0, scale(40000))", "too far"), ("t.view_transform(0, (1, 2))", "12 numbers"), ("t.order(1, 1)", "twice"), ("t.order(300)", "the view is 300"),
    ("s.state(dept='less')", "no 'dept'"), ("s.stencil(-1)", "front word"), ("s.scissor(0, 0, -1, 1)", "the width"), ("s.transform(IDENTITY[:11])", "12 numbers"),
    ("s.vertices('v', 0, 7)", "vertices of 'v'"), ("s.vertices('nope', 0, 1)", "nothing has"), ("s.indices('v')", "is a vertex buffer"), ("s.tvertices('corner', [((0, 0),)])", "vertex 0"),
    ("s.tindices([-1])", "index 0"), ("s.bind(2, 't')", "the stage"), ("s.bind(0, 'd')", "d24s8"), ("s.bind(0, 'paint')", "is a program"), ("s.set('u_color', 1, 2)", "four numbers"),
    ("s.set('s_tex', 0.5)", "whole number"), ("s.set('paint', 1)", "is a program"), ("s.submit(0, 't')", "is a texture"), ("s.submit(0, 'paint', -1)", "the depth"),
    ("s.submit(0, 'paint', 0, 256)", "the flags"), ("s.touch(1.5)", "the view"), ("s.blit(0, 't', 0, 0, 't', 0, 0, 1, 1)", "blit=True"), ("s.blit(0, 't', 0, 0, 'd', 0, 0, 1, 1)", "equal kinds"),
    ("keys(1, 2)", "one (frame, value)"), ("apply(IDENTITY, (1, 2))", "three numbers"), ("s.tindices(5)", "they are a list"), ("Scene(1, 1, room=5)", "they are a list"),
    ("s.stencil(3)", "no test"), ("t.uniform('u_color', 'int')", "of kind vec4 already"), ("Layout('p', 'position:fixed:2').pack(7)", "they are a list"),
    ("s.words(0, 0, 0, 'caf\\u00e9')", "plain ASCII"), ("s.words(0, 0, 0, 7)", "a text"), ("t.words(0, 0, 0, 'x')", "call encoder() first"),
]  # fmt: skip


class Examples(unittest.TestCase):
    def test_the_examples_of_each_part(self):
        for name in PARTS:
            failed, _ = doctest.testmod(importlib.import_module(f"scene_parts.{name}"))
            self.assertEqual(failed, 0, name)

    def test_all_that_is_handed_on_is_there(self):
        self.assertEqual([name for name in module.__all__ if not hasattr(module, name)], [])

    def test_the_files_stay_short(self):
        for folder, _, names in os.walk(os.path.join(TOP, "tools", "scene")):
            for name in names:
                if name.endswith(".py"):
                    with open(os.path.join(folder, name), encoding="utf-8") as file:
                        self.assertLess(len(file.readlines()), 800, name)


class Errors(Folder):
    def test_each_wrong_value_is_an_error_with_the_callers_line(self):
        for number, (call, said) in enumerate(REFUSED):
            s, t = begun(), begun(encoder=False)
            with self.assertRaises(SceneError, msg=call) as caught:
                exec(compile("\n" * number + call, "mine.py", "exec"), dict(globals(), s=s, t=t))
            self.assertEqual(caught.exception.place, ("mine.py", number + 1, None), call)
            self.assertIn(said, str(caught.exception), call)

    def test_whole_numbers_may_be_given_as_floats(self):
        made = begun(encoder=False)
        made.rect(0, 0, 0, 64 / 2, 24.0)
        self.assertEqual(made.lines[-1], "view 0 rect 0 0 32 24")

    def test_a_script_ends_with_one_line(self):
        path = self.file("mine.py", f"import sys\nsys.path.insert(0, {os.path.join(TOP, 'tools', 'scene')!r})\nfrom scene import *\n\nscene = Scene(1, 1)\nscene.frame()\nscene.mode(0, 'seq')\n")
        status, out, said = run(path, cwd=self.folder)
        self.assertEqual((status, out, said.count("\n")), (1, b"", 1), said)
        self.assertTrue(said.startswith("mine.py, line 7: 'seq' is no mode"), said)

    def test_a_function_of_the_script_is_told_with_its_call(self):
        path = self.file("mine.py", f"import sys\nsys.path.insert(0, {os.path.join(TOP, 'tools', 'scene')!r})\nfrom scene import *\n\ndef color(text):\n    return rgba(text)\n\ncolor('no')\n")
        self.assertTrue(run(path, cwd=self.folder)[2].startswith("mine.py, line 6, called from line 8: 'no' is no colour"))

    def test_comments_may_have_any_letters(self):
        made = begun()
        made.note("caf\u00e9\n\nend")
        made.check()
        path = os.path.join(self.folder, "x.scene")
        module.write_scene(made.text(), path)
        with open(path, "rb") as file:
            self.assertIn("# caf\u00e9\n#\n# end\n".encode(), file.read())

    def test_gallery_scripts_say_where_they_cannot_write(self):
        status, _, said = run("tools/scene/gallery/views.py", "--output", "/nope/x")
        self.assertEqual((status, said), (1, "views.py: /nope/x: No such file or directory\n"))


class Checks(Folder):
    def test_a_dropped_line_is_told_with_the_scripts_line(self):
        made = begun(encoder=False)
        made.destroy("t")
        made.frame()
        made.encoder()
        made.bind(0, "t")
        line = second_line = None
        with self.assertRaises(SceneError) as caught:
            made.check()
        line = made.places[[k for k, text in enumerate(made.lines) if text == "bind 0 t"][0]]
        self.assertEqual(caught.exception.place, line, second_line)
        self.assertIn("is dropped in frame 1: `t` was destroyed in frame 0", str(caught.exception))

    def test_a_refused_line_has_a_caret(self):
        made = begun()
        made.line("submit", 0, "pain", 0, 255)
        with self.assertRaises(SceneError) as caught:
            made.check()
        self.assertIn("no line before makes this name", str(caught.exception))
        self.assertIn("    submit 0 pain 0 255\n             ^", str(caught.exception))

    def test_the_same_field_twice_has_the_right_caret(self):
        made = begun()
        made.line("submit", 300, "paint", 0, 300)
        with self.assertRaises(SceneError) as caught:
            made.check()
        self.assertIn("\n    " + " " * len("submit 300 paint 0 ") + "^", str(caught.exception))

    def test_each_kind_of_dropped_line_is_named(self):
        wrong = [
            ("state 256", "no state word"), ("stencil 1 0", "no stencil word"), ("bind 7 t", "stages are 0 and 1"), ("touch 256", "they go from 0 to 255"),
            ("set paint 1", "`paint` is a program"), ("set u_color 1", "another kind"), ("vertices t 0 1", "`t` is a texture"), ("submit 0 t 0 255", "`t` is a texture"),
            ("blit 0 t 0 0 t 0 0 1 1", "destination"), ("tindices " + "00" * 262146, "room for 262144 bytes"),
        ]  # fmt: skip
        made = begun()
        for line, _ in wrong:
            made.line(line)
        found = module.checking.by_second(made.text().encode())
        self.assertEqual(len(found), len(wrong))
        for fault, (line, said) in zip(found, wrong):
            self.assertIn(said, fault.why, line)

    def test_dropped_things_and_views(self):
        wrong = ["vb x paint 00", "ib y 00", "texture z 2 2 rgba8 - hex:00000000", "fb f t t", "fb f2 d -", "update v 142 00000000", "texupdate t 1 1 2 1 -", "view 0 target t",
                 "view 0 clear 9 00000000 0 0", "order 1 1", "uniform u_color int", "layout lay skip:255 skip:1", "view 999 reset", "destroy x"]  # fmt: skip
        made = begun(encoder=False)
        for line in wrong:
            made.line(line)
        found = module.checking.by_second(made.text().encode())
        self.assertEqual([made.lines[fault.line - 1] for fault in found], wrong)

    def test_the_counts_are_those_of_the_notes(self):
        import random

        import random_scenes

        for number in range(40):
            text = random_scenes.scene(random.Random(f"faults/{number}"))
            notes = second_player.report(second_player.plans(second_player.read_scene(text)[0])).decode().splitlines()
            found = module.checking.by_second(text)
            self.assertEqual([int(note.split()[-1]) for note in notes], [sum(fault.frame == k for fault in found) for k in range(len(notes))])

    def test_the_program_is_asked_where_it_is_built(self):
        program = self.file("gfx_check", "#!/bin/sh\ncat > /dev/null\necho 'line 5 frame 0 encoder 0 refused Stale'\necho 'line 7 frame 1 refused BadSize'\n")
        os.chmod(program, 0o755)
        self.assertEqual([(f.line, f.frame, f.encoder) for f in module.checking.by_program(program, b"x")], [(5, 0, 0), (7, 1, None)])
        program = self.file("gfx_check2", "#!/bin/sh\ncat > /dev/null\necho 'scene refused at line 31 for cause 10 in field 3' >&2\nexit 2\n")
        os.chmod(program, 0o755)
        self.assertEqual(module.checking.by_program(program, b"x")[0][:2], (31, 2))

    def test_each_line_has_its_place(self):
        made = begun()
        made.words(0, 0, 0, "ab\nc")
        made.note("one\ntwo")
        self.assertEqual(len(made.places), len(made.lines))
        self.assertTrue(all(path == __file__ for path, _, _ in made.places))


class Words(unittest.TestCase):
    def test_words_are_told_by_the_names_that_make_them(self):
        import itertools

        from scene_parts.bits import state_names, stencil_names

        for values in itertools.product(("rgba", "", "ra"), module.TESTS, (False, True), (*module.BLENDS, ("dst", "1-dst", "reverse")), module.CULLS, (False, True)):
            how = dict(zip(("write", "depth", "write_depth", "blend", "cull", "strip"), values))
            self.assertEqual(state(**state_names(state(**how))), state(**how))
        for values in itertools.product(list(module.TESTS)[1:], (0, 7, 255), (0, 255), module.OPERATIONS, ("keep", "zero"), module.OPERATIONS):
            word = stencil(*values)
            self.assertEqual(stencil(**stencil_names(word)), word)

    def test_words_that_are_not_admitted(self):
        """Just those that the second implementation refuses are refused, but for a word that blends alpha in a way of its own."""
        import random

        from scene_parts.bits import state_names, stencil_names

        chance = random.Random(4)
        for _ in range(3000):
            word = state(depth=chance.choice(list(module.TESTS)), blend=chance.choice(list(module.BLENDS))) ^ (1 << chance.randrange(64)) * chance.randrange(2)
            try:
                state_names(word)
                self.assertTrue(second_player.is_state_word(word), hex(word))
            except SceneError as error:
                self.assertTrue(not second_player.is_state_word(word) or "blends alpha" in error.what, hex(word))
            word = stencil(chance.choice(list(module.TESTS)[1:])) ^ (1 << chance.randrange(32)) * chance.randrange(2)
            try:
                stencil_names(word)
                self.assertTrue(second_player.is_stencil_word(word), hex(word))
            except SceneError:
                self.assertFalse(second_player.is_stencil_word(word), hex(word))

    def test_the_script(self):
        self.assertEqual(run("tools/scene/say_word.py", "state", "274877906975")[:2], (0, b"state(depth='less', write_depth=True)\n"))
        self.assertEqual(run("tools/scene/say_word.py", "stencil", "0x2118ff01")[:2], (0, b"stencil(reference=1, both='replace')\n"))
        self.assertEqual(run("tools/scene/say_word.py", "state", "256")[::2], (1, "say_word.py: bit 8 of the word is none of its fields: it is not admitted\n"))


class Helps(unittest.TestCase):
    def test_words_are_drawn_pixel_by_pixel(self):
        for size, view in ((1, 0), (2, 3)):
            made = begun()
            made.touch(0)
            made.words(view, 2, 3, "A", "ff8000", size)
            notes, (picture,) = played(made.text())
            self.assertEqual(notes, "frame 0 items 2 dropped 0\n")
            from scene_parts.font import GLYPHS

            for y in range(24):
                for x in range(32):
                    column, row = (x - 2) // size, (y - 3) // size
                    wanted = (255, 128, 0) if 0 <= column < 8 and 0 <= row < 8 and GLYPHS["A"][row][column] == "#" else (0, 0, 0)
                    self.assertEqual(pixel(picture, 32, x, y), wanted, (x, y))

    def test_words_of_later_frames_and_in_a_view_with_a_rectangle(self):
        made = begun(encoder=False)
        made.rect(1, 16, 8, 16, 8)
        made.encoder()
        made.words(1, 0, 0, "I")
        made.frame()
        made.encoder()
        made.words(1, 8, 0, "I\n")
        made.words(0, 0, 0, " ")
        made.check()
        notes, pictures = played(made.text())
        self.assertEqual(notes, "frame 0 items 1 dropped 0\nframe 1 items 1 dropped 0\n")
        self.assertEqual(pixel(pictures[0], 32, 19, 8), (255, 255, 255))
        self.assertEqual(pixel(pictures[1], 32, 27, 8), (255, 255, 255))

    def test_words_refuse_a_view_that_moves(self):
        made = begun(encoder=False)
        made.view_transform(2, scale(0.5))
        made.encoder()
        with self.assertRaises(SceneError):
            made.words(2, 0, 0, "x")

    def test_shapes_are_closed_and_clockwise(self):
        for name, corners in (("box", box()), ("sphere", sphere(1, 9, 5)), ("cylinder", cylinder(1, 2, 7)), ("cone", cylinder(1, 2, 7, top=0))):
            edges = {}
            for a, b, c in zip(corners[0::3], corners[1::3], corners[2::3]):
                points = [tuple(round(part, 9) for part in corner[0]) for corner in (a, b, c)]
                normal = cross([q - p for p, q in zip(points[0], points[1])], [q - p for p, q in zip(points[0], points[2])])
                middle = [sum(point[k] for point in points) for k in range(3)]
                self.assertLess(sum(p * q for p, q in zip(normal, middle)), 0, name)
                self.assertGreater(sum(p * q for p, q in zip(a[1], middle)), 0, name)
                for p, q in ((0, 1), (1, 2), (2, 0)):
                    edges[points[p], points[q]] = edges.get((points[p], points[q]), 0) + 1
            self.assertTrue(all(count == 1 and edges.get((q, p)) == 1 for (p, q), count in edges.items()), name)

    def test_normals_have_length_1(self):
        for corners in (sphere(2), cylinder(1, 2, top=0.3), plane(), grid(2, 2), box(3)):
            self.assertTrue(all(abs(math.hypot(*normal) - 1) < 1e-9 for _, normal, _ in corners))

    def test_perspective_is_right_within_its_error(self):
        layout = Layout("v", "position:fixed:3", "texcoord0:fixed:2")
        lens, eye = perspective(200, 100, 60, 0.5, 50, error=0.5), look_at((0, 1, 0), (0, 0.6, -3))
        corners = [((x, 0, z), (x, z)) for x, z in quad(-20, -40, 20, 5)]
        made = lens.through(eye, layout, corners)
        self.assertGreater(len(made), 60)
        for a, b, c in zip(made[0::3], made[1::3], made[2::3]):
            for share in ((1 / 3, 1 / 3, 1 / 3), (0.5, 0.5, 0), (0.2, 0.3, 0.5)):
                (x, y, z), (u, w) = (tuple(sum(part * corner[k][n] for part, corner in zip(share, (a, b, c))) for n in range(count)) for k, count in ((0, 3), (1, 2)))
                wanted = lens.seen(apply(eye, (u, 0, w)))
                self.assertLess(math.hypot((x - wanted[0]) * 100, (y - wanted[1]) * 50), 1)
                self.assertTrue(-1.000001 <= x <= 1.000001 and -1.000001 <= y <= 1.000001 and 0 <= z <= 1)

    def test_perspective_leaves_no_gap_at_cut_edges(self):
        layout = Layout("v", "position:fixed:3", "color0:u8:4")
        lens = perspective(120, 90, 50, 0.2, 60)
        made = lens.through(look_at((3, 2, 4)), layout, [(p, (255, 255, 255, 255)) for p, _, _ in plane(30, 30, 3, 3)])
        inner, counts = lambda p: all(-0.9999 < part < 0.9999 for part in p[:2]), {}
        for a, b, c in zip(made[0::3], made[1::3], made[2::3]):
            for p, q in ((a, b), (b, c), (c, a)):
                counts[frozenset((p[0], q[0]))] = counts.get(frozenset((p[0], q[0])), 0) + 1
        # within the picture each edge has a triangle on both sides, but for the rim of the plane and the ends of the picture
        lonely = [edge for edge, count in counts.items() if count == 1 and all(map(inner, edge))]
        rim = [edge for edge in lonely if all(self.is_on_rim(lens, point) for point in edge)]
        self.assertEqual(len(lonely), len(rim))

    @staticmethod
    def is_on_rim(lens, point):
        away = lens.far * lens.near / (lens.far - point[2] * (lens.far - lens.near))
        before = (point[0] * away * lens.right, point[1] * away * lens.up, -away)
        eye = look_at((3, 2, 4))
        home = tuple(sum(eye[4 * r + k] * (before[r] - eye[4 * r + 3]) for r in range(3)) for k in range(3))
        return max(abs(home[0]), abs(home[2])) > 14.99

    def test_keys_and_ease(self):
        way = keys((0, (0, 0)), (10, (4, 8)), (20, (4, 0)), kind="linear")
        self.assertEqual([way(frame) for frame in (-5, 0, 5, 10, 15, 40)], [(0, 0), (0, 0), (2, 4), (4, 8), (4, 4), (4, 0)])
        for kind in module.EASES:
            self.assertEqual((ease(0, kind), ease(1, kind)), (0, 1), kind)
            values = [ease(k / 50, kind) for k in range(51)]
            self.assertEqual(values, sorted(values), kind)


class Gallery(unittest.TestCase):
    def test_the_scripts_still_make_the_scenes_that_are_kept(self):
        folder = os.path.join(TOP, "tools", "scene", "gallery")
        for name in sorted(os.listdir(folder)):
            kept = os.path.join(TOP, "examples", name[:-3] + ".scene")
            if name.endswith(".py") and os.path.isfile(kept):
                status, out, said = run(os.path.join(folder, name))
                self.assertEqual(status, 0, said)
                with open(kept, "rb") as file:
                    self.assertEqual(out, file.read(), name)
                self.assertIn(f"Made by tools/scene/gallery/{name}.".encode(), out.split(b"\n")[-3 if name == "destroyed.py" else 0])


if __name__ == "__main__":
    unittest.main()
