"""The grammars of tools/editors: each line of the examples is a line of the language to them, and its fields are what they are."""
import json
import os
import re
import shutil
import subprocess
import unittest

from shared import TOP, Folder

EXAMPLES = os.path.join(TOP, "examples")
EDITORS = os.path.join(TOP, "tools", "editors")
# line, field, what it is to the grammar of TextMate, and to that of Vim
FIELDS = [
    ("# a comment", 0, "comment.line.number-sign", "sceneComment"), ("scene 1", 0, "keyword.other.head", "sceneHead"), ("scene 1", 1, "constant.numeric", "sceneNumber"),
    ("frame", 0, "entity.name.section", "scenePart"), ("encoder 3", 0, "entity.name.section", "scenePart"), ("layout p position:fixed:2 skip:3", 1, "entity.name.type", "sceneNew"),
    ("layout p position:fixed:2 skip:3", 2, "support.type.attribute", "sceneAttribute"), ("layout p position:fixed:2 skip:3", 3, "support.type.attribute", "sceneAttribute"),
    ("vb b p 0011", 1, "entity.name.type", "sceneNewData"), ("vb b p 0011", 2, "variable.other", "sceneName"), ("vb b p 00110011", 3, "comment.other.hex", "sceneHex"),
    ("texture t 2 2 rgba8 - fill:20304050", 4, "constant.language", "sceneKind"), ("texture t 2 2 rgba8 dst hex:20304050", 6, "comment.other.hex", "sceneSource"),
    ("program paint solid", 2, "constant.language", "sceneKind"), ("view 0 clear 7 14213dff 16777215 0", 4, "string.unquoted.color", "sceneColor"),
    ("view 0 clear 7 14213dff 16777215 0", 5, "constant.numeric", "sceneNumber"), ("view 3 mode descending", 3, "constant.language", "sceneKind"),
    ("view 0 target fb1", 3, "variable.other", "sceneName"), ("state 274877906975", 0, "entity.name.function", "sceneDraw"), ("state 274877906975", 1, "constant.numeric", "sceneNumber"),
    ("submit 0 paint 10000000 255", 3, "constant.numeric", "sceneNumber"), ("submit 0 paint 0 255", 2, "variable.other", "sceneName"),
    ("tvertices p 12345678", 2, "comment.other.hex", "sceneHex"), ("set u_color 65536 -1 0 0", 3, "constant.numeric", "sceneNumber"), ("bind 0 t", 2, "variable.other", "sceneName"),
    ("Frame", 0, "invalid.illegal", "sceneOther"), ("paint 3", 0, "invalid.illegal", "sceneOther"), (" frame", 0, "invalid.illegal", "sceneOther"),
]  # fmt: skip


def example_lines():
    """Each different line of the examples, shortened."""
    found = {}
    for name in sorted(os.listdir(EXAMPLES)):
        if name.endswith(".scene"):
            with open(os.path.join(EXAMPLES, name), encoding="ascii") as file:
                for line in file.read().split("\n"):
                    words = line.split(" ")
                    found.setdefault(" ".join(word[:40] if len(word) > 80 else word for word in words), None)
    return [line for line in found if line]


def starts(line, field):
    return sum(len(word) + 1 for word in line.split(" ")[:field])


class TextMate(unittest.TestCase):
    def setUp(self):
        with open(os.path.join(EDITORS, "textmate", "syntaxes", "scene.tmLanguage.json"), encoding="utf-8") as file:
            self.grammar = json.load(file)

    def scope(self, line, at):
        """What a place of a line is: the first pattern that takes the line, then the first that takes the place of a group."""
        for pattern in self.grammar["patterns"]:
            found = re.match(pattern["match"], line)
            if not found:
                continue
            for number, of in pattern.get("captures", {}).items():
                start, end = found.span(int(number))
                if start <= at < end:
                    return of["name"] if "name" in of else self.inner(found[int(number)], at - start, of["patterns"][0]["include"][1:])
            return pattern.get("name", "")
        return None

    def inner(self, text, at, where):
        place, patterns = 0, [(re.compile(p["match"]), p["name"]) for p in self.grammar["repository"][where]["patterns"]]
        while place < len(text):
            found = [(m.start(), k, m, name) for k, (p, name) in enumerate(patterns) for m in [p.search(text, place)] if m]
            if not found:
                return ""
            _, _, first, name = min(found, key=lambda entry: entry[:2])
            if first.start() <= at < first.end():
                return name
            place = first.end()
        return ""

    def test_no_line_of_the_examples_is_strange(self):
        for line in example_lines():
            self.assertFalse(self.scope(line, 0).startswith("invalid"), line)

    def test_fields(self):
        for line, field, wanted, _ in FIELDS:
            self.assertEqual(self.scope(line, starts(line, field)), wanted + ".scene", (line, field))

    def test_the_package_names_what_is_there(self):
        folder = os.path.join(EDITORS, "textmate")
        with open(os.path.join(folder, "package.json"), encoding="utf-8") as file:
            of = json.load(file)["contributes"]
        for path in (of["grammars"][0]["path"], of["languages"][0]["configuration"]):
            self.assertTrue(os.path.isfile(os.path.join(folder, path)))


@unittest.skipUnless(shutil.which("vim"), "vim is not there")
class Vim(Folder):
    def test_lines_and_fields(self):
        others = example_lines()
        scene = self.file("x.scene", "".join(line + "\n" for line in [entry[0] for entry in FIELDS] + others))
        out = os.path.join(self.folder, "out")
        asked = "\n".join(f"call add(out, synIDattr(synID({k}, {starts(line, field) + 1}, 1), 'name'))" for k, (line, field, _, _) in enumerate(FIELDS, 1))
        script = self.file("script.vim", f"""set nocompatible
set rtp^={os.path.join(EDITORS, 'vim')}
filetype plugin on
syntax on
edit {scene}
let out = [&filetype . &commentstring]
{asked}
for number in range({len(FIELDS) + 1}, line('$'))
  call add(out, synIDattr(synID(number, 1, 1), 'name'))
endfor
call writefile(out, '{out}')
qa!
""")
        subprocess.run(["vim", "-u", script, "-es", "-N"], stdin=subprocess.DEVNULL, stdout=subprocess.DEVNULL, stderr=subprocess.DEVNULL, timeout=60)
        if not os.path.isfile(out):
            self.skipTest("this vim has no syntax")
        with open(out, encoding="utf-8") as file:
            found = file.read().split("\n")[:-1]
        self.assertEqual(found[0], "scene# %s")
        self.assertEqual(found[1 : len(FIELDS) + 1], [wanted for _, _, _, wanted in FIELDS])
        self.assertEqual([line for line, name in zip(others, found[len(FIELDS) + 1 :]) if name == "sceneOther"], [])


if __name__ == "__main__":
    unittest.main()
