"""The word check: is a text a scene, and which of its lines does a play drop?"""
import os
import re
import sys
import tempfile

from door.explain import REFUSALS, fault_text
from door.faults import Stop, many
from door.programs import TOP, debugger, judge, run_over
from door.scenes import whole_scene

LINE = re.compile(r"line (\d+) frame (\d+)(?: encoder (\d+))? refused (\w+)$")
FAULT = re.compile(r"scene refused at line (\d+) for cause (\d+)(?: in field (\d+))?")


class Dropped:
    """A line that is dropped: its number, its frame, its encoder if it has one, and the word of its refusal."""

    def __init__(self, line, frame, encoder, word):
        self.line, self.frame, self.encoder, self.word = line, frame, encoder, word

    def told(self, scene, why=None):
        """It in words; WHY says why, where that is known."""
        by = "" if self.encoder is None else f", encoder {self.encoder}"
        reason, word = why or REFUSALS.get(self.word), f" ({self.word})" if self.word in REFUSALS else ""
        return f"{scene.place(self.line)}: dropped in frame {self.frame}{by}" + (f": {reason}{word}" if reason else "") + f"\n    {scene.shown(self.line)}"


class Fault(Stop):
    """The text is no scene: the line, the cause, and the message in words."""

    def __init__(self, scene, line, cause, field):
        super().__init__(fault_text(scene, line, cause, field))
        self.line, self.cause = line, cause


def dropped_lines(scene):
    """The dropped lines of a scene, in the order of the text; raises Fault where the text is none."""
    path = debugger("gfx_check")
    with tempfile.TemporaryFile() as out:
        status, said = run_over(path, [], scene.text, out)
        fault = FAULT.match(said)
        if fault:
            field = None if fault[3] is None else max(0, int(fault[3]) - 1)
            raise Fault(scene, int(fault[1]), int(fault[2]), field)
        judge(scene, "gfx_check", status, said)
        out.seek(0)
        found = [LINE.match(line) for line in out.read().decode("ascii", "replace").splitlines()]
    if not all(found):
        raise Stop(f"{path} wrote a line that is none of a dropped line; is it gfx_check?")
    return [Dropped(int(it[1]), int(it[2]), None if it[3] is None else int(it[3]), it[4]) for it in found]


def reasons(scene, dropped):
    """Why each line is dropped, or None where the program's word says as much: in the words of the module's check, which name the thing."""
    sys.path.append(os.path.join(TOP, "tools", "scene"))
    from scene_parts.checking import NAMES_IT, by_second

    whys = {(fault.line, fault.frame, fault.encoder): fault.why for fault in by_second(scene.text)}
    for line in dropped:
        why = whys.get((line.line, line.frame, line.encoder))
        yield why if why and (line.word not in REFUSALS or NAMES_IT.get(line.word, "\n") in why) else None


class Check:
    TEXT = """A text that is no scene is told with its first faulty line, a caret, and what helps; else each line that a play drops, with the
reason. For a script that writes its scene by tools/scene/scene.py the script's own line is named. Nothing is played. Status 0 where the
text is a scene and no line is dropped, else 1.

  tools/gfx check examples/destroyed.scene
  tools/gfx check mine.py"""

    @staticmethod
    def takes(words):
        words.add_argument("scene", metavar="SCENE")

    @staticmethod
    def run(taken):
        scene = whole_scene(taken.scene)
        try:
            dropped = dropped_lines(scene)
        except Fault as fault:
            print(fault.message)
            return 1
        for line, why in zip(dropped, reasons(scene, dropped) if dropped else ()):
            print(line.told(scene, why))
        print(f"{scene.path}: {many(scene.frames, 'frame')}, {many(len(dropped), 'dropped line')}")
        return 1 if dropped else 0


WORDS = {"check": Check}
