"""Which lines of a scene are refused or dropped, and why, in words: by the program gfx_check, or by the second implementation.

`faults(text)` gives them in the order of the text; `words_of` tells them, with a caret where a field is at fault, and with the
script's line where the scene was made by a script.
"""
import os
import re
import subprocess
import sys
from collections import namedtuple

from scene_parts.faults import told

TOP = os.path.dirname(os.path.dirname(os.path.dirname(os.path.dirname(os.path.abspath(__file__)))))
BUILT = os.path.join(TOP, "crates", "gfx_check", "out", "gfx_check")
"""Where the program stands when it is built."""

Fault = namedtuple("Fault", "line field frame encoder why")
"""A fault: the line's number, the place of the field that is wrong (or None), frame and encoder (None where the text is refused, or the
line is none of an encoder), and why."""

CAUSES = {
    1: "a character that is not plain ASCII",
    2: "the text ends before `done`, or its last line has no newline",
    3: "the first field is no word of the language",
    4: "the line can't stand here",
    5: "too many or too few fields, or two spaces in a row",
    6: "this number is misspelt",
    7: "this number is out of its range",
    8: "this name is misspelt",
    9: "this name is taken",
    10: "no line before makes this name",
    11: "this field is misspelt",
    12: "this version of the language is not read",
}
REFUSALS = {
    "Full": "there are as many things of this kind as there can be",
    "Stale": "a thing that it names was destroyed",
    "BadRange": "it passes an end, or its stage or list is out of range",
    "BadSize": "a length, side or stride that can't be",
    "NotBlitDst": "the texture was not made as a blit's destination (`dst`)",
    "WrongKind": "a name stands for a thing of another kind, format or size, or the value is of another kind",
    "Attached": "a frame buffer holds the texture",
    "RoomFull": "the encoder has no room for another item or value",
    "BytesFull": "the encoder has no room for the bytes",
    "BadView": "there is no such view",
    "TexelsFull": "all textures together would have too many texels",
    "BadState": "a state word, stencil word or flag that can't be",
    "Unnamed": "a name stands for nothing, since the line that makes it was dropped",
    "NoLayout": "the parts are no layout: 1 to 255 bytes, no attribute twice",
}
NAMES_IT = {"Stale": "was destroyed", "Unnamed": "stands for nothing", "BadView": "there is no view", "WrongKind": "and wanted is"}
"""What the second implementation's words have where they are of the same refusal: they name the thing at fault."""
DROPPED = re.compile(r"line (\d+) frame (\d+)(?: encoder (\d+))? refused (\w+)")
REFUSED = re.compile(r"scene refused at line (\d+) for cause (\d+)(?: in field (\d+))?")


def faults(text):
    """The faults of a scene's text, in the order of the text."""
    program = os.environ.get("GFX_CHECK") or BUILT
    return by_program(program, text) if os.access(program, os.X_OK) else by_second(text)


def by_program(program, text):
    """The faults by the program gfx_check."""
    done = subprocess.run([program], input=text, stdout=subprocess.PIPE, stderr=subprocess.PIPE)
    found = []
    for line in (done.stdout + done.stderr).decode("ascii", "replace").splitlines():
        refused, dropped = REFUSED.match(line), DROPPED.match(line)
        if refused:
            number, cause, field = (int(part) if part else None for part in refused.groups())
            # the program counts the line's word as field 1
            found.append(Fault(number, field and field - 1, None, None, CAUSES.get(cause, f"cause {cause}")))
        elif dropped:
            number, frame, encoder = (int(part) if part else None for part in dropped.groups()[:3])
            found.append(Fault(number, None, frame, encoder, REFUSALS.get(dropped[4], dropped[4])))
    if done.returncode and not found:
        raise OSError(0, f"it ended with status {done.returncode}", program)
    return in_better_words(found, text) if found else found


def in_better_words(found, text):
    """The program's faults, each in the second implementation's words where it has the same one: they name the thing and the field."""
    same, better = {fault[:1] + fault[2:4]: fault for fault in by_second(text)}, []
    names_it = {REFUSALS[word]: said for word, said in NAMES_IT.items()}
    for fault in found:
        other = same.get(fault[:1] + fault[2:4])
        if other and fault.frame is None and fault.field is None and fault.why == other.why:
            fault = fault._replace(field=other.field)
        elif other and fault.why in names_it and names_it[fault.why] in other.why:
            fault = fault._replace(why=other.why)
        better.append(fault)
    return better


def second_player():
    """The second implementation's module."""
    folder = os.path.join(TOP, "tools", "try")
    if folder not in sys.path:
        sys.path.append(folder)
    import second_player as module

    return module


def by_second(text):
    """The faults by the second implementation: it makes the calls as `plans` does, and asks which are refused."""
    player = second_player()
    try:
        scene, _ = player.read_scene(text)
    except player.SceneFault as fault:
        return [Fault(fault.line, fault.field, None, None, CAUSES[fault.cause])]
    calls, found = player.Calls(scene), []
    for number_of, frame in enumerate(scene.frames):
        calls.start_frame(number_of)
        of_frame = []

        def calls_of(part):
            for number, line in zip(scene.numbers.get((number_of, part), ()), frame[part]):
                if not calls.call(line):
                    of_frame.append(Fault(number, None, number_of, None, reason(line, calls.names, calls)))

        calls_of("before")
        names = dict(calls.names)
        calls_of("beside")
        for part, lines in frame["blocks"].items():
            encoder = player.Encoder(calls, names, scene.room)
            for number, line in zip(scene.numbers.get((number_of, part), ()), lines):
                count = encoder.dropped
                encoder.line(line)
                if encoder.dropped > count:
                    of_frame.append(Fault(number, None, number_of, part, reason(line, names, calls, encoder)))
        found += sorted(of_frame, key=lambda fault: fault.line)
    return found


KINDS = {"layout": "a layout", "vb": "a vertex buffer", "ib": "an index buffer", "texture": "a texture", "fb": "a frame buffer",
         "program": "a program", "uniform": "a uniform"}
USES = {
    "vb": [(2, "layout")], "fb": [(2, "texture"), (3, "texture")], "update": [(1, "vb ib")], "texupdate": [(1, "texture")],
    "destroy": [(1, " ".join(KINDS))], "view_target": [(2, "fb")], "vertices": [(1, "vb")], "indices": [(1, "ib")],
    "tvertices": [(1, "layout")], "bind": [(2, "texture")], "set": [(1, "uniform")], "submit": [(2, "program")],
    "blit": [(2, "texture"), (5, "texture")],
}  # fmt: skip
"""Which fields of a line are names, and of what."""


def reason(line, names, calls, encoder=None):
    """Why a line's call was refused."""
    word = line[0]
    if word.startswith("view_") or word in ("submit", "touch", "blit"):
        if line[1] >= calls.view_count:
            return f"there is no view {line[1]}: they go from 0 to {calls.view_count - 1}"
    for place, kinds in USES.get(word, ()):
        name = line[place]
        if name is None:
            continue
        thing = names.get(name)
        if thing is None:
            return f"`{name}` stands for nothing: the line that makes it was dropped"
        if thing.kind not in kinds.split():
            return f"`{name}` is {KINDS[thing.kind]}, and wanted is {' or '.join(KINDS[kind] for kind in kinds.split())}"
        if thing.death is not None and (encoder is None or thing.death < calls.frame):
            return f"`{name}` was destroyed in frame {thing.death}"
    return rest(word, line, names, calls, encoder)


def rest(word, line, names, calls, encoder):
    """Why a line was refused whose names all stand for what they should."""
    if encoder is not None and word in ("submit", "touch", "blit") and len(encoder.items) >= encoder.room[0]:
        return f"the encoder has its {encoder.room[0]} items in this frame already"
    if word in ("tvertices", "tindices"):
        return f"the encoder has room for {encoder.room[1]} bytes in a frame, {encoder.used_bytes} are used, and these are {len(line[-1])} more"
    if word == "set":
        if encoder.used_values >= encoder.room[2]:
            return f"the encoder has its {encoder.room[2]} values in this frame already"
        return f"`{line[1]}` is of kind {names[line[1]].value_kind}, and here is the value of another kind"
    if word == "bind" and line[1] <= 1:
        return f"`{line[2]}` is of kind d24s8, and a draw reads textures of kind rgba8"
    if word == "update":
        return f"`{line[1]}` has {len(names[line[1]].data)} bytes, and this goes to {line[2] + len(line[3])}"
    if word == "destroy":
        return f"a frame buffer holds `{line[1]}`; destroy that first"
    if word == "blit" and not names[line[2]].is_destination:
        return f"`{line[2]}` was not made as a blit's destination (`dst`)"
    if word == "uniform":
        live = [thing for thing in calls.things if thing.kind == "uniform" and thing.text == line[1] and thing.death is None]
        if live and live[0].value_kind != line[2]:
            return f"`{line[1]}` is there already, of kind {live[0].value_kind}"
    if word in calls.free and not calls.free[word]:
        return REFUSALS["Full"]
    others = {
        "state": "the number is no state word", "stencil": "a number is no stencil word", "bind": "the stages are 0 and 1",
        "layout": REFUSALS["NoLayout"], "vb": "a buffer has 1 to 524,288 bytes", "ib": "a buffer has 1 to 524,288 bytes, and two for each index",
        "texture": "a side is not 1 to 2,048, the texels are not as many as the sides say, or all textures have too many",
        "fb": "the colour is rgba8, the depth d24s8, and both have the same sides",
        "texupdate": "the rectangle passes a side, or the texels are not as many as it has",
        "order": "a view stands twice, or there is no such view", "view_clear": "the flags go from 0 to 7",
        "blit": "the two textures are of different kinds",
    }  # fmt: skip
    return others.get(word, "its call is refused")


def words_of(found, text, places=None):
    """The faults in words, the first one at length; PLACES has the script's file and line of each line."""
    lines = text.split("\n")
    first = found[0]
    line = lines[first.line - 1] if first.line <= len(lines) else ""
    shown = line if len(line) <= 100 else line[:97] + "..."
    what = "is refused" if first.frame is None else f"is dropped in frame {first.frame}"
    said = [f"line {first.line} of the scene {what}: {first.why}", f"    {shown}"]
    if first.field is not None:
        column = sum(len(field) + 1 for field in line.split(" ")[: first.field])
        if column < 97:
            said.append("    " + " " * column + "^")
    for other in found[1:10]:
        of = f" ({told(places[other.line - 1])})" if places and other.line <= len(places) else ""
        said.append(f"  and line {other.line}{of}: {other.why}")
    if len(found) > 10:
        said.append(f"  and {len(found) - 10} more")
    return "\n".join(said)
