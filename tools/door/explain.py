"""Faults and dropped lines in words: the line, the field with a caret, and what helps."""
import difflib
import os
import re
import sys

sys.path.insert(0, os.path.join(os.path.dirname(os.path.dirname(os.path.abspath(__file__))), "try"))
import second_player

CAUSES = {
    1: "a byte that is no plain ASCII",
    2: "the text ends before `done`, or its last line has no newline",
    3: "no line begins with this word",
    4: "this line can't stand here",
    5: "the number of fields is wrong, or two spaces stand together",
    6: "this number is misspelt",
    7: "this number is out of its range",
    8: "this name is misspelt: first a to z, then a to z, 0 to 9 or _, at most 32",
    9: "this name is taken",
    10: "no line before makes this name",
    11: "this word or hexadecimal field is misspelt",
    12: "this version of scenes is not read: 1 and 2 are",
}
HEAD_FORMS = {
    b"scene": [("n", 1, 255)], b"size": [("n", 1, 2048)] * 2, b"encoders": [("n", 1, 8)], b"latency": [("n", 1, 3)], b"encoder": [("n", 0, 7)],
    b"room": [("n", 1, 8191), ("n", 0, 1_048_576), ("n", 0, 8191)],
}
CREATE_WORDS = (b"layout", b"vb", b"ib", b"texture", b"fb", b"program", b"uniform")
REFUSALS = {
    "Unnamed": "no line that made this name was accepted",
    "NoLayout": "its parts are no layout: an attribute stands twice, none stands there, or a vertex has more than 255 bytes",
    "Full": "there are as many things of this kind as there can be",
    "Stale": "the thing of this name was destroyed",
    "BadRange": "it goes past the end of the thing, or the stage is over 1",
    "BadSize": "the number of bytes or a side does not fit",
    "NotBlitDst": "the texture was not made as a blit's destination: its line wants `dst`",
    "WrongKind": "the name is that of another kind of thing, or the value or format of another kind",
    "Attached": "the texture is in a frame buffer that stands",
    "RoomFull": "the encoder has as many items or values in this frame as its room",
    "BytesFull": "the encoder has no room for the bytes in this frame",
    "BadView": "there is no such view: 0 to 255, in a scene of version 2 to 511",
    "SerialsSpent": "no serial is left",
    "TexelsFull": "the texels of all textures would pass the limit",
    "BadState": "the word or flag is not admitted",
}
"""What a refusal means, by its word."""


def made_before(scene, line):
    """The names that lines before LINE make, each with its line."""
    names = {}
    for number, text in enumerate(scene.lines[: line - 1], 1):
        fields = text.split(b" ", 2)
        if len(fields) > 1 and fields[0] in CREATE_WORDS:
            names.setdefault(fields[1], number)
    return names


def in_block(scene, line):
    """Whether LINE stands in the block of an encoder."""
    for text in reversed(scene.lines[: line - 1]):
        word = text.split(b" ", 1)[0]
        if word in (b"encoder", b"frame", b"beside"):
            return word == b"encoder"
    return False


def forms_of(fields, block):
    """The forms of the fields behind the first word, as far as the line's own form is known."""
    first, player = fields[0], second_player
    if first in HEAD_FORMS:
        return HEAD_FORMS[first]
    if first == b"layout":
        return ["new"] + ["part"] * (len(fields) - 2)
    if first == b"view":
        word = ("w", tuple(player.VIEW_FORMS))
        return [player.PLACE, word, *(player.VIEW_FORMS.get(fields[2], []) if len(fields) > 2 else [])]
    if first == b"order":
        return [player.PLACE] * (len(fields) - 1)
    if first == b"set":
        return ["use"] + ["s"] * (len(fields) - 2)
    return (player.ENCODER_FORMS if block else player.RESOURCE_FORMS).get(first, [])


def fault_field(scene, line, cause):
    """The place of the field at fault among the fields of the line, from 0, or None where the whole line is."""
    if line > len(scene.lines) or cause not in (3, 6, 7, 8, 9, 10, 11, 12):
        return None
    fields = scene.lines[line - 1].split(b" ")
    if cause in (3, 12):
        return 0 if cause == 3 else 1
    reader = second_player.Reader()
    reader.bound = {name: False for name in made_before(scene, line)}
    for place, (form, field) in enumerate(zip(forms_of(fields, in_block(scene, line)), fields[1:]), 1):
        try:
            second_player.layout_part(field) if form == "part" else reader.field(form, field, fields[0] == b"uniform")
        except second_player.Cause as fault:
            if fault.cause == cause:
                return place
    return None


def known_words(fields, place, block):
    """The words that may stand at a place of a line."""
    if place == 0:
        return second_player.ALL_WORDS
    forms = forms_of(fields, block)
    form = forms[place - 1] if place <= len(forms) else None
    return form[1] if isinstance(form, tuple) and form[0] == "w" else ()


def help_line(scene, line, cause, place):
    """What helps, or None."""
    if cause == 2:
        return "the last line is `done` and a newline" if not re.search(rb"^done$", scene.text, re.M) else "put a newline at the end of the last line"
    if cause == 1:
        text = scene.lines[line - 1]
        windows = "the line ends as Windows writes it; wanted is the newline alone"
        return windows if text.endswith(b"\r") else "a tab, an accent or another byte past ASCII stands in it"
    if place is None:
        return None
    fields = scene.lines[line - 1].split(b" ")
    field, names = fields[place], made_before(scene, line)
    if cause == 9:
        return f"{scene.place_in_text(names[field])} makes it already" if field in names else None
    if cause in (3, 10, 11):
        choice = names if cause == 10 else known_words(fields, place, in_block(scene, line))
        near = difflib.get_close_matches(field.decode("latin1").lower(), [it.decode() for it in choice], 1)
        if near and cause == 10:
            return f"{scene.place_in_text(names[near[0].encode()])} makes `{near[0]}`"
        if near or cause != 11:
            return f"there is `{near[0]}`" if near else None
        return "there are " + ", ".join(f"`{it.decode()}`" for it in choice) if choice else None
    if cause == 7:
        forms = forms_of(fields, in_block(scene, line))
        form = forms[place - 1] if place <= len(forms) else None
        return f"it goes from {form[1]} to {form[2]}" if isinstance(form, tuple) and form[0] == "n" else "it has 32 bits with a sign"
    return None


def caret(scene, line, place, most=100):
    """The line with a caret under a field; a long line is cut on both sides of it."""
    text = scene.lines[line - 1].decode("ascii", "replace") if line <= len(scene.lines) else ""
    if place is None:
        return f"    {scene.shown(line)}" if text else None
    at = sum(len(field) + 1 for field in text.split(" ")[:place])
    start = max(0, at - most // 2) if len(text) > most else 0
    piece, front = text[start : start + most], ".. " if start else ""
    width = max(1, min(len(text.split(" ")[place]), start + most - at))
    return f"    {front}{piece}{' ..' if start + most < len(text) else ''}\n    {' ' * (len(front) + at - start)}{'^' * width}"


def fault_text(scene, line, cause, place=None):
    """A refused text in words. PLACE is the field at fault where a program said it."""
    place = fault_field(scene, line, cause) if place is None else place
    parts = [f"{scene.place(line)}: {CAUSES.get(cause, 'the scene is refused')} (cause {cause})", caret(scene, line, place)]
    help_text = help_line(scene, line, cause, place)
    if help_text:
        parts.append(f"    help: {help_text}")
    return "\n".join(part for part in parts if part)
