"""The state of a draw, as the lines before it leave it."""
from door.checking import dropped_lines

START = {"state": 15, "stencil": (0, 0), "scissor": (0, 0, 0, 0)}
"""What an encoder's state is at the beginning, and after a reset."""
TESTS = ("none", "less", "lequal", "equal", "gequal", "greater", "notequal", "never", "always")
"""The tests of depth and stencil by their numbers, as tools/scene/scene.py names them."""


def state_at(scene, line, dropped=None):
    """The state word, the stencil words and the scissor of the draw on a line. Lines that are dropped do not count."""
    dropped = {it.line for it in dropped_lines(scene)} if dropped is None else dropped
    start = next(number for number in range(line, 0, -1) if scene.lines[number - 1].startswith(b"encoder "))
    now = dict(START)
    for number in range(start + 1, line):
        word, *fields = scene.lines[number - 1].split(b" ")
        if number in dropped:
            continue
        if word == b"state":
            now["state"] = int(fields[0])
        elif word in (b"stencil", b"scissor"):
            now[word.decode()] = tuple(map(int, fields))
        elif word == b"touch" or word == b"submit" and int(fields[3]) & 8:
            now = dict(START)
    return now


def told_stencil(words):
    """What the stencil words want of the stored value."""
    told = []
    for side, word in zip(("front", "back"), words):
        if word:
            mask = "" if word >> 8 & 255 == 255 else f" in the bits of {word >> 8 & 255}"
            told.append(f"{TESTS[word >> 16 & 15]} {word & 255}{mask}" + (f" on the {side}" if words[1] else ""))
    return ", ".join(told)


def told_depth(state):
    """The depth test of a state word, by name."""
    return TESTS[state >> 4 & 15]
