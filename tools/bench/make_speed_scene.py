#!/usr/bin/env python3
"""Writes a large scene to standard output, for measuring speed.

usage: tools/bench/make_speed_scene.py [FRAMES] > speed.scene

The scene has FRAMES frames of 640 by 480 pixels; without FRAMES it has 64. Each frame has 1,200 draws by the program
`solid`, all by one encoder in view 0. A draw sets its colour, and its two triangles cover one square of 16 by 16 pixels of
a grid of 40 by 30 squares. So each frame paints every pixel exactly once, and no draw is dropped. The depths are 0 to
1,199 in a mixed order, so that a frame has something to sort; the pictures do not depend on them. Colours change from
frame to frame.

gfx_play reads at most 16,777,216 bytes. That is enough for 85 frames; for more than that nothing is written, and the exit
status is 1.
"""
import os
import signal
import struct
import sys

COLUMNS, ROWS = 40, 30
LONGEST = 16_777_216

HEAD = """\
scene 1
size 640 480
encoders 1
"""

THINGS = """\
layout p position:fixed:2
uniform u_color vec4
program s solid
view 0 clear 1 000000ff 0 0
"""


def square(column, row):
    """The HEX of two triangles that cover the square: x and y of six vertices, in 1/65536, lowest byte first."""
    left, right = (-65536 + 131072 * (column + k) // COLUMNS for k in (0, 1))
    top, bottom = (65536 - 131072 * (row + k) // ROWS for k in (0, 1))
    corners = (left, top, right, top, right, bottom, left, top, right, bottom, left, bottom)
    return struct.pack("<12i", *corners).hex()


def color(frame, column, row):
    """The colour of a square, as the numbers of a `set u_color` line: a slope of two colours that moves with the frames."""
    parts = (6 * column + 4 * frame) % 256, 8 * row, (255 - 4 * frame) % 256, 255
    return " ".join(str(round(part * 65536 / 255)) for part in parts)


def frame_lines(frame, squares):
    """One frame: in the first one the things, then 1,200 draws of three lines."""
    lines = ["frame\n", THINGS if frame == 0 else "", "encoder 0\n"]
    for draw, vertices in enumerate(squares):
        column, row = draw % COLUMNS, draw // COLUMNS
        depth = draw * 7 % (COLUMNS * ROWS)
        lines.append(f"set u_color {color(frame, column, row)}\ntvertices p {vertices}\nsubmit 0 s {depth} 255\n")
    return "".join(lines)


def main():
    signal.signal(signal.SIGPIPE, signal.SIG_DFL)  # a reader that has gone ends this without a word
    if sys.argv[1:2] in (["--help"], ["-h"]):
        print(__doc__)
        return
    if len(sys.argv) > 2 or not all(word.isdecimal() and 1 <= int(word) <= 1024 for word in sys.argv[1:]):
        sys.exit("usage: tools/bench/make_speed_scene.py [FRAMES], 1 to 1024")
    frames = int(sys.argv[1]) if len(sys.argv) > 1 else 64
    squares = [square(draw % COLUMNS, draw // COLUMNS) for draw in range(COLUMNS * ROWS)]
    text = HEAD + "".join(frame_lines(frame, squares) for frame in range(frames)) + "done\n"
    if len(text) > LONGEST:
        sys.exit(f"{frames} frames are {len(text)} bytes, more than the {LONGEST} that gfx_play reads")
    sys.stdout.write(text)


if __name__ == "__main__":
    try:
        main()
        sys.stdout.flush()
    except OSError as fault:
        os.dup2(os.open(os.devnull, os.O_WRONLY), sys.stdout.fileno())
        sys.exit(f"make_speed_scene.py: standard output: {fault.strerror}")
