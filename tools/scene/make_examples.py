#!/usr/bin/env python3
"""Writes the example scenes: triangle.scene, depth-order.scene and turning-triangle.scene.

usage: tools/scene/make_examples.py [FOLDER]

FOLDER is where the scenes are written; without it, the folder `examples` of this repository. It must be there.
docs/use/writing-scenes.md explains the scenes step by step.
"""
import argparse
import math
import os
import struct
import sys


def fixed(value):
    """A number as a whole number of 1/65536, the unit of positions and of `u_color`."""
    return round(value * 65536)


def vertices_hex(points):
    """The HEX field of a `tvertices` line whose layout is `position:fixed:2`: x and y of each point.

    Each is a signed number of 32 bits with its lowest byte first. x goes from -1 (left) to 1 (right), y from -1 (bottom)
    to 1 (top).
    """
    return b"".join(struct.pack("<ii", fixed(x), fixed(y)) for x, y in points).hex()


def draw(view, depth, color, points, name="paint"):
    """The three lines of one draw: its colour, its vertices, and the `submit` line. COLOR is three bytes."""
    numbers = " ".join(str(fixed(byte / 255)) for byte in color)
    return [
        f"set u_color {numbers} 65536",
        f"tvertices corners {vertices_hex(points)}",
        f"submit {view} {name} {depth} 255",
    ]


def turned(angle, radius):
    """The point at ANGLE (in degrees, from the right, against the clock) on a circle around the middle."""
    return radius * math.cos(math.radians(angle)), radius * math.sin(math.radians(angle))


def head(version, size):
    """The first lines of a scene of one picture of 256 by 256 pixels; VERSION and SIZE are what is said of these two lines."""
    return f"""\
# {version}
scene 1
# {size}
size 256 256
# One encoder records the draws.
encoders 1
"""


def triangle():
    """One triangle in one frame."""
    top = head("The version of the scene language. It is always the first line.", "The picture is 256 pixels wide and 256 pixels high.")
    color, corners, submit = draw(0, 0, (255, 200, 87), [(0, 0.6), (0.6928, -0.6), (-0.6928, -0.6)])
    return f"""\
# One yellow triangle on dark blue. Made by tools/scene/make_examples.py.
# A line that begins with # is a comment. Empty lines are skipped too.

{top}
# Each `frame` line begins a new picture. This scene has one.
frame
# Things are made first. `corners` says what a vertex is: a position of two fixed numbers, x and y.
layout corners position:fixed:2
# `u_color` is the colour that a `solid` program paints with. It must have this name.
uniform u_color vec4
# `paint` is a program that gives every pixel of a triangle the same colour.
program paint solid
# View 0 starts by clearing: 1 is the flag for colour, 1b2a41ff is red 1b, green 2a, blue 41, alpha ff.
# The two zeros are the depth and the stencil. They are not cleared here.
view 0 clear 1 1b2a41ff 0 0

# Now encoder 0 records the draws of this frame.
encoder 0
# The colour of the next draw: red, green, blue and alpha, from 0 to 65536.
{color}
# The vertices, as bytes: (0, 0.6), (0.6928, -0.6) and (-0.6928, -0.6).
# The middle of the picture is (0, 0). The right side has x = 1, the top has y = 1.
{corners}
# The draw: in view 0, by the program `paint`, with depth 0. Flags 255: afterwards forget the vertices.
{submit}

# The scene ends here.
done
"""


FAR = [(-0.12, 0.72), (0.95, -1), (-1.25, -1)]
MIDDLE = [(0.52, 0.32), (1.5, -1), (-0.5, -1)]
NEAR = [(-0.68, -0.05), (0.55, -1), (-1.8, -1)]
FIR = [(0.08, 0.0), (0.28, -0.32), (-0.12, -0.32),
       (0.08, -0.18), (0.34, -0.6), (-0.18, -0.6),
       (0.08, -0.42), (0.4, -0.88), (-0.24, -0.88)]


def depth_order():
    """Three mountains ordered by depth in view 0, and a fir in view 1, which comes after view 0."""
    near = "\n".join(draw(0, 3, (74, 63, 107), NEAR))
    fir = "\n".join(draw(1, 0, (23, 74, 62), FIR))
    far = "\n".join(draw(0, 1, (205, 172, 190), FAR))
    middle = "\n".join(draw(0, 2, (138, 112, 150), MIDDLE))
    top = head("The version of the scene language.", "Width and height of the picture, in pixels.")
    return f"""\
# Three mountains and a fir. The draws stand in a mixed order in this text. Made by tools/scene/make_examples.py.
# What is in front of what is decided by views and depths.

{top}
# The one picture of this scene.
frame
# A vertex is two fixed numbers: x and y.
layout corners position:fixed:2
# The colour of a draw.
uniform u_color vec4
# A program that paints with this colour.
program paint solid
# View 0 clears the picture to the colour of an evening sky. View 1 has no clear: it draws on what view 0 left.
view 0 clear 1 fbdcbaff 0 0

# Encoder 0 records four draws. Each is three lines: its colour, its vertices, and `submit VIEW PROGRAM DEPTH FLAGS`.
encoder 0
# The near mountain: view 0, depth 3. Within a view the smallest depth is drawn first.
# So this draw is the last of view 0, and the others can't cover it.
# Two of its corners lie outside the picture. What is outside is cut off.
{near}

# The fir: view 1, depth 0. Views are drawn one after the other, 0 before 1.
# So it covers the mountains, whatever their depths. One draw can have many triangles: here nine vertices make three.
{fir}

# The far mountain: view 0, depth 1. It is drawn before all others.
{far}

# The middle mountain: view 0, depth 2. It covers the far one, and the near one covers it.
{middle}

done
"""


FRAMES = 40
DEGREES = 3


def face(frame, number):
    """One face of the pyramid: its colour by the direction that it looks in, and its three corners."""
    angle = 90 + DEGREES * frame + 120 * number
    # the light comes from the upper left, at 120 degrees; the face looks in the direction `angle + 60`
    light = (1 + math.cos(math.radians(angle + 60 - 120))) / 2
    color = [round(part * (0.25 + 0.75 * light)) for part in (255, 170, 64)]
    corners = [(0, 0), turned(angle, 0.92), turned(angle + 120, 0.92)]
    # the picture is 160 by 120 pixels, so a length along x is three quarters of the same length along y
    return color, [(0.75 * x, y) for x, y in corners]


def turning_triangle():
    """A pyramid seen from above, turning against the clock: 40 frames of 3 degrees, a third of a turn."""
    name = ("left", "lower", "right")
    lines = [f"""\
# A pyramid of three faces, seen from above. It turns against the clock by {DEGREES} degrees in each frame.
# After {FRAMES} frames it has made a third of a turn. Then it looks as at the start, so the pictures can be repeated for ever. Made by tools/scene/make_examples.py.

# The version of the scene language.
scene 1
# Width and height of the pictures, in pixels.
size 160 120
# One encoder records the draws.
encoders 1

# The first frame makes everything. Names and view settings stay for all later frames.
frame
# A vertex is two fixed numbers: x and y.
layout corners position:fixed:2
# The colour of a draw.
uniform u_color vec4
# A program that paints with this colour.
program paint solid
# View 0 clears the picture to dark blue. It does so again in every frame in which it draws.
view 0 clear 1 14213dff 0 0
# Encoder 0 records the draws of this frame.
encoder 0"""]
    for frame in range(FRAMES):
        if frame > 0:
            lines.append(f"\n# The pyramid at {DEGREES * frame} degrees: new vertices and new light.\nframe\nencoder 0")
        for number in range(3):
            color, corners = face(frame, number)
            if frame == 0:
                lines.append(f"# The {name[number]} face: its colour, its three corners (the first is the middle), and the draw.")
            lines += draw(0, 0, color, corners)
    lines.append("\n# The scene ends here.\ndone\n")
    return "\n".join(lines)


def main():
    words = argparse.ArgumentParser(description=__doc__, formatter_class=argparse.RawDescriptionHelpFormatter)
    here = os.path.dirname(os.path.abspath(__file__))
    words.add_argument("folder", nargs="?", metavar="FOLDER", default=os.path.join(here, "..", "..", "examples"))
    folder = words.parse_args().folder
    scenes = {"triangle": triangle, "depth-order": depth_order, "turning-triangle": turning_triangle}
    for name, scene in scenes.items():
        path = os.path.join(folder, name + ".scene")
        try:
            with open(path, "w", encoding="ascii", newline="\n") as file:
                file.write(scene())
        except OSError as error:
            print(f"make_examples.py: {path}: {error.strerror}", file=sys.stderr)
            return 1
    return 0


if __name__ == "__main__":
    sys.exit(main())
