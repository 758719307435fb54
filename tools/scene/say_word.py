#!/usr/bin/env python3
"""Says a state word or a stencil word by names, as the module scene.py takes them.

usage: tools/scene/say_word.py state NUMBER
       tools/scene/say_word.py stencil NUMBER

For example `tools/scene/say_word.py state 274877906975` prints `state(depth='less', write_depth=True)`. A word that is not admitted is told
with what is wrong, and the status is 1.
"""
import sys

from scene import SceneError, parser, run
from scene_parts.bits import state_names, stencil_names


def number(text):
    """A number, decimal or with 0x before it."""
    return int(text, 0)


def main():
    words = parser(__doc__)
    words.add_argument("word", choices=["state", "stencil"], metavar="state | stencil")
    words.add_argument("number", type=number, metavar="NUMBER")
    taken = words.parse_args()

    def say():
        try:
            names = {"state": state_names, "stencil": stencil_names}[taken.word](taken.number)
        except SceneError as error:
            print(f"say_word.py: {error.what}", file=sys.stderr)
            return 1
        print(f"{taken.word}({', '.join(f'{name}={value!r}' for name, value in names.items())})")

    return run("say_word.py", say)


if __name__ == "__main__":
    sys.exit(main())
