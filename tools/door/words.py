"""The words of tools/gfx: which there are, and how one is read and run."""
import argparse
import importlib
import os
import sys

from door.faults import WRONG_WORDS, Stop

GROUPS = {
    "See": {
        "play": ("door.show", "plays a scene and writes its pictures as the program does"),
        "png": ("door.show", "writes the pictures of a scene as PNG"),
        "gif": ("door.films", "writes them as an animated GIF"),
        "video": ("door.films", "writes them as a video"),
        "view": ("door.films", "shows them in the terminal or in a window"),
        "watch": ("door.watching", "shows them on a page of this machine, and draws again when the file is saved"),
    },
    "Look into": {
        "check": ("door.checking", "says what is wrong with a scene: its first faulty line, or each line that is dropped, and why"),
        "why": ("door.why", "says which draws of a frame left no mark, and what kept them from it"),
        "pixel": ("door.looking", "says what a pixel goes through in a frame"),
        "steps": ("door.looking", "shows a frame after each of its draws"),
        "blame": ("door.looking", "shows which draw, or which encoder, each pixel is of"),
    },
    "Compare and keep": {
        "shrink": ("door.shrink", "finds the smallest scene on which a command still says that something is wrong"),
        "diff": ("door.difference", "says where two pictures or two plays differ"),
        "golden": ("door.golden", "keeps what scenes draw, and checks it again on any machine"),
        "rerun": ("door.golden", "draws one frame again by its journal, and says whether it is the one that was kept"),
    },
    "Make": {
        "example": ("door.making", "lists the examples, or copies one to begin with"),
        "scene": ("door.making", "makes a scene of a Python script or of a model, or says what is in one"),
    },
}
"""Each word with the module that has it and with a line on it."""
WORDS = {word: entry for group in GROUPS.values() for word, entry in group.items()}


class Reader(argparse.ArgumentParser):
    """Reads the words behind a word. A wrong one ends with one line and status 2."""

    def __init__(self, word, line, text):
        super().__init__(
            prog=f"tools/gfx {word}", description=line[0].upper() + line[1:] + ".", epilog=text, allow_abbrev=False,
            formatter_class=argparse.RawDescriptionHelpFormatter,
        )
        self.word = word

    def error(self, message):
        message = message.replace("unrecognized arguments", "a word too many").replace("the following arguments are required", "wanted")
        raise Stop(f"{message}; tools/gfx {self.word} --help shows what it takes", WRONG_WORDS)


def overview():
    """The help of tools/gfx itself."""
    lines = ["usage: tools/gfx WORD ..        tools/gfx WORD --help says what a word takes, with an example", ""]
    for group, words in GROUPS.items():
        lines += [f"{group}:", *(f"  {word:9} {line}" for word, (_, line) in words.items()), ""]
    lines += [
        "SCENE is a scene's text, a Python script that prints one, or a model (.obj, .gltf, .glb); - is standard input.",
        "The program is crates/gfx_play/out/gfx_play, else build/gfx_play; the variable GFX_PLAY names another.",
        "Status 0: done, and the answer is yes. 1: the answer is no, or it could not be done. 2: wrong words.",
    ]
    return "\n".join(lines)


def help_of(words):
    """Shows the help of tools/gfx, or of a word."""
    if len(words) > 1:
        raise Stop(f"a word too many: {' '.join(words[1:])}", WRONG_WORDS)
    if words:
        return run(words[0], ["--help"])
    print(overview())
    return 0


def run(word, rest):
    """Runs one word; answers its status."""
    if word not in WORDS:
        raise Stop(f"there is no word {word}; there are {', '.join(WORDS)}", WRONG_WORDS)
    module, line = WORDS[word]
    found = importlib.import_module(module).WORDS[word]
    reader = Reader(word, line, found.TEXT)
    found.takes(reader)
    passed = None
    if "--" in rest and getattr(found, "PASSES_ON", False):
        rest, passed = rest[: rest.index("--")], rest[rest.index("--") + 1 :]
    taken = reader.parse_args(rest)
    taken.passed = passed
    return found.run(taken) or 0


def answer(words):
    """Runs the words of a command line and writes out what is said; answers the status."""
    try:
        if not words:
            print(overview())
            return WRONG_WORDS
        if words[0] in ("--help", "-h", "help"):
            return help_of(words[1:])
        return run(words[0], words[1:])
    except SystemExit as ended:
        # behind the help of a word
        return ended.code
    finally:
        if sys.stdout:
            sys.stdout.flush()


def main(words):
    """Runs the words of a command line; answers the status. No fault of a file or a program gives a traceback."""
    name = f"gfx {words[0]}" if words and words[0] in WORDS else "gfx"
    try:
        return answer(words)
    except Stop as stop:
        print(f"{name}: {stop.message}", file=sys.stderr)
        return stop.status
    except KeyboardInterrupt:
        return 130
    except OSError as fault:
        # where whoever read our output has gone, nothing more is to be said, not even at the end of this process
        if not isinstance(fault, BrokenPipeError):
            print(f"{name}: {fault.filename or 'standard output'}: {fault.strerror}", file=sys.stderr)
        if sys.stdout and not fault.filename:
            os.dup2(os.open(os.devnull, os.O_WRONLY), sys.stdout.fileno())
        return 1
