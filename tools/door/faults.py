"""How a word ends where it can't do what it was asked, and the kinds of its words."""
import argparse

REFUSED, WRONG_WORDS = 1, 2
"""The statuses of tools/gfx beside 0: the answer is no or it could not be had; the words are wrong."""


class Stop(Exception):
    """Ends a word with a message and a status. The message says where, what, and what to do."""

    def __init__(self, message, status=REFUSED):
        super().__init__(message)
        self.message, self.status = message, status


def whole(least, most):
    """The kind of a word that is a whole number from LEAST to MOST."""

    def read(text):
        if not (text.isascii() and text.isdigit() and len(text) < 12 and least <= int(text) <= most):
            raise argparse.ArgumentTypeError(f"{text!r} is no whole number from {least} to {most}")
        return int(text)

    return read


FRAME = whole(0, 1023)
"""The number of a frame."""


def read_bytes(path):
    """The bytes of a file that was named."""
    try:
        with open(path, "rb") as file:
            return file.read()
    except OSError as fault:
        raise Stop(f"{path} can't be read: {fault.strerror}") from None


def write_bytes(path, data):
    """Writes a file that was named."""
    try:
        with open(path, "wb") as file:
            file.write(data)
    except OSError as fault:
        raise Stop(f"{path} can't be written: {fault.strerror}") from None


def many(number, thing):
    """A number of things, in words."""
    return f"{number} {thing}" + ("" if number == 1 else "s")
