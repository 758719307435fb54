"""Which line of a scene's text is which of its lines, and which are dropped: over second_player.py."""
import second_player as player


def line_numbers(text):
    """The numbers, from 1, of the lines of a scene's text that are a line of its frames, in the order of the text."""
    for number, line in enumerate(text.split(b"\n"), 1):
        if line and not line.startswith(b"#") and line.split(b" ")[0] not in player.HEAD_WORDS:
            yield number


class Line:
    """A line of a frame: its number in the text, its encoder (None for the API thread), and whether its call is accepted."""

    def __init__(self, number, frame, encoder, fields):
        self.number, self.frame, self.encoder, self.fields, self.accepted = number, frame, encoder, fields, True


def placed(text, scene):
    """The lines of each frame: before the blocks, of each block, beside them."""
    numbers = line_numbers(text)
    for number, frame in enumerate(scene.frames):
        before = [Line(next(numbers), number, None, line) for line in frame["before"]]
        blocks = {encoder: [Line(next(numbers), number, encoder, line) for line in lines] for encoder, lines in frame["blocks"].items()}
        yield before, blocks, [Line(next(numbers), number, None, line) for line in frame["beside"]]


def judged(text, scene):
    """Each line of the scene in the order of the text, with whether it is accepted."""
    calls = player.Calls(scene)
    for frame, (before, blocks, beside) in enumerate(placed(text, scene)):
        calls.start_frame(frame)
        for line in before:
            line.accepted = calls.call(line.fields)
        names = dict(calls.names)
        for line in beside:
            line.accepted = calls.call(line.fields)
        for encoder, lines in blocks.items():
            recorder = player.Encoder(calls, names, scene.room)
            for line in lines:
                dropped = recorder.dropped
                recorder.line(line.fields)
                line.accepted = recorder.dropped == dropped
        yield from before
        for lines in blocks.values():
            yield from lines
        yield from beside


def item_lines(text, scene):
    """The number of the line of each item, by frame, encoder and ordinal."""
    found, counts = {}, {}
    for line in judged(text, scene):
        if line.accepted and line.encoder is not None and line.fields[0] in ("submit", "touch", "blit"):
            ordinal = counts.get((line.frame, line.encoder), 0)
            counts[line.frame, line.encoder] = ordinal + 1
            found[line.frame, line.encoder, ordinal] = line.number
    return found
