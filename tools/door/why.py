"""The word why: which draws of a frame left no mark, and what kept them from it."""
from door.checking import dropped_lines
from door.faults import FRAME, many, whole
from door.looking import journal_of
from door.scenes import Scene, whole_scene
from door.states import state_at
from door.tracing import Steps, blamed

def frame_lines(scene, frame):
    """The numbers of the lines of a frame, from its `frame` line to before the next."""
    starts = [number for number, line in enumerate(scene.lines, 1) if line == b"frame"]
    end = starts[frame + 1] if frame + 1 < len(starts) else len(scene.lines)
    return range(starts[frame], end)


def targets(scene, frame):
    """The views that do not draw on the picture in this frame, with the name of their frame buffer."""
    found = {}
    for number in range(1, frame_lines(scene, frame).stop):
        fields = scene.lines[number - 1].split(b" ")
        if fields[:1] == [b"view"] and len(fields) > 2:
            if fields[2] == b"target" and fields[3] != b"-":
                found[int(fields[1])] = fields[3].decode()
            elif fields[2] in (b"target", b"reset"):
                found.pop(int(fields[1]), None)
    return found


def has_view_scissor(scene, frame, view):
    """Whether a view has a scissor in this frame."""
    found, front = False, b"view %d " % view
    for number in range(1, frame_lines(scene, frame).stop):
        line = scene.lines[number - 1]
        if line.startswith(front + b"scissor "):
            found = not line.endswith(b" 0 0 0 0")
        elif line == front + b"reset":
            found = False
    return found


def trials(scene, frame, doer):
    """What may keep a draw from its pixels: words, and the scene without it as (line to put a line before, the line)."""
    now = state_at(scene, doer.line)
    state, block = now["state"], doer.line
    if state & 15 == 0:
        yield "if it wrote colours", block, b"state %d" % (state | 15)
    if state >> 4 & 15:
        yield "without its depth test", block, b"state %d" % (state & ~0xF0)
    if now["stencil"] != (0, 0):
        yield "without its stencil", block, b"stencil 0 0"
    if state >> 36 & 3:
        yield "without culling", block, b"state %d" % (state & ~(3 << 36))
    if any(now["scissor"]):
        yield "without its scissor", block, b"scissor 0 0 0 0"
    if has_view_scissor(scene, frame, doer.view):
        first_block = next(number for number in frame_lines(scene, frame) if scene.lines[number - 1].startswith(b"encoder "))
        yield "without its view's scissor", first_block, b"view %d scissor 0 0 0 0" % doer.view


def with_lines(scene, added):
    """The scene with lines put before others; pairs of a line's number and the line."""
    lines = list(scene.lines)
    for number, line in sorted(added, reverse=True):
        lines.insert(number - 1, line)
    return Scene(scene.path, b"\n".join(lines))


def all_at_once(found):
    """The lines of all trials, those that set the state word as one."""
    states = [int(line.split()[1]) for _, _, line in found if line.startswith(b"state")]
    whole_state = [] if not states else [(next(number for _, number, line in found if line.startswith(b"state")), b"state %d" % joined(states))]
    return whole_state + [(number, line) for _, number, line in found if not line.startswith(b"state")]


def joined(states):
    """A state word without what each of these is without, and with colours where one has them."""
    word = states[0]
    for state in states[1:]:
        word &= state
    return word | max(state & 15 for state in states)


def changes_at(scene, frame, place, journal):
    """How many pixels the step of this place changes."""
    return Steps(scene, frame, journal).changes[place]


def reasons(scene, frame, place, doer, journal):
    """What kept a draw from its pixels, in words."""
    found = list(trials(scene, frame, doer))
    told = []
    for words, number, line in found:
        changes = changes_at(with_lines(scene, [(number, line)]), frame, place, journal)
        if changes:
            told.append(f"{words} it would change {many(changes, 'pixel')}")
    if told:
        return told
    if len(found) > 1:
        changes = changes_at(with_lines(scene, all_at_once(found)), frame, place, journal)
        if changes:
            names = [words for words, _, _ in found]
            return [f"{', '.join(names[:-1])} and {names[-1]}, all at once, it would change {many(changes, 'pixel')}"]
    return ["it covers no pixel, or paints what is there already: are there three vertices at least, is it within -1 to 1, is its z within 0 to 1?"]


class Why:
    TEXT = """For each draw of the frame that changes no pixel of the picture it is tried what kept it: the draw is drawn again without its depth test,
without its stencil, without culling and so on. Draws over which later ones draw wholly are told as well, and lines that are dropped.
Draws into a frame buffer are left out.

  tools/gfx why examples/depth-order.scene 0"""

    @staticmethod
    def takes(words):
        words.add_argument("scene", metavar="SCENE")
        words.add_argument("frame", type=FRAME, metavar="FRAME", help="counted from 0")
        words.add_argument("--by", metavar="JOURNAL", help="in the order of this journal; without it as on one thread")
        words.add_argument("--most", type=whole(1, 1000), default=20, metavar="N", help="look into so many draws at most; 20")

    @staticmethod
    def run(taken):
        scene, journal = whole_scene(taken.scene), journal_of(taken)
        dropped = [line for line in dropped_lines(scene) if line.frame == taken.frame]
        steps = Steps(scene, taken.frame, journal)
        silent = Silent(scene, taken.frame, steps, journal)
        print(f"{scene.path}, frame {taken.frame}: {many(len(silent.draws), 'draw')}, {many(len(dropped), 'dropped line')}")
        for line in dropped:
            print(line.told(scene))
        for place, doer, changes in silent.found[: taken.most]:
            print(doer.told(scene))
            if changes:
                print(f"    it changes {many(changes, 'pixel')}, and later draws paint over all of them")
            else:
                print("    it changes no pixel; " + "\n    ".join(reasons(scene, taken.frame, place, doer, journal)))
        if len(silent.found) > taken.most:
            print(f"{len(silent.found) - taken.most} more; --most says how many are looked into")
        if not silent.found and not dropped:
            print("each draw left its mark")


class Silent:
    """The draws of a frame, and those of which nothing is seen: their place, who they are, how many pixels they changed."""

    def __init__(self, scene, frame, steps, journal):
        away = targets(scene, frame)
        self.draws = [
            place for place, doer in enumerate(steps.doers)
            if doer.encoder is not None and doer.view not in away and scene.lines[doer.line - 1].startswith(b"submit ")
        ]
        seen = set(blamed(scene, frame, journal))
        self.found = [(place, steps.doers[place], steps.changes[place]) for place in self.draws if not steps.changes[place] or place + 1 not in seen]


WORDS = {"why": Why}
