"""The history of a pixel and the pictures of a frame's steps, by a second implementation: over second_player.py and second_renderer.py.

    python3 tools/try/second_trace.py SCENE pixel F X Y        the lines
    python3 tools/try/second_trace.py SCENE steps F            P6 pictures, one behind the other

The rows of crates/trace_laws/proofs/Rows.antt are its answers.
"""
import os
import sys

sys.path.insert(0, os.path.dirname(os.path.abspath(__file__)))
import second_player as player
import second_renderer as renderer


def hexed(color):
    return bytes(color).hex()


def run(text, frame, place=None, journal=None):
    """The lines of a pixel, the pictures of the steps, and the frame's picture."""

    class Tracer(renderer.Renderer):
        def __init__(self, scene):
            super().__init__(scene)
            self.on, self.deed, self.lines, self.steps = False, 0, [], []

        def picture(self):
            color = self.back[0]
            return b"P6\n%d %d\n255\n" % (color.width, color.height) + b"".join(bytes(t[:3]) for t in color.texels)

        def pixel(self):
            color, depths = self.back
            at = place[1] * color.width + place[0]
            return "%s %d %d" % (hexed(color.texels[at]), depths.texels[at] & 0xFFFFFF, depths.texels[at] >> 24)

        def end_of_deed(self):
            self.deed += 1
            if self.on:
                self.steps.append(self.picture())

        def enter(self, view, items):
            view = view or player.View()
            number = items[0][1]["view"]
            target = self.target(view)
            before = self.pixel() if place else None
            renderer.Renderer.clear(view, target)
            if self.on and place and target is self.back:
                columns, rows = target[0].region(view.rect)
                if place[0] in columns and place[1] in rows:
                    self.lines.append("deed %d view %d clear was %s is %s cleared\n" % (self.deed, number, before, self.pixel()))
            self.end_of_deed()
            for _, item in items:
                if item["form"] == "blit":
                    self.blit(item)
                    self.end_of_deed()
            rest = [(self.key(view.mode, n, item), n, item) for n, item in items if item["form"] != "blit"]
            for _, _, item in sorted(rest, key=lambda entry: entry[:2]):
                self.set_values(item["values"])
                if item["form"] == "draw":
                    self.who = "deed %d view %d encoder %d item %d" % (self.deed, number, *self.names[id(item)])
                    self.draw(view, target, item)
                self.end_of_deed()

        def triangles(self, view, target, draw):
            for self.triangle, it in enumerate(super().triangles(view, target, draw)):
                yield it

        def frame(self, plan, entries):
            self.names = {id(plan.items[e][o]): (e, o) for e, o in entries}
            return super().frame(plan, entries)

    scene, _ = player.read_scene(text)
    plans = player.plans(scene)
    if journal is None:
        journal = [[(e, k) for e, items in enumerate(plan.items) for k in range(len(items))] for plan in plans]
    tracer = Tracer(scene)
    own_step = renderer.step

    def step(target, at, shaded, depth, state, stencil):
        if not (tracer.on and place and target is tracer.back and at == place[1] * target[0].width + place[0]):
            return own_step(target, at, shaded, depth, state, stencil)
        before, word = tracer.pixel(), target[1].texels[at]
        own_step(target, at, shaded, depth, state, stencil)
        compares = renderer.COMPARES
        if stencil and not compares[stencil >> 16 & 15](stencil & 255 & stencil >> 8 & 255, (word >> 24) & (stencil >> 8 & 255)):
            fate = "stencil"
        elif state >> 4 & 15 and not compares[state >> 4 & 15](depth, word & 0xFFFFFF):
            fate = "depth"
        else:
            fate = "stored" if state & 15 else "masked"
        tracer.lines.append("%s triangle %d color %s depth %d was %s is %s %s\n" % (tracer.who, tracer.triangle, hexed(shaded), depth, before, tracer.pixel(), fate))

    renderer.step = step
    try:
        for k in range(frame + 1):
            tracer.on, tracer.deed = k == frame, 0
            if tracer.on:
                tracer.steps.append(tracer.picture())
            picture = tracer.frame(plans[k], journal[k])
    finally:
        renderer.step = own_step
    assert tracer.steps[-1] == picture
    return "".join(tracer.lines), tracer.steps, picture


if __name__ == "__main__":
    path, word, *numbers = sys.argv[1:]
    numbers = list(map(int, numbers))
    text = open(path, "rb").read()
    if word == "pixel":
        sys.stdout.write(run(text, numbers[0], numbers[1:3])[0])
    else:
        sys.stdout.buffer.write(b"".join(run(text, numbers[0])[1]))
