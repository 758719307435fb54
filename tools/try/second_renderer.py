"""The pictures of a scene by a journal, of the second implementation (second_player.py has the rest).

Written from the rules (docs/rules/behaviour.md, docs/rules/formats.md), pixel by pixel and without a thought for speed.
"""
import struct

COMPONENTS = {b"u8": ("<B", 1), b"i16": ("<h", 2), b"fixed": ("<i", 4)}
NO_COLOR = (0, 0, 0, 0)
COMPARES = {
    1: lambda a, b: a < b,
    2: lambda a, b: a <= b,
    3: lambda a, b: a == b,
    4: lambda a, b: a >= b,
    5: lambda a, b: a > b,
    6: lambda a, b: a != b,
    7: lambda a, b: False,
    8: lambda a, b: True,
}


def byte_of(value):
    """A fixed number as a byte of a colour."""
    return (min(max(value, 0), 65536) * 255 + 32768) // 65536


def product(a, b):
    return (a * b + 127) // 255


class Texels:
    """Texels from the top, row by row: colours, or words of depth and stencil."""

    def __init__(self, width, height, texels):
        self.width, self.height, self.texels = width, height, texels

    def region(self, rect):
        """The places within a rectangle, where both sides 0 stand for all."""
        x, y, w, h = rect if rect[2] or rect[3] else (0, 0, self.width, self.height)
        return range(x, min(x + w, self.width)), range(y, min(y + h, self.height))


def texel_of(form, four):
    return tuple(four) if form == "rgba8" else int.from_bytes(bytes(four), "little")


def first_texels(thing):
    count, (form, data) = thing.width * thing.height, thing.source
    if form == "fill":
        return Texels(thing.width, thing.height, [texel_of(thing.format, data)] * count)
    texels = [texel_of(thing.format, data[at : at + 4]) for at in range(0, 4 * count, 4)]
    return Texels(thing.width, thing.height, texels)


def components(attribute, data, at):
    """The components of a vertex's attribute as fixed numbers."""
    kind, count, offset = attribute
    form, size = COMPONENTS[kind]
    found = [struct.unpack_from(form, data, at + offset + size * i)[0] for i in range(count)]
    if kind == b"u8":
        return [value * 65536 // 255 for value in found]
    return [2 * value for value in found] if kind == b"i16" else found


def fetch(layout, data, place):
    """A vertex's position, colour and texture position."""
    attributes, stride = layout
    at, position, color, texcoord = place * stride, [], (255, 255, 255, 255), []
    if "position" in attributes:
        position = components(attributes["position"], data, at)[:3]
    if "color0" in attributes:
        found = [byte_of(value) for value in components(attributes["color0"], data, at)]
        color = tuple(found + [0, 0, 0, 255][len(found) :])
    if "texcoord0" in attributes:
        texcoord = components(attributes["texcoord0"], data, at)[:2]
    return (position + [0] * (3 - len(position)), color, texcoord + [0] * (2 - len(texcoord)))


def moved(transform, point):
    x, y, z = point
    rows = (transform[0:4], transform[4:8], transform[8:12])
    sums = ((a * x + b * y + c * z + d * 65536) // 65536 for a, b, c, d in rows)
    return [min(max(value, -(2**31)), 2**31 - 1) for value in sums]


def placed(vertex, model, transform, rect):
    """A vertex on the screen: x, y, depth, colour, texture position; None outside the guard range."""
    x, y, z = moved(transform, moved(model, vertex[0]))
    if not (-524288 <= x <= 524288 and -524288 <= y <= 524288 and 0 <= z <= 65536):
        return None
    left, top, width, height = rect
    sx, sy = 256 * left + (x + 65536) * width // 512, 256 * top + (65536 - y) * height // 512
    return (sx, sy, z * 16777215 // 65536, vertex[1], vertex[2])


def edge(p, q, x, y):
    return (q[0] - p[0]) * (y - p[1]) - (q[1] - p[1]) * (x - p[0])


def covers(value, p, q):
    return value > 0 or (value == 0 and ((q[1] == p[1] and q[0] > p[0]) or q[1] < p[1]))


def blend(state, source, stored):
    """The blended colour, channel by channel."""
    if not state >> 12 & 15:
        return source

    def factor(number_of, c):
        return [
            0, 255, source[c], 255 - source[c], source[3], 255 - source[3], stored[3], 255 - stored[3], stored[c], 255 - stored[c],
            255 if c == 3 else min(source[3], 255 - stored[3]),
        ][number_of - 1]  # fmt: skip

    mixed = []
    for c in range(4):
        at, equation = (20, state >> 31 & 7) if c == 3 else (12, state >> 28 & 7)
        s = product(source[c], factor(state >> at & 15, c))
        d = product(stored[c], factor(state >> at + 4 & 15, c))
        results = (min(255, s + d), max(0, s - d), max(0, d - s), min(source[c], stored[c]), max(source[c], stored[c]))
        mixed.append(results[equation])
    return tuple(mixed)


def stencil_after(operation, stored, reference):
    results = (0, stored, reference, (stored + 1) % 256, min(stored + 1, 255), (stored - 1) % 256, max(stored - 1, 0), 255 - stored)
    return results[operation]


def is_within(rect, x, y):
    return rect[0] <= x < rect[0] + rect[2] and rect[1] <= y < rect[1] + rect[3]


def passes(scissor, x, y):
    return scissor[2:] == (0, 0) or is_within(scissor, x, y)


class Renderer:
    """The contents of the things by serial, and the back buffer."""

    def __init__(self, scene):
        count = scene.width * scene.height
        self.back = (Texels(scene.width, scene.height, [NO_COLOR] * count), Texels(scene.width, scene.height, [0] * count))
        self.contents, self.uniforms = {}, {}
        self.gone, self.view_count = [], scene.views

    # ---- the things

    def begin(self, plan):
        for serial in self.gone:
            self.contents.pop(serial, None)
            self.uniforms.pop(serial, None)
        self.gone = plan.gone
        for change in plan.changes:
            getattr(self, "change_" + change[0])(*change[1:])

    def change_create(self, thing):
        if thing.kind == "uniform":
            zero = [0, 0, 0, 0] if thing.value_kind == "vec4" else [0]
            self.uniforms[thing.serial] = (thing.text, thing.value_kind, zero)
        elif thing.kind == "texture":
            self.contents[thing.serial] = first_texels(thing)
        elif thing.kind in ("vb", "ib"):
            self.contents[thing.serial] = bytearray(thing.data)

    def change_bytes(self, thing, offset, data):
        self.contents[thing.serial][offset : offset + len(data)] = data

    def change_texels(self, thing, rect, data):
        x, y, w, h = rect
        to = self.contents[thing.serial]
        for i in range(w * h):
            to.texels[(y + i // w) * to.width + x + i % w] = texel_of(thing.format, data[4 * i : 4 * i + 4])

    def newest(self, name, kind):
        found = [serial for serial, (other, of, _) in self.uniforms.items() if (other, of) == (name, kind)]
        return self.uniforms[max(found)][2] if found else None

    def set_values(self, values):
        for thing, value in values:
            name, kind, _ = self.uniforms[thing.serial]
            self.uniforms[thing.serial] = (name, kind, value)

    # ---- a frame

    def frame(self, plan, entries):
        """Draws a frame's items in the order of its journal; answers the picture's text."""
        self.begin(plan)
        items = [plan.items[encoder][ordinal] for encoder, ordinal in entries]
        order = plan.order + [view for view in sorted({item["view"] for item in items}) if view not in plan.order]
        for number_of in order:
            of_view = [(n, item) for n, item in enumerate(items) if item["view"] == number_of]
            if of_view:
                self.enter(plan.views.get(number_of), of_view)
        color = self.back[0]
        head = b"P6\n%d %d\n255\n" % (color.width, color.height)
        return head + b"".join(bytes(texel[:3]) for texel in color.texels)

    def enter(self, view, items):
        from second_player import View

        view = view or View()
        target = self.target(view)
        self.clear(view, target)
        for _, item in items:
            if item["form"] == "blit":
                self.blit(item)
        rest = [(self.key(view.mode, n, item), n, item) for n, item in items if item["form"] != "blit"]
        for _, _, item in sorted(rest, key=lambda entry: entry[:2]):
            self.set_values(item["values"])
            if item["form"] == "draw":
                self.draw(view, target, item)

    @staticmethod
    def key(mode, number_of, item):
        is_draw = item["form"] == "draw"
        blended = 1 if is_draw and item["state"] >> 12 & 15 else 0
        program, depth = (item["program"].index, item["depth"]) if is_draw else (511, 0)
        return {
            "default": (blended, program, depth),
            "sequential": (number_of,),
            "ascending": (depth, blended, program),
            "descending": (-depth, blended, program),
        }[mode]

    def target(self, view):
        if view.target is None:
            return self.back
        of = view.target
        return (self.contents[of.color.serial], self.contents[of.depth.serial] if of.depth else None)

    @staticmethod
    def clear(view, target):
        flags, new_color, new_depth, new_stencil = view.clear
        color, depth = target
        columns, rows = color.region(view.rect)
        for y in rows:
            for at in range(y * color.width + columns.start, y * color.width + columns.stop):
                if flags & 1:
                    color.texels[at] = new_color
                if depth and flags & 2:
                    depth.texels[at] = depth.texels[at] & 0xFF000000 | new_depth
                if depth and flags & 4:
                    depth.texels[at] = depth.texels[at] & 0xFFFFFF | new_stencil << 24

    def blit(self, item):
        to, of = self.contents[item["to"].serial], self.contents[item["of"].serial]
        before = list(of.texels)
        for y in range(min(item["h"], to.height - min(item["dy"], to.height), of.height - min(item["sy"], of.height))):
            for x in range(min(item["w"], to.width - min(item["dx"], to.width), of.width - min(item["sx"], of.width))):
                source = (item["sy"] + y) * of.width + item["sx"] + x
                to.texels[(item["dy"] + y) * to.width + item["dx"] + x] = before[source]

    # ---- a draw

    def vertex_places(self, draw):
        """The layout, the bytes, and the place of each vertex in order; None for one that does not exist."""
        vertices = draw["vertices"]
        if vertices is None:
            return None
        if len(vertices) == 2:
            layout, data, first = vertices[0].layout, vertices[1], 0
            count = len(data) // layout[1]
        else:
            layout, data, first, count = vertices[0].layout, self.contents[vertices[0].serial], vertices[1], vertices[2]
        total, indices = len(data) // layout[1], draw["indices"]
        if indices is None:
            return layout, data, list(range(first, first + min(count, max(total - first, 0))))
        if len(indices) == 1:
            numbers, start, many = indices[0], 0, len(indices[0]) // 2
        else:
            numbers, start, many = self.contents[indices[0].serial], indices[1], indices[2]
        many = min(many, max(len(numbers) // 2 - start, 0))
        found = struct.unpack_from(f"<{many}H", numbers, 2 * start) if many else ()
        return layout, data, [first + i if i < count and first + i < total else None for i in found]

    def triangles(self, view, target, draw):
        """The placed triangles in order, clockwise, each with its stencil word."""
        found = self.vertex_places(draw)
        if found is None:
            return
        layout, data, places = found
        rect = view.rect if view.rect[2] or view.rect[3] else (0, 0, target[0].width, target[0].height)
        known = {None: None}
        for place in places:
            if place not in known:
                known[place] = placed(fetch(layout, data, place), draw["model"], view.transform, rect)
        vertices = [known[place] for place in places]
        is_strip = draw["state"] >> 48 & 7
        for t in range(len(vertices) - 2 if is_strip else len(vertices) // 3):
            a, b, c = vertices[t : t + 3] if is_strip else vertices[3 * t : 3 * t + 3]
            if a is None or b is None or c is None:
                continue
            if is_strip and t % 2:
                a, b = b, a
            area, cull = edge(a, b, c[0], c[1]), draw["state"] >> 36 & 3
            if area == 0 or (area > 0 and cull == 1) or (area < 0 and cull == 2):
                continue
            if area > 0:
                yield a, b, c, area, draw["front"]
            else:
                yield a, c, b, -area, draw["back"] or draw["front"]

    def paint(self, view, draw):
        """The function from a fragment's colour and texture position to its painted colour."""
        program = draw["program"].program
        if program == "solid":
            value = self.newest("u_color", "vec4")
            solid = (255, 255, 255, 255) if value is None else tuple(map(byte_of, value))
            return lambda color, texcoord: solid
        if program == "color":
            return lambda color, texcoord: color
        stage = (self.newest("s_tex", "int") or [0])[0]
        bound = draw["textures"][stage] if stage in (0, 1) else None
        is_target = bound is not None and view.target is not None and view.target.color is bound
        texels = None if bound is None or is_target else self.contents[bound.serial]

        def sample(texcoord):
            if texels is None:
                return NO_COLOR
            column = texcoord[0] * texels.width // 65536 % texels.width
            return texels.texels[texcoord[1] * texels.height // 65536 % texels.height * texels.width + column]

        if program == "texture":
            return lambda color, texcoord: sample(texcoord)
        return lambda color, texcoord: tuple(map(product, sample(texcoord), color))

    def draw(self, view, target, draw):
        paint, color = self.paint(view, draw), target[0]
        columns, rows = color.region(view.rect)
        cut = [view.scissor, draw["scissor"]]
        for a, b, c, area, stencil in self.triangles(view, target, draw):
            least = min(a[1], b[1], c[1]) // 256 - 1, min(a[0], b[0], c[0]) // 256 - 1
            most = max(a[1], b[1], c[1]) // 256 + 1, max(a[0], b[0], c[0]) // 256 + 1
            for y in range(max(rows.start, least[0]), min(rows.stop, most[0] + 1)):
                for x in range(max(columns.start, least[1]), min(columns.stop, most[1] + 1)):
                    mx, my = 256 * x + 128, 256 * y + 128
                    wa, wb, wc = edge(b, c, mx, my), edge(c, a, mx, my), edge(a, b, mx, my)
                    if not (covers(wc, a, b) and covers(wa, b, c) and covers(wb, c, a)):
                        continue
                    if not all(passes(scissor, x, y) for scissor in cut):
                        continue
                    at = [(wa * va + wb * vb + wc * vc) // area for va, vb, vc in zip((a[2], *a[3], *a[4]), (b[2], *b[3], *b[4]), (c[2], *c[3], *c[4]))]
                    shaded = paint(tuple(at[1:5]), at[5:7])
                    step(target, y * color.width + x, shaded, at[0], draw["state"], stencil)


def step(target, place, shaded, depth, state, stencil):
    """What one fragment does to one pixel."""
    color, depths = target
    if depths is not None:
        stored_depth, stored_stencil = depths.texels[place] & 0xFFFFFF, depths.texels[place] >> 24
        reference, mask, operation = stencil & 255, stencil >> 8 & 255, 28
        passed = True
        if stencil and not COMPARES[stencil >> 16 & 15](reference & mask, stored_stencil & mask):
            operation, passed = 20, False
        elif state >> 4 & 15 and not COMPARES[state >> 4 & 15](depth, stored_depth):
            operation, passed = 24, False
        if stencil:
            stored_stencil = stencil_after(stencil >> operation & 15, stored_stencil, reference)
        if passed and state >> 38 & 1:
            stored_depth = depth
        depths.texels[place] = stored_stencil << 24 | stored_depth
        if not passed:
            return
    mixed = blend(state, shaded, color.texels[place])
    color.texels[place] = tuple(new if state >> c & 1 else old for c, (new, old) in enumerate(zip(mixed, color.texels[place])))


def pictures(scene, found, journal):
    """The pictures' texts of the frames that the journal has."""
    renderer = Renderer(scene)
    return [renderer.frame(plan, entries) for plan, entries in zip(found, journal)]
