"""What the scripts that read models share: their options, warnings, light, and the way from faces to triangles."""
import math
import sys

from scene_parts.colors import rgba
from scene_parts.faults import SceneError
from scene_parts.perspective import perspective
from scene_parts.pictures import PictureFault
from scene_parts.transforms import apply, camera, cross, move, then, turn

MOST_BYTES = 524_288
"""The most bytes of a vertex or index buffer."""
MOST_WARNINGS = 8
"""As many warnings are told one by one."""


class Cannot(Exception):
    """What can't be done, in one line."""


class Warnings:
    """What is passed over: told on standard error, or refused where it is strict."""

    def __init__(self, name, strict):
        self.name, self.strict, self.count = name, strict, 0

    def warn(self, where, what):
        if self.strict:
            raise Cannot(f"{where}: {what}")
        self.count += 1
        if self.count <= MOST_WARNINGS:
            print(f"{self.name}: warning: {where}: {what}", file=sys.stderr)

    def end(self):
        if self.count > MOST_WARNINGS:
            print(f"{self.name}: and {self.count - MOST_WARNINGS} warnings more", file=sys.stderr)


def options(words, model):
    """Adds the options that all models have."""
    words.add_argument("model", metavar=model)
    words.add_argument("--output", metavar="FILE", help="write the scene there, not to standard output")
    words.add_argument("--strict", action="store_true", help="end with status 1 where else a warning is told")
    words.add_argument("--size", nargs=2, type=int, default=(400, 300), metavar=("W", "H"), help="of the pictures; 400 300")
    words.add_argument("--side", type=float, default=30, metavar="DEGREES", help="from how far to the right it is seen; 30")
    words.add_argument("--above", type=float, default=25, metavar="DEGREES", help="from how far above; 25")
    words.add_argument("--zoom", type=float, default=1, metavar="N", help="how large, 0.01 to 1000; 1 fits always")
    words.add_argument("--frames", type=int, default=1, metavar="N", help="N pictures of one whole turn, 1 to 1024; 1")
    words.add_argument("--ambient", type=float, default=0.35, metavar="N", help="the light in the shadow, 0 to 1; 0.35")
    words.add_argument("--background", default="14213d", metavar="COLOR", help="six or eight hexadecimal digits; 14213d")
    words.add_argument("--perspective", type=float, metavar="DEGREES", help="with perspective, seen by so many degrees, 5 to 120; the script cuts and divides")
    words.add_argument("--texels", type=int, default=512, metavar="N", help="the longest side of a texture, 1 to 2048: a longer one is halved; 512")


def asked(words):
    """The options' values, where they can be."""
    for value, least, most, what in (
        (min(words.size), 1, 2048, "--size"), (max(words.size), 1, 2048, "--size"), (words.frames, 1, 1024, "--frames"),
        (words.zoom, 0.01, 1000, "--zoom"), (words.ambient, 0, 1, "--ambient"), (words.side, -36000, 36000, "--side"),
        (words.above, -36000, 36000, "--above"), (words.texels, 1, 2048, "--texels"),
        (50 if words.perspective is None else words.perspective, 5, 120, "--perspective"),
    ):  # fmt: skip
        if not least <= value <= most:
            raise Cannot(f"{what} is {value:g}; it goes from {least:g} to {most:g}")
    try:
        rgba(words.background)
    except SceneError as error:
        raise Cannot(f"--background: {error.what}") from None
    return words


def done_by(name, work):
    """Does WORK; what can't be done is one line and status 1."""
    try:
        work()
    except Cannot as error:
        print(f"{name}: {error}", file=sys.stderr)
    except SceneError as error:
        print(f"{name}: {error.what}", file=sys.stderr)
    except (RecursionError, MemoryError):
        print(f"{name}: the model is too large", file=sys.stderr)
    else:
        return 0
    return 1


def turntable(words):
    """The view's transform of each frame: once round a model whose farthest point is 1 from (0, 0, 0)."""
    width, height = words.size
    return [camera(width, height, words.side + 360 * k / words.frames, words.above, 1.05 / words.zoom, -1.1, 1.1) for k in range(words.frames)]


class Eye:
    """A view of each frame with perspective: where the eye stands, and what it sees of vertices."""

    def __init__(self, words, layout):
        away = 1.05 / math.sin(math.radians(words.perspective) / 2) / words.zoom
        self.layout, self.eyes = layout, []
        for k in range(words.frames):
            self.eyes.append(then(turn("y", -words.side - 360 * k / words.frames), turn("x", words.above), move(0, 0, -away)))
        self.lens = perspective(*words.size, words.perspective, max(0.02, away - 1.1), away + 1.1)

    def pieces(self, frame, transform, corners):
        """The vertices and indices of each buffer that CORNERS become in a frame."""
        seen = self.lens.through(then(transform, self.eyes[frame]), self.layout, corners)
        return pieces(seen, self.layout.stride) if seen else ()


def pieces(corners, stride):
    """The corners in pieces whose different vertices and whose indices fit a buffer each: (vertices, indices)."""
    places, indices = {}, []
    for first in range(0, len(corners), 3):
        if len(places) + 3 > min(MOST_BYTES // stride, 65536) or len(indices) + 3 > MOST_BYTES // 2:
            yield list(places), indices
            places, indices = {}, []
        indices += [places.setdefault(corner, len(places)) for corner in corners[first : first + 3]]
    yield list(places), indices


class Buffers:
    """Vertex and index buffers of a scene, which has room for 1,024 of each kind. Where they are made anew in each frame those of the
    frame before end, and count for two frames more."""

    def __init__(self, scene, layout, are_new):
        self.scene, self.layout, self.count, self.names = scene, layout, 0, []
        self.most = 340 if are_new else 1024

    def frame(self):
        for name in self.names:
            self.scene.destroy(name)
        self.names = []

    def make(self, vertices, indices):
        """The name of a new vertex buffer; that of its indices has `_order` behind it."""
        if len(self.names) // 2 == self.most:
            raise Cannot(f"the model has more than {self.most} parts" + (", which is the most with --perspective" if self.most < 1024 else ""))
        name = f"part{self.count}"
        self.scene.vb(name, self.layout, vertices)
        self.scene.ib(name + "_order", indices)
        self.names += [name, name + "_order"]
        self.count += 1
        return name


def toward_light(words):
    """Where the light stands, in the model's space: at the upper left of one who looks at the first frame."""
    return apply(then(turn("x", -words.above), turn("y", words.side)), (-0.5, 0.62, 0.6))


def brightness(normal, ambient, toward):
    """How bright a face that looks along NORMAL is, by a light that stands TOWARD."""
    length = math.sqrt(sum(part * part for part in normal)) or 1
    return ambient + (1 - ambient) * max(0, sum(a * b for a, b in zip(normal, toward)) / length)


def face_normal(points):
    """The direction in which a triangle looks; its length grows with the area."""
    a, b, c = points
    return cross(tuple(q - p for p, q in zip(a, b)), tuple(q - p for p, q in zip(a, c)))


def middle_and_reach(points):
    """The middle of the box around POINTS, and how far the farthest one is from it."""
    ends = [(min(line), max(line)) for line in zip(*points)]
    middle = [(low + high) / 2 for low, high in ends]
    reach = max(math.dist(point, middle) for point in points) or 1
    if not math.isfinite(reach):
        raise Cannot("the model is too large: its numbers are at the end of what numbers can be")
    return middle, reach


def flattened(points):
    """The corners of a face in the plane in which it lies, so that they go against the clock; None where it has no area."""
    normal = [0.0, 0.0, 0.0]
    for a, b in zip(points, points[1:] + points[:1]):
        for k in range(3):
            i, j = (k + 1) % 3, (k + 2) % 3
            normal[k] += (a[i] - b[i]) * (a[j] + b[j])
    least = max(range(3), key=lambda k: abs(normal[k]))
    if not normal[least]:
        return None
    i, j = ((least + 1) % 3, (least + 2) % 3)[:: 1 if normal[least] > 0 else -1]
    return [(point[i], point[j]) for point in points]


def turned(a, b, c):
    """Above 0 where the way a, b, c turns against the clock."""
    return (b[0] - a[0]) * (c[1] - a[1]) - (b[1] - a[1]) * (c[0] - a[0])


def cut_face(points):
    """The triangles of a face, as places of its corners. A fan from the first corner where no corner points inwards; else one ear after
    the other: a corner that points outwards, with no other corner within its triangle.

    >>> cut_face([(0, 0, 0), (1, 0, 0), (1, 1, 0), (0, 1, 0)])
    [(0, 1, 2), (0, 2, 3)]
    >>> cut_face([(0, 0, 0), (2, 0, 0), (2, 2, 0), (1, 0.5, 0), (0, 2, 0)])
    [(0, 1, 3), (0, 3, 4), (1, 2, 3)]
    """
    fan = [(0, k, k + 1) for k in range(1, len(points) - 1)]
    flat = flattened(points) if len(points) > 3 else None
    if flat is None or all(turned(flat[k - 2], flat[k - 1], flat[k]) >= 0 for k in range(len(flat))):
        return fan
    left, found = list(range(len(flat))), []
    while len(left) > 3:
        ear = next((k for k in range(len(left)) if is_ear(flat, left, k)), None)
        if ear is None:
            return fan
        found.append((left[ear - 1], left[ear], left[(ear + 1) % len(left)]))
        del left[ear]
    return sorted(tuple(sorted(triangle)) for triangle in [*found, tuple(left)])


def is_ear(flat, left, k):
    """Whether the corner at place K of those that are left can be cut off."""
    a, b, c = left[k - 1], left[k], left[(k + 1) % len(left)]
    if turned(flat[a], flat[b], flat[c]) <= 0:
        return False
    return not any(
        flat[p] not in (flat[a], flat[b], flat[c])
        and turned(flat[a], flat[b], flat[p]) >= 0 and turned(flat[b], flat[c], flat[p]) >= 0 and turned(flat[c], flat[a], flat[p]) >= 0
        for p in left
    )  # fmt: skip


def textured(loader, where, warnings, longest):
    """The picture that LOADER gives, halved until it fits; None where there is none that can be used, with a warning."""
    try:
        picture = loader()
    except PictureFault as error:
        warnings.warn(where, f"{error}; it is drawn without")
        return None
    return picture.within(longest)
