#!/usr/bin/env python3
"""Makes a scene of a model in glTF 2.0 (.gltf or .glb): one picture, the pictures of an animation, or a turntable.

usage: tools/scene/gltf_to_scene.py [options] MODEL.gltf > model.scene

What is read: the nodes of the file's scene with their meshes (triangles, strips and fans, with indices or without; positions,
normals, texture positions, colours), of materials the base colour and its texture (PNG; JPEG through Netpbm, the Debian package
netpbm), whether they are seen from both sides and whether they are half transparent, and animations of nodes. Buffers and pictures
may stand in the file, in its text, or beside it.

Each node is drawn with its transform, so an animation costs a line for each node and frame: the buffers are made once. The view
is orthographic, since the renderer has no perspective; with --perspective the script works it out, and all vertices are new in each
frame. The light is worked out here and written into the colours of the vertices, as
it falls in the first frame; it comes from the upper left. The model is moved to the middle and made as large as fits in all frames.

With --frames N and an animation there are N pictures over its length; without an animation, or with --animation none, N pictures of
one whole turn. What can't be drawn is passed over with a warning: points, lines, skins, morph targets, cut-out textures (which are
drawn half transparent); with --strict it is one line and status 1. What is broken is always one line and status 1.
"""
import os
import sys

from scene import LONGEST, Scene, apply, move, parser, run, scale, then, write_scene
from scene_parts import gltf, models
from scene_parts.models import Cannot

TRIANGLES, STRIP, FAN = 4, 5, 6


class Part:
    """A part of a mesh: positions, normals or None, colours and texture positions by vertex, corners in threes, and its material."""

    def __init__(self, file, primitive, here, warnings):
        attributes = primitive.get("attributes", {})
        if "POSITION" not in attributes:
            raise Cannot(f"{here} has no positions")
        self.points = [point[:3] for point in file.numbers(attributes["POSITION"], here)]
        self.material = Material(file, primitive.get("material"), warnings)
        self.normals = self.of(file, attributes, "NORMAL", here)
        self.places = self.of(file, attributes, f"TEXCOORD_{self.material.set}", here)
        colors = self.of(file, attributes, "COLOR_0", here)
        # whole numbers of colours and texture positions are shares of their greatest
        self.colors = colors and [self.whole(file, attributes["COLOR_0"], color) for color in colors]
        self.places = self.places and [self.whole(file, attributes[f"TEXCOORD_{self.material.set}"], place) for place in self.places]
        self.corners = self.triangles(file, primitive, here)

    def of(self, file, attributes, name, here):
        if name not in attributes:
            return None
        found = file.numbers(attributes[name], here)
        if len(found) != len(self.points):
            raise Cannot(f"{here} has {len(self.points)} positions and {len(found)} of {name}")
        return found

    @staticmethod
    def whole(file, accessor, values):
        of = file.item("accessors", accessor)
        return values if of.get("normalized") or of["componentType"] == 5126 else tuple(value / gltf.COMPONENTS[of["componentType"]][1] for value in values)

    def triangles(self, file, primitive, here):
        """The vertices' places, three for each triangle."""
        count, mode = len(self.points), primitive.get("mode", TRIANGLES)
        found = [index for (index,) in file.numbers(primitive["indices"], here)] if "indices" in primitive else list(range(count))
        if found and max(found) >= count:
            raise Cannot(f"{here} has the index {max(found)} and {count} vertices")
        if mode == STRIP:
            return [found[k + j] for k in range(len(found) - 2) for j in ((0, 1, 2) if k % 2 == 0 else (1, 0, 2))]
        if mode == FAN:
            return [found[j] for k in range(1, len(found) - 1) for j in (0, k, k + 1)]
        return found[: len(found) // 3 * 3]


class Material:
    """A colour from 0 to 1, the texture's number or None and its set of texture positions, and how it is drawn."""

    def __init__(self, file, number, warnings):
        of = {} if number is None else file.item("materials", number, "a mesh")
        base = of.get("pbrMetallicRoughness", {})
        here = f"{file.path}: materials[{number}]"
        self.factor = tuple(base.get("baseColorFactor", (1, 1, 1, 1)))
        if len(self.factor) != 4 or not all(isinstance(part, (int, float)) for part in self.factor):
            raise Cannot(f"{here} has a base colour that is none")
        texture = base.get("baseColorTexture", {})
        self.texture, self.set, self.here = texture.get("index"), texture.get("texCoord", 0), here
        self.both = bool(of.get("doubleSided"))
        self.blends = of.get("alphaMode", "OPAQUE") != "OPAQUE"
        self.unlit = "KHR_materials_unlit" in of.get("extensions", {})
        if of.get("alphaMode") == "MASK":
            warnings.warn(here, "a cut-out is drawn half transparent: there is no test of alpha")
        if "KHR_texture_transform" in texture.get("extensions", {}):
            warnings.warn(here, "the transform of the texture is passed over")


def byte(share):
    """A part of a colour in light, from 0 to 1, as the byte that shows it."""
    share = min(1, max(0, share))
    shown = 12.92 * share if share <= 0.0031308 else 1.055 * share ** (1 / 2.4) - 0.055
    return int(shown * 255 + 0.5)


def direction(transform, normal):
    """A normal after a transform that may be of different scale along its axes."""
    a, b, c = ([transform[4 * r + k] for r in range(3)] for k in range(3))
    rows = (models.cross(b, c), models.cross(c, a), models.cross(a, b))
    sign = 1 if sum(p * q for p, q in zip(a, rows[0])) >= 0 else -1
    return tuple(sign * sum(rows[k][r] * normal[k] for k in range(3)) for r in range(3))


def is_mirrored(transform):
    a, b, c = ([transform[4 * r + k] for r in range(3)] for k in range(3))
    return sum(p * q for p, q in zip(a, models.cross(b, c))) < 0


def parts_of(file, warnings):
    """The parts of each mesh that nodes use, by the mesh's number."""
    found = {}
    for number, node in enumerate(file.json.get("nodes", [])):
        if "skin" in node:
            warnings.warn(f"{file.path}: nodes[{number}]", "its skin is passed over: it is drawn as it was modelled")
        mesh = node.get("mesh")
        if mesh is None or mesh in found:
            continue
        found[mesh] = []
        for place, primitive in enumerate(file.item("meshes", mesh, f"nodes[{number}]").get("primitives", [])):
            here = f"{file.path}: meshes[{mesh}].primitives[{place}]"
            if primitive.get("mode", TRIANGLES) not in (TRIANGLES, STRIP, FAN):
                warnings.warn(here, "points and lines can't be drawn")
                continue
            if primitive.get("targets"):
                warnings.warn(here, "its morph targets are passed over")
            part = Part(file, primitive, here, warnings)
            if part.corners:
                found[mesh].append(part)
    return found


def fitted(file, parts, moments):
    """The transform that puts the middle of all moments to (0, 0, 0), and the farthest point to 1 away from it at most."""
    points = []
    for nodes in moments:
        for number, transform in nodes:
            for part in parts[file.json["nodes"][number]["mesh"]]:
                used = set(part.corners)
                # of a model that moves for long, or is large, the corners of its box stand for it
                if len(moments) * len(used) > 200_000:
                    ends = [(min(line), max(line)) for line in zip(*(part.points[k] for k in used))]
                    points += [apply(transform, (x, y, z)) for x in ends[0] for y in ends[1] for z in ends[2]]
                else:
                    points += [apply(transform, part.points[k]) for k in used]
    if not points:
        raise Cannot(f"{file.path}: there is no triangle in its scene")
    middle, reach = models.middle_and_reach(points)
    return then(move(*(-part for part in middle)), scale(1 / reach))


class Draw:
    """Vertices, what brings them to their size, and how they are drawn; and the names of their buffers, where these stay."""

    def __init__(self, corners, home, part, texture):
        self.corners, self.home, self.material, self.texture = corners, home, part.material, texture
        self.names = []


def shaded(part, transform, words, has_texture):
    """The vertex (position, colour, texture position) of each corner, with the light on it."""
    toward, material, known = models.toward_light(words), part.material, {}
    shown = [byte(share) for share in material.factor[:3]]
    for first in range(0, len(part.corners), 3):
        triangle = part.corners[first : first + 3]
        flat = None if part.normals else models.face_normal([part.points[k] for k in triangle])
        for k in triangle:
            key = (k, flat)
            if key not in known:
                normal = direction(transform, flat or part.normals[k])
                sides = (normal, tuple(-p for p in normal))[: 1 + material.both]
                light = 1 if material.unlit else max(models.brightness(side, words.ambient, toward) for side in sides)
                own = part.colors[k] if part.colors else (1, 1, 1)
                color = [min(255, int(c * byte(o) / 255 * light + 0.5)) for c, o in zip(shown, own)]
                alpha = min(1, max(0, material.factor[3] * (own[3] if len(own) > 3 else 1))) if material.blends else 1
                known[key] = (part.points[k], (*color, int(alpha * 255 + 0.5)), part.places[k] if part.places and has_texture else (0, 0))
            yield known[key]


def things(scene, file, parts, nodes, words, warnings):
    """Makes the textures; answers the draws of each node that is drawn."""
    textures, draws, count = {}, {}, 0
    for number, transform in nodes:
        draws[number] = []
        for part in parts[file.json["nodes"][number]["mesh"]]:
            of = part.material.texture
            if of is not None and of not in textures:
                picture = models.textured(lambda: file.picture(of, part.material.here), part.material.here, warnings, words.texels)
                textures[of] = picture and f"texture{len(textures)}"
                if picture:
                    scene.texture(textures[of], picture.width, picture.height, picture.data)
            ends = [(min(line), max(line)) for line in zip(*(part.points[k] for k in set(part.corners)))]
            middle, reach = [(low + high) / 2 for low, high in ends], max(high - low for low, high in ends) / 2 or 1
            small = then(move(*(-m for m in middle)), scale(1 / reach))
            texture = textures.get(of) if part.places else None
            corners = [(apply(small, point), *rest) for point, *rest in shaded(part, transform, words, bool(texture))]
            count += len(corners)
            if count * 4 > LONGEST:
                raise Cannot(f"{file.path}: it has more than {LONGEST // 12} triangles, and the program reads a text of {LONGEST} bytes")
            draws[number].append(Draw(corners, then(scale(reach), move(*middle)), part, texture))
    return draws


def make(file, words, warnings):
    """The scene."""
    of = gltf.chosen(file, words.animation)
    animation = gltf.Animation(file, of, warnings) if of and words.frames > 1 else None
    moments = [gltf.placed(file, animation.now(animation.length * k / words.frames)) for k in range(words.frames)] if animation else [gltf.placed(file, {})]
    parts = parts_of(file, warnings)
    fit = fitted(file, parts, moments)
    Scene.heading = f"A model. Made by tools/scene/gltf_to_scene.py of {os.path.basename(file.path)}.".encode("ascii", "replace").decode()
    scene = Scene(*words.size)
    views, draws, eye, buffers = models.turntable(words), {}, None, None
    for frame in range(words.frames):
        nodes, turned = moments[frame if animation else 0], 0 if animation else frame
        scene.frame()
        if frame == 0:
            layout = scene.layout("vertex", "position:fixed:3", "color0:u8:4", "texcoord0:fixed:2")
            scene.program("plain", "color")
            scene.program("textured", "texcolor")
            scene.clear(0, words.background)
            scene.mode(0, "ascending")
            draws = things(scene, file, parts, nodes, words, warnings)
            buffers, eye = models.Buffers(scene, layout, bool(words.perspective)), words.perspective and models.Eye(words, layout)
        if eye:
            buffers.frame()
        else:
            scene.view_transform(0, views[turned])
        every = [(draw, then(draw.home, transform, fit)) for number, transform in nodes for draw in draws[number]]
        for draw, transform in every:
            if eye:
                draw.names = [buffers.make(*piece) for piece in eye.pieces(turned, transform, draw.corners)]
            elif frame == 0:
                draw.names = [buffers.make(*piece) for piece in models.pieces(draw.corners, layout.stride)]
        scene.encoder()
        for draw, transform in every:
            put(scene, draw, transform, views[turned], bool(eye))
    return scene


def put(scene, draw, transform, view, is_seen):
    """One draw; IS_SEEN: its vertices have gone through the perspective. What is half transparent comes behind all else, the farthest first."""
    material = draw.material
    cull = "none" if material.both else "counter" if is_mirrored(transform) else "clockwise"
    away = apply(then(transform, view), (0, 0, 0))[2]
    depth = 1 + int(1e6 * (1 - min(1, max(0, away)))) if material.blends else 0
    for name in draw.names:
        scene.state(depth="less", write_depth=not material.blends, blend="alpha" if material.blends else "none", cull=cull)
        if not is_seen:
            scene.transform(transform)
        scene.vertices(name)
        scene.indices(name + "_order")
        if draw.texture:
            scene.bind(0, draw.texture)
        scene.submit(0, "textured" if draw.texture else "plain", depth)


def main():
    words = parser(__doc__)
    models.options(words, "MODEL.gltf")
    words.add_argument("--animation", metavar="NAME", help="the animation of this name or number, or none; the first")
    taken = words.parse_args()

    def work():
        models.asked(taken)
        warnings = models.Warnings("gltf_to_scene.py", taken.strict)
        try:
            text = make(gltf.File(taken.model), taken, warnings).text()
        except (KeyError, TypeError, AttributeError, IndexError, ValueError, OverflowError) as error:
            if type(error).__name__ == "SceneError":
                raise
            raise Cannot(f"{taken.model}: it is no right glTF: {type(error).__name__} {error}") from None
        warnings.end()
        write_scene(text, taken.output)

    return run("gltf_to_scene.py", lambda: models.done_by("gltf_to_scene.py", work))


if __name__ == "__main__":
    sys.exit(main())
