#!/usr/bin/env python3
"""Makes a scene of a model in Wavefront's OBJ form: one picture, or a turntable of several.

usage: tools/scene/obj_to_scene.py [options] MODEL.obj > model.scene

What is read: vertices (with colours behind the position, where they are there), normals, texture positions, faces of any
number of corners, bent ones too, `mtllib` and `usemtl`; of materials the colour `Kd` and the texture `map_Kd`, as PNG or PPM,
or as JPEG through Netpbm (the Debian package netpbm).

The view is orthographic, since the renderer has no perspective; with --perspective the script works it out, and all vertices are new in
each frame. The light is worked out here and written into the colours
of the vertices: it comes from the upper left of the first frame and turns with the model. Without normals each face has
one light; --smooth takes the mean at each vertex. The model is moved to the middle and made as large as fits.

What is not there or can't be drawn is passed over with a warning: a material or texture that is missing, lines, points,
curves and surfaces, words that are not known. With --strict it is one line and status 1, and so is without it what is
broken: a number or a corner that is none, a model without faces, or one whose text would be longer than the program reads.
Transparency and every other word of a material are passed over without a word.
"""
import math
import os
import sys

from scene import IDENTITY, LONGEST, Scene, apply, lit, move, parser, rgba, run, scale, then, write_scene
from scene_parts import models, pictures
from scene_parts.models import Cannot

GREY = (0.8, 0.8, 0.8)
CURVES = {"cstype", "deg", "curv", "curv2", "surf", "parm", "trim", "hole", "scrv", "sp", "vp", "bmat", "step", "call"}
PASSED = {"o", "g", "s", "mg", "lod", "bevel", "c_interp", "d_interp", "shadow_obj", "trace_obj", "maplib", "usemap"}


class Material:
    """A colour, and perhaps the path of a texture and the line that names it."""

    def __init__(self, color=GREY, texture=None, where=None):
        self.color, self.texture, self.where = color, texture, where


class Model:
    """Triangles by material: a triangle is three corners, each (vertex, texture position, normal) by place or None."""

    def __init__(self):
        self.points, self.colors, self.places, self.normals = [], [], [], []
        self.materials, self.triangles = {None: Material()}, {}

    def used(self):
        """The vertices that faces use."""
        return [self.points[place] for place in {corner[0] for many in self.triangles.values() for triangle in many for corner in triangle}]


def numbers(words, least, where):
    """The numbers of WORDS, of which there must be LEAST or more."""
    try:
        found = [float(word) for word in words]
    except ValueError:
        raise Cannot(f"{where}: {' '.join(words)!r} are no numbers") from None
    if len(found) < least or not all(map(math.isfinite, found)):
        raise Cannot(f"{where}: {least} numbers are wanted")
    return found


def lines_of(path):
    """The lines of a text with their place, joined where one ends with a backslash, without comments."""
    try:
        with open(path, encoding="utf-8-sig", errors="replace") as file:
            lines = file.read().split("\n")
    except OSError as error:
        raise Cannot(f"{path}: {error.strerror}") from None
    whole, first = "", 1
    for number, line in enumerate(lines, 1):
        if not whole:
            first = number
        whole += line.rstrip("\r")
        if whole.endswith("\\"):
            whole = whole[:-1] + " "
            continue
        words = whole.split("#")[0].split()
        whole = ""
        if words:
            yield f"{path}, line {first}", words


def read_materials(path, where, materials, warnings):
    """The materials of an MTL file, which the model's line WHERE names."""
    if not os.path.isfile(path):
        warnings.warn(where, f"there is no file {path}; its materials are grey")
        return
    current = Material()
    for place, (word, *rest) in lines_of(path):
        if word == "newmtl":
            current = materials[" ".join(rest)] = Material()
        elif word == "Kd" and rest[:1] in (["spectral"], ["xyz"]):
            warnings.warn(place, f"a colour as {rest[0]} is not read; it is grey")
        elif word == "Kd":
            current.color = tuple((numbers(rest, 1, place) * 3)[:3] if len(rest) < 3 else numbers(rest, 3, place)[:3])
        elif word == "map_Kd" and not rest:
            warnings.warn(place, "map_Kd names no texture")
        elif word == "map_Kd":
            if rest[0].startswith("-"):
                warnings.warn(place, "the options of the texture are passed over")
                rest = rest[-1:]
            current.texture = os.path.join(os.path.dirname(path), " ".join(rest).replace("\\", "/"))
            current.where = place


def corner(word, model, where):
    """A corner of a face: `v`, `v/t`, `v//n` or `v/t/n`, by places from 1, or from the end where they are below 0."""
    found = []
    for part, many in zip((word.split("/") + ["", ""])[:3], (model.points, model.places, model.normals)):
        try:
            place = int(part) if part else None
        except ValueError:
            raise Cannot(f"{where}: {word!r} is no corner") from None
        if place is not None:
            place = place - 1 if place > 0 else len(many) + place
            if not 0 <= place < len(many):
                raise Cannot(f"{where}: {word!r} names what is not there")
        found.append(place)
    if found[0] is None:
        raise Cannot(f"{where}: {word!r} is no corner")
    return tuple(found)


def read_model(path, warnings):
    """The model of an OBJ file, with its materials."""
    model, material = Model(), None
    for where, (word, *rest) in lines_of(path):
        if word == "v":
            found = numbers(rest, 3, where)
            model.points.append(tuple(found[:3]))
            model.colors.append(tuple(found[3:6]) if len(found) >= 6 else None)
        elif word == "vt":
            model.places.append(tuple((numbers(rest, 1, where) + [0])[:2]))
        elif word == "vn":
            model.normals.append(tuple(numbers(rest, 3, where)[:3]))
        elif word == "f":
            corners = [corner(one, model, where) for one in rest]
            if len(corners) < 3:
                warnings.warn(where, "a face has three corners or more; this one is left out")
                continue
            cut = models.cut_face([model.points[place] for place, _, _ in corners])
            model.triangles.setdefault(material, []).extend(tuple(corners[k] for k in triangle) for triangle in cut)
        elif word == "mtllib":
            read_materials(os.path.join(os.path.dirname(path), " ".join(rest)), where, model.materials, warnings)
        elif word == "usemtl":
            material = " ".join(rest)
            if material not in model.materials:
                warnings.warn(where, f"there is no material {material!r}; it is grey")
                model.materials[material] = Material()
        elif word in ("l", "p"):
            warnings.warn(where, "lines and points can't be drawn")
        elif word in CURVES:
            warnings.warn(where, f"curves and surfaces ({word}) can't be drawn")
        elif word not in PASSED:
            warnings.warn(where, f"{word!r} is no word of a model")
    if not model.triangles:
        raise Cannot(f"{path}: there is no face")
    return model


def mean_normals(model):
    """At each vertex the sum of the directions of its triangles."""
    sums = [(0, 0, 0)] * len(model.points)
    for triangle in (one for many in model.triangles.values() for one in many):
        normal = models.face_normal([model.points[place] for place, _, _ in triangle])
        for place, _, _ in triangle:
            sums[place] = tuple(a + b for a, b in zip(sums[place], normal))
    return sums


def fitted(model):
    """The transform that puts the model's middle to (0, 0, 0) and its farthest point to 1 away from it."""
    middle, reach = models.middle_and_reach(model.used())
    return then(move(*(-part for part in middle)), scale(1 / reach))


def vertices_of(model, material, has_texture, words, smooth):
    """The vertices of one material's triangles: position, colour with its light, texture position."""
    fit = fitted(model)
    toward = models.toward_light(words)
    plain = model.materials[material]
    for triangle in model.triangles[material]:
        points = [model.points[place] for place, _, _ in triangle]
        flat = models.face_normal(points)
        for point, (place, texture, normal) in zip(points, triangle):
            looks = smooth[place] if smooth else model.normals[normal] if normal is not None else flat
            own = model.colors[place] or ((1, 1, 1) if has_texture else plain.color)
            color = rgba([round(255 * min(1, max(0, part))) for part in own])
            u, v = model.places[texture] if texture is not None else (0, 0)
            shade = lit(color, models.brightness(looks, words.ambient, toward))
            # a texture's first row is the top, and v goes up
            yield (apply(fit, point), shade, (u, 1 - v))


def make(model, words, warnings):
    """The scene."""
    Scene.heading = f"A model. Made by tools/scene/obj_to_scene.py of {os.path.basename(words.model)}.".encode("ascii", "replace").decode()
    scene = Scene(*words.size)
    count = sum(map(len, model.triangles.values()))
    if count * 3 * 48 > LONGEST:
        raise Cannot(f"the model has {count} triangles; the program reads a text of {LONGEST} bytes, which is enough for about {LONGEST // 144}")
    draws, shapes, layout, eye, buffers = [], [], None, None, None
    for frame, view in enumerate(models.turntable(words)):
        scene.frame()
        if frame == 0:
            layout = scene.layout("vertex", "position:fixed:3", "color0:u8:4", "texcoord0:fixed:2")
            scene.program("plain", "color")
            scene.program("textured", "texcolor")
            scene.clear(0, words.background)
            shapes = things(scene, model, words, warnings)
            if words.perspective:
                shapes, eye, buffers = list(shapes), models.Eye(words, layout), models.Buffers(scene, layout, True)
            else:
                draws = list(whole(scene, layout, shapes))
        if eye:
            buffers.frame()
            draws = [(buffers.make(*piece), texture) for vertices, texture in shapes for piece in eye.pieces(frame, IDENTITY, vertices)]
        else:
            scene.view_transform(0, view)
        scene.encoder()
        for name, texture in draws:
            scene.state(depth="less", write_depth=True)
            scene.vertices(name)
            if eye:
                scene.indices(name + "_order")
            if texture:
                scene.bind(0, texture)
            scene.submit(0, "textured" if texture else "plain")
    return scene


def things(scene, model, words, warnings):
    """The vertices of each material with its texture or None; the textures are made on the way."""
    textures = {}
    smooth = mean_normals(model) if words.smooth else None
    for material in model.triangles:
        of = model.materials[material]
        if of.texture and of.texture not in textures:
            picture = models.textured(lambda: pictures.load(of.texture), f"{of.where}: {of.texture}", warnings, words.texels)
            textures[of.texture] = picture and f"texture{len(textures)}"
            if picture:
                scene.texture(textures[of.texture], picture.width, picture.height, picture.data)
        texture = textures.get(of.texture)
        yield list(vertices_of(model, material, bool(texture), words, smooth)), texture


def whole(scene, layout, shapes):
    """Makes the buffers of a model that is turned by transforms: their names with their textures."""
    count, most = 0, models.MOST_BYTES // layout.stride // 3 * 3
    for vertices, texture in shapes:
        for first in range(0, len(vertices), most):
            if count == 1024:
                raise Cannot("the model has more than 1024 parts: materials, and pieces of those that are large")
            scene.vb(f"buffer{count}", layout, vertices[first : first + most])
            yield f"buffer{count}", texture
            count += 1


def main():
    words = parser(__doc__)
    models.options(words, "MODEL.obj")
    words.add_argument("--smooth", action="store_true", help="one direction for each vertex, the mean of its faces")
    taken = words.parse_args()

    def work():
        models.asked(taken)
        warnings = models.Warnings("obj_to_scene.py", taken.strict)
        text = make(read_model(taken.model, warnings), taken, warnings).text()
        warnings.end()
        write_scene(text, taken.output)

    return run("obj_to_scene.py", lambda: models.done_by("obj_to_scene.py", work))


if __name__ == "__main__":
    sys.exit(main())
