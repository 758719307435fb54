"""State words, stencil words and flags by name."""
from scene_parts.faults import SceneError
from scene_parts.figures import whole

TESTS = {"none": 0, "less": 1, "lequal": 2, "equal": 3, "gequal": 4, "greater": 5, "notequal": 6, "never": 7, "always": 8}
FACTORS = {
    "zero": 1, "one": 2, "source": 3, "1-source": 4, "alpha": 5, "1-alpha": 6, "dst-alpha": 7, "1-dst-alpha": 8, "dst": 9,
    "1-dst": 10, "alpha-saturated": 11,
}
EQUATIONS = {"add": 0, "subtract": 1, "reverse": 2, "min": 3, "max": 4}
CULLS = {"none": 0, "clockwise": 1, "counter": 2}
OPERATIONS = {"zero": 0, "keep": 1, "replace": 2, "wrap+": 3, "saturate+": 4, "wrap-": 5, "saturate-": 6, "invert": 7}
BLENDS = {
    "none": None,
    "alpha": ("alpha", "1-alpha"),
    "add": ("one", "one"),
    "multiply": ("dst", "zero"),
    "screen": ("one", "1-source"),
    "darken": ("one", "one", "min"),
    "lighten": ("one", "one", "max"),
    "subtract": ("one", "one", "reverse"),
}
"""Blends by name: source factor, destination factor, and the equation where it is not add."""

COLOR, DEPTH, STENCIL = 1, 2, 4
"""Clear flags."""
KEEP_ALL, RESET_ALL = 0, 255
KEEP_BINDINGS, KEEP_INDICES, KEEP_STATE, KEEP_TRANSFORM, KEEP_VERTICES = 254, 253, 247, 239, 223
"""Flags of `submit`: what is forgotten after the draw. Those with KEEP leave one part; join several by `&`."""


def named(table, name, what):
    """The number of NAME in TABLE."""
    if not isinstance(name, str) or name not in table:
        raise SceneError(f"{name!r} is no {what}; there are {', '.join(table)}")
    return table[name]


def state(write="rgba", depth="none", write_depth=False, blend="none", cull="none", strip=False):
    """The state word. WRITE is the channels that are written, `""` for none. BLEND is a name of `BLENDS`, or (source factor,
    destination factor[, equation]) by name. CULL names the triangles that are dropped, as they stand in the picture.

    >>> state(), state(depth="less"), hex(state(blend="alpha")), state(blend="add")
    (15, 31, '0x656500f', 35790863)
    >>> state(cull="clockwise"), state(depth="less", write_depth=True)
    (68719476751, 274877906975)
    """
    if not isinstance(write, str) or set(write) - set("rgba") or len(set(write)) < len(write):
        raise SceneError(f"write is {write!r}; it is some of the letters r, g, b and a, each once")
    word = sum(1 << "rgba".index(channel) for channel in write)
    word |= named(TESTS, depth, "depth test") << 4
    factors = named(BLENDS, blend, "blend") if isinstance(blend, str) else tuple(blend or ()) or None
    if factors is not None and not 2 <= len(factors) <= 3:
        raise SceneError(f"the blend {factors!r} is no name and no (source factor, destination factor[, equation])")
    if factors:
        source, destination = (named(FACTORS, factor, "factor") for factor in factors[:2])
        equation = named(EQUATIONS, factors[2], "equation") if len(factors) > 2 else 0
        word |= (source << 12 | destination << 16) * 0x101 | equation * 0x9 << 28
    return word | named(CULLS, cull, "cull") << 36 | bool(write_depth) << 38 | bool(strip) << 48


def stencil(test="always", reference=0, mask=255, fail="keep", depth_fail="keep", both="keep"):
    """A stencil word. The operations are for a stencil test that fails, a depth test that fails, and both passed.

    >>> hex(stencil(depth_fail="saturate+")), hex(stencil("equal", 255))
    ('0x1418ff00', '0x1113ffff')
    """
    if test == "none":
        raise SceneError("a stencil has a test; without a stencil the word is 0")
    word = whole(reference, 0, 255, "the reference") | whole(mask, 0, 255, "the mask") << 8 | named(TESTS, test, "stencil test") << 16
    for place, operation in ((20, fail), (24, depth_fail), (28, both)):
        word |= named(OPERATIONS, operation, "operation") << place
    return word


# ---------------------------------------------------------------- and back


def name_of(table, number, what):
    """The name of NUMBER in TABLE."""
    for name, of in table.items():
        if of == number:
            return name
    raise SceneError(f"the word has {number} for the {what}, which is none: it is not admitted")


def state_names(word):
    """The arguments of `state` that make a state word, those alone that are not as it stands; SceneError where it is not admitted.

    >>> state_names(274877906975), state_names(106319887), state_names(0)
    ({'depth': 'less', 'write_depth': True}, {'blend': 'alpha'}, {'write': ''})
    """
    word = whole(word, 0, 2**64 - 1, "the state word")
    strange = word & ~(0xFF | 2**34 - 2**12 | 7 << 36 | 7 << 48)
    if strange:
        raise SceneError(f"bit {strange.bit_length() - 1} of the word is none of its fields: it is not admitted")
    channels = "".join(channel for k, channel in enumerate("rgba") if word >> k & 1)
    found = {"write": channels, "depth": name_of(TESTS, word >> 4 & 15, "depth test")}
    factors = [word >> at & 15 for at in (12, 16, 20, 24)]
    if any(factors):
        names = [name_of(FACTORS, factor, "blend factor") for factor in factors]
        equations = [name_of(EQUATIONS, word >> at & 7, "equation") for at in (28, 31)]
        if names[:2] != names[2:] or equations[0] != equations[1]:
            raise SceneError("the word blends alpha in another way than colours; the function `state` makes no such word, though it is admitted")
        blend = tuple(names[:2]) + (() if equations[0] == "add" else (equations[0],))
        found["blend"] = next((name for name, of in BLENDS.items() if of == blend), blend)
    found.update(write_depth=bool(word >> 38 & 1), cull=name_of(CULLS, word >> 36 & 3, "cull"))
    found["strip"] = name_of({False: 0, True: 1}, word >> 48 & 7, "primitive")
    usual = {"write": "rgba", "depth": "none", "write_depth": False, "cull": "none", "strip": False}
    return {name: value for name, value in found.items() if usual.get(name) != value}


def stencil_names(word):
    """The arguments of `stencil` that make a stencil word, those alone that are not as it stands; SceneError where it is not admitted.

    >>> stencil_names(555286273), stencil_names(286523391)
    ({'reference': 1, 'both': 'replace'}, {'test': 'equal', 'reference': 255})
    """
    word = whole(word, 0, 2**32 - 1, "the stencil word")
    if not word >> 16 & 15:
        raise SceneError("the word has no test: it is not admitted, but for 0, which is no stencil")
    found = {"test": name_of(TESTS, word >> 16 & 15, "stencil test"), "reference": word & 255, "mask": word >> 8 & 255}
    for place, name in ((20, "fail"), (24, "depth_fail"), (28, "both")):
        found[name] = name_of(OPERATIONS, word >> place & 15, "operation")
    usual = {"test": "always", "reference": 0, "mask": 255, "fail": "keep", "depth_fail": "keep", "both": "keep"}
    return {name: value for name, value in found.items() if usual[name] != value}
