"""Colours of pieces for the scripts of this folder. Plain Python, NOT PROVED; it trusts the measures of what eyes see that it cites.

The first twelve colours of PALETTE are as far from one another as could be found for the eyes that see least of the difference: normal eyes,
and those without one of the three kinds of cones. Each further one is as far from those before it as can be. They differ in lightness as
well as in hue."""

import math
import re

PALETTE = (
    "#ddfc6e", "#aa32a4", "#75ae81", "#bdbcfd", "#a0fffe", "#c92516", "#cc70f2", "#fe6a00", "#455ee1", "#e5c057", "#946e79", "#15e6a8",
    "#4091af", "#bea0ba", "#c56a3e", "#acdbe3", "#7e6cf7", "#828b69", "#74b3de", "#c1e319", "#7f51c1", "#b0c07e", "#bf965d", "#d861aa",
)

# Up to OWN pieces each has a colour of its own. Of more, one takes its own colour unless a neighbour's is nearer than FAR to it for some eyes.
OWN, FAR = 12, 0.1

# What is left of red, green and blue light for eyes without a kind of cones (Machado, Oliveira and Fernandes, 2009).
EYES = (
    ((1, 0, 0), (0, 1, 0), (0, 0, 1)),
    ((0.152286, 1.052583, -0.204868), (0.114503, 0.786281, 0.099216), (-0.003882, -0.048116, 1.051998)),
    ((0.367322, 0.860646, -0.227968), (0.280085, 0.672501, 0.047413), (-0.011820, 0.042940, 0.968881)),
    ((1.255528, -0.076749, -0.178779), (-0.078411, 0.930809, 0.147602), (0.004733, 0.691367, 0.303900)),
)


def light(colour):
    """Red, green and blue light of a colour `#rrggbb`, each from 0 to 1."""
    parts = [int(colour[at : at + 2], 16) / 255 for at in (1, 3, 5)]
    return [part / 12.92 if part <= 0.04045 else ((part + 0.055) / 1.055) ** 2.4 for part in parts]


def seen(colour, eyes):
    """A colour in Oklab, where distances are as large as they look, as some eyes see it."""
    red, green, blue = (max(0.0, min(1.0, sum(share * part for share, part in zip(row, light(colour))))) for row in eyes)
    cones = [
        (a * red + b * green + c * blue) ** (1 / 3)
        for a, b, c in ((0.4122, 0.5363, 0.0514), (0.2119, 0.6807, 0.1074), (0.0883, 0.2817, 0.6300))
    ]
    return [
        sum(share * cone for share, cone in zip(row, cones))
        for row in ((0.2105, 0.7936, -0.0041), (1.9780, -2.4286, 0.4506), (0.0259, 0.7828, -0.8087))
    ]


def distance(one, other):
    """How far two colours are from each other for the eyes that see least of it."""
    return min(math.dist(seen(one, eyes), seen(other, eyes)) for eyes in EYES)


def is_dark(colour):
    """Whether white is read better on a colour than black."""
    return sum(share * part for share, part in zip((0.2126, 0.7152, 0.0722), light(colour))) < 0.18


def shaded(colour, share):
    """A colour with so much of its red, green and blue."""
    return "#" + "".join(f"{int(share * int(colour[at : at + 2], 16)):02x}" for at in (1, 3, 5))


DISTANCES = [[round(distance(one, other), 3) for other in PALETTE] for one in PALETTE]


def neighbours(marks):
    """For each piece of a packing those that it touches."""
    near = {mark: set() for mark in marks.values() if mark not in "._"}
    for place, mark in marks.items():
        for axis in range(3):
            other = marks.get(tuple(along + (axis == k) for k, along in enumerate(place)), ".")
            if mark != other and mark in near and other in near:
                near[mark].add(other)
                near[other].add(mark)
    return near


def chosen(text):
    """The colours that the comments of a puzzle text choose, as `# colour A #rrggbb` does, by the names of pieces."""
    found = re.findall(r"^[^#\n]*#[ \t]*colou?r[ \t]+([0-9A-Za-z])[ \t]+(#[0-9A-Fa-f]{6})[ \t]*\r?$", text, re.M)
    return {name: colour.lower() for name, colour in found}


def colours(marks, names=(), own=None):
    """A colour for each piece of a packing: the one that is chosen for its name, or else its own, by its number among the names that may come. Where
    these are many and a neighbour's is near, the one used least of those that are far from its neighbours', or else the farthest."""
    near, taken, used = neighbours(marks), {}, [0] * len(PALETTE)
    names = sorted({*names, *near})
    for number, name in enumerate(names):
        if name not in near:
            continue

        def apart(colour):
            return min((DISTANCES[taken[it]][colour] for it in near[name] if it in taken), default=9)

        best = number % len(PALETTE)
        if len(names) > OWN and apart(best) < FAR:
            far = [colour for colour in range(len(PALETTE)) if apart(colour) >= FAR]
            best = min(far, key=lambda colour: (used[colour], -apart(colour))) if far else max(range(len(PALETTE)), key=apart)
        taken[name] = best
        used[best] += 1
    # (of a copy, as Y2, the colour of its piece)
    return {name: (own or {}).get(name[0]) or PALETTE[number] for name, number in taken.items()}
