"""Whether what an SVG picture has can be seen, in the light theme and in the dark one that its style
makes, and on a small screen."""

import re
from typing import Iterator, NamedTuple
from xml.etree import ElementTree

from svg import FAINT, GROUNDS

SVG = "{http://www.w3.org/2000/svg}"
RULE = re.compile(r'\[(fill|stroke)="(#[0-9a-f]{6})"\] \{ \1: (#[0-9a-f]{6}) \}')
# By WCAG 2.1: the contrast of words, and that of lines and marks.
OF_WORDS, OF_SHAPES = 4.5, 3
# A phone's width, and what the smallest words have there, in pixels.
NARROW, LEAST = 400, 9


# Where a colour is, fill or stroke, and which it is.
Colour = tuple[str, str]


class Pair(NamedTuple):
    """Two colours of a picture, one on the other, and their least contrast."""

    colour: Colour
    ground: Colour
    least: float


def contrast(one: str, other: str) -> float:
    """The contrast ratio of WCAG 2, of colours such as 14161a."""
    light, dark = sorted((luminance(one), luminance(other)), reverse=True)
    return (light + 0.05) / (dark + 0.05)


def luminance(colour: str) -> float:
    parts = [int(colour[at : at + 2], 16) / 255 for at in (0, 2, 4)]
    red, green, blue = (part / 12.92 if part <= 0.04045 else ((part + 0.055) / 1.055) ** 2.4 for part in parts)
    return 0.2126 * red + 0.7152 * green + 0.0722 * blue


def faults(picture: str) -> Iterator[str]:
    """What is wrong with a picture's colours."""
    root = ElementTree.fromstring(picture)
    style = root.findtext(f"{SVG}style") or ""
    dark = {(where, colour): other for where, colour, other in RULE.findall(style)}
    if "@media (prefers-color-scheme: dark) {" not in style:
        yield "no dark theme"
    used = {colour for element in root.iter() for colour in colours(element)}
    for where, colour in sorted(used ^ set(dark)):
        yield f"{where} {colour} is {'of no dark theme' if (where, colour) in used else 'not used'}"
    if used <= set(dark):
        yield from faint(pairs(root), dark)


def colours(element: ElementTree.Element) -> list[Colour]:
    """The colours of an element; words and shapes that name none are black in each theme."""
    is_filled = element.tag.removeprefix(SVG) in ("text", "rect", "circle", "polygon", "polyline", "path")
    usual = {"fill": "black"} if is_filled else {}
    found = usual | {where: element.attrib[where] for where in ("fill", "stroke") if where in element.attrib}
    return [(where, colour) for where, colour in found.items() if colour != "none"]


def faint(seen: set[Pair], dark: dict[Colour, str]) -> Iterator[str]:
    for theme, shown in (("light", {colour: colour[1] for colour in dark}), ("dark", dark)):
        for colour, ground, least in sorted(seen):
            ratio = contrast(shown[colour][1:], shown[ground][1:])
            if ratio < least:
                yield f"{theme}: {colour[1]} on {ground[1]} has a contrast of {ratio:.2f}, and needs {least}"


def pairs(root: ElementTree.Element) -> set[Pair]:
    """Words with the last rectangle before them on which they stand; each colour of lines and marks with
    each ground of the picture."""
    rectangles, words, marks = [], set(), set()
    for element in root.iter():
        if element.tag == f"{SVG}text":
            words |= {Pair(colour, ("fill", under(element, rectangles)), OF_WORDS) for colour in colours(element)}
        else:
            marks |= {colour for colour in colours(element) if colour[1] not in (*GROUNDS, *FAINT)}
        if element.tag == f"{SVG}rect":
            rectangles.append(element)
    grounds = {element.attrib["fill"] for element in rectangles} & set(GROUNDS)
    return words | {Pair(colour, ("fill", ground), OF_SHAPES) for colour in marks for ground in grounds}


def under(text: ElementTree.Element, rectangles: list[ElementTree.Element]) -> str:
    """The colour on which a text begins, or has its middle or end, as it is anchored."""
    x, y = float(text.attrib["x"]), float(text.attrib["y"]) - 4
    return [rectangle.attrib["fill"] for rectangle in rectangles if is_in(x, y, rectangle)][-1]


def is_in(x: float, y: float, rectangle: ElementTree.Element) -> bool:
    left, top, width, height = (float(rectangle.get(name, 0)) for name in ("x", "y", "width", "height"))
    return left <= x <= left + width and top <= y <= top + height


def smallest(picture: str) -> float:
    """How many pixels the smallest words of a picture have on a narrow screen."""
    root = ElementTree.fromstring(picture)
    least = min(float(text.attrib["font-size"]) for text in root.iter(f"{SVG}text"))
    return least * NARROW / float(root.attrib["width"])
