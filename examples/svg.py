"""Words, lines and boxes as SVG, in colours for a light and a dark theme."""
import re
from html import escape
from typing import Iterable

WHITE, SAND, TINT, GRID = "#ffffff", "#f6f1ea", "#f9dcd8", "#dddddd"
INK, GREY, SLATE, EDGE = "#222222", "#595959", "#6b6b6b", "#8f877b"
RED, ROSE, BLUE, NAVY = "#b3261e", "#d9675c", "#3d6e91", "#1d3557"
BROWN, GREEN, VIOLET, UMBER = "#a65a12", "#386641", "#7a2fe0", "#7f5539"

# Each colour, and what it is in a dark theme: the ground is dark, and so are the words in boxes, which are bright.
# fmt: off
DARK = {
    WHITE: "#0d1117", SAND: "#1d2026", TINT: "#4a2220", GRID: "#30363d",
    INK: "#e6e6e6", GREY: "#a0a6ae", SLATE: "#9aa0a8", EDGE: "#777d86",
    RED: "#ff7b72", ROSE: "#b8574f", BLUE: "#6cb0e0", NAVY: "#c5d6ee",
    BROWN: "#e3a15c", GREEN: "#7cc48a", VIOLET: "#bc94ff", UMBER: "#d3a684",
}
# fmt: on
# What others are drawn on, and what only guides the eye. All else is to be seen on each of the former in its picture.
GROUNDS, FAINT = (WHITE, SAND, TINT), (GRID,)

# The smallest words of a picture that is 600 wide: of nine pixels or more where 400 are as wide as a page.
SMALL = 13.5


def text(
    x: float,
    y: float,
    words: str,
    size: float = SMALL,
    anchor: str = "middle",
    fill: str = INK,
    weight: str = "normal",
    turn: float = 0,
) -> str:
    turned = f' transform="rotate({turn} {x:g} {y:g})"' if turn else ""
    how = f'font-size="{size}" text-anchor="{anchor}" fill="{fill}" font-weight="{weight}"{turned}'
    return f'<text x="{x:g}" y="{y:g}" {how}>{escape(words)}</text>'


def line(x1: float, y1: float, x2: float, y2: float, stroke: str = GRID, width: float = 1.0, dashes: str = "") -> str:
    dashed = f' stroke-dasharray="{dashes}"' if dashes else ""
    ends = f'x1="{x1:.1f}" y1="{y1:.1f}" x2="{x2:.1f}" y2="{y2:.1f}"'
    return f'<line {ends} stroke="{stroke}" stroke-width="{width:g}"{dashed}/>'


def box(
    x: float,
    y: float,
    width: float,
    height: float,
    fill: str,
    corner: float = 0.0,
    stroke: str = "",
    thick: float = 2.0,
) -> str:
    edge = f' stroke="{stroke}" stroke-width="{thick:g}"' if stroke else ""
    size = f'width="{width:g}" height="{height:g}"'
    return f'<rect x="{x:g}" y="{y:g}" {size} rx="{corner:g}" fill="{fill}"{edge}/>'


def circle(x: float, y: float, fill: str, radius: float = 8) -> str:
    return f'<circle cx="{x:g}" cy="{y:g}" r="{radius:g}" fill="{fill}" stroke="{INK}" stroke-width="2"/>'


def themes(parts: Iterable[str]) -> str:
    """A style that gives each colour of some parts the one that it is in a dark theme."""
    used = sorted(set(re.findall(r'\b(fill|stroke)="(#\w+)"', "".join(parts))))
    rules = [f'[{where}="{colour}"] {{ {where}: {DARK[colour]} }}' for where, colour in used]
    return "\n".join(["<style>", "@media (prefers-color-scheme: dark) {", *rules, "}", "</style>"])


def picture(width: float, height: float, title: str, description: str, parts: Iterable[str]) -> str:
    size = f'width="{width:g}" height="{height:g}"'
    head = (
        f'<svg xmlns="http://www.w3.org/2000/svg" viewBox="0 0 {width:g} {height:g}" {size} '
        'font-family="Helvetica, Arial, DejaVu Sans, sans-serif" role="img" aria-labelledby="title description">'
    )
    names = f'<title id="title">{escape(title)}</title>\n<desc id="description">{escape(description)}</desc>'
    drawn = [f'<rect {size} fill="{WHITE}"/>', *parts]
    return "\n".join([head, names, themes(drawn), *drawn, "</svg>"]) + "\n"
