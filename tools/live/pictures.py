"""What is wrong with a picture: an SVG of `draw` is looked at as boxes of texts, bars and marks."""

import re
import xml.etree.ElementTree as ET
from dataclasses import dataclass
from itertools import combinations

SVG = "{http://www.w3.org/2000/svg}"
# Of 72 requests, the most of a history; and of 200.
MOST_BYTES, MOST_OF_MANY = 200_000, 600_000
# The widest character of the fonts that are named, in parts of the size, and how far a line of text
# reaches above and below its base.
ADVANCE, ABOVE, BELOW = 0.605, 0.78, 0.24
SIZES = {"number": 11}
SIZE = 13


@dataclass
class Box:
    what: str
    left: float
    top: float
    right: float
    bottom: float

    def meets(self, other):
        apart = self.right <= other.left or other.right <= self.left
        return not apart and self.top < other.bottom and other.top < self.bottom

    def is_in(self, other):
        beside = other.left <= self.left and self.right <= other.right
        return beside and other.top <= self.top and self.bottom <= other.bottom


def box_of_text(text):
    size = SIZES.get(text.get("class"), SIZE)
    left, base = float(text.get("x")), float(text.get("y"))
    width = len(text.text or "") * size * ADVANCE
    if text.get("class") == "number":
        left -= width / 2
    top, bottom = base - size * ABOVE, base + size * BELOW
    return Box(f"text {text.text!r}", left, top, left + width, bottom)


def box_of_bar(path):
    found = re.match(r"M(\d+) (\d+)H(\d+)V(\d+)", path.get("d"))
    right, top, left, bottom = map(int, found.groups())
    return Box("bar", left, top, right, bottom)


def box_of_mark(circle):
    x, y, r = (float(circle.get(name)) for name in ("cx", "cy", "r"))
    return Box("mark", x - r, y - r, x + r, y + r)


def faults_in_boxes(root, is_ordered):
    """Texts that overlap or stand outside, bars that overlap, marks that stand in no bar, and if
    times were recorded marks that aren't in their order from left to right in a band."""
    texts = [box_of_text(text) for text in root.iter(SVG + "text")]
    bars = [box_of_bar(path) for path in root.iter(SVG + "path") if path.get("class") == "bar"]
    marks = [box_of_mark(circle) for circle in root.iter(SVG + "circle")]
    ground = Box("ground", 0, 0, float(root.get("width")), float(root.get("height")))
    for one, other in [*combinations(texts, 2), *combinations(bars, 2), *combinations(marks, 2)]:
        if one.meets(other):
            yield f"{one} overlaps {other}"
    for box in [*texts, *bars, *marks]:
        if not box.is_in(ground):
            yield f"{box} stands outside"
    for mark in marks:
        if not any(mark.is_in(bar) for bar in bars):
            yield f"{mark} stands in no bar"
    for line in root.iter(SVG + "polyline"):
        lefts = [float(number) for number in line.get("points").split()[::2]]
        if is_ordered and lefts != sorted(lefts):
            yield "the marks of a band aren't in their order"


def faults_of(picture, requests, is_ordered):
    """All that is wrong with a picture of a history with this many requests."""
    if len(picture) > (MOST_BYTES if requests <= 72 else MOST_OF_MANY):
        yield f"{len(picture)} bytes"
    if not picture.isascii():
        yield "not ASCII"
    root = ET.fromstring(picture)
    if root.get("role") != "img" or None in (root.find(SVG + "title"), root.find(SVG + "desc")):
        yield "no title or description"
    for name in ("script", "image", "a", "foreignObject"):
        if root.find(f".//{SVG}{name}") is not None:
            yield f"an element {name}"
    groups = [group for group in root.iter(SVG + "g")]
    if len(groups) != requests or any(group.find(SVG + "title") is None for group in groups):
        yield f"{len(groups)} bars with titles, not {requests}"
    yield from faults_in_boxes(root, is_ordered)
