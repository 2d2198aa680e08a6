#!/usr/bin/env python3
"""Draws examples in the plane: the cone or the polyhedron of `examples/NAME.in`, the whole points of it, and the vectors that
`examples/expected/NAME.out` lists. The pictures are `docs/pictures/NAME.svg`.

Call it as: examples/draw.py NAME...   draws these, and with no name all of NAMES
            examples/draw.py --check   draws nothing, and says which picture would be another; the status is 1 where one would"""
import re
import sys
from fractions import Fraction
from itertools import combinations
from math import gcd
from pathlib import Path

EXAMPLES = Path(__file__).resolve().parent
PICTURES = EXAMPLES.parent / "docs" / "pictures"
NAMES = ["between", "cut", "first", "inside", "lattice", "polyhedron", "signs", "slanted_ideal", "third", "triangle"]
STEP = 40
# How many more entries than the dimension a row of an item has.
MATRICES = {"cone": 0, "cone_and_lattice": 0, "vertices": 1, "inequalities": 0, "congruences": 1, "strict_inequalities": 0,
            "inhom_inequalities": 1, "ask": 0, "monomial_ideal": 0}
VECTORS = ["signs", "strict_signs", "grading"]
BOUNDING = ["cone", "cone_and_lattice", "vertices", "inequalities", "signs", "strict_signs", "strict_inequalities", "inhom_inequalities"]


def items_of(text):
    """The rows of each item of a file in the plane."""
    words = re.sub(r"/\*.*?\*/", " ", text, flags=re.S).split()
    if words[:2] != ["amb_space", "2"]:
        raise ValueError("no file in the plane")
    items, place = {}, 2
    while place < len(words):
        word, place = words[place], place + 1
        if word not in MATRICES and word not in VECTORS:
            if re.fullmatch(r"[A-Z]\w*", word):
                continue
            raise ValueError(f"{word} cannot be drawn")
        count, width = (int(words[place]), 2 + MATRICES[word]) if word in MATRICES else (1, 2)
        place += word in MATRICES
        numbers = [int(number) for number in words[place:place + count * width]]
        items.setdefault(word, []).extend(numbers[row * width:(row + 1) * width] for row in range(count))
        place += count * width
    return items if "monomial_ideal" not in items else closure_of(items["monomial_ideal"])


def closure_of(exponents):
    """The items of the polyhedron whose whole points are the integral closure: the monomials, and both directions."""
    return {"vertices": [[*row, 1] for row in exponents], "cone": [[1, 0], [0, 1]]}


def dot(form, vector):
    return sum(a * b for a, b in zip(form, vector))


def cross(a, b):
    return [a[1] * b[2] - a[2] * b[1], a[2] * b[0] - a[0] * b[2], a[0] * b[1] - a[1] * b[0]]


def sides_of(generators):
    """The forms that are at least 0 at all generators, and 0 at two independent ones of them."""
    normals = [cross(a, b) for a, b in combinations(generators, 2)]
    normals += [[-entry for entry in normal] for normal in normals]
    return [normal for normal in normals if any(normal) and all(dot(normal, vector) >= 0 for vector in generators)]


def forms_of(items):
    """Forms on (x, y, 1) that are at least 0 exactly in the cone or the polyhedron."""
    forms = [[*row, 0] for row in items.get("inequalities", [])]
    forms += [[*row, -1] for row in items.get("strict_inequalities", [])]
    forms += items.get("inhom_inequalities", [])
    for word, level in (("signs", 0), ("strict_signs", -1)):
        for first, second in items.get(word, []):
            forms += [[first, 0, level]] * (first != 0) + [[0, second, level]] * (second != 0)
    if not any(word in items for word in BOUNDING):
        forms += [[1, 0, 0], [0, 1, 0]]
    if not any(word in items for word in ("cone", "cone_and_lattice", "vertices")):
        return forms
    generators = [[*row, 0] for word in ("cone", "cone_and_lattice") for row in items.get(word, [])]
    sides = sides_of(generators + items.get("vertices", [[0, 0, 1]]))
    if not sides or any([-entry for entry in side] in sides for side in sides):
        raise ValueError("the generators do not fill the plane")
    return forms + sides


def index_of(rows):
    """The greatest common divisor of the areas of two rows: the index of the lattice that they generate."""
    return gcd(*(a[0] * b[1] - a[1] * b[0] for a, b in combinations(rows, 2)))


def is_member(items, forms, point):
    """Whether a whole point is in the set of the file."""
    if any(dot(form, [*point, 1]) < 0 for form in forms):
        return False
    if any(dot(row, point) % row[2] for row in items.get("congruences", [])):
        return False
    rows = items.get("cone_and_lattice")
    return rows is None or index_of([*rows, list(point)]) == index_of(rows)


def listed(text, heading):
    """The rows below the heading, none where it does not stand there."""
    found = re.search(rf"^\d+ {heading}:\n((?:.+\n)*)", text, flags=re.M)
    return [[int(word) for word in line.split()] for line in found[1].splitlines()] if found else []


def clipped(corners, form):
    """What a form leaves of a polygon: the part where it is at least 0."""
    result = []
    for before, corner in zip(corners[-1:] + corners[:-1], corners):
        low, high = dot(form, [*before, 1]), dot(form, [*corner, 1])
        if low * high < 0:
            result.append([a + (b - a) * Fraction(low, low - high) for a, b in zip(before, corner)])
        if high >= 0:
            result.append(corner)
    return result


class Picture:
    """An SVG text, with a coordinate cross whose unit is STEP."""

    def __init__(self, low, high):
        self.low, self.high, self.lines = low, high, []

    def at(self, point):
        x, y = (point[0] - self.low[0]) * STEP, (self.high[1] - point[1]) * STEP
        return f"{float(x):g}", f"{float(y):g}"

    def polygon(self, corners):
        self.lines.append(f'<polygon points="{" ".join(",".join(self.at(corner)) for corner in corners)}" fill="#ffefb0" stroke="#d0a000"/>')

    def line(self, start, end, style):
        (a, b), (c, d) = self.at(start), self.at(end)
        self.lines.append(f'<line x1="{a}" y1="{b}" x2="{c}" y2="{d}" {style}/>')

    def circle(self, point, radius, style):
        x, y = self.at(point)
        self.lines.append(f'<circle cx="{x}" cy="{y}" r="{radius}" {style}/>')

    def square(self, point, half, turned, style):
        x, y = self.at(point)
        turn = f' transform="rotate(45 {x} {y})"' * turned
        self.lines.append(f'<rect x="{float(x) - half:g}" y="{float(y) - half:g}" width="{2 * half}" height="{2 * half}" {style}{turn}/>')

    def label(self, point, text):
        x, y = self.at(point)
        self.lines.append(f'<text x="{x}" y="{y}" dx="5" dy="-7" font-size="11" font-family="sans-serif">{text}</text>')

    def text(self):
        width, height = ((self.high[axis] - self.low[axis]) * STEP for axis in (0, 1))
        head = f'<svg xmlns="http://www.w3.org/2000/svg" width="{width}" height="{height}" viewBox="0 0 {width} {height}">'
        return "\n".join([head, f'<rect width="{width}" height="{height}" fill="white"/>', *self.lines, "</svg>"]) + "\n"


def window_of(vectors):
    """The least and the greatest coordinates of a picture that has these vectors and 0, and some room around them."""
    return [[pick([0, *(vector[axis] for vector in vectors)]) + room for axis in (0, 1)] for pick, room in ((min, -1), (max, 2))]


def draw_set(picture, items):
    """The yellow part, the axes, and each whole point: black in the set, gray outside."""
    (left, bottom), (right, top) = picture.low, picture.high
    forms = forms_of(items)
    corners = [[left - 1, bottom - 1], [right + 1, bottom - 1], [right + 1, top + 1], [left - 1, top + 1]]
    for form in forms:
        corners = clipped(corners, form)
    picture.polygon(corners)
    axis = 'stroke="#909090"'
    picture.line([left, 0], [right, 0], axis)
    picture.line([0, bottom], [0, top], axis)
    for x in range(left + 1, right):
        for y in range(bottom + 1, top):
            inside = is_member(items, forms, (x, y))
            picture.circle((x, y), 4 if inside else 2, 'fill="black"' if inside else 'fill="#a0a0a0"')


def draw_listed(picture, out):
    """A ring around each element of a Hilbert basis, or an arrow to it where it has level 0; a square around each module generator, and a
    turned one at each vertex."""
    red, blue = 'fill="none" stroke="#d00000" stroke-width="2"', 'fill="none" stroke="#0040d0" stroke-width="2"'
    for x, y in listed(out, "Hilbert basis elements"):
        picture.circle((x, y), 8, red)
        picture.label((x, y), f"({x}, {y})")
    for x, y, _ in listed(out, "Hilbert basis elements of recession monoid"):
        picture.line((0, 0), (x, y), 'stroke="#0040d0" stroke-width="2" stroke-opacity="0.5"')
        picture.circle((x, y), 6, 'fill="none" stroke="#0040d0" stroke-opacity="0.5"')
    for x, y, _ in listed(out, "module generators"):
        picture.square((x, y), 7, False, red)
        picture.label((x, y), f"({x}, {y})")
    for x, y, level in listed(out, "vertices of polyhedron"):
        picture.square((Fraction(x, level), Fraction(y, level)), 4, True, blue)


def drawn(name):
    """The picture of an example."""
    items, out = items_of((EXAMPLES / f"{name}.in").read_text()), (EXAMPLES / "expected" / f"{name}.out").read_text()
    headings = ["Hilbert basis elements", "Hilbert basis elements of recession monoid", "module generators"]
    picture = Picture(*window_of([row for heading in headings for row in listed(out, heading)]))
    draw_set(picture, items)
    draw_listed(picture, out)
    return picture.text()


def main(words):
    if words != ["--check"]:
        PICTURES.mkdir(exist_ok=True)
        for name in words or NAMES:
            try:
                (PICTURES / f"{name}.svg").write_text(drawn(name))
            except (ValueError, OSError) as fault:
                print(f"{name}: {fault}")
                return 1
        return 0
    differ = [name for name in NAMES if not (PICTURES / f"{name}.svg").exists() or (PICTURES / f"{name}.svg").read_text() != drawn(name)]
    for name in differ:
        print(f"picture {name}: not as examples/draw.py draws it")
    if not differ:
        print(f"pictures: {len(NAMES)} as examples/draw.py draws them")
    return int(bool(differ))


sys.exit(main(sys.argv[1:]))
