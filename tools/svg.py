"""SVG's parts as text, and points on the page: lengths are in pixels, y downward."""

import math
from xml.sax.saxutils import escape, quoteattr


def tag(name, content=None, **attributes):
    """An element; an attribute's underscores are hyphens."""
    text = "".join(f" {key.replace('_', '-')}={quoteattr(str(value))}" for key, value in attributes.items())
    return f"<{name}{text}/>" if content is None else f"<{name}{text}>{content}</{name}>"


def short(number):
    return f"{number:.1f}".removesuffix(".0")


def line(a, b, colour, width=1.0, **more):
    ends = dict(zip(("x1", "y1", "x2", "y2"), map(short, (*a, *b))))
    return tag("line", **ends, stroke=colour, stroke_width=width, **more)


def polygon(points, **more):
    return tag("polygon", points=" ".join(f"{short(x)},{short(y)}" for x, y in points), **more)


def circle(centre, radius, **more):
    return tag("circle", cx=short(centre[0]), cy=short(centre[1]), r=radius, **more)


def ring(centre, radius, colour, width):
    return circle(centre, radius, fill="none", stroke=colour, stroke_width=width)


def frame(box, colour, width):
    """A ring around a box (left, top, right, bottom)."""
    left, top, right, bottom = box
    size = {"width": short(right - left), "height": short(bottom - top), "rx": short((bottom - top) / 2)}
    return tag("rect", x=short(left), y=short(top), **size, fill="none", stroke=colour, stroke_width=width)


def label(at, words, size=11, colour="#000", anchor="middle", **more):
    """Text with a white rim, so that it is read over lines."""
    place = {"x": short(at[0]), "y": short(at[1] + size * 0.36), "text_anchor": anchor}
    rim = {"stroke": "#fff", "stroke_width": 3, "stroke_linejoin": "round", "paint_order": "stroke"}
    return tag("text", escape(words), **place, font_size=size, fill=colour, **rim, **more)


def moved(point, direction, length):
    return point[0] + direction[0] * length, point[1] + direction[1] * length


def between(a, b, part):
    return tuple(p + part * (q - p) for p, q in zip(a, b))


def middle(corners):
    return tuple(sum(point[axis] for point in corners) / len(corners) for axis in (0, 1))


def unit(a, b):
    size = math.dist(a, b) or 1.0
    return (b[0] - a[0]) / size, (b[1] - a[1]) / size


def arrow(a, b, colour):
    """From a to b, its head at b."""
    along = unit(a, b)
    foot, across = moved(b, along, -6), (-along[1], along[0])
    head = [b, moved(foot, across, 3), moved(foot, across, -3)]
    return line(a, foot, colour, 1.5) + polygon(head, fill=colour)


def whole(width, height, drawn):
    """A picture of its parts."""
    size = {"width": short(width), "height": short(height), "viewBox": f"0 0 {short(width)} {short(height)}"}
    paper = tag("rect", width="100%", height="100%", fill="#fff")
    content = "\n".join(["", paper, *drawn, ""])
    return tag("svg", content, xmlns="http://www.w3.org/2000/svg", font_family="DejaVu Sans, sans-serif", **size)
