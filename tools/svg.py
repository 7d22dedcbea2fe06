"""The few elements of SVG that the pictures are made of."""

from xml.sax.saxutils import escape

FONT = "DejaVu Sans, Verdana, sans-serif"
INK, RAIL, SOFT = "#222", "#c8c8c8", "#777"


def sheet(width, height, parts):
    """A whole file: white paper with these elements."""
    head = ('<?xml version="1.0" encoding="UTF-8"?>\n<svg xmlns="http://www.w3.org/2000/svg" width="%d" height="%d" '
            'viewBox="0 0 %d %d" font-family="%s">\n' % (width, height, width, height, FONT))
    return head + "\n".join([rect(0, 0, width, height, "white")] + parts) + "\n</svg>\n"


def tag(name, title=None, body="", **attributes):
    """An element. An underscore in a name of an attribute stands for a hyphen."""
    words = "".join(' %s="%s"' % (key.replace("_", "-"), escape(str(value), {'"': "&quot;"}))
                    for key, value in attributes.items())
    inner = ("<title>%s</title>" % escape(title) if title else "") + body
    return "<%s%s>%s</%s>" % (name, words, inner, name) if inner else "<%s%s/>" % (name, words)


def short(value):
    """A coordinate with one digit at most behind the point."""
    return ("%.1f" % value).rstrip("0").rstrip(".")


def rect(x, y, width, height, fill, title=None, **more):
    return tag("rect", title, x=short(x), y=short(y), width=short(width), height=short(height), fill=fill, **more)


def line(x1, y1, x2, y2, stroke, title=None, **more):
    return tag("line", title, x1=short(x1), y1=short(y1), x2=short(x2), y2=short(y2), stroke=stroke, **more)


def words(x, y, text, size=11, fill=INK, anchor="start", turned=False, title=None, **more):
    if turned:
        more["transform"] = "rotate(90 %s %s)" % (short(x), short(y))
    return tag("text", title, escape(text), x=short(x), y=short(y), font_size=size, fill=fill, text_anchor=anchor,
               **more)


def cross(x, y, size, colour, title):
    path = "M%s %sl%d %dm0 %dl%d %d" % (short(x - size), short(y - size), 2 * size, 2 * size, -2 * size,
                                        -2 * size, 2 * size)
    return tag("path", title, d=path, stroke=colour, stroke_width=2.2, fill="none")


def diamond(x, y, size, colour, title):
    path = "M%s %sl%d %dl%d %dl%d %dz" % (short(x), short(y - size), size, size, -size, size, -size, -size)
    return tag("path", title, d=path, fill=colour)


def circle(x, y, radius, fill, title, **more):
    return tag("circle", title, cx=short(x), cy=short(y), r=radius, fill=fill, **more)
