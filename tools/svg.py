"""The parts of an SVG picture that tools/life.py, tools/ring.py and tools/timeline.py have in common.

It knows nothing of runs and cells: it has words, boxes, arrows, and the page that they stand on.
"""


def attributes(**given):
    """As they stand in a tag: each with a space before it, and - in place of _ in its name."""
    return "".join(f' {name.replace("_", "-")}="{value}"' for name, value in given.items())


def text(x, y, words, anchor="middle", size=13, **style):
    return f"<text{attributes(x=x, y=y, text_anchor=anchor, font_size=size, **style)}>{words}</text>"


def box(x, y, width, height, fill, round_by):
    return f"<rect{attributes(x=x, y=y, width=width, height=height, rx=round_by, fill=fill, stroke='#555')}/>"


def arrow(path, colour, width, tip):
    """A line along a path, with the tip of this name at its end."""
    return f"<path{attributes(d=path, fill='none', stroke=colour, stroke_width=width, marker_end=f'url(#{tip})')}/>"


def tips(colours):
    """The tips of arrows, by their names."""
    shape = attributes(viewBox="0 0 10 10", refX=9, refY=5, markerWidth=7, markerHeight=7, orient="auto")
    path = '<path d="M0 0L10 5L0 10z" fill="{}"/>'
    drawn = [f'<marker id="{name}"{shape}>{path.format(colour)}</marker>' for name, colour in colours.items()]
    return ["<defs>", *drawn, "</defs>"]


def page(width, height, shapes, **style):
    """The picture with these shapes on a white ground."""
    size = attributes(width=width, height=height, font_family="sans-serif", **style)
    head = f'<svg xmlns="http://www.w3.org/2000/svg"{size}>'
    return "\n".join([head, '<rect width="100%" height="100%" fill="#fff"/>', *shapes, "</svg>", ""])
