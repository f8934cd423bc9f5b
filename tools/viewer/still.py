"""A still of one tick, as SVG."""

from .match import FIELDS

UNIT = 16777216
COLOURS = ("#4c78a8", "#f58518", "#54a24b", "#eeca3b", "#72b7b2", "#b279a2", "#ff9da6", "#9d755d")


def rows_at(match, track, tick):
    """The place, rotation and awake mark of each body at a tick, in lengths."""
    n = len(match.moving)
    rows = {body.number: (*body.start, 0) for body in match.bodies if body.static}
    for k, body in enumerate(match.moving):
        at = (tick * n + k) * FIELDS
        rows[body.number] = (*track.bodies[at : at + 4], track.bodies[at + 8])
    return rows


def colour_of(body):
    """The colour of a body, by its owner."""
    if body.static:
        return "#b8b8b8"
    return "#888888" if body.owner == "-" else COLOURS[int(body.owner)]


def frame_of(match, rows):
    """The part of the plane that has all bodies that move, and static ones cut at its sides."""
    reach = [
        (rows[b.number][0] / UNIT, rows[b.number][1] / UNIT, max(b.size) / UNIT)
        for b in match.moving
    ] or [(0, 0, 1)]
    low_x, high_x = min(x - r for x, _, r in reach), max(x + r for x, _, r in reach)
    low_y, high_y = min(y - r for _, y, r in reach), max(y + r for _, y, r in reach)
    margin = 0.1 * max(high_x - low_x, high_y - low_y, 4)
    return low_x - margin, high_x + margin, low_y - margin, high_y + margin


def shape_of(body, row):
    """The elements of a body."""
    x, y, c, s = (part / UNIT for part in row[:4])
    dim = ' fill-opacity="0.45"' if not body.static and row[4] == 0 else ""
    style = f'fill="{colour_of(body)}"{dim} stroke="#222" stroke-width="0.06"'
    if len(body.size) == 1:
        r = body.size[0] / UNIT
        return [
            f'<circle cx="{x:.3f}" cy="{-y:.3f}" r="{r:.3f}" {style}/>',
            f'<path d="M{x:.3f} {-y:.3f}l{r * c:.3f} {-r * s:.3f}" stroke="#222" '
            'stroke-width="0.06"/>',
        ]
    w, h = (part / UNIT for part in body.size)
    corners = [(w, h), (-w, h), (-w, -h), (w, -h)]
    points = " ".join(f"{x + c * a - s * b:.3f},{-(y + s * a + c * b):.3f}" for a, b in corners)
    return [f'<polygon points="{points}" {style}/>']


def still(match, track, tick):
    """The picture of a tick: bodies by their owners, static ones grey, sleepers dim."""
    rows = rows_at(match, track, tick)
    left, right, low, high = frame_of(match, rows)
    width, height = right - left, high - low
    out = [
        f'<svg xmlns="http://www.w3.org/2000/svg" viewBox="{left:.2f} {-high:.2f} {width:.2f} '
        f'{height:.2f}" width="760">',
        f'<rect x="{left:.2f}" y="{-high:.2f}" width="{width:.2f}" height="{height:.2f}" '
        'fill="#fafafa"/>',
    ]
    for body in match.bodies:
        out += shape_of(body, rows[body.number])
    return "\n".join([*out, "</svg>"]) + "\n"
