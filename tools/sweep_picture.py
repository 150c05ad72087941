"""The picture of tools/sweep: curves over the number of slots, as SVG.

A curve has a name, a colour, whether it is a bound, and its points. A bound is a wide pale line, so that it is seen below the cost that meets
it. Numbers are written with at most one decimal, so the same rows give the same bytes.
"""
from xml.sax.saxutils import escape

WIDTH, HEIGHT = 720, 420
LEFT, RIGHT, TOP, BOTTOM = 60, 20, 44, 48


def number(value):
    """A length in the picture, without needless digits."""
    return f'{value:.1f}'.rstrip('0').rstrip('.')


def step_of(most, wanted):
    """The least of 1, 2, 5, 10, 20, 50, .. that divides a scale up to `most` into no more parts than are wanted."""
    step = 1
    while True:
        for factor in (1, 2, 5):
            if most <= step * factor * wanted:
                return step * factor
        step *= 10


class Scale:
    """Where slots and costs are in the picture."""

    def __init__(self, curves):
        slots = [x for curve in curves for x, _ in curve.points]
        self.first, self.last = min(slots), max(slots)
        most = max(max(y for curve in curves for _, y in curve.points), 1)
        self.step = step_of(most, 8)
        self.top = -(-most // self.step) * self.step

    def x(self, slots):
        span = self.last - self.first
        return LEFT + (WIDTH - LEFT - RIGHT) * ((slots - self.first) / span if span else 0.5)

    def y(self, cost):
        return HEIGHT - BOTTOM - (HEIGHT - TOP - BOTTOM) * cost / self.top


def text(x, y, words, anchor='middle', more=''):
    return f'<text x="{number(x)}" y="{number(y)}" text-anchor="{anchor}"{more}>{escape(words)}</text>'


def line(x1, y1, x2, y2, colour):
    return f'<line x1="{number(x1)}" y1="{number(y1)}" x2="{number(x2)}" y2="{number(y2)}" stroke="{colour}"/>'


def axes(scale):
    """The grid with its numbers."""
    right, bottom = WIDTH - RIGHT, HEIGHT - BOTTOM
    for cost in range(0, scale.top + 1, scale.step):
        y = scale.y(cost)
        yield line(LEFT, y, right, y, '#dddddd' if cost else '#333333')
        yield text(LEFT - 8, y + 4, str(cost), 'end')
    step = step_of(scale.last - scale.first, 20)
    for slots in range(scale.first, scale.last + 1):
        if slots % step == 0 or scale.first == scale.last:
            x = scale.x(slots)
            yield line(x, bottom, x, bottom + 5, '#333333')
            yield text(x, bottom + 18, str(slots))
    yield text((LEFT + right) / 2, HEIGHT - 10, 'slots')
    middle = (TOP + bottom) / 2
    yield text(16, middle, 'loads and stores', more=f' transform="rotate(-90 16 {number(middle)})"')


def stroke(curve):
    return f'stroke="{curve.colour}" ' + ('stroke-width="8" stroke-opacity="0.35"' if curve.is_bound else 'stroke-width="2"')


def drawn(curve, scale):
    """A curve, with a dot at each point unless it is a bound."""
    places = [(number(scale.x(x)), number(scale.y(y))) for x, y in curve.points]
    yield f'<polyline points="{" ".join(",".join(place) for place in places)}" fill="none" {stroke(curve)}/>'
    for (x, y), (slots, cost) in zip(places, curve.points):
        if not curve.is_bound:
            yield f'<circle cx="{x}" cy="{y}" r="3.5" fill="{curve.colour}"><title>{escape(curve.name)}: {slots} slots, {cost}</title></circle>'


def legend(curves):
    """The names of the curves, at the top right."""
    width = 50 + 7 * max(len(curve.name) for curve in curves)
    left = WIDTH - RIGHT - width
    yield f'<rect x="{left}" y="{TOP}" width="{width}" height="{18 * len(curves) + 8}" fill="white" stroke="#cccccc"/>'
    for row, curve in enumerate(curves):
        y = TOP + 18 * row + 16
        yield f'<line x1="{left + 8}" y1="{y - 4}" x2="{left + 36}" y2="{y - 4}" {stroke(curve)}/>'
        yield text(left + 42, y, curve.name, 'start')


def picture(curves, title):
    """The SVG of the curves."""
    scale = Scale(curves)
    lines = [f'<svg xmlns="http://www.w3.org/2000/svg" width="{WIDTH}" height="{HEIGHT}" font-family="Helvetica,Arial,sans-serif" font-size="12">',
             '<rect width="100%" height="100%" fill="white"/>', text(WIDTH / 2, 24, title, more=' font-size="15"')]
    lines += axes(scale)
    for curve in sorted(curves, key=lambda curve: not curve.is_bound):
        lines += drawn(curve, scale)
    return '\n'.join([*lines, *legend(curves), '</svg>', ''])
