"""Charts of a page that is published: with a title and a description for those who do not see them,
and texts that are texts. Their colours differ in brightness too, so that a print in grey shows
them.
"""
import math
from collections.abc import Sequence

from markupsafe import Markup

from .drawing import Ground, label, line, rect, svg

# east and north, in metres
Point = tuple[int, int]
# a text, and the values of its bars; None is withheld
Series = tuple[str, Sequence[float | None]]
CELL_STEPS = (250, 500, 1000, 2000, 5000, 10000, 20000, 50000, 100000, 200000, 500000)
MOST_CELLS, MOST_BLANK = 40, 0.2
# the classes of the bars of a label, of which the second are hatched
BARS = ("first", "second", "third")
WIDTH, BAR, GAP, TOP = 720.0, 13.0, 9.0, 28.0
# the width of a letter, and the room of a number behind its bar
LETTER, ROOM = 8.6, 52.0
# the shades of a map, and the least that it shows, in metres
SHADES, LEAST_WIDTH = 4, 1000


def bars(
    name: str, title: str, description: str, labels: Sequence[str], series: Sequence[Series],
    unit: str, withheld: str = "[c]",
) -> Markup:
    """Horizontal bars, one group for each label. A value that is withheld has a mark in place of a
    bar.
    """
    left = min(max(map(len, labels)) * LETTER + 12, WIDTH / 3)
    most = max((it for _, values in series for it in values if it), default=1)
    step = step_of(most)
    scale = (WIDTH - left - ROOM) / (math.ceil(most / step) * step)
    group = len(series) * BAR + GAP
    top = TOP if len(series) > 1 else 4
    bottom = top + len(labels) * group
    parts = [hatch(name), *(legend(series, left) if len(series) > 1 else [])]
    for at in range(math.ceil(most / step) + 1):
        x = left + at * step * scale
        parts += [line(x, top, x, bottom, "grid"),
                  label(x, bottom + 15, f"{at * step:,}", "quiet", "middle")]
    for row, words in enumerate(labels):
        y = top + row * group + GAP / 2
        parts.append(label(left - 7, y + len(series) * BAR / 2 + 4, words, "", "end"))
        for at, (_, values) in enumerate(series):
            value, below = values[row], y + at * BAR
            if value:
                parts.append(rect(left, below, value * scale, BAR - 1, BARS[at]))
                if at == 1:
                    # (which shows in grey)
                    parts.append(f'<rect x="{left:.1f}" y="{below:.1f}"'
                                 f' width="{value * scale:.1f}" height="{BAR - 1:.1f}"'
                                 f' fill="url(#{name}-hatch)"/>')
            said = withheld if value is None else f"{value:,}"
            parts.append(label(left + (value or 0) * scale + 5, below + BAR - 3, said, "value"))
    parts.append(label(left, bottom + 33, unit, "quiet"))
    return svg(name, WIDTH, bottom + 40, title, description, parts, "bars")


def step_of(most: float) -> int:
    """Between two lines of a scale: at most six are needed up to the greatest value."""
    sizes = (size * int(10 ** power) for power in range(9) for size in (1, 2, 5))
    return next(it for it in sizes if it * 6 >= most)


def hatch(name: str) -> str:
    """The pattern of the second bars."""
    return (f'<defs><pattern id="{name}-hatch" width="6" height="6" patternUnits="userSpaceOnUse"'
            ' patternTransform="rotate(45)"><path class="hatch" d="M0 0v6"/></pattern></defs>')


def legend(series: Sequence[Series], left: float) -> list[str]:
    """What the bars of a label are, above the first."""
    parts, x = [], left
    for at, (words, _) in enumerate(series):
        parts += [rect(x, 6, 12, 12, BARS[at]), label(x + 17, 16, words)]
        x += len(words) * LETTER + 40
    return parts


def width_of(points: Sequence[Point]) -> int:
    """The greater of the extents from west to east and from south to north."""
    return max((max(it) - min(it) for it in zip(*points)), default=0)


def cell_of(points: Sequence[Point], homes: Sequence[Point], least: int) -> int:
    """The side of a square of the map in metres: the map has at most MOST_CELLS of them beside each
    other, and MOST_BLANK of the homes in blank ones.
    """
    widest = width_of(points)

    def is_enough(side: int) -> bool:
        shown = sum(homes_by_cell(homes, side, least).values())
        return widest <= side * MOST_CELLS and shown >= (1 - MOST_BLANK) * len(homes)

    return next(filter(is_enough, CELL_STEPS), CELL_STEPS[-1])


def homes_by_cell(homes: Sequence[Point], side: int, least: int) -> dict[Point, int]:
    """How many homes are in each square, by its south-west corner; squares with fewer than `least`
    are left out.
    """
    found: dict[Point, int] = {}
    for east, north in homes:
        corner = (east // side * side, north // side * side)
        found[corner] = found.get(corner, 0) + 1
    return {corner: it for corner, it in found.items() if it >= least}


def counted_squares(
    schools: Sequence[tuple[str, int, int]], homes: Sequence[Point], least: int,
) -> tuple[int, dict[Point, int]]:
    """The side of a square of the map, and how many homes are in each that is not blank."""
    points = [*homes, *((east, north) for _, east, north in schools)]
    side = cell_of(points, homes, least)
    return side, homes_by_cell(homes, side, least)


def ground_of(corners: Sequence[Point]) -> Ground:
    """The ground of a map with these points, which is no higher than it is wide."""
    easts, norths = [it[0] for it in corners], [it[1] for it in corners]
    high = max(max(norths) - min(norths), LEAST_WIDTH / 2) * 1.1
    wide = max((max(easts) - min(easts)) * 1.1, high, LEAST_WIDTH)
    east, north = (min(easts) + max(easts)) / 2, (min(norths) + max(norths)) / 2
    return Ground(east - wide / 2, north - high / 2, east + wide / 2, north + high / 2, WIDTH)


def school_map(
    name: str, title: str, description: str, schools: Sequence[tuple[str, int, int]],
    homes: Sequence[Point], least: int,
) -> tuple[Markup, int]:
    """A map of schools as (code, east, north), with homes counted in squares. Returns the SVG and
    the side of a square.
    """
    side, cells = counted_squares(schools, homes, least)
    corners = [(east + more, north + more) for east, north in cells for more in (0, side)]
    ground = ground_of([*corners, *((east, north) for _, east, north in schools)])
    top, parts = max(cells.values(), default=least), [ground.grid()]
    for (east, north), it in sorted(cells.items()):
        x, y = ground.at(east, north + side)
        size = side * ground.scale
        parts.append(rect(x, y, size, size, f"shade s{shade_of(it, top)}"))
    parts += marks(ground, schools)
    parts.append(ground.scale_bar((east, north) for _, east, north in schools))
    if cells:
        parts += shades(ground, min(cells.values()), top)
    text = description.format(side=f"{side:,}", cells=len(cells))
    return svg(name, WIDTH, ground.height + 26, title, text, parts, "map"), side


def shade_of(homes: int, top: int) -> int:
    """The shade of a square: the more homes, the darker."""
    return min(1 + int(SHADES * math.sqrt(homes / top)), SHADES)


def shades(ground: Ground, least: int, top: int) -> list[str]:
    """What the shades are, below the map: the least, a middle and the greatest number of homes."""
    parts, x, y = [], 6.0, ground.height + 8
    for it in sorted({least, (least + top) // 2, top}):
        words = f"{it:,} homes"
        parts += [rect(x, y, 12, 12, f"shade s{shade_of(it, top)}"), label(x + 17, y + 10, words)]
        x += len(words) * LETTER + 40
    return parts


def marks(ground: Ground, schools: Sequence[tuple[str, int, int]]) -> list[str]:
    """A triangle with its code for each school. A code is left of its triangle if another school is
    close to the right.
    """
    parts, places = [], {code: ground.at(east, north) for code, east, north in schools}
    for code, (x, y) in places.items():
        is_left = any(0 <= right - x < 45 and abs(up - y) < 16 and other != code
                      for other, (right, up) in places.items())
        parts += [f'<path class="school" d="M{x:.1f} {y - 6:.1f}l6 10.4h-12z"/>',
                  label(x + (-8 if is_left else 8), y - 3, code, "halo",
                        "end" if is_left else "start")]
    return parts
