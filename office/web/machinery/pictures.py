"""Pictures of the screens as SVG: drawn on the server from plain values, without a script, a
library or an inline style.

Each function returns one <svg> with a title and a description. Colours and the size of text come
from classes of ui.css, so a picture follows the dark look, paper and narrow screens. A picture
never stands alone: the macro `picture` puts a table of the same numbers below it.
"""
import collections
import dataclasses
import datetime
import math
from collections.abc import Iterable, Mapping, Sequence
from typing import NamedTuple

from markupsafe import Markup, escape

from office.files.drawing import Ground, label, line, rect, svg

DAY = datetime.timedelta(days=1)
# the side of a square in which homes are counted, in metres, and how few homes are not shown
SIDE, LEAST = 500, 5
# so far a map reaches beyond its schools, in metres
BEYOND = 1500
# points of an outline are so far apart at least, in units of the picture
NEAR = 0.7


def bar(value: float, of: float, kind: str, *more: tuple[float, str]) -> Markup:
    """A bar for the cell of a table: a length of a whole, with the class of its colour, and others
    after it. The numbers are in the cells beside it, so it is hidden from a screen reader.
    """
    drawn, at = "", 0.0
    for length, colour in ((value, kind), *more):
        width = 100 * length / of if of else 0
        drawn += rect(at, 0, max(width - 0.4, 0.4), 10, colour) if length else ""
        at += width
    return Markup('<svg class="bar" viewBox="0 0 100 10" preserveAspectRatio="none"'
                  f' aria-hidden="true">{rect(0, 0, 100, 10, "trough")}{drawn}</svg>')


def stacked(values: Sequence[tuple[float, str]], of: float) -> Markup:
    """The same of several parts of a whole, one after the other, each with the class of its colour.
    """
    parts, x = [rect(0, 0, 100, 10, "trough")], 0.0
    for value, kind in values:
        width = min(100 * value / of if of else 0, 100 - x)
        if width > 0:
            parts.append(rect(x, 0, width, 10, kind))
            x += width
    return Markup('<svg class="bar" viewBox="0 0 100 10" preserveAspectRatio="none"'
                  f' aria-hidden="true">{"".join(parts)}</svg>')


class Places(NamedTuple):
    """A school on a map: its code, its point in metres, its places, how many children have one, and
    how many are vacant. With plans more children can have a place than there are places.
    """

    code: str
    east: int
    north: int
    places: int
    taken: int
    vacant: int


def squares(homes: Iterable[tuple[int, int]]) -> dict[tuple[int, int], int]:
    """How many homes each square has, by its south-west corner; those with fewer than LEAST are
    left out.
    """
    found = collections.Counter(
        (east // SIDE * SIDE, north // SIDE * SIDE) for east, north in homes)
    return {corner: many for corner, many in found.items() if many >= LEAST}


def authority_map(
    name: str, title: str, text: str, schools: Sequence[Places], homes: Iterable[tuple[int, int]],
) -> Markup:
    """All schools, each as a ring that is closed as far as its places are taken, with the number of
    those that are vacant; and the squares in which children live, the darker the more.
    """
    easts, norths = [it.east for it in schools], [it.north for it in schools]
    ground = Ground(min(easts) - BEYOND, min(norths) - BEYOND,
                    max(easts) + BEYOND, max(norths) + BEYOND, 720)
    counts = squares(homes)
    top, parts = max(counts.values(), default=1), [ground.grid()]
    for (east, north), many in sorted(counts.items()):
        if ground.has(east, north):
            x, y = ground.at(east, north + SIDE)
            shade = min(1 + int(4 * many / top), 4)
            side = SIDE * ground.scale
            parts.append(rect(x, y, side, side, f"shade s{shade}", f"{many:,} homes"))
    for it in schools:
        parts.append(ring(ground, it))
    parts.append(ground.scale_bar((it.east, it.north) for it in schools))
    return svg(name, ground.width, ground.height, title, text, parts, "map")


def ring(ground: Ground, it: Places) -> str:
    """A school of a map."""
    x, y = ground.at(it.east, it.north)
    r, share = 9 + min(math.sqrt(it.places), 16), 100 * (1 - it.vacant / it.places)
    return (
        f'<circle class="ring" cx="{x:.1f}" cy="{y:.1f}" r="{r:.1f}"/>'
        f'<circle class="ring taken" cx="{x:.1f}" cy="{y:.1f}" r="{r:.1f}" pathLength="100"'
        f' stroke-dasharray="{share:.1f} 100" transform="rotate(-90 {x:.1f} {y:.1f})">'
        f"<title>{escape(it.code)}: {it.taken} of {it.places} places are taken</title></circle>"
        f'{label(x, y + 5, str(it.vacant), "many", "middle")}'
        f'{label(x, y + r + 20, it.code, "halo name", "middle")}')


def area_map(
    name: str, title: str, text: str, areas: Sequence[tuple[str, Iterable[Sequence[int]]]],
    schools: Sequence[tuple[str, int, int]],
) -> Markup:
    """Areas with the code of the school of each, as rings of whole centimetres, and schools."""
    made = [(code, [[it / 100 for it in ring] for ring in rings]) for code, rings in areas]
    easts = [float(it[1]) for it in schools]
    norths = [float(it[2]) for it in schools]
    for ring in (ring for _, rings in made for ring in rings):
        easts += ring[::2]
        norths += ring[1::2]
    ground = Ground(min(easts) - BEYOND, min(norths) - BEYOND,
                    max(easts) + BEYOND, max(norths) + BEYOND, 720)
    parts = [ground.grid()]
    for code, rings in made:
        drawn = "".join(outline(ground, ring) for ring in rings)
        parts.append(f'<path class="area" d="{drawn}"><title>{escape(code)}</title></path>')
    parts += [school(ground, Way(code, east, north, ""), True) for code, east, north in schools]
    parts.append(ground.scale_bar((east, north) for _, east, north in schools))
    return svg(name, ground.width, ground.height, title, text, parts, "map")


def outline(ground: Ground, ring: Sequence[float]) -> str:
    """A ring of metres, without the points that are hardly apart in the picture."""
    found: list[tuple[float, float]] = []
    for at in zip(ring[:-2:2], ring[1:-2:2]):
        x, y = ground.at(*at)
        if not found or math.hypot(x - found[-1][0], y - found[-1][1]) >= NEAR:
            found.append((x, y))
    return f"M{'L'.join(f'{x:.1f} {y:.1f}' for x, y in found)}Z"


def columns(
    name: str, title: str, text: str, first: datetime.date, counts: Sequence[int],
    closing: datetime.date, words: str,
) -> Markup:
    """A column for each day from the first on: those after the closing day are of another colour,
    and a line is between.
    """
    width, high, top, low, left = 720.0, 150.0, 28.0, 26.0, 44.0
    most, wide = max(counts), (width - 52) / len(counts)
    step = next((it for it in (1, 2, 5, 10, 20, 25, 50, 100, 200) if most / it <= 4), 500)
    ceiling = math.ceil(most / step) * step

    def y_of(value: float) -> float:
        return top + high * (1 - value / ceiling)

    parts = []
    for value in range(0, ceiling + 1, step * 2 if ceiling / step > 3 else step):
        parts += [line(left, y_of(value), width, y_of(value), "grid"),
                  label(left - 8, y_of(value) + 5, str(value), "quiet", "end")]
    for at, value in enumerate(counts):
        day, x = first + at * DAY, left + at * wide
        if value:
            kind = "late" if day > closing else "first"
            parts.append(rect(x + 1, y_of(value), wide - 2, y_of(0) - y_of(value), kind,
                              f"{day.day} {day:%B}: {value}"))
        if day.day in (1, 15):
            parts += [line(x + wide / 2, y_of(0), x + wide / 2, y_of(0) + 5, "axis"),
                      label(x + wide / 2, top + high + low - 4, f"{day.day} {day:%b}", "quiet",
                            "middle")]
    x = left + ((closing - first).days + 1) * wide
    if left <= x <= width:
        parts += [line(x, 16, x, y_of(0), "today"), label(x - 6, 16, words, "strong", "end")]
    parts.append(line(left, y_of(0), width, y_of(0), "axis"))
    return svg(name, width, top + high + low, title, text, parts, "days")


@dataclasses.dataclass(frozen=True)
class Span:
    """A part of a season: its words, its first and its last day, and its lane from the top."""

    words: str
    first: datetime.date
    last: datetime.date
    lane: int = 0

    def state(self, today: datetime.date) -> str:
        """Whether it is over, runs or is to come: the class of its colour."""
        return "done" if self.last < today else "now" if self.first <= today else "next"


def season(
    name: str, title: str, text: str, spans: Sequence[Span], today: datetime.date,
) -> Markup:
    """The parts of a season in time, and where today is, if it is within. Words are in their bar,
    or after it where it is too short.
    """
    first, last = min(it.first for it in spans).replace(day=1), max(it.last for it in spans)
    width, row, top = 1160.0, 28.0, 26.0
    scale, high = width / ((last - first).days + 1), top + row * (1 + max(it.lane for it in spans))

    def x_of(day: datetime.date) -> float:
        return (day - first).days * scale

    parts, month = [], first
    while month <= last:
        words = f"{month:%b %Y}" if month.month == 1 else f"{month:%b}"
        parts += [line(x_of(month), 20, x_of(month), high, "grid"),
                  label(x_of(month) + 5, 14, words, "quiet")]
        month = (month + 32 * DAY).replace(day=1)
    for it in spans:
        y, x, long = top + it.lane * row, x_of(it.first), max((it.last - it.first).days * scale, 8)
        state = it.state(today)
        hint = f"{it.words}: {it.first.day} {it.first:%B} to {it.last.day} {it.last:%B %Y}"
        parts.append(rect(x, y, long, row - 5, f"span {state}", hint, 3))
        is_inside = long > 7.2 * len(it.words) + 16
        parts.append(label(x + (8 if is_inside else long + 7), y + 16.5, it.words,
                           f"span-words {state}" if is_inside else "halo"))
    if first <= today <= last:
        x = x_of(today)
        parts += [line(x, 20, x, high, "today"),
                  f'<circle class="today" cx="{x:.1f}" cy="20" r="4.5"/>']
    return svg(name, width, high, title, text, parts, "season")


class Way(NamedTuple):
    """A school of a child's list on its map: its code, its point, what came of it ("place", "waits"
    or "below"), and how far from it the last child lives that was admitted by distance, or None.
    """

    code: str
    east: int
    north: int
    state: str
    metres: int | None = None


def child_map(
    name: str, title: str, text: str, home: tuple[int, int], ways: Sequence[Way],
) -> Markup:
    """A home and the schools of its list, each with a line of what came of it, and with a circle as
    far as its last place went. For the office alone.
    """
    easts, norths = [home[0], *(it.east for it in ways)], [home[1], *(it.north for it in ways)]
    middle, low, high = (min(easts) + max(easts)) / 2, min(norths), max(norths)
    reach = max(max(easts) - min(easts), (high - low) * 1.25, 2000) * 0.68
    ground = Ground(middle - reach, (low + high) / 2 - reach * 0.8,
                    middle + reach, (low + high) / 2 + reach * 0.8, 480)
    x, y = ground.at(*home)
    parts = [ground.grid()]
    for it in ways:
        if it.metres is not None:
            at = ground.at(it.east, it.north)
            parts.append(f'<circle class="last" cx="{at[0]:.1f}" cy="{at[1]:.1f}"'
                         f' r="{it.metres * ground.scale:.1f}"/>')
    for it in ways:
        parts.append(line(x, y, *ground.at(it.east, it.north), f"way {it.state}"))
    for it in ways:
        parts.append(school(ground, it, it.north < home[1]))
    parts.append(f'<path class="dwelling" d="M{x - 8:.1f} {y + 7:.1f}v-8l8-8 8 8v8z"/>')
    parts.append(ground.scale_bar((it.east, it.north) for it in ways))
    return svg(name, ground.width, ground.height, title, text, parts, "map")


def school(ground: Ground, it: Way, is_below: bool) -> str:
    """A school of a map with its code, which is below it or above it."""
    x, y = ground.at(it.east, it.north)
    is_below = is_below and y < ground.height - 40 or y < 40
    name = label(x, y + (27 if is_below else -13), it.code, f"halo name {it.state}", "middle")
    return f'<path class="school {it.state}" d="M{x:.1f} {y - 7:.1f}l7 11.9h-14z"/>{name}'


class Home(NamedTuple):
    """A home on the map of a school: its point, the child's class there (one of SHAPES), whether it
    has a place or waits, its hint, and the address of the child's screen.
    """

    east: int
    north: int
    kind: str
    state: str
    hint: str
    href: str


class Circle(NamedTuple):
    """A distance around a school: its metres and words, whether it is a criterion or the last
    place, and what it means.
    """

    metres: int
    words: str
    kind: str
    meaning: str


# each class of children has a shape besides its colour
SHAPES = {
    "care": "M0-6 6 0 0 6-6 0Z",
    "sibling": "M-4.5-4.5H4.5V4.5H-4.5Z",
    "flag": "M0-5.5 5.5 4.5H-5.5Z",
    "within": "M-4.5 0a4.5 4.5 0 1 0 9 0a4.5 4.5 0 1 0-9 0Z",
    "feeder": "M0 5.5 5.5-4.5H-5.5Z",
    "catchment": "M-5 0-2.5-4.5H2.5L5 0 2.5 4.5H-2.5Z",
    "far": "M-3.5 0a3.5 3.5 0 1 0 7 0a3.5 3.5 0 1 0-7 0Z",
}


def school_map(
    name: str, title: str, text: str, here: tuple[str, int, int],
    others: Sequence[tuple[str, int, int]], homes: Sequence[Home], circles: Sequence[Circle],
    reach: int,
) -> tuple[Markup, int]:
    """A school with the homes of those who have a place or wait, and the circles that decide; and
    how many homes are further away than the map shows. For the office alone. The link of a home is
    for the pointer: the keyboard has the lists.
    """
    code, east, north = here
    ground = Ground(east - reach, north - reach * 0.8, east + reach, north + reach * 0.8, 720)
    inside = [it for it in homes if ground.has(it.east, it.north)]
    # (places are drawn last, above the others)
    inside.sort(key=lambda it: it.state == "has")
    x, y = ground.at(east, north)
    parts = [ground.grid()]
    for it in sorted(circles, key=lambda it: -it.metres):
        parts.append(f'<circle class="{it.kind}" cx="{x:.1f}" cy="{y:.1f}"'
                     f' r="{it.metres * ground.scale:.1f}"/>')
    parts += [mark(ground, it) for it in inside]
    parts += [school(ground, Way(other, e, n, ""), n < north)
              for other, e, n in others if ground.has(e, n)]
    parts.append(f'<path class="school this" d="M{x:.1f} {y - 11:.1f}l11 18.7h-22z"/>'
                 f'{label(x, y - 17, code, "halo name this", "middle")}')
    for it in circles:
        above = it.kind == "criterion"
        at = y - it.metres * ground.scale - 8 if above else y + it.metres * ground.scale + 20
        parts.append(label(x, at, it.words, "halo strong", "middle"))
    parts.append(ground.scale_bar((e, n) for _, e, n in others))
    drawn = svg(name, ground.width, ground.height, title, text, parts, "map")
    return drawn, len(homes) - len(inside)


def mark(ground: Ground, home: Home) -> str:
    """A home."""
    x, y = ground.at(home.east, home.north)
    drawn = (f'<path class="home {home.kind} {home.state}" d="{SHAPES[home.kind]}"'
             f' transform="translate({x:.1f} {y:.1f})"><title>{escape(home.hint)}</title></path>')
    return f'<a href="{escape(home.href)}" tabindex="-1">{drawn}</a>' if home.href else drawn


# the height of a line of words beside a picture
LINE = 18.0


def movement(
    name: str, title: str, text: str, moments: Sequence[str],
    tracks: Sequence[Sequence[int | None]],
) -> Markup:
    """How far a waiting list moved: a line for some of the first positions, with the position at
    each moment; 0 is a place, and None is no position any more. For the office alone.
    """
    width, high, top, low, left, right = 960.0, 280.0, 18.0, 28.0, 60.0, 90.0
    most = max(it for track in tracks for it in track if it)
    step = (width - left - right) / max(len(moments) - 1, 1)

    def at(place: int, position: int) -> tuple[float, float]:
        return left + place * step, top + high * math.sqrt(position / most)

    parts = [line(left, top, width - right, top, "axis"),
             label(width - right + 10, top + 5, "place", "strong")]
    for place, words in enumerate(moments):
        x, _ = at(place, 0)
        side = "start" if not place else "end" if place == len(moments) - 1 else "middle"
        parts += [line(x, top, x, top + high, "grid"),
                  label(x - (10 if side == "start" else 0), top + high + low - 6, words, "quiet",
                        side)]
    firsts = labels_at({row: at(0, it[0] or 0)[1] for row, it in enumerate(tracks)}, top)
    # (below the word at the top)
    lasts = labels_at({row: at(0, it[-1] or 0)[1] for row, it in enumerate(tracks) if it[-1]},
                      top + LINE)
    for row, track in enumerate(tracks):
        stops = [(*at(place, it), it) for place, it in enumerate(track) if it is not None]
        points = " ".join(f"{x:.1f},{y:.1f}" for x, y, _ in stops)
        parts.append(f'<polyline class="track" points="{points}"/>')
        parts += [f'<circle class="{"stop" if it else "stop offered"}" cx="{x:.1f}" cy="{y:.1f}"'
                  ' r="4"/>' for x, y, it in stops]
        parts.append(label(left - 10, firsts[row] + 5, str(stops[0][2]), "", "end"))
        if track[-1]:
            parts.append(label(stops[-1][0] + 10, lasts[row] + 5, str(track[-1]), "strong"))
    return svg(name, width, top + high + low, title, text, parts, "moves")


def labels_at(heights: Mapping[int, float], least: float) -> dict[int, float]:
    """How low the labels of rows are: at their heights, from the least one on, or lower if they
    would overlap.
    """
    found = dict[int, float]()
    for row in sorted(heights, key=lambda it: heights[it]):
        found[row] = least = max(heights[row], least)
        least += LINE
    return found


# the size of a flow, and the least room of a node on each side, for its words
FLOW_WIDTH, FLOW_HEIGHT, FLOW_TOP, FLOW_SIDE, NODE = 760.0, 420.0, 34.0, 190.0, 14.0
LEAST_LEFT, LEAST_RIGHT = 24.0, 40.0


def flow(
    name: str, title: str, text: str, left: Sequence[str], right: Sequence[tuple[str, str]],
    counts: Sequence[Sequence[int]], heads: tuple[str, str],
) -> Markup:
    """From what was wanted to what came of it. `left` are names, `right` are names with the class
    of their colour, and counts[i][j] is how many went from the one to the other.
    """
    sums_left = [sum(row) for row in counts]
    sums_right = [sum(column) for column in zip(*counts)]
    total, high = sum(sums_left), max(FLOW_HEIGHT, LEAST_LEFT * len(left) / 0.8)
    scale = 0.62 * high / total
    y_left = starts([it * scale for it in sums_left], LEAST_LEFT, high)
    y_right = starts([it * scale for it in sums_right], LEAST_RIGHT, high)
    parts = [label(0, 14, heads[0], "strong"),
             label(FLOW_WIDTH, 14, heads[1], "strong", "end"),
             *ribbons(left, right, counts, scale, (list(y_left), list(y_right)))]
    for words, many, y in zip(left, sums_left, y_left):
        parts += [rect(FLOW_SIDE, y, NODE, many * scale, "node"),
                  label(FLOW_SIDE - 10, y + many * scale / 2 + 5, f"{words}  {many:,}", "", "end")]
    at = FLOW_WIDTH - FLOW_SIDE
    for (words, kind), many, y in zip(right, sums_right, y_right):
        middle = y + many * scale / 2
        parts += [rect(at, y, NODE, many * scale, f"node {kind}"),
                  label(at + NODE + 10, middle + 1, words, "strong"),
                  label(at + NODE + 10, middle + 18, f"{many:,} ({100 * many / total:.1f}%)",
                        "quiet")]
    return svg(name, FLOW_WIDTH, high + FLOW_TOP + 22, title, text, parts, "flow")


def starts(lengths: Sequence[float], least: float, high: float) -> list[float]:
    """Where each node of a side begins: each has room for its words, and the room that is left is
    between them.
    """
    rooms = [max(it, least) for it in lengths]
    between, y, found = max(high - sum(rooms), 0) / max(len(rooms) - 1, 1), FLOW_TOP, []
    for it, room in zip(lengths, rooms):
        found.append(y + (room - it) / 2)
        y += room + between
    return found


def ribbons(
    left: Sequence[str], right: Sequence[tuple[str, str]], counts: Sequence[Sequence[int]],
    scale: float, ends: tuple[list[float], list[float]],
) -> Iterable[str]:
    """What leads from the nodes of the left to those of the right, which begin at `ends`."""
    x1, x2 = FLOW_SIDE + NODE, FLOW_WIDTH - FLOW_SIDE
    for i, row in enumerate(counts):
        for j, many in enumerate(row):
            thick = many * scale
            y1, y2 = ends[0][i] + thick / 2, ends[1][j] + thick / 2
            ends[0][i], ends[1][j] = ends[0][i] + thick, ends[1][j] + thick
            if many:
                half = (x1 + x2) / 2
                yield (
                    f'<path class="ribbon {right[j][1]}" stroke-width="{max(thick, 0.6):.1f}"'
                    f' d="M{x1:g} {y1:.1f}C{half:.0f} {y1:.1f} {half:.0f} {y2:.1f} {x2:g}'
                    f' {y2:.1f}">'
                    f"<title>{escape(left[i])} to {escape(right[j][0].lower())}: {many:,}</title>"
                    "</path>")
