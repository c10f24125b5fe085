"""The parts of a picture as SVG: from plain values, without a script, a library or an inline style.

Colours and the size of text come from classes, of the screens' ui.css or of the style of a page.
"""
import math
from collections.abc import Iterable

from markupsafe import Markup, escape


def svg(
    name: str, width: float, height: float, title: str, text: str, parts: Iterable[str], kind: str,
) -> Markup:
    """A picture with its title and its description, which a screen reader says in place of it. A
    broad one has larger words on a narrow screen.
    """
    kind = f"{kind} broad" if width >= 640 else kind
    return Markup(
        f'<svg class="drawn {kind}" viewBox="0 0 {width:g} {height:g}" role="img"'
        f' aria-labelledby="{name}-title {name}-text"><title id="{name}-title">{escape(title)}'
        f'</title><desc id="{name}-text">{escape(text)}</desc>{"".join(parts)}</svg>')


def line(x1: float, y1: float, x2: float, y2: float, kind: str) -> str:
    """A straight line."""
    return f'<line class="{kind}" x1="{x1:.1f}" y1="{y1:.1f}" x2="{x2:.1f}" y2="{y2:.1f}"/>'


def rect(
    x: float, y: float, width: float, height: float, kind: str, hint: str = "", round_by: int = 0,
) -> str:
    """A rectangle, with a hint that a browser shows under the pointer."""
    inside = f"><title>{escape(hint)}</title></rect>" if hint else "/>"
    corner = f' rx="{round_by}"' if round_by else ""
    return (f'<rect class="{kind}" x="{x:.1f}" y="{y:.1f}" width="{max(width, 0):.1f}"'
            f' height="{max(height, 0):.1f}"{corner}{inside}')


def label(x: float, y: float, words: str, kind: str = "", at: str = "start") -> str:
    """A text; `at` is start, middle or end."""
    return f'<text class="{kind}" x="{x:.1f}" y="{y:.1f}" text-anchor="{at}">{escape(words)}</text>'


# so far from its point the name of a mark of a map may reach, in units of the picture
BESIDE = 48


class Ground:
    """The ground of a map: from metres on the national grid to the picture."""

    def __init__(self, west: float, south: float, east: float, north: float, width: float) -> None:
        self.west, self.south, self.east, self.north = west, south, east, north
        self.width, self.scale = width, width / (east - west)
        self.height = (north - south) * self.scale

    def at(self, east: float, north: float) -> tuple[float, float]:
        """A point of the picture."""
        return (east - self.west) * self.scale, (self.north - north) * self.scale

    def has(self, east: float, north: float) -> bool:
        """Whether a point is inside."""
        return self.west < east < self.east and self.south < north < self.north

    def grid(self) -> str:
        """The lines of the national grid: at most twelve of each kind."""
        reach = max(self.east - self.west, self.north - self.south)
        step = next((it for it in (1000, 2000, 5000, 10_000, 20_000) if reach / it <= 12), 50_000)
        found = []
        for east in range(math.ceil(self.west / step) * step, int(self.east), step):
            x = self.at(east, 0)[0]
            found.append(line(x, 0, x, self.height, "grid"))
        for north in range(math.ceil(self.south / step) * step, int(self.north), step):
            y = self.at(0, north)[1]
            found.append(line(0, y, self.width, y, "grid"))
        return "".join(found)

    def scale_bar(self, marks: Iterable[tuple[float, float]]) -> str:
        """A length of about a sixth of the picture, and where north is: in the lower left corner,
        or in the next one where none of the marks is, which are points with a name.
        """
        lengths = (500, 1000, 2000, 5000, 10_000, 20_000, 50_000)
        metres = max((it for it in lengths if it * self.scale <= self.width / 5), default=500)
        long, named = metres * self.scale, [self.at(*it) for it in marks]
        wide, high = long + 54, 34
        corners = [(x, y) for y in (self.height - 8 - high, 8.0)
                   for x in (6.0, self.width - 6 - wide)]
        left, top = next(((x, y) for x, y in corners if not any(
            x - BESIDE < east < x + wide + BESIDE and y - BESIDE < north < y + high + BESIDE
            for east, north in named)), corners[0])
        x, y = left + 10, top + high - 8
        words = f"{metres // 1000} km" if metres >= 1000 else f"{metres} m"
        return (
            f'{rect(left, top, wide, high, "plate", round_by=3)}'
            f'<path class="axis" d="M{x:.1f} {y - 6:.1f}v6h{long:.1f}v-6"/>'
            f'{label(x + long / 2, y - 8, words, "", "middle")}'
            f'<path class="north" d="M{x + long + 18:.1f} {y:.1f}l7-22 7 22-7-5z"/>')
