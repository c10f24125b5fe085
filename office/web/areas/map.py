"""A map of catchment areas: in the areas of which schools a home is. It is exact: points of areas
are whole centimetres, and those of homes whole metres. A home on the edge of an area is in it.
"""
import dataclasses
import functools
from collections.abc import Iterable, Iterator, Sequence

CENTIMETRES = 100
# an area has so many bands
BANDS = 64
Metres = tuple[int, int]
Side = tuple[int, int, int, int]


@dataclasses.dataclass(frozen=True)
class Area:
    """An area of a school: its size in square metres, and its outer rings and holes, each as east,
    north, east .. in whole centimetres, with its first point again at its end.
    """

    code: str
    size: int
    rings: tuple[tuple[int, ...], ...]

    @functools.cached_property
    def box(self) -> tuple[int, int, int, int]:
        """Its least and its greatest east and north."""
        easts = [it for ring in self.rings for it in ring[::2]]
        norths = [it for ring in self.rings for it in ring[1::2]]
        return min(easts), min(norths), max(easts), max(norths)

    @functools.cached_property
    def bands(self) -> tuple[int, list[list[Side]]]:
        """Its sides by bands from south to north, and how high these are: for a home the sides of
        one band are looked at.
        """
        _, south, _, north = self.box
        high = (north - south) // BANDS + 1
        found: list[list[Side]] = [[] for _ in range(BANDS)]
        for side in (it for ring in self.rings for it in sides(ring)):
            low, top = sorted((side[1] - south, side[3] - south))
            for band in range(low // high, top // high + 1):
                found[band].append(side)
        return high, found

    def has(self, east: int, north: int) -> bool:
        """Whether a point is in it or on its edge."""
        west, south, most_east, most_north = self.box
        if not (west <= east <= most_east and south <= north <= most_north):
            return False
        high, bands = self.bands
        return is_inside(bands[(north - south) // high], east, north)


def sides(ring: Sequence[int]) -> Iterator[Side]:
    """The sides of a ring, from each point to the next."""
    return zip(ring[0:-2:2], ring[1:-2:2], ring[2::2], ring[3::2])


def is_inside(near: Iterable[Side], east: int, north: int) -> bool:
    """Whether a point is within rings, a hole being outside, or on the line of one: a line to the
    east crosses their sides an odd number of times.
    """
    found = False
    for x1, y1, x2, y2 in near:
        # (above 0 where the point is to the left of the side)
        turn = (x2 - x1) * (north - y1) - (y2 - y1) * (east - x1)
        if turn == 0 and min(x1, x2) <= east <= max(x1, x2) and (
                min(y1, y2) <= north <= max(y1, y2)):
            return True
        if (y1 > north) != (y2 > north) and (turn > 0) == (y2 > y1):
            found = not found
    return found


class Map:
    """The areas of the schools of a register, with the name of their file."""

    def __init__(self, name: str, areas: Sequence[Area]) -> None:
        self.name, self.areas = name, areas
        self.known: dict[Metres, tuple[str, ...]] = {}

    @property
    def source(self) -> str:
        """Where schools came from, in words."""
        return f"from the areas of {self.name}"

    def schools_at(self, home: Metres) -> tuple[str, ...]:
        """The codes of the schools in whose areas a home is, in their order."""
        found = self.known.get(home)
        if found is None:
            east, north = (it * CENTIMETRES for it in home)
            found = tuple(sorted({it.code for it in self.areas if it.has(east, north)}))
            self.known[home] = found
        return found
