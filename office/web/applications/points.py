"""Points of homes on the map: property numbers, postcodes and coordinates as people write them, and
where a point came from, in words.
"""
import dataclasses
import datetime
import functools
import itertools
import json
import math
import re
from collections.abc import Iterator, Mapping, Sequence

from register_files import Refused

from office.core import days, fields, libraries, texts
from office.core.rules import LIMITS, Limit

# where the point of a row came from
FILE, TYPED, GAZETTEER = "file", "typed", "gazetteer"
# by what it was found in a gazetteer
PROPERTY, POSTCODE = "property number", "postcode"
PROPERTY_LIMIT = Limit(1, 999_999_999_999)
# from so many metres on, a point that differs from the gazetteer's is asked about: a postcode is
# the middle of several homes
DIFFER_METRES = {PROPERTY: 50, POSTCODE: 1000}
# how far a point by latitude and longitude may be from the surveyed one
DEGREES_METRES = 5
CODE = re.compile(r"[A-Z]{1,2}[0-9][A-Z0-9]?[0-9][A-Z]{2}")
# what is easily typed for the other
TWINS = {"O": "O0", "0": "0O", "I": "I1", "1": "1I", "L": "L1"}
MOST_CODE = 20
DECIMAL = re.compile(r"[+-]?[0-9]{1,9}(\.[0-9]{0,20})?", re.ASCII)
# where Great Britain is, in degrees
LATITUDES, LONGITUDES = (49.0, 61.5), (-9.5, 2.5)
# the whole of a country is shorter than this many metres from one end to the other
FAR_METRES, NEAR_METRES = 100_000, 50_000
Metres = tuple[int, int]


@dataclasses.dataclass(frozen=True)
class Point:
    """Where the point of a row came from: FILE, TYPED or GAZETTEER. What a gazetteer has for it: by
    what, by which key, of which day, and where; what was not found, each as a sentence; and whether
    somebody has decided that the row's point is right all the same.
    """

    source: str = FILE
    by: str = ""
    key: str = ""
    day: str = ""
    at: Metres | None = None
    said: tuple[str, ...] = ()
    is_kept: bool = False

    def packed(self) -> str:
        """The point as the store keeps it."""
        return json.dumps(dataclasses.asdict(self), ensure_ascii=False)

    @property
    def found(self) -> str:
        """What the gazetteer has, in words."""
        about = ", approximate" if self.by == POSTCODE else ""
        return f"{self.by} {self.key}{about}, gazetteer of {day_in_words(self.day)}"

    @property
    def words(self) -> str:
        """Where the point came from, in words."""
        if self.source == GAZETTEER:
            return f"from {self.found}"
        return "typed" if self.source == TYPED else "from the file"


def unpacked(text: str) -> Point:
    """A point as the store keeps it; "" of a row that nothing was looked up for."""
    if not text:
        return Point()
    found = json.loads(text)
    at, said = found.pop("at"), tuple(found.pop("said"))
    return Point(**found, at=(at[0], at[1]) if at else None, said=said)


def day_in_words(text: str) -> str:
    """A day as an office writes it."""
    return days.in_words(datetime.date.fromisoformat(text)) if text else "an unknown day"


def has_any(cells: Mapping[str, str]) -> bool:
    """Whether a row has something where its point is."""
    return any(cells[it].strip() for it in ("east", "north"))


def metres_of(cells: Mapping[str, str]) -> Metres | None:
    """The point of a row, if it can be read."""
    east = fields.number(cells["east"], LIMITS["east"], "")
    north = fields.number(cells["north"], LIMITS["north"], "")
    return None if east.expected or north.expected else (int(east.text), int(north.text))


def distance(one: Metres, other: Metres) -> int:
    """The whole metres between two points."""
    return texts.metres(one[0] - other[0], one[1] - other[1])


def cells_at(at: Metres) -> dict[str, str]:
    """The cells of a point."""
    return {"east": str(at[0]), "north": str(at[1])}


def after(point: Point, cells: Mapping[str, str], typed: Mapping[str, str]) -> Point:
    """The point of a row whose cells were saved: one that was changed was typed, and what was asked
    about it is answered by that.
    """
    if all(cells[it].strip() == typed.get(it, cells[it]).strip() for it in ("east", "north")):
        return point
    return dataclasses.replace(point, source=TYPED, is_kept=True)


def question(point: Point, cells: Mapping[str, str]) -> str:
    """What is asked of a row whose point is not that of the gazetteer, or ""."""
    if point.at is None or point.source == GAZETTEER or point.is_kept:
        return ""
    has = metres_of(cells)
    if has is None:
        return f"no point can be read; {said_at(point, point.at)}"
    far, most = distance(has, point.at), DIFFER_METRES[point.by]
    if far <= most:
        return ""
    if distance((has[1], has[0]), point.at) <= most:
        return f"are east and north swapped? {said_at(point, point.at)}"
    return f"is it right? {said_at(point, point.at)}, {far:,} metres away"


def said_at(point: Point, at: Metres) -> str:
    """Where the gazetteer has a point."""
    return f"{point.found}, is at {at[0]}, {at[1]}"


def findings(point: Point, cells: Mapping[str, str]) -> Iterator[str]:
    """What is to be looked at of the point of a row, each as a sentence."""
    if asked := question(point, cells):
        yield asked
    if point.source == GAZETTEER and point.by == POSTCODE and not point.is_kept:
        yield f"approximate: {point.found}, the middle of its homes"
    if not has_any(cells):
        yield from point.said
    elif metres_of(cells) == (0, 0):
        yield "the point 0, 0 is in the sea: is it missing?"
    elif said := degrees_in(cells):
        yield said


def needs_look(point: Point, cells: Mapping[str, str]) -> bool:
    """Whether a person is to see to the point of a row. What is only written in a wrong way, as
    1,250, is corrected at its cell.
    """
    read = (fields.metres(cells[it], LIMITS[it]) for it in ("east", "north"))
    is_missing = any(it.expected and not it.likely for it in read)
    return is_missing or any(findings(point, cells))


def degrees_in(cells: Mapping[str, str]) -> str:
    """What is said where latitude and longitude are in the place of metres, or ""."""
    one, other = decimal(cells["east"]), decimal(cells["north"])
    if one is None or other is None:
        return ""
    if is_degrees(one, other) or is_degrees(other, one):
        latitude, longitude = (one, other) if is_degrees(one, other) else (other, one)
        said = "these look like latitude and longitude"
        try:
            at = grid_of([latitude], [longitude])[0]
        except Refused:
            return f"{said}, and metres on the grid are needed"
        if at is not None:
            return f"{said}: on the grid that is {at[0]}, {at[1]}, within {DEGREES_METRES} metres"
    return ""


def property_of(text: str) -> fields.Field:
    """A property number (UPRN): blanks, leading zeros and a fraction of zeros are left out."""
    return fields.number(re.sub(r"\s", "", text), PROPERTY_LIMIT, "a property number")


def postcodes_of(text: str) -> tuple[str, ...]:
    """The postcodes that a text may mean, that as it is typed first: without blanks, in capitals; O
    may be 0, and I may be 1.
    """
    return postcodes_in(text) if len(text) <= MOST_CODE else ()


@functools.lru_cache(10_000)
def postcodes_in(text: str) -> tuple[str, ...]:
    """The same of a short text: the rows of a gazetteer repeat them."""
    given = re.sub(r"[\s.\-]", "", fields.trimmed(text)).upper()
    if not 5 <= len(given) <= 7 or not given.isascii():
        return ()
    made = map("".join, itertools.product(*(TWINS.get(it, it) for it in given)))
    return tuple(dict.fromkeys(it for it in made if CODE.fullmatch(it)))


def spaced(code: str) -> str:
    """A postcode as it is written."""
    return f"{code[:-3]} {code[-3:]}"


def decimal(text: str) -> float | None:
    """A number with or without a fraction."""
    found = fields.trimmed(text)
    return float(found) if len(found) <= 32 and DECIMAL.fullmatch(found) else None


def is_degrees(latitude: float, longitude: float) -> bool:
    """Whether these are a latitude and a longitude of Great Britain."""
    return (LATITUDES[0] <= latitude <= LATITUDES[1]
            and LONGITUDES[0] <= longitude <= LONGITUDES[1])


def whole(east: float, north: float) -> Metres:
    """A point in whole metres, halves upwards."""
    return math.floor(east + 0.5), math.floor(north + 0.5)


def wrong_at(at: Metres, middle: Metres | None) -> str:
    """What is wrong with a point of a gazetteer, or "". `middle` is where the schools are."""
    if not LIMITS["east"].has(at[0]) or not LIMITS["north"].has(at[1]):
        span = f"from {LIMITS['east'].least:,} to {LIMITS['east'].most:,} metres"
        return f"the point is outside of the map: east and north are {span}"
    if is_swapped(at, middle):
        return "east and north are swapped: the other way round the point is near the schools"
    return ""


def is_swapped(at: Metres, middle: Metres | None) -> bool:
    """Whether a point is far from the schools, and near to them the other way round."""
    return middle is not None and distance(at, middle) > FAR_METRES and (
        distance((at[1], at[0]), middle) < NEAR_METRES)


# The published transformation of seven parameters, and the projection of the grid, of which no part
# is in a file of grid shifts: each machine gives the same point, and none asks a network.
PIPELINE = (
    "+proj=pipeline +step +proj=unitconvert +xy_in=deg +xy_out=rad"
    " +step +proj=push +v_3 +step +proj=cart +ellps=WGS84"
    " +step +proj=helmert +x=-446.448 +y=125.157 +z=-542.06 +rx=-0.1502 +ry=-0.247 +rz=-0.8421"
    " +s=20.4894 +convention=position_vector"
    " +step +inv +proj=cart +ellps=airy +step +proj=pop +v_3"
    " +step +proj=tmerc +lat_0=49 +lon_0=-2 +k=0.9996012717 +x_0=400000 +y_0=-100000"
    " +ellps=airy"
)


def grid_of(latitudes: Sequence[float], longitudes: Sequence[float]) -> list[Metres | None]:
    """The points of latitudes and longitudes (WGS84 or ETRS89) on the British National Grid, within
    DEGREES_METRES; None of what is not in Great Britain.
    """
    return [whole(*at) if is_degrees(*given) else None
            for at, given in zip(on_grid(latitudes, longitudes), zip(latitudes, longitudes))]


def on_grid(
    latitudes: Sequence[float], longitudes: Sequence[float],
) -> list[tuple[float, float]]:
    """The same with fractions of metres, of what is in Great Britain."""
    try:
        import pyproj
        import pyproj.network
    except ImportError as error:
        raise Refused(libraries.missing_for_officer(error.name)) from error

    pyproj.network.set_network_enabled(False)
    made = pyproj.Transformer.from_pipeline(PIPELINE)
    easts, norths = made.transform(longitudes, latitudes)
    return list(zip(easts, norths))
