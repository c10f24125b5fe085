"""A file of catchment areas (GeoJSON, RFC 7946), read in a process of its own (`processes`): each
feature with its properties, what is wrong with it, its size, and its rings on the National Grid.
"""
import contextlib
import json
import math
import os
import re
from collections.abc import Iterable, Iterator, Sequence
from typing import Any, NoReturn

from register_files import Refused

from office.core import libraries, texts
from office.core.rules import LIMITS
from office.files import file_kinds
from office.files import processes as apart
from office.web.applications import points

MOST_FEATURES, MOST_POINTS = 5_000, 400_000
# so many properties of a feature are offered, and so much of each
MOST_PROPERTIES, MOST_TEXT = 40, 80
SECONDS = 60
# the numbers of the grid, and of longitude and latitude
GRID, DEGREES = "27700", ("4326", "CRS84")
# a ring has its first point again at its end
LEAST_POINTS = 4
# a point is kept in whole centimetres
CENTIMETRES = 100
Ring = list[tuple[float, float]]


class Wrong(Exception):
    """What is wrong with a feature."""


def read(name: str, data: bytes) -> list[dict[str, Any]]:
    """The features of a file that was sent, or the refusal of its process."""
    found = json.loads(apart.done(__name__, f"reading {name}", {"name": name}, data, SECONDS))
    if "refused" in found:
        raise Refused(found["refused"])
    return list(found["features"])


def collection(name: str, data: bytes) -> dict[str, Any]:
    """The document of a file."""
    if kind := file_kinds.of_bytes(data):
        raise Refused(f"{name} is {kind}: catchment areas are in a GeoJSON file")
    try:
        found = json.loads(data.decode("utf-8-sig"), parse_constant=no_number)
    except (ValueError, RecursionError) as error:
        raise Refused(f"{name} is no GeoJSON file that can be read") from error
    if not isinstance(found, dict) or found.get("type") != "FeatureCollection" or not isinstance(
            found.get("features"), list):
        raise Refused(f"{name} is no GeoJSON file with a FeatureCollection")
    if len(found["features"]) > MOST_FEATURES:
        raise Refused(f"{name} has more than {MOST_FEATURES:,} areas")
    if not found["features"]:
        raise Refused(f"{name} has no area")
    return found


def no_number(text: str) -> NoReturn:
    """Refuses what is no number of JSON."""
    raise ValueError(text)


def is_on_grid(name: str, found: dict[str, Any]) -> bool:
    """Whether points are metres on the grid, as older files say it; else they are degrees."""
    if found.get("crs") is None:
        return False
    with contextlib.suppress(AttributeError, KeyError, TypeError):
        called = str(found["crs"]["properties"]["name"])
        number = re.split(":+", called)[-1].upper()
        if number == GRID or number in DEGREES:
            return number == GRID
    raise Refused(f"{name} is neither in longitude and latitude nor on the British National Grid"
                  " (EPSG:27700): save it again in one of these")


def rings_of(geometry: object) -> list[list[Ring]]:
    """The polygons of a geometry, each with its outer ring and its holes, as they are written."""
    if not isinstance(geometry, dict) or geometry.get("type") not in ("Polygon", "MultiPolygon"):
        raise Wrong("it is no polygon")
    try:
        given = geometry["coordinates"]
        polygons = [given] if geometry["type"] == "Polygon" else given
        found = [[[(number(it[0]), number(it[1])) for it in ring] for ring in polygon]
                 for polygon in polygons]
    except (IndexError, KeyError, OverflowError, TypeError, ValueError) as error:
        raise Wrong("its points cannot be read") from error
    if not found or not all(found):
        raise Wrong("it has no ring")
    return found


def number(value: object) -> float:
    """A coordinate."""
    if isinstance(value, bool) or not isinstance(value, (int, float)) or not math.isfinite(value):
        raise ValueError(value)
    return float(value)


def see_ring(ring: Ring, is_grid: bool) -> None:
    """Refuses a ring that is not closed, or leaves the map."""
    if not ring or ring[0] != ring[-1]:
        raise Wrong("a ring is not closed")
    if len(ring) < LEAST_POINTS:
        raise Wrong("a ring has too few points")
    if is_grid:
        is_inside = all(LIMITS["east"].least <= east <= LIMITS["east"].most
                        and LIMITS["north"].least <= north <= LIMITS["north"].most
                        for east, north in ring)
    elif all(points.is_degrees(east, north) for east, north in ring):
        raise Wrong("longitude and latitude are swapped")
    else:
        is_inside = all(points.is_degrees(north, east) for east, north in ring)
    if not is_inside:
        raise Wrong("it is outside of the map")


def on_grid(ring: Ring) -> Ring:
    """A ring of longitudes and latitudes in metres."""
    return points.on_grid([it[1] for it in ring], [it[0] for it in ring])


def square_metres(polygons: Sequence[Sequence[Ring]]) -> float:
    """The size of polygons that cross neither themselves nor each other."""
    # (some versions of the library begin threads for numbers, of which there are few here)
    os.environ.setdefault("OPENBLAS_NUM_THREADS", "1")
    try:
        from shapely.geometry import MultiPolygon, Polygon
        from shapely.validation import explain_validity
    except ImportError as error:
        raise Refused(libraries.missing_for_officer(error.name)) from error

    made = [Polygon(it[0], it[1:]) for it in polygons]
    for it in made:
        if not it.is_valid:
            is_crossed = "elf-intersection" in explain_validity(it)
            raise Wrong("it crosses itself" if is_crossed else "its rings do not fit together")
    if not MultiPolygon(made).is_valid:
        raise Wrong("its parts overlap")
    return float(sum(it.area for it in made))


def feature_of(found: object, is_grid: bool) -> dict[str, Any]:
    """A feature as the application keeps it."""
    properties = found.get("properties") if isinstance(found, dict) else None
    values = dict(list(values_of(properties))[:MOST_PROPERTIES])
    try:
        polygons = rings_of(found.get("geometry") if isinstance(found, dict) else None)
        for ring in (ring for it in polygons for ring in it):
            see_ring(ring, is_grid)
        if not is_grid:
            polygons = [[on_grid(ring) for ring in it] for it in polygons]
        size = square_metres(polygons)
    except Wrong as error:
        return {"values": values, "wrong": str(error), "size": 0, "rings": []}
    rings = [flat(ring) for it in polygons for ring in it]
    return {"values": values, "wrong": "", "size": round(size), "rings": rings}


def flat(ring: Ring) -> list[int]:
    """A ring in whole centimetres: east, north, east .."""
    return [math.floor(it * CENTIMETRES + 0.5) for at in ring for it in at]


def values_of(properties: object) -> Iterator[tuple[str, str]]:
    """The properties of a feature that are a text or a number."""
    for name, it in properties.items() if isinstance(properties, dict) else ():
        if isinstance(it, (str, int, float)) and not isinstance(it, bool):
            yield name[:MOST_TEXT], " ".join(texts.visible(str(it)[:MOST_TEXT]).split())


def count(value: object) -> int:
    """How many points there are in the coordinates of a geometry."""
    many, left = 0, [value]
    while left:
        it = left.pop()
        if isinstance(it, list):
            many += bool(it) and not isinstance(it[0], list)
            left += it
    return many


def features(name: str, data: bytes) -> Iterable[dict[str, Any]]:
    """The features of a file."""
    found = collection(name, data)
    is_grid, many = is_on_grid(name, found), 0
    for it in found["features"]:
        geometry = it.get("geometry") if isinstance(it, dict) else None
        many += count(geometry.get("coordinates") if isinstance(geometry, dict) else None)
        if many > MOST_POINTS:
            raise Refused(f"{name} has more than {MOST_POINTS:,} points: save simpler areas")
        yield feature_of(it, is_grid)


def answer(name: str, data: bytes) -> dict[str, Any]:
    """What is found in a file, or why it is not read."""
    try:
        return {"features": list(features(name, data))}
    except Refused as error:
        return {"refused": str(error)}
    except MemoryError:
        return {"refused": f"{name} takes too much memory"}


def main() -> None:
    """Reads the file, and prints what is found."""
    asked, data = apart.given(apart.MOST_LAYOUT, SECONDS)
    print(json.dumps(answer(asked["name"], data)))
