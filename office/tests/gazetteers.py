"""Gazetteers in tests: their files, how a person sends them and chooses columns; and the grid, by
the formulas that the Ordnance Survey publishes.
"""
import io
import math
import zipfile
from typing import Any

from applications import Answer, Browser
from pages import Page

PATH = "/applications/gazetteer/"
Grid = tuple[float, float]
WGS84, AIRY = (6378137.0, 6356752.3142), (6377563.396, 6356256.909)


def csv_of(*rows: str, encoding: str = "utf-8") -> bytes:
    """A CSV of these lines."""
    return "".join(f"{it}\n" for it in rows).encode(encoding)


def zipped(**files: bytes) -> bytes:
    """A zip of files, whose names have _ for the point."""
    made = io.BytesIO()
    with zipfile.ZipFile(made, "w", zipfile.ZIP_DEFLATED) as parts:
        for name, data in files.items():
            parts.writestr(name.replace("_", "."), data)
    return made.getvalue()


def receive(browser: Browser, data: bytes, name: str = "town.csv") -> Answer:
    """A file that is sent."""
    browser.get(PATH)
    given: dict[str, Any] = {"file": (io.BytesIO(data), name)}
    return browser.post(f"{PATH}file", given, content_type="multipart/form-data")


def choice(browser: Browser) -> dict[str, str]:
    """The columns as the screen guesses them, as its form sends them."""
    page = Page(browser.get(PATH).text)
    form = page.form(next(it for it in page.buttons() if it.startswith("Read in ")))
    return {name: it[0] for name, it in form.values.items() if name != "form"}


def read_in(browser: Browser, data: bytes, name: str = "town.csv", **chosen: str) -> Answer:
    """A file that is sent and read in, by the columns that are guessed but for these."""
    assert receive(browser, data, name).status_code == 303
    return browser.post(f"{PATH}read", {**choice(browser), **chosen})


def said(answer: Answer) -> str:
    """What a page answers."""
    return Page(answer.text).said()


def projected(latitude: float, longitude: float) -> Grid:
    """A latitude and a longitude of OSGB36, in radians, on the National Grid."""
    (a, b), f0, lat0, lon0 = AIRY, 0.9996012717, math.radians(49), math.radians(-2)
    e2, n, sin = 1 - (b / a) ** 2, (a - b) / (a + b), math.sin(latitude)
    nu = a * f0 / math.sqrt(1 - e2 * sin ** 2)
    rho = a * f0 * (1 - e2) * (1 - e2 * sin ** 2) ** -1.5
    eta2 = nu / rho - 1
    less, more = latitude - lat0, latitude + lat0
    m = b * f0 * (
        (1 + n + 5 / 4 * n ** 2 + 5 / 4 * n ** 3) * less
        - (3 * n + 3 * n ** 2 + 21 / 8 * n ** 3) * math.sin(less) * math.cos(more)
        + (15 / 8 * n ** 2 + 15 / 8 * n ** 3) * math.sin(2 * less) * math.cos(2 * more)
        - 35 / 24 * n ** 3 * math.sin(3 * less) * math.cos(3 * more))
    cos, tan = math.cos(latitude), math.tan(latitude)
    first, second = m - 100000, nu / 2 * sin * cos
    third = nu / 24 * sin * cos ** 3 * (5 - tan ** 2 + 9 * eta2)
    third_a = nu / 720 * sin * cos ** 5 * (61 - 58 * tan ** 2 + tan ** 4)
    fourth, fifth = nu * cos, nu / 6 * cos ** 3 * (nu / rho - tan ** 2)
    sixth = nu / 120 * cos ** 5 * (5 - 18 * tan ** 2 + tan ** 4 + 14 * eta2 - 58 * tan ** 2 * eta2)
    to = longitude - lon0
    north = first + second * to ** 2 + third * to ** 4 + third_a * to ** 6
    return 400000 + fourth * to + fifth * to ** 3 + sixth * to ** 5, north


def of_wgs84(latitude: float, longitude: float) -> Grid:
    """A latitude and a longitude of WGS84, in degrees, on the National Grid: by the transformation
    of seven parameters that is published for the whole of Great Britain.
    """
    lat, lon = math.radians(latitude), math.radians(longitude)
    a, b = WGS84
    nu = a / math.sqrt(1 - (1 - (b / a) ** 2) * math.sin(lat) ** 2)
    x, y = nu * math.cos(lat) * math.cos(lon), nu * math.cos(lat) * math.sin(lon)
    z = (b / a) ** 2 * nu * math.sin(lat)
    second = math.radians(1 / 3600)
    rx, ry, rz = -0.1502 * second, -0.2470 * second, -0.8421 * second
    scale = 1 + 20.4894e-6
    x, y, z = (-446.448 + scale * x - rz * y + ry * z, 125.157 + rz * x + scale * y - rx * z,
               -542.060 - ry * x + rx * y + scale * z)
    a, b = AIRY
    e2, p = 1 - (b / a) ** 2, math.hypot(x, y)
    found = math.atan2(z, p * (1 - e2))
    for _ in range(10):
        nu = a / math.sqrt(1 - e2 * math.sin(found) ** 2)
        found = math.atan2(z + e2 * nu * math.sin(found), p)
    return projected(found, math.atan2(y, x))
