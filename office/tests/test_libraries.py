"""What a machine without the large libraries does: all modules load, and whoever asks for a PDF or
a point by latitude and longitude reads which package is missing."""
import json
import pathlib
import subprocess
import sys
from collections.abc import Callable

import pytest
from conftest import ROOT
from register_files import Refused

from office.core import run
from office.files import processes as apart
from office.web.applications import points
from office.web.areas import reading
from office.web.explain import pdf_apart
from office.web.letters import apart as letters_apart
from office.web.letters.apart import Form, Source

HOW = "which is not here: apt-get install admissions-pdf"
EACH = """
import importlib, pkgutil, sys
sys.path[:0] = sys.argv[1:]
from office.core import libraries
for it in libraries.LARGE:
    sys.modules[it] = None
import machine, office
for package in (office, machine):
    for it in pkgutil.walk_packages(package.__path__, package.__name__ + "."):
        if not it.name.startswith("office.tests") and not it.name.endswith("__main__"):
            importlib.import_module(it.name)
            print(it.name)
"""
EXCEL = """
import sys
sys.path[:0] = sys.argv[1:]
from office.files import book, sheet
data = book.data([book.Page("children", "a list", [["child"], [17]])], "a title")
print(*(it.cells for it in sheet.of_bytes("a.xlsx", data, None, "").rows))
"""


def test_each_module_loads_without_them() -> None:
    """So the application and the commands start."""
    places = [str(ROOT), str(ROOT / "deploy"), str(ROOT / "tools")]
    done = subprocess.run([sys.executable, "-B", "-c", EACH, *places], capture_output=True,
                          text=True, check=False)
    assert done.returncode == 0, done.stderr
    found = set(done.stdout.split())
    assert {"office.web.lists.worklists", "office.web.app", "machine.verbs.setup"} <= found


def test_excel_files_need_no_numpy(tmp_path: pathlib.Path) -> None:
    """Its import may take more memory than a process that reads a file has."""
    (tmp_path / "numpy.py").write_text("raise MemoryError")
    places = [str(tmp_path), str(ROOT), str(ROOT / "tools")]
    done = subprocess.run([sys.executable, "-B", "-c", EXCEL, *places], capture_output=True,
                          text=True, check=False)
    assert (done.returncode, done.stdout) == (0, "['child'] ['17']\n"), done.stderr


@pytest.mark.parametrize("module, said", [
    ("weasyprint", f"a PDF needs the Debian package weasyprint, {HOW}"),
    ("pikepdf.models", f"a PDF needs the Debian package python3-pikepdf, {HOW}"),
    ("pyproj", f"latitudes and longitudes need the Debian package python3-pyproj, {HOW}"),
    ("shapely.geometry", f"catchment areas need the Debian package python3-shapely, {HOW}"),
    ("jinja2", "this needs the Debian package python3-jinja2"),
    ("other", "this needs the Debian package of other"),
])
def test_a_command_names_the_package(
    module: str, said: str, capfd: pytest.CaptureFixture[str]
) -> None:
    """In one line, with status 1."""
    def work() -> int:
        raise ImportError("no", name=module)

    assert run.ended("admissions-admin status", work) == 1
    assert capfd.readouterr().err == f"admissions-admin status: {said}\n"


def test_a_page_as_pdf(monkeypatch: pytest.MonkeyPatch) -> None:
    """An officer may print the page meanwhile."""
    hidden = f"import sys; sys.modules['weasyprint'] = None; {apart.BEGIN}"
    monkeypatch.setattr(apart, "BEGIN", hidden)
    with pytest.raises(Refused, match="^print the page from the browser, or tell IT support:"
                       f" a PDF needs the Debian package weasyprint, {HOW}$"):
        pdf_apart.pdf_of("<p>text", "the page")


def test_letters(monkeypatch: pytest.MonkeyPatch, tmp_path: pathlib.Path) -> None:
    """In the application, where a process of their own lays them out."""
    hidden = f"import sys; sys.modules['weasyprint'] = None; {letters_apart.BEGIN}"
    monkeypatch.setattr(letters_apart, "BEGIN", hidden)
    path = tmp_path / "letters.pdf"
    with pytest.raises(Refused, match="^tell IT support: a PDF needs the Debian"
                       f" package weasyprint, {HOW}$"):
        letters_apart.again(Source("letter", "", {}), ["<p>text"], Form(), str(path))
    assert not path.exists()


def test_catchment_areas(monkeypatch: pytest.MonkeyPatch) -> None:
    """Their file is refused, in a process of its own."""
    hidden = f"import sys; sys.modules['shapely'] = None; {apart.BEGIN}"
    monkeypatch.setattr(apart, "BEGIN", hidden)
    ring = [[-1, 52], [-1.1, 52], [-1, 52.1], [-1, 52]]
    given = {"type": "FeatureCollection", "features": [{
        "type": "Feature", "properties": {"school": "OAK"},
        "geometry": {"type": "Polygon", "coordinates": [ring]}}]}
    said = "^tell IT support: catchment areas need the Debian package"
    with pytest.raises(Refused, match=f"{said} python3-shapely, {HOW}$"):
        reading.read("town.geojson", json.dumps(given).encode())


def test_points(hide: Callable[[str], None]) -> None:
    """A gazetteer with degrees is refused; degrees in the place of metres are still found."""
    hide("pyproj")
    said = "^tell IT support: latitudes and longitudes need the Debian package"
    with pytest.raises(Refused, match=f"{said} python3-pyproj, {HOW}$"):
        points.grid_of([52.0], [-1.0])
    assert points.degrees_in({"east": "52.0", "north": "-1.0"}) == (
        "these look like latitude and longitude, and metres on the grid are needed")
