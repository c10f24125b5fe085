"""The libraries beside Python's own modules: the Debian package of each, and what is said where one
is missing. Those that make PDF, place latitudes and longitudes, and read catchment areas bring many
packages: the package admissions-pdf depends on them, and they are imported only where they are
used."""
import importlib
import sys
from types import ModuleType
from typing import Any

PACKAGES = {
    "argon2": "python3-argon2",
    "authlib": "python3-authlib",
    "flask": "python3-flask",
    "gunicorn": "python3-gunicorn",
    "itsdangerous": "python3-itsdangerous",
    "jinja2": "python3-jinja2",
    "markdown": "python3-markdown",
    "markupsafe": "python3-markupsafe",
    "openpyxl": "python3-openpyxl",
    "pikepdf": "python3-pikepdf",
    "pyproj": "python3-pyproj",
    # (authlib imports it, as its client of HTTP)
    "requests": "python3-requests",
    "shapely": "python3-shapely",
    "weasyprint": "weasyprint",
    "werkzeug": "python3-werkzeug",
}
# what needs each of the large ones
LARGE = {
    "pikepdf": "a PDF needs",
    "pyproj": "latitudes and longitudes need",
    "shapely": "catchment areas need",
    "weasyprint": "a PDF needs",
}
PDF = "admissions-pdf"


def excel() -> ModuleType:
    """The library of Excel files, without numpy, of which it would take the types of numbers alone.
    (Where numpy is there, its import may start a thread for each processor, each of which reserves
    more memory than a process that reads a file may have.)
    """
    modules: Any = sys.modules
    modules.setdefault("numpy", None)
    return importlib.import_module("openpyxl")


def missing(module: str | None) -> str:
    """What is said where a module cannot be imported: what needs it, and how to install it."""
    name = str(module).partition(".")[0]
    package = PACKAGES.get(name, f"of {name}")
    if name in LARGE:
        how = f"apt-get install {PDF}"
        return f"{LARGE[name]} the Debian package {package}, which is not here: {how}"
    return f"this needs the Debian package {package}"


def missing_for_officer(module: str | None) -> str:
    """The same for an officer, who installs nothing."""
    return f"tell IT support: {missing(module)}"
