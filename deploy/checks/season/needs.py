"""What the season needs of a machine, each with the Debian package that has it."""
import importlib.util
import shutil

PROGRAMS = {"chromium": "chromium", "chromedriver": "chromium-driver", "openssl": "openssl",
            "pdftotext": "poppler-utils"}
MODULES = {"selenium": "python3-selenium", "openpyxl": "python3-openpyxl"}


def missing() -> list[str]:
    """What is not here, each with its package."""
    found = [f"{name} (package {package})" for name, package in PROGRAMS.items()
             if not shutil.which(name)]
    return found + [f"{name} for Python (package {package})" for name, package in MODULES.items()
                    if not importlib.util.find_spec(name)]
