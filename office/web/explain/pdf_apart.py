"""A page in HTML as a PDF, laid out in a process of its own (`apart`): without a network, and with
the pictures and fonts of no folder but that of the printed pages' style.
"""
import sys

from register_files import Refused

from office.core import libraries
from office.files import pages
from office.files import processes as apart

MISSING = 3
NO_PDF = f"print the page from the browser, or {libraries.missing_for_officer('weasyprint')}"


def pdf_of(page: str, what: str) -> bytes:
    """The PDF of a page, or a refusal in which it is called so."""
    try:
        return apart.done(__name__, f"laying out {what}", {}, page.encode("utf-8"))
    except apart.Ended as error:
        if error.ended_with == MISSING:
            raise Refused(NO_PDF) from error
        raise


def main() -> None:
    """Lays out the page that is given, and prints the PDF."""
    # (the libraries of the layout take long to load, and only this process needs them)
    from office.web.letters import pdf as letter_pdf

    _, data = apart.given(apart.MOST_LAYOUT)
    try:
        found, _ = letter_pdf.laid_out([data.decode("utf-8")], str(pages.FOLDER))
    except ImportError:
        sys.exit(MISSING)
    with open(1, "wb", closefd=False) as out:
        out.write(found)
