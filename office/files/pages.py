"""Pages in HTML, by the templates that come with the program. All values are escaped, but for
pictures, which are marked as safe where they are drawn."""
from collections.abc import Mapping
from pathlib import Path
from typing import Any

OFFICE = Path(__file__).resolve().parents[1]
# of what several pages include
FOLDER = OFFICE / "files" / "printed"


def render(name: str, values: Mapping[str, Any]) -> str:
    """A page by a template, which is named by its path from the folder of the package."""
    import jinja2

    made = jinja2.Environment(
        loader=jinja2.FileSystemLoader((OFFICE, FOLDER)),
        autoescape=True,
        undefined=jinja2.StrictUndefined,
        trim_blocks=True,
        lstrip_blocks=True,
    )
    text: str = made.get_template(name).render(values)
    return text
