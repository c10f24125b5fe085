"""Where letters go: a sheet of addresses is uploaded, and it is shown who has none."""
import flask
from register_files import Refused
from werkzeug.wrappers import Response

from office.core import texts
from office.core.wording import sentence
from office.files.sheet import Row
from office.web.frame import uploads
from office.web.people.guard import needs, parts, person
from office.web.people.roles import READ, RECORD

from .. import addresses as letters_addresses
from ..addresses import Addresses

screen = flask.Blueprint("letter_addresses", __name__, url_prefix="/letters/addresses")
Answer = str | Response | tuple[str, int]
# whether a file replaces all addresses, or those of its children
WAYS = {"child": "add them, and replace those of the same children",
        "whole": "replace all addresses by those of the file"}
MOST_SHOWN = 200
MEANWHILE = ("Nothing was stored: somebody else has stored addresses since this was shown. What is"
             " replaced is below.")


def addresses() -> Addresses:
    """The addresses of this application."""
    return parts().letters.addresses


@screen.get("/")
@needs(READ)
def show() -> Answer:
    """How many children have an address, and who has none."""
    return page()


def page(said: str = "", status: int = 200, way: str = "") -> Answer:
    """The same with what was chosen."""
    register, found = parts().desk.register(), addresses().all()
    missing = [it for it in register.children if it not in found]
    return flask.render_template(
        "letters_addresses.html", said=said, is_bad=status != 200, ways=list(WAYS.items()),
        way=way, has=len(register.children) - len(missing), missing=sorted(missing),
        most=MOST_SHOWN, names={it: register.children[it].name for it in missing}), status


def look(
    rows: list[Row], columns: list[str], taken: list[int], found: dict[int, list[str]], way: str,
    said: str = "",
) -> Answer:
    """The columns that are taken, two addresses as they will be printed, and those that would be
    replaced, before any is stored.
    """
    names, seen = parts().desk.register().children, addresses().digest()
    replaced = addresses().replaced(found, way == "whole")
    doubts = letters_addresses.doubts(rows, {it.number: it.name for it in names.values()})
    in_place = f", and replace {texts.count(len(replaced), 'address', 'addresses')}"
    return flask.render_template(
        "letters_addresses_look.html", columns=columns, taken=taken, way=way, ways=WAYS, said=said,
        rows=letters_addresses.packed(rows), shown=" ".join(map(str, taken)), seen=seen,
        examples=[(child, names[child].name, lines)
                  for child, lines in letters_addresses.examples(found)],
        doubts=[(it, names[it].name, text) for it, text in doubts[:MOST_SHOWN]],
        more_doubts=len(doubts) - MOST_SHOWN,
        replaced=replaced[:MOST_SHOWN], more=len(replaced) - MOST_SHOWN,
        button=f"Store {texts.count(len(found), 'address', 'addresses')}"
        f"{in_place if replaced else ''}"), 409 if said else 200


@screen.post("/")
@needs(RECORD)
def save() -> Answer:
    """Shows the addresses of a file as they will be printed, or stores what was shown."""
    form, way = flask.request.form, flask.request.form.get("way", "")
    try:
        if way not in WAYS:
            raise Refused("choose whether the file replaces all addresses")
        is_first = "rows" not in form
        rows = (uploads.rows_of(flask.request.files.get("file")) if is_first
                else letters_addresses.unpacked(form["rows"]))
        columns = letters_addresses.columns_of(rows)
        ticked = set(form.getlist("column"))
        taken = [at for at in range(len(columns)) if is_first or str(at) in ticked]
        if columns and not taken:
            raise Refused("tick at least one column that is a line of the address")
        found = letters_addresses.read(rows, parts().desk.register().children, taken)
        shown = " ".join(map(str, taken))
        if is_first or form.get("shown") != shown or form.get("what") != "store":
            return look(rows, columns, taken, found, way)
        if not addresses().save(person(), found, way == "whole", form.get("seen", "")):
            return look(rows, columns, taken, found, way, MEANWHILE)
    except Refused as error:
        return page(sentence(f"Nothing was stored: {error}"), 422, way)
    return flask.redirect(flask.url_for("letter_addresses.show", stored=len(found)), 303)
