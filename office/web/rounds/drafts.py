"""What the supervisor does with the lots of a draw: types them, takes them from a sheet, draws by a
seed those that decide nothing, and seals them. Each save is kept, right or wrong, until the seal.
"""
import dataclasses
from collections.abc import Mapping

from register_files import Refused

from office.core import texts
from office.core.model import Pair
from office.web.people.roles import Person

from . import again
from .draws import Draws, case_of
from .lots import MISSING, MOST_SEED, Cell, Sheet, by_seed, sheet_of, typed_lot
from .store import SAVED
from .terms import LOTS, SEALED, Draw

CLOSED = "these lots cannot be changed: they are sealed, or what they are for was cancelled"


@dataclasses.dataclass(frozen=True)
class Typed:
    """What was typed at a cell, and what the page had there before."""

    was: str
    text: str


class Drafts:
    """The lots of the draws of one application, before they are sealed."""

    def __init__(self, draws: Draws) -> None:
        self.draws, self.store, self.lock = draws, draws.store, draws.lock

    def listed(self) -> list[Draw]:
        """The draws for which lots are drawn or were sealed, the last first."""
        return [it for it in self.draws.listed() if it.who(LOTS)]

    def sheet(self, number: int) -> tuple[Draw, Sheet]:
        """A draw and its lots."""
        draw = self.draws.get(number)
        if not draw.who(LOTS):
            raise Refused("there is nobody yet for whom lots are drawn")
        return draw, sheet_of(self.store, number, draw.terms)

    def to_change(self, who: Person, number: int) -> tuple[Draw, Sheet]:
        """The same, where this person may change the lots: whoever could not seal them would choose
        them otherwise, for another supervisor to seal.
        """
        draw, sheet = self.sheet(number)
        if draw.state != LOTS:
            raise Refused(CLOSED)
        self.draws.see_second(who, case_of(draw), "somebody else draws the lots")
        return draw, sheet

    def save(self, who: Person, number: int, typed: Mapping[Cell, Typed]) -> int:
        """Keeps what was typed, and returns how many cells that changed. Where somebody else has
        saved another lot at one of these since the page was shown, nothing is kept.
        """
        with self.lock:
            draw, sheet = self.to_change(who, number)
            stored = sheet.cells()
            changed = {cell: typed_lot(it.text) for cell, it in typed.items()
                       if cell in stored and typed_lot(it.text) not in (it.was, stored[cell])}
            if other := [it for it in changed if stored[it] != typed[it].was]:
                cells = texts.count(len(other), "cell")
                raise Refused(f"somebody has saved another lot at {cells} since this page was"
                              " shown: compare them, and save again")
            self.put(who, draw, changed, "", {"lots": len(changed)})
            return len(changed)

    def put(self, who: Person, draw: Draw, cells: Mapping[Cell, str], seed: str,
            about: Mapping[str, object]) -> None:
        """Stores lots."""
        if not cells:
            return
        if stays := set(cells) & set(again.kept(self.draws, draw)):
            (code, child), _ = min(stays)
            raise Refused(f"the lot of child {child} at {code} was sealed before, and stays as it"
                          f" is: {draw.name} was undone, and is run again")
        self.draws.record(who, SAVED, draw, **about)
        with self.store.writing() as db:
            if not db.execute("SELECT 1 FROM draw WHERE id=? AND state=?",
                              (draw.number, LOTS)).fetchone():
                raise Refused(CLOSED)
            query = ("UPDATE lot SET text=?, seed=? WHERE draw=? AND school=? AND child=? AND"
                     " fill=?")
            db.executemany(query, [(text, seed or None, draw.number, *pair, at)
                                   for (pair, at), text in cells.items()])

    def take(self, who: Person, number: int, fill: int, lots: Mapping[Pair, int]) -> int:
        """Takes the lots of a sheet for one draw of the row, and returns how many changed."""
        with self.lock:
            draw, sheet = self.to_change(who, number)
            if not 0 <= fill < draw.terms.fills:
                raise Refused("there are not so many places")
            stored = sheet.cells()
            changed: dict[Cell, str] = {
                (pair, fill): str(lot) for pair, lot in lots.items()
                if stored.get((pair, fill), str(lot)) != str(lot)}
            about = {"of": draw.terms.first + fill, "sheet": len(lots), "lots": len(changed)}
            self.put(who, draw, changed, "", about)
            return len(changed)

    def draw_by_seed(self, who: Person, number: int, seed: str) -> int:
        """Draws by a seed the lots that decide nothing and are not typed yet, and returns how many.
        """
        seed = seed.strip()
        if not seed or not seed.isprintable() or len(seed) > MOST_SEED:
            raise Refused(f"a seed is a line of 1 to {MOST_SEED} characters")
        with self.lock:
            draw, sheet = self.to_change(who, number)
            drawn = {(row.pair, at): str(by_seed(seed, draw.terms.first + at, row.pair))
                     for row in sheet.rows if not row.tie
                     for at, text in enumerate(row.typed) if not text}
            if said := collision(sheet, drawn):
                raise Refused(f"{said}: use another seed")
            # (whoever reads the seed knows the lots: it is on record with the seal)
            self.put(who, draw, drawn, seed, {"lots": len(drawn), "by": "a seed"})
            return len(drawn)

    def seal(self, who: Person, number: int, seen: int, digest: str) -> None:
        """Seals the lots, after which nobody changes them."""
        with self.draws.turn(number, seen, LOTS) as draw:
            self.draws.see_second(who, case_of(draw), "somebody else seals the lots")
            sheet = sheet_of(self.store, number, draw.terms)
            if wrong := sheet.wrong():
                missing = sum(it == MISSING for it in wrong.values())
                other = len(wrong) - missing
                said = [texts.count(missing, "lot is missing", "lots are missing")] * (missing > 0)
                said += [texts.count(other, "lot is wrong", "lots are wrong")] * (other > 0)
                raise Refused(f"the lots cannot be sealed yet: {texts.listed(said)}")
            if sheet.digest() != digest:
                raise Refused("the lots have changed since this page was shown: read them again")
            self.draws.record(who, "sealed the lots", draw, digest=digest, seeds=sheet.seeds())
            with self.draws.moving(draw, who, SEALED, f"Fingerprint {digest}.", digest=digest):
                pass


def collision(sheet: Sheet, drawn: Mapping[Cell, str]) -> str:
    """Which pair would have the lot of another one, or ""."""
    known: dict[tuple[str, int, str], Pair] = {
        (row.pair[0], at, text): row.pair
        for row in sheet.rows for at, text in enumerate(row.typed) if text}
    for (pair, at), text in drawn.items():
        other = known.setdefault((pair[0], at, text), pair)
        if other != pair:
            return f"the children {other[1]} and {pair[1]} would have the same lot at {pair[0]}"
    return ""
