"""Applications from an Excel file: what is wrong in it is corrected at its cells, and all are
stored; and plans.
"""
from typing import Any

from selenium.webdriver.common.by import By
from selenium.webdriver.remote.webelement import WebElement

from . import town
from .allocation import Child
from .hands import Hands
from .office import HAL, Office
from .report import Stopped

# so many rows are corrected before they are saved
AT_ONCE = 2


def from_workbook(office: Office) -> None:
    """The Excel file is added, and what is wrong is named at its cells."""
    report, hal = office.report, office.people[HAL]
    given = list(office.season.children.values())
    report.step("applications from an Excel file, with ten that have an error")
    path = office.folder / "applications.xlsx"
    town.write(path, town.COLUMNS, town.rows(given))
    hal.see("Add Excel files (.xlsx) or CSV files")
    hal.choose("Add Excel files (.xlsx) or CSV files", path)
    hal.see(f"applications.xlsx is added: {len(given) + 1} rows.")
    hal.look("Applications, with errors")
    report.see(hal.driver.execute_script(
        "const it = document.querySelector('#rows .region');"
        "return it.scrollWidth <= it.clientWidth"), "the table is wider than its window")
    wrong = len(town.FAULTS) + 1
    hal.see(f"{wrong} rows have errors of {wrong} kinds")
    hal.see(f"To check {len(town.LATE)}")
    for child, fault in town.wrong_rows(given):
        said = found_at(hal, child, fault.column)
        report.see(fault.said in said, f"at {fault.column} of child {child.number} is {said!r},"
                   f" and not {fault.said!r}")
    twice = found_at(hal, town.doubled(given), "child")
    report.see(town.DOUBLED in twice, f"at the doubled child is {twice!r}")


def row_of(hands: Hands, child: Child) -> WebElement:
    """The row of a child: of two with its number, the one with its home."""
    found: list[WebElement] = hands.driver.execute_script(
        "const number = (row) => row.querySelector(`input[name^='child-']`)?.value"
        " ?? row.cells[1].innerText.trim();"
        "const has = (row, text) => row.innerText.includes(text)"
        " || [...row.querySelectorAll('input')].some((it) => it.value === text);"
        "const rows = [...document.querySelectorAll('tr.mend')].filter("
        "(row) => number(row) === arguments[0]);"
        "return rows.length > 1 ? rows.filter((row) => has(row, arguments[1])) : rows",
        str(child.number), str(child.east))
    if len(found) != 1:
        raise Stopped(f"{len(found)} rows of child {child.number}: {hands.main[:600]}")
    return found[0]


def cell(row: WebElement, column: str) -> WebElement:
    """The field of a cell."""
    return row.find_element(By.CSS_SELECTOR, f"input[name^='{column}-']")


def found_at(hands: Hands, child: Child, column: str) -> str:
    """What is said at a cell that is marked as wrong."""
    field = cell(row_of(hands, child), column)
    if field.get_attribute("aria-invalid") != "true":
        return ""
    about = field.get_attribute("aria-describedby")
    return hands.text(f"[id='{about}']")


def corrected(office: Office) -> None:
    """Each cell is corrected where it is, and saved by Enter, the first two at once; the doubled
    row is set aside.
    """
    report, hal = office.report, office.people[HAL]
    given = list(office.season.children.values())
    report.step("they are corrected at their cells")
    wrong = list(town.wrong_rows(given))
    left = len(town.FAULTS) + 1 - len(wrong[:AT_ONCE])
    several(hal, [(it, fault.column) for it, fault in wrong[:AT_ONCE]])
    hal.see(f"Saved: {AT_ONCE} rows; nothing is wrong in them.")
    hal.see(f"With errors {left}")
    for child, fault in wrong[AT_ONCE:]:
        if fault.column == "preferences":
            slip(hal, child)
        typed(hal, child, fault.column, town.texts_of(child)[fault.column])
        # (another row has the number of one until that is set aside)
        is_twice = child.number == town.doubled(given).number
        left -= not is_twice
        hal.see("1 error left" if is_twice else "nothing is wrong in it.",
                f"child {child.number}, {fault.column}")
        hal.see(f"With errors {left}")
    twice = row_of(hal, town.doubled(given))
    hal.press("Set aside", twice)
    hal.see("Set aside: ")


def several(hal: Hands, cells: list[tuple[Child, str]]) -> None:
    """Cells of several rows get their right texts. What was typed is there after a reload, and all
    rows are saved at once.
    """
    for child, column in cells:
        hal.into(cell(row_of(hal, child), column))
        hal.replace(town.texts_of(child)[column])
    hal.reload()
    hal.report.see("What you typed here is not saved yet." in hal.main,
                   f"what was typed is gone after a reload: {hal.main[:300]}")
    hal.into(cell(row_of(hal, cells[-1][0]), cells[-1][1]))
    hal.enter()


def typed(hal: Hands, child: Child, column: str, text: str) -> None:
    """A cell gets another text, and its row is saved."""
    field = cell(row_of(hal, child), column)
    if field != hal.driver.switch_to.active_element:
        hal.into(field)
    hal.replace(text)
    hal.enter()


def slip(hal: Hands, child: Child) -> None:
    """A cell gets another wrong text first: it has the focus until it is right."""
    typed(hal, child, "preferences", "A;A")
    hal.see("1 error left")
    here = cell(row_of(hal, child), "preferences")
    hal.report.see(here == hal.driver.switch_to.active_element,
                   "the cell that is still wrong does not have the focus after the save")


def stored(office: Office) -> None:
    """All are stored by the question that names how many there are, to which the last correction
    has led.
    """
    report, hal = office.report, office.people[HAL]
    given = list(office.season.children.values())
    report.step("they are stored")
    report.same(hal.title, "Add to the register", "the screen after the last correction")
    facts, late = hal.facts(), len(town.LATE)
    in_time = len(given) - late
    report.same(facts.get("Applications"), str(len(given)), "applications to be stored")
    report.see(facts.get("In time", "").startswith(f"{in_time},"),
               f"in time: {facts.get('In time')}")
    report.same(facts.get("Late"), str(late), "late ones to be stored")
    report.same(facts.get("To check first"), f"{late} rows", "rows that should be checked first")
    report.same(facts.get("Looked after"), str(sum(it.looked_after for it in given)),
                "looked after of those to be stored")
    hal.see(f"Shall {len(given)} applications be added to the register, {in_time} in time and"
            f" {late} late?")
    hal.press(f"Add {len(given)} applications")
    hal.see(f"Added to the register: {len(given)} applications")
    kept = {it["child"]: it for it in office.read("/register")["children"]}
    for child in given:
        report.same(data_of(kept.get(child.number)), wanted_of(child),
                    f"child {child.number} in the register")


def data_of(found: Any) -> dict[str, Any] | None:
    """A child of the register with its application."""
    if not found or not found["application"]:
        return None
    names = ("child", "name", "east", "north", "looked_after", "flags", "siblings", "present")
    listed = [it["school"] for it in found["application"]["preferences"]]
    return {name: found[name] for name in names} | {
        "day": found["application"]["day"], "preferences": listed}


def wanted_of(child: Child) -> dict[str, Any]:
    """The same of a child of the town."""
    return {"child": child.number, "name": child.name, "east": child.east, "north": child.north,
            "looked_after": child.looked_after, "flags": list(child.flags),
            "siblings": list(child.siblings), "present": child.present,
            "day": child.day.isoformat(), "preferences": list(child.preferences)}


def plans(office: Office) -> None:
    """Two plans, typed as a column into the batch, and recorded after a question that names
    them.
    """
    report, hal, season = office.report, office.people[HAL], office.season
    report.step("two plans are recorded")
    children = list(season.children.values())
    named = [(children[9], "A"), (children[33], "DEAN")]
    hal.open("/")
    hal.press("Record EHC plans")
    hal.tab_to("Paste a column of numbers or names, or rows such as 23 Bo Bell ELM decline")
    hal.type("\n".join(f"plan,{it.number},{school},{it.name}" for it, school in named))
    hal.press_by_keys("Add to the batch")
    hal.press("Record 2 answers")
    hal.see("2 of them are final:")
    for it, school in named:
        hal.see(f"plan: child {it.number}, {it.name}, at {school}")
    hal.press("Record 2 answers")
    hal.see("2 of 2 answers are recorded.")
    for it, school in named:
        season.plan(it.number, school)
    office.compare("the plans")
