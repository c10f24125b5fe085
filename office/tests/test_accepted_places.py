"""A draw that moves a child from a place which its family had accepted: it is said before the
second person confirms, and in the letter.
"""
from draw_site import HAL, JANE, Machine, after_round, begun, brought, version
from letter_site import asked, letter_pages, made
from pages import Page


def test_a_fill_that_ends_an_accepted_place_says_so_before_it_is_confirmed(
    small: Machine,
) -> None:
    """Children 2 and 3 live nearest of those who wait at OAK, and have ELM: 2 has accepted it, and
    3 has not answered. Both move by two fills; 1 stays where it is.
    """
    with small.office() as office:
        after_round(small, office)
        small.do([{"cmd": "accept", "child": 2, "school": "ELM"}])
        number = begun(office, "OAK", 2, "2025-04-07")
        brought(office, number, "rehearsed")
        jane = office.browser("jane")
        page = Page(jane.get(f"/draws/{number}").text)
        said = "1 child gives up a place that it had accepted: they move to a school higher on"
        assert said in " ".join(page.by_id["to-look-at"].split())
        rows = {it[1]: it[3:] for it in page.tables["By child"][1:]}
        assert rows == {
            "2": ["ELM", "OAK", "first of 2: moves",
                  "By a lot Accepted place ends It had accepted ELM."],
            "3": ["ELM", "OAK", "first of 2: moves", ""]}
        only = Page(jane.get(f"/draws/{number}?what=ends").text).tables["By child: 1 of 2"]
        assert [it[1] for it in only[1:]] == ["2"]
        office.parts.draws.confirm(JANE, number, version(office, number))
        for step in ("send", "audit", "open"):
            getattr(office.parts.draws, step)(HAL, number, version(office, number))
        register = office.parts.desk.now()
        draw = next(it for it in (2, 3) if 2 in register.outcomes[it])
        path = made(jane, asked(jane, "offers", str(draw), day_of_letters="7 April 2025"))
        text = " ".join(letter_pages(jane, path))
        assert ("The place at ELM School has ended, because a place at OAK School, which you"
                " prefer, was offered") in text


def test_a_draw_that_ends_no_accepted_place_says_nothing_of_it(small: Machine) -> None:
    """The families of those who move have not answered, or hold no place."""
    with small.office() as office:
        number = begun(office)
        brought(office, number, "rehearsed")
        page = Page(office.browser("jane").get(f"/draws/{number}").text)
        assert "had accepted" not in page.text and "By child" in page.tables
