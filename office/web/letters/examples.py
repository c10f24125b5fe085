"""Letters of children that do not exist, one for each state, by which a template is tried; and an
office that does not.
"""
import dataclasses
import datetime

from office.core import days, model

from . import fields
from .fields import DECLINED, Letter, Listed

OFFERED_ON, DAY = datetime.date(2025, 3, 3), datetime.date(2025, 3, 3)
REMINDED_ON = days.due_from(OFFERED_ON)
CRITERIA = ("who are looked after or were", "with a sibling at the school", "by distance alone")
WAITS = Listed("OAK", "Oak School", 1, 2, "by distance alone", 1204, 3, 17, None,
               "the last place was offered to a child by distance alone, who lives nearer, at"
               " 873 metres from the school")
GONE = Listed("ASH", "Ash School", 2, 2, "by distance alone", 2118, None, None, DECLINED)
OFFERED = Letter(
    child=17, name="Example Child", year=2025, phase="secondary", state=model.OFFERED,
    applied=datetime.date(2024, 10, 24), school="ELM", school_name="Elm School", preference=3,
    offered=OFFERED_ON, reminded=None, answer_by=days.answer_by(OFFERED_ON),
    criterion="with a sibling at the school", criterion_code="sibling", metres=1350,
    criteria=CRITERIA, ended_school=None, ended_name=None, ended_because=None,
    listed=(WAITS, GONE), closing=datetime.date(2024, 10, 31), is_late=False,
    days_left=days.NOTICE.days)
NONE = dataclasses.replace(
    OFFERED, state=fields.NONE, school=None, school_name=None, preference=None,
    offered=None, answer_by=None, criterion=None, criterion_code=None, metres=None, criteria=(),
    days_left=None)
EXAMPLES = {
    "an offer": OFFERED,
    "an offer with a reminder": dataclasses.replace(
        OFFERED, reminded=REMINDED_ON, answer_by=days.answer_by(REMINDED_ON)),
    "a place that was accepted": dataclasses.replace(
        OFFERED, state=model.ACCEPTED, offered=None, answer_by=None, days_left=None),
    "a place by a plan": dataclasses.replace(
        NONE, state=model.PLAN, school="ELM", school_name="Elm School", applied=None,
        criterion="named by an EHC plan", criterion_code=model.PLAN, criteria=CRITERIA,
        listed=()),
    "no place": dataclasses.replace(NONE, is_late=True),
    "an offer that was withdrawn": dataclasses.replace(
        NONE, ended_school="ELM", ended_name="Elm School",
        ended_because="it was not answered"),
    "no application": dataclasses.replace(NONE, applied=None, listed=()),
}
# (as the template has it by itself)
SENDER: dict[str, object] = {
    "office": "Example County Council",
    "address": ["School Admissions", "County Hall", "1 High Street", "Exampleton EX1 1AA"],
    "telephone": "01234 567890", "email": "admissions@example.gov.uk", "website": "",
    "opening": "", "closing": "", "signs": "School Admissions, Example County Council",
}
ADDRESS = ["17 Low Lane", "Exampleton", "EX2 2BB"]
