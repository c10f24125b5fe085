"""Numbers of the registers of a machine in the text format of Prometheus, as node_exporter reads
them from a folder. No label and no number is of a person: labels are names of registers, of parts,
and of results."""
import collections
import contextlib
import datetime
import json
import os
import pathlib
import shutil
import time
import typing

from register_files import Refused

from . import certificates, copies, drill, files, histories, second_copy
from .desk import NO_ANSWER, counts_of
from .findings import Report
from .registers import Register

Sample = tuple[str, dict[str, str], float]
# each with its type and what it is
METRICS = {
    "part_state": ("gauge", "How a part of a register is: 0 ok, 1 attention, 2 failed"),
    "requests_total": ("counter", "Requests that the application has answered, by status"),
    "sign_ins_failed_total": ("counter", "Sign-ins that failed, by what they were made by"),
    "commands_total": ("counter", "Requests to the register in the history, by their result"),
    "commands_unanswered": ("gauge", "Those of which no answer is known after a minute"),
    "register_bytes": ("gauge", "Size of the register's file"),
    "copies": ("gauge", "Nightly copies on this machine"),
    "copy_age_seconds": ("gauge", "Age of the nightly copy that was made last"),
    "second_copy_age_seconds": ("gauge", "Time since the copies went to the second place"),
    "drill_age_seconds": ("gauge", "Time since a restore was tried"),
    "disk_free_bytes": ("gauge", "Free room on the disk of the register, its copies, its"
                                 " application, or the second place"),
    "certificate_days": ("gauge", "Days until the site's certificate ends"),
    "written_seconds": ("gauge", "When these numbers were made, in seconds since 1970"),
}
# by whether a request is done
RESULTS = {True: "done", False: "not_done"}
# for so long a request may have no answer yet
IN_FLIGHT = datetime.timedelta(minutes=1)
ERRORS = (Refused, *NO_ANSWER)


def written(reports: dict[Register, Report], file: str | None) -> None:
    """Prints the numbers, or writes them into a file, in one step."""
    found = as_text(sample for it, report in reports.items() for sample in samples(it, report))
    if file is None:
        print(found, end="")
        return
    path = pathlib.Path(os.path.abspath(file))
    if not path.parent.is_dir():
        raise Refused(f"{path.parent} is not there, so nobody reads these numbers: apt-get install"
                      " prometheus-node-exporter")
    # (which another user reads)
    files.write(path, found, 0o644)


def as_text(found: typing.Iterable[Sample]) -> str:
    """All samples, those of one name after another."""
    by_name: dict[str, list[tuple[dict[str, str], float]]] = collections.defaultdict(list)
    for name, labels, value in found:
        by_name[name].append((labels, value))
    by_name["written_seconds"].append(({}, int(time.time())))
    lines = []
    for name, (kind, what) in METRICS.items():
        if name in by_name:
            lines += [f"# HELP admissions_{name} {what}", f"# TYPE admissions_{name} {kind}"]
        for labels, value in by_name[name]:
            # (a text of JSON is one of this format)
            shown = ",".join(f"{it}={json.dumps(text)}" for it, text in labels.items())
            lines.append(f"admissions_{name}{f'{{{shown}}}' if shown else ''} {value}")
    return "\n".join(lines) + "\n"


def samples(register: Register, report: Report) -> typing.Iterator[Sample]:
    """The numbers of one register. What cannot be read has none."""
    own = {"register": register.name}
    for part, finding in report.items():
        yield "part_state", {**own, "part": part.replace(" ", "_")}, int(finding.level)
    for source in (of_file, of_copies, of_disks, of_certificate, of_commands, of_requests):
        with contextlib.suppress(*ERRORS):
            for name, labels, value in list(source(register)):
                yield name, {**own, **labels}, value


def of_file(register: Register) -> typing.Iterator[Sample]:
    yield "register_bytes", {}, register.file.stat().st_size


def of_copies(register: Register) -> typing.Iterator[Sample]:
    made = register.nightly_copies()
    yield "copies", {}, len(made)
    if made:
        yield "copy_age_seconds", {}, round(copies.age(made[-1]))
    for name, report in (("second_copy_age_seconds", second_copy.REPORT),
                         ("drill_age_seconds", drill.REPORT)):
        path = register.copies / report
        if path.exists():
            yield name, {}, round(time.time() - path.stat().st_mtime)


def of_disks(register: Register) -> typing.Iterator[Sample]:
    folders = {"register": register.folder, "copies": register.copies,
               "application": register.office}
    if place := second_copy.folder_here():
        folders["second_place"] = place
    for name, path in folders.items():
        if path.is_dir():
            yield "disk_free_bytes", {"of": name}, shutil.disk_usage(path).free


def of_certificate(register: Register) -> typing.Iterator[Sample]:
    if register.host is not None:
        yield "certificate_days", {}, certificates.days_left(certificates.paths(register)[1])


def of_commands(register: Register) -> typing.Iterator[Sample]:
    found = histories.of_register(register).requests.values()
    for is_done, result in RESULTS.items():
        yield "commands_total", {"result": result}, sum(it.is_done is is_done for it in found)
    late = datetime.datetime.now().astimezone() - IN_FLIGHT
    count = sum(it.is_done is None and it.moment < late for it in found)
    yield "commands_unanswered", {}, count


def of_requests(register: Register) -> typing.Iterator[Sample]:
    found = counts_of(register.office_socket)
    for status, count in found.requests.items():
        yield "requests_total", {"status": status}, count
    for kind, count in found.sign_ins_failed.items():
        yield "sign_ins_failed_total", {"by": kind}, count
