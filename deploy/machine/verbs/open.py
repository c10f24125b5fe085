"""Opens the office of a register again that was closed, or has given up.

  admissions-admin open [NAME]

It starts the server, the application and the timers, also those that failed,
and waits until both answer. A server that refuses everything, as after a full
disk, is restarted.

example:
  admissions-admin open secondary-2025
"""
import argparse

from register_files import Refused

from .. import answers, brought, repairs, second_copy, serving
from ..desk import status_of


def arguments(reader: argparse.ArgumentParser) -> None:
    answers.add_register(reader)


def main(given: argparse.Namespace) -> int:
    register = answers.register_of(given)
    if said := brought.unfinished(register) or second_copy.taken_over(register):
        raise Refused(said)
    if status_of(register.socket) == serving.STOPPED:
        serving.systemctl("restart", serving.desk(register))
        print(f"restarted {serving.desk(register)}", flush=True)
    try:
        has_started = serving.start(register)
    except Refused as error:
        if found := repairs.why_silent(register):
            raise Refused(f"{error}. {found}") from error
        raise
    if not has_started:
        return 1
    print(f"{register.name} is open at https://{register.host}/")
    return 0
