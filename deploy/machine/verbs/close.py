"""Closes the office of a register, until it is opened again.

  admissions-admin close [NAME]

Nobody can read or record until `admissions-admin open` is typed: neither a
restart of the machine nor an upgrade opens it. Copies are made meanwhile.

example:
  admissions-admin close secondary-2025
"""
import argparse

from .. import answers, serving


def arguments(reader: argparse.ArgumentParser) -> None:
    answers.add_register(reader)
    answers.add_yes(reader)


def main(given: argparse.Namespace) -> int:
    register = answers.register_of(given)
    answers.confirm(f"the office of {register.name} is closed: nobody can read or record",
                    given.yes)
    serving.close(register)
    print(f"{register.name} is closed; next: admissions-admin open {register.name}")
    return 0
