"""Tries a restore: restores the newest copies of both places aside, opens them,
and counts what they have.

  admissions-admin drill [NAME] [--identity FILE]

The register and its copies are only read. It runs by itself on the first of
each month. What is encrypted at the second place is opened only with its
identity file: FILE is brought to this machine for the time of the drill, and is
lent to it in memory. `admissions-admin status` wants that every 35 days.

example:
  admissions-admin drill secondary-2025 --identity /media/usb/vault.key
"""
import argparse
import pathlib

from .. import answers, sealed
from ..programs import USER, call, of_unit


def arguments(reader: argparse.ArgumentParser) -> None:
    answers.add_register(reader)
    reader.add_argument("--identity", metavar="FILE",
                        help="the identity file that opens the copies of the second place")


def main(given: argparse.Namespace) -> int:
    register = answers.register_of(given)
    if not given.identity:
        print(call(of_unit("drill"), register.name, as_user=USER).stdout, end="")
        return 0
    with sealed.lent(pathlib.Path(answers.file(given.identity))) as path:
        words = (of_unit("drill"), register.name, "--identity", path)
        print(call(*words, as_user=USER).stdout, end="")
    return 0
