"""Makes all sites of this machine again, and nothing else.

  admissions-admin sites

It is typed after a change of the template /etc/nginx/sites-available/admissions
and after an upgrade of nginx. All sites are made, or none.

example:
  admissions-admin sites
"""
import argparse

from .. import people, serving, sites


def arguments(reader: argparse.ArgumentParser) -> None:
    """It has none."""


def main(given: argparse.Namespace) -> int:
    """Makes all sites again, and what the applications behind them need: an earlier version had
    none."""
    serving.see_needed()
    registers = [it for it in sites.registers_with_site() if it.is_made]
    for register in registers:
        serving.report(serving.make_folders(register))
    serving.report(sites.make_all())
    serving.report(serving.other_problems(None))
    serving.begin([unit for it in registers if not serving.is_closed(it)
                   for unit in serving.application(it)])
    for register in registers:
        if not people.users_of(register):
            how = f"admissions-admin people {register.name} --user NAME --role head"
            print(f"WARNING: nobody may sign in at {register.name} yet: {how}")
    return 0
