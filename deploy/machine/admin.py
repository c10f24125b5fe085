"""Does what an administrator of this machine does, by a verb for each task.

  admissions-admin VERB ..
  admissions-admin VERB --help

NAME, the name of a register, may be left out if the machine has one register.
Each verb looks before it acts, and refuses with a reason. A change of what is
there is shown, and is done after a yes on the terminal, or with --yes. What is
final wants the name of the register typed. One verb at a time changes
something: a second one is refused, and names the first. The journal has who
typed what, as admissions-admin. A verb that was interrupted goes on when it is
typed again.

exit status: 0 done; 1 not or not wholly done, and the line says why: correct
that and type it again; 2 wrong arguments. That of `status` is in its help.
"""
import argparse
import contextlib
import importlib
import os
import pathlib
import shlex
import sys
import syslog
import tempfile
import typing

from office.core import run
from register_files import Refused

from . import answers, files
from .registers import COPIES, OFFICES, REGISTERS, SETTINGS

# what is written for a while
ROOMS = (pathlib.Path("/run"), pathlib.Path(tempfile.gettempdir()))


class Verb(typing.NamedTuple):
    """What a verb does, in the list of the help; and whether it only looks."""

    text: str
    looks: bool = False


VERBS = {
    "setup": Verb("make a register with its site, or what is missing of one"),
    "people": Verb("list, add, change or remove people; draw new passwords"),
    "accounts": Verb("sign people in by the accounts of the authority"),
    "holidays": Verb("replace the holidays of a register that is still empty"),
    "site": Verb("give the site another name"),
    "request": Verb("print a request for a certificate, for a CA to sign"),
    "certificate": Verb("take the certificate of the site that a CA has signed"),
    "sites": Verb("make all sites again, after a change of their template"),
    "copies": Verb("list the copies of a register, and the room that they need", looks=True),
    "copy": Verb("make a copy now, and keep it under a name"),
    "second-place": Verb("name the second place for copies, and the key for which to encrypt"),
    "drill": Verb("try whether the newest copies open"),
    "restore": Verb("bring back a copy of this machine, and its people"),
    "close": Verb("close the office of a register"),
    "open": Verb("open it again"),
    "status": Verb("report how the registers are", looks=True),
    "history": Verb("show the copies of the history, and mend one that was changed"),
    "rehearse": Verb("rehearse a takeover on a machine for trials, and end that"),
    "move": Verb("move a register to a new machine, or to a disk and back"),
    "takeover": Verb("go on with a register of a machine that is lost"),
    "evidence": Verb("after a break-in: keep what is there, and look what is true"),
    "verify": Verb("verify the folder of a release, or what is installed", looks=True),
    "uninstall": Verb("remove what is left of all registers, before the package goes"),
    "retire": Verb("delete a register for good, when its season is over"),
}


def module_of(verb: str) -> run.Command:
    """The module of a verb. The others are not loaded: what they need may be missing."""
    name = f"machine.verbs.{verb.replace('-', '_')}"
    return typing.cast(run.Command, importlib.import_module(name))


def reader_of(called: str, words: list[str]) -> argparse.ArgumentParser:
    """The reader of the arguments, with those of the verb that is typed."""
    reader = run.parser_of(called, __doc__)
    verbs = reader.add_subparsers(dest="verb", metavar="VERB", required=True, title="verbs")
    for name, verb in VERBS.items():
        of_verb = verbs.add_parser(
            name, help=verb.text, formatter_class=run.Help, allow_abbrev=False)
        if words[:1] == [name]:
            module = module_of(name)
            of_verb.description = module.__doc__
            module.arguments(of_verb)
    return reader


def main(called: str) -> int:
    """Runs the verb that is typed, and returns the exit status."""
    words = sys.argv[1:]
    verb = VERBS.get(words[0]) if words else None

    def work() -> int:
        try:
            given = reader_of(called, words).parse_args()
        except SystemExit:
            # (the help was printed)
            sys.stdout.flush()
            raise
        module = module_of(given.verb)
        if verb and verb.looks:
            status = module.main(given)
        else:
            status = changed(words, lambda: module.main(given))
        sys.stdout.flush()
        return status

    return run.ended(f"{called} {words[0]}" if verb else called, work)


def changed(words: list[str], work: typing.Callable[[], int]) -> int:
    """Does what changes something: as root, alone, and with two lines in the journal."""
    if os.geteuid() != 0:
        raise Refused("only root can do this")
    line = shlex.join(words)
    with files.lock(f"admissions-admin {line}, by the {answers.teller()}"):
        with in_journal(f"{answers.teller()}: {line}"), naming_what_is_full():
            return work()


@contextlib.contextmanager
def naming_what_is_full() -> typing.Iterator[None]:
    """Has a refusal name the folders without room, of which its reason may be; and where it is
    interrupted, say how it goes on."""
    try:
        yield
    except run.Stopped as error:
        raise Refused(f"{error}: type it again, and it goes on") from error
    except (OSError, Refused) as error:
        folders = files.without_room(REGISTERS, OFFICES, COPIES, SETTINGS, *ROOMS)
        if not folders or isinstance(error, Refused) and error.status == 2:
            raise
        said = run.said_of(error) if isinstance(error, OSError) else str(error)
        raise Refused(f"{said}. There is no room on the disk of {folders}: what was there stays."
                      " Make room, and type it again") from error


@contextlib.contextmanager
def in_journal(text: str) -> typing.Iterator[None]:
    """Has the journal say who began what, and how it ended."""
    syslog.openlog("admissions-admin", facility=syslog.LOG_AUTHPRIV)
    syslog.syslog(f"{text}: begun")
    try:
        yield
    except BaseException as error:
        syslog.syslog(syslog.LOG_WARNING, f"{text}: {error or type(error).__name__}")
        raise
    syslog.syslog(f"{text}: ended")
