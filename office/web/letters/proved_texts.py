"""The letters of a register as the program prints them, from its server."""
from collections.abc import Iterable, Iterator, Mapping

from register_files import Refused

from office.core import senders

from .fields import Letter


def served(sender: senders.Http, children: Iterable[int]) -> Iterator[bytes]:
    """The letters of children, in their order."""
    for it in children:
        try:
            yield sender.read(f"/child/{it}/letter")
        except Refused as error:
            raise Refused(f"no letter comes for child {it}: {error}") from error


def compare(letters: Iterable[Letter], proved: Mapping[int, bytes]) -> None:
    """Refuses a letter that is not the program's."""
    for it in letters:
        if it.proved().encode() != proved[it.child]:
            raise Refused(f"the letter of child {it.child} is not what the program prints: no"
                          " letter is written. Make them again; if this is repeated, report it")
