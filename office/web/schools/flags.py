"""The office's words for flags: stored once, used on each screen, in each letter and figure."""
import json
from collections.abc import Callable, Iterable, Mapping

from register_files import Refused

from office.core import texts
from office.core.rules import LIMITS
from office.web.people import guard
from office.web.register.store import Store

SETTING = "flags"
# as they are read in a letter, on one line
MOST_WORDS = 100
NUMBERS = range(LIMITS["flag"].least, LIMITS["flag"].most + 1)
Words = dict[int, str]


def words_of(store: Store) -> Words:
    """The words by the numbers of the flags."""
    found = json.loads(store.setting(SETTING, "{}"))
    return {int(number): words for number, words in found.items()}


def text_of(words: Mapping[int, str]) -> str:
    """The words as they are stored, by which those that were shown are compared."""
    return json.dumps({str(it): words[it] for it in sorted(words)}, ensure_ascii=False)


def wrong(words: str) -> str:
    """What is wrong with the words of a flag, or ""."""
    if not texts.is_shown(words):
        return "words on one line, without characters that cannot be seen"
    return f"at most {MOST_WORDS} characters" if len(words) > MOST_WORDS else ""


def change(store: Store, seen: str, words: Words, record: Callable[[Words], None]) -> None:
    """Stores other words, if those that were shown are still there. They are on record before."""
    with store.lock:
        present = words_of(store)
        if text_of(present) != seen:
            raise Refused("the words were changed meanwhile: look at the present ones. Nothing was"
                          " stored")
        if words != present:
            record(present)
            store.set(SETTING, text_of(words))


def present() -> Words:
    """The words of this application."""
    return words_of(guard.parts().store)


def named(number: int, words: Mapping[int, str]) -> str:
    """A flag by its words, or by its number where it has none."""
    return words.get(number) or f"reason {number}"


def flag_words(numbers: Iterable[int]) -> str:
    """Flags by their words, as a screen has them."""
    words = present()
    return "; ".join(named(it, words) for it in numbers)
