"""Texts: how values are shown, names compared, and cells kept from being run by a spreadsheet."""
import collections
import functools
import math
import re
import unicodedata
from collections.abc import Iterable

LONGEST = 60
# what is typed to look for something has so many characters at most, and what else is compared and
# kept for the next time so many: a longer text is no name, and some thousands would fill the memory
MOST_SOUGHT, MOST_KEPT = 200, 1_000
# Unicode's categories of what is not shown: control and format characters, with all that turn the
# direction of the text around them, halves of pairs, characters for private use, those that are not
# assigned, and ends of lines and paragraphs
UNSHOWN = ("Cc", "Cf", "Cs", "Co", "Cn", "Zl", "Zp")
# and the names of its default ignorable characters that are of none of these
IGNORED = re.compile(
    "VARIATION SELECTOR|COMBINING GRAPHEME JOINER|KHMER VOWEL INHERENT|HANGUL.* FILLER$")
# a half of a pair of surrogates is no character, and no file takes it
HALF = re.compile("[\ud800-\udfff]")
CONTROL = re.compile("[\x00-\x1f\x7f-\x9f]")
ORDINALS = ("first", "second", "third", "fourth", "fifth", "sixth", "seventh", "eighth", "ninth",
            "tenth")
# with these a cell begins that a spreadsheet runs, also in their wide forms, and behind blanks and
# what cannot be seen, which it may leave out; and with these in any case
RUN, RUN_FIRST = frozenset("=+-@\uff1d\uff0b\uff0d\uff20"), frozenset("\t\r\n")


def shown(text: str) -> str:
    """A value as it is printed in a message: in quotes, with what cannot be seen escaped, and cut
    where it is long."""
    return f'"{cut(text)}"'


def is_text(value: object) -> bool:
    """Whether a value is a text that can be stored and shown."""
    return isinstance(value, str) and not HALF.search(value)


@functools.lru_cache(maxsize=1 << 12)
def is_seen(letter: str) -> bool:
    """Whether a character is shown, if only as a blank, and acts on nothing around it."""
    return unicodedata.category(letter) not in UNSHOWN and not IGNORED.search(
        unicodedata.name(letter, ""))


def is_shown(text: str) -> bool:
    """Whether each character of a text is shown."""
    return text.isprintable() and text.isascii() or all(map(is_seen, text))


def visible(text: str) -> str:
    """A text with what cannot be seen escaped, and what would act on a terminal."""
    return text if is_shown(text) else "".join(
        it if is_seen(it) else escaped(it) for it in text)


def escaped(letter: str) -> str:
    """A character by its number."""
    number = ord(letter)
    return f"\\u{number:04x}" if number <= 0xffff else f"\\U{number:08x}"


def cut(text: str) -> str:
    """The same without quotes."""
    text = visible(text)
    return text if len(text) <= LONGEST else text[:LONGEST] + ".."


def for_spreadsheet(text: str) -> str:
    """A text that no spreadsheet takes for a formula."""
    first = next((it for it in text if not it.isspace() and is_seen(it)), "")
    return "'" + text if first in RUN or text[:1] in RUN_FIRST else text


def cell_of(value: object) -> str:
    """A value of a command as a cell of a file of applications has it."""
    if isinstance(value, bool):
        return "yes" if value else "no"
    if isinstance(value, (list, tuple)):
        return ";".join(map(str, value))
    return str(value)


def plain(text: str) -> str:
    """A text without accents and capitals, to be put in order."""
    letters = unicodedata.normalize("NFKD", text)
    return "".join(it for it in letters if not unicodedata.combining(it)).casefold()


def folded(name: str) -> str:
    """A name without accents, capitals, punctuation and order of its parts, to be compared."""
    return kept_folded(name) if len(name) <= MOST_KEPT else made_folded(name)


@functools.lru_cache(maxsize=1 << 16)
def kept_folded(name: str) -> str:
    """The same of a name, or of a row of a list, which is compared many times."""
    return made_folded(name)


def made_folded(name: str) -> str:
    """The same, made anew."""
    return " ".join(sorted(re.sub(r"[\W_]+", " ", re.sub(r"['’`]", "", plain(name))).split()))


def is_alike(one: str, other: str) -> bool:
    """Whether two names are likely to be of one person: one has all words of the other, or a word
    differs in one letter."""
    words = (collections.Counter(folded(it).split()) for it in (one, other))
    few, many = sorted(words, key=collections.Counter.total)
    if not few - many:
        return few.total() > 1 or few == many
    ours, theirs = few - many, many - few
    return ours.total() == theirs.total() == 1 and is_one_slip(*ours, *theirs)


def is_one_slip(one: str, other: str) -> bool:
    """Whether a word becomes another by one letter more, less or replaced, or by two exchanged.
    Words of up to three letters differ too easily."""
    if max(len(one), len(other)) < 4 or abs(len(one) - len(other)) > 1:
        return False
    shorter = min(len(one), len(other))
    start = next((at for at, (a, b) in enumerate(zip(one, other)) if a != b), shorter)
    one, other = one[start:], other[start:]
    if one[:2] == other[1::-1] and one[2:] == other[2:]:
        return True
    return one[1:] == other[1:] or one == other[1:] or one[1:] == other


def metres(east: int, north: int) -> int:
    """The whole metres of a distance (the greatest number whose square is at most the sum of the
    squares)."""
    return math.isqrt(east * east + north * north)


def count(number: int, one: str, many: str | None = None) -> str:
    """A number with its noun."""
    return f"{number:,} {one if number == 1 else many or one + 's'}"


def nth(number: int) -> str:
    """Which one of a list in words, from the first to the tenth: as many as a child has schools."""
    return ORDINALS[number - 1]


def listed(items: Iterable[str]) -> str:
    """Items as a sentence has them: a, b and c."""
    *first, last = items
    return f"{', '.join(first)} and {last}" if first else last


def one_of(items: Iterable[str]) -> str:
    """Items of which one is meant, as a sentence has them: a, b or c."""
    *first, last = list(items) or [""]
    return f"{', '.join(first)} or {last}" if first else last


def spans(numbers: Iterable[int]) -> str:
    """Numbers in rising order, with those that follow each other as 3 to 9."""
    parts: list[list[int]] = []
    for it in numbers:
        if parts and parts[-1][1] == it - 1:
            parts[-1][1] = it
        else:
            parts.append([it, it])
    return ", ".join(
        str(a) if a == b else f"{a} to {b}" if b > a + 1 else f"{a}, {b}" for a, b in parts
    )
