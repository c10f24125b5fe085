"""Which characters are shown: the whole classes of Unicode that are not, or that turn the direction
of the text around them, as another program knows them.
"""
import subprocess

import pytest

from office.core import texts

# (Perl has Unicode's properties, of which Python has the categories and names alone)
UNSEEN = r"[\p{Default_Ignorable_Code_Point}\p{Bidi_Control}\p{Cc}\p{Zl}\p{Zp}]"
LISTED = ("for my $it (0..0x10ffff) { next if $it >= 0xd800 && $it <= 0xdfff;"
          f" print qq($it\n) if chr($it) =~ /{UNSEEN}/ }}")


@pytest.fixture(name="unseen", scope="module")
def unseen_fixture() -> list[str]:
    """The characters that are not seen."""
    done = subprocess.run(["perl", "-e", LISTED], capture_output=True, text=True, check=True)
    found = [chr(int(it)) for it in done.stdout.split()]
    assert len(found) > 4_000 and {"\u061c", "\u3164", "\u180e", "\U000e0041"} < set(found)
    return found


def test_no_character_that_is_not_seen_passes(unseen: list[str]) -> None:
    """It is escaped by its number, and refused where a text is to be printed."""
    assert [it for it in unseen if texts.is_shown(f"a{it}b")] == []
    for it in unseen:
        number = f"u{ord(it):04x}" if ord(it) < 1 << 16 else f"U{ord(it):08x}"
        assert texts.visible(f"a{it}b") == f"a\\{number}b"


def test_no_character_that_is_not_seen_hides_a_formula(unseen: list[str]) -> None:
    """A spreadsheet may leave it out."""
    assert [it for it in unseen if texts.for_spreadsheet(f"{it} =1+1")[0] != "'"] == []


@pytest.mark.parametrize("text", [
    "Siân Tŷ Gwyn", "Zoe\u0308 O’Brien", "محمد علي", "李小龍", "क्षमा", "a\u00a0b", "12 – 14 £5 ☎ ♥"])
def test_names_and_lines_are_as_they_are(text: str) -> None:
    """With letters of all languages, accents apart, signs, and blanks that end no line."""
    assert texts.is_shown(text) and texts.visible(text) == text == texts.for_spreadsheet(text)
