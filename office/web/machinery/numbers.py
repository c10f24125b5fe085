"""Numbers that a browser sends, in an address or a form: short enough for the store, and for being
read at once. (Of more than some thousand digits none is read, and of twenty none is stored.)
"""
import werkzeug.routing

MOST_DIGITS = 9


class Number(werkzeug.routing.IntegerConverter):
    """A number in an address: what has more digits is no page."""

    regex = rf"[0-9]{{1,{MOST_DIGITS}}}"


def read(text: str, other: int = -1) -> int:
    """A number that was typed, or another value where it is none."""
    is_number = text.isascii() and text.isdigit() and len(text) <= MOST_DIGITS
    return int(text) if is_number else other
