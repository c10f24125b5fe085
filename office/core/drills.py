"""What a drill says of a copy of a register that was opened: its season, and what it has."""
from .model import Register


def in_words(found: Register) -> str:
    """The season of a register, and how much it has."""
    counts = {
        "schools": len(found.schools),
        "children": len(found.children),
        "applications": len(found.applications),
        "places": len(found.places),
        "rounds and fills": len(found.draws),
    }
    text = ", ".join(f"{number} {name}" for name, number in counts.items())
    return f"{found.phase} {found.year}: {text}"
