"""What was typed into a form and is asked about before it is recorded. It is kept in memory, for
the session in which it was typed, so that its question has an address: a way back leads to the form
with what was typed, and never to an answer that a browser would have to send for once more.
"""
import hashlib
import json
import threading

from werkzeug.datastructures import MultiDict

from office.web.people.roles import Person

Typed = MultiDict[str, str]
# so many are kept, of so many characters each: the ticks of a long list are the most
MOST_KEPT, MOST_CHARACTERS = 300, 400_000
SECRET = "form"


class Asked:
    """What is kept, the last of each session at each form."""

    def __init__(self) -> None:
        self.lock = threading.Lock()
        # (as texts: the fields of a long list are many objects)
        self.kept: dict[tuple[str, str], tuple[str, str]] = {}

    def keep(self, who: Person, path: str, typed: Typed) -> str:
        """Keeps what was typed into the form at a path, and returns its digest."""
        pairs = [it for it in typed.items(multi=True) if it[0] != SECRET]
        text = json.dumps(pairs)
        digest = hashlib.sha256(text.encode()).hexdigest()[:32]
        with self.lock:
            self.kept.pop((who.form, path), None)
            if len(text) <= MOST_CHARACTERS:
                self.kept[who.form, path] = digest, text
            for key in list(self.kept)[:-MOST_KEPT]:
                del self.kept[key]
        return digest

    def find(self, who: Person, path: str, digest: str = "") -> Typed | None:
        """What was typed last into a form, or what has a digest."""
        with self.lock:
            found = self.kept.get((who.form, path))
        return MultiDict(json.loads(found[1])) if found and digest in ("", found[0]) else None

    def forget(self, who: Person, path: str) -> None:
        """Keeps it no longer."""
        with self.lock:
            self.kept.pop((who.form, path), None)
