"""The parts of one application: where everything is, and what its screens share."""
import dataclasses
import json
import pathlib

from office.core import senders

from .answers.notices import Notices
from .answers.piles import Piles
from .areas.areas import Areas
from .children.notes import Notes
from .copies.copies import Copies
from .copies.restores import Restores, Restoring
from .copies.testing import CopyTests
from .explain.held_again import HeldAgain
from .frame import journal
from .frame.failures import Failures
from .letters.sets import FOLDER, Sets
from .letters.whom import Lists
from .machinery.asked import Asked
from .machinery.jobs import Jobs
from .machinery.step_jobs import StepJobs
from .people.people import People
from .register.desk import Desk
from .register.history import History
from .register.store import Store
from .rounds.drafts import Drafts
from .rounds.draws import Draws
from .rounds.following import Following
from .schools.drafts import Draft
from .schools.moves import OfCopies
from .season_end.end import SeasonEnd
from .trials.runs import Trials


@dataclasses.dataclass(frozen=True)
class Config:
    """Where an application is: the register's name; the address at which browsers find it, without
    a path; the socket of the desk; the folder that is its own; that of the copies; that of the
    site's files; the authority's name; and the socket of the machine's journal, or "" for none.
    """

    name: str
    origin: str
    door: str
    folder: pathlib.Path
    copies: pathlib.Path
    site: pathlib.Path
    authority: str = ""
    journal: str = ""


class Parts:
    """The parts of a running application."""

    def __init__(self, config: Config) -> None:
        self.config = config
        config.folder.mkdir(mode=0o700, exist_ok=True)
        self.history = History(str(config.folder / "history.jsonl"))
        send = journal.sender(config.journal) if config.journal else None
        if send:
            self.tell(journal.Journal(config.name, config.folder / "journal", send))
        self.failures = Failures(config.name, send)
        self.store = Store(str(config.folder / "office.db"))
        self.people = People(self.store)
        self.asked = Asked()
        self.areas = Areas(self.store, self.history)
        self.notes = Notes(self.store, self.history)
        self.jobs = Jobs()
        self.trials = Trials(self.jobs)
        self.held_again = HeldAgain()
        is_socket = config.door.startswith("/")
        sender = senders.Door(config.door) if is_socket else senders.Http(config.door)
        sender.called = "the register"
        self.desk = Desk(sender, self.history)
        self.copies = Copies(config.folder / "requests", config.copies, self.store, self.desk)
        self.schools = Draft(self.store, self.desk, self.jobs, self.copies)
        self.positions = OfCopies(self.copies)
        self.draws = Draws(self.store, self.history, self.desk, self.copies)
        self.lots = Drafts(self.draws)
        self.following = Following(self.draws, self.jobs)
        self.restores = Restores(
            self.store, self.history, self.desk, self.jobs, self.copies, self.draws)
        self.restoring = Restoring(self.restores, self.jobs)
        self.copy_tests = CopyTests(self.copies, self.draws)
        self.copying = StepJobs("copy", self.jobs)
        self.letters = Sets(self.store, self.history, self.desk, self.copies, self.draws,
                            config.folder / FOLDER, self.jobs)
        self.letter_lists = Lists(self.store, self.history)
        self.piles = Piles(self.store, self.desk, self.jobs, self.copies)
        self.notices = Notices(self.store, self.desk, self.jobs, self.copies, self.letters,
                               self.letter_lists)
        self.end = SeasonEnd(self)
        self.draws.closed_by_another = lambda: self.end.closed() or self.restores.closed()
        self.restores.closed_by_another = self.desk.ended = self.end.closed
        self.desk.closed = lambda: (
            self.end.closed() or self.draws.closed() or self.restores.closed())

    def tell(self, told: journal.Journal) -> None:
        """Tells the machine's journal who does what."""
        record = self.history
        told.begin(record.entries)
        record.added, record.replaced = lambda: told.go_on(record.entries), told.anew

    def closed_for(self) -> tuple[str, str, int] | None:
        """What has closed the register for all others: in words, its screen and its number there;
        None while it is open, or where its end has closed it.
        """
        if self.end.closed():
            return None
        if self.draws.closed() and (draw := self.draws.present()):
            return draw.name, "draws.one", draw.number
        restore = self.restores.present()
        if restore is None:
            return None
        return f"the restore of copy {restore.copy}", "restores.one", restore.number

    def hear(self) -> None:
        """Takes into the history what was told outside of the application, each once."""
        # (the locks in the order of all who store something and record it)
        with self.store.lock, self.history.lock:
            for it in self.store.rows("SELECT * FROM told ORDER BY number"):
                # (it is there already after a crash between the two writes)
                if it["key"] not in self.history.told:
                    about = {**json.loads(it["about"]), "told": it["key"]}
                    self.history.add(it["who"], it["what"], about)
                with self.store.writing() as db:
                    db.execute("DELETE FROM told WHERE number=?", (it["number"],))

    def close(self) -> None:
        """Ends the use of its files, and what is under way."""
        self.jobs.close()
        self.store.close()
        self.history.close()
