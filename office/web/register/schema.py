"""The tables of the application's own file, by steps from one version to the next; and of each what
its rows are: of a child, of a season, or what the application is set up with.
"""
import dataclasses

OTHERS = "other entries of the application"
# whose the rows of a table are: of the child in the column `child`; of the children that texts of
# theirs name in lines; of children who are found in another way; or of nobody
OF_CHILD, IN_LINES, BY_ITSELF, OF_NOBODY = "child", "lines", "by itself", "nobody"


@dataclasses.dataclass(frozen=True)
class Table:
    """What the rows of a table, or of a view, are: whose; how they are named where they are
    counted, and which are; the columns with lines that name children; and those that the
    application changes by itself. What is of a season is in its archive and deleted at its end: a
    view in place of its table, which is `hidden`; and what is `passing` is not missed in an
    archive.
    """

    whose: str
    called: str = OTHERS
    counted: str = ""
    lines: tuple[str, ...] = ()
    changing: tuple[str, ...] = ()
    is_view: bool = False
    is_hidden: bool = False
    is_of_season: bool = True
    is_passing: bool = False


TABLES = {
    # what the application is set up with, and secrets
    "setting": Table(OF_NOBODY, is_of_season=False),
    "person": Table(OF_NOBODY, is_of_season=False),
    "session": Table(OF_NOBODY, is_of_season=False),
    # what is on its way to the history, and copies with their tests
    "told": Table(OF_NOBODY, is_passing=True),
    "copy": Table(OF_NOBODY, is_passing=True),
    # children
    "note": Table(OF_CHILD, "notes of children"),
    "child_file": Table(OF_CHILD, "files of children"),
    "letter": Table(OF_CHILD, "letters"),
    # what is sent in rows. (A recorded answer stays in its list, and is counted in the history)
    "sending": Table(BY_ITSELF, is_hidden=True),
    "notice": Table(OF_CHILD, "reminders and withdrawals", is_view=True),
    "answer": Table(OF_CHILD, "answers that wait in batches", "state<>'done'", is_view=True),
    "again": Table(BY_ITSELF, is_view=True),
    "school_draft": Table(OF_NOBODY, is_view=True),
    "staged_import": Table(OF_NOBODY, is_view=True),
    "notice_row": Table(IN_LINES, lines=("said",)),
    # applications
    "staged_file": Table(OF_NOBODY),
    "staged_row": Table(BY_ITSELF, "rows of files of applications"),
    # (which names schools, and nobody)
    "area_file": Table(OF_NOBODY, "files of catchment areas"),
    # draws and restores
    "draw": Table(IN_LINES, lines=("rehearsal", "audit", "trouble")),
    "draw_step": Table(IN_LINES, lines=("said",)),
    "lot": Table(BY_ITSELF, "lots that were typed or sealed"),
    "restore": Table(OF_NOBODY),
    "restore_step": Table(IN_LINES, lines=("said",)),
    # letters
    "letter_address": Table(OF_CHILD),
    "letter_audit": Table(IN_LINES, lines=("said",)),
    "letter_picture": Table(OF_NOBODY),
    "letter_sender": Table(OF_NOBODY),
    # (the application removes the file of letters that were made by itself)
    "letter_set": Table(BY_ITSELF, changing=("state", "said", "seen", "ended", "taken")),
    "letter_template": Table(OF_NOBODY, "templates of letters"),
    "letter_version": Table(OF_NOBODY),
    # lists and figures
    "figures": Table(OF_NOBODY, "figures that were made"),
    "list_view": Table(OF_NOBODY),
}


def tables_of(whose: str) -> dict[str, Table]:
    """The tables whose rows are so."""
    return {name: it for name, it in TABLES.items() if it.whose == whose}


# each step takes the file from one version to the next
STEPS = (
    """
    CREATE TABLE setting (name TEXT PRIMARY KEY, value TEXT NOT NULL) STRICT;
    CREATE TABLE person (
        name TEXT PRIMARY KEY, kind TEXT NOT NULL, role TEXT NOT NULL, hash TEXT NOT NULL,
        is_locked INTEGER NOT NULL DEFAULT 0, must_change INTEGER NOT NULL DEFAULT 0,
        added TEXT NOT NULL, signed_in TEXT) STRICT;
    CREATE TABLE session (
        digest TEXT PRIMARY KEY, person TEXT NOT NULL REFERENCES person (name) ON DELETE CASCADE,
        form TEXT NOT NULL, began REAL NOT NULL, seen REAL NOT NULL,
        is_outside INTEGER NOT NULL) STRICT;
    """,
    """
    CREATE TABLE copy (
        number INTEGER PRIMARY KEY, purpose TEXT NOT NULL, asked TEXT NOT NULL, name TEXT,
        size INTEGER, failed TEXT) STRICT;
    CREATE TABLE draw (
        id INTEGER PRIMARY KEY AUTOINCREMENT, first INTEGER NOT NULL, school TEXT,
        fills INTEGER NOT NULL, day TEXT NOT NULL, state TEXT NOT NULL, version INTEGER NOT NULL,
        copy_before INTEGER REFERENCES copy (number),
        copy_after INTEGER REFERENCES copy (number), digest TEXT, rehearsal TEXT, audit TEXT,
        restore_by TEXT) STRICT;
    CREATE TABLE draw_step (
        draw INTEGER NOT NULL REFERENCES draw (id), version INTEGER NOT NULL, at TEXT NOT NULL,
        who TEXT NOT NULL, state TEXT NOT NULL, said TEXT NOT NULL,
        PRIMARY KEY (draw, version)) STRICT;
    CREATE TABLE lot (
        draw INTEGER NOT NULL REFERENCES draw (id), school TEXT NOT NULL, child INTEGER NOT NULL,
        fill INTEGER NOT NULL, text TEXT NOT NULL, seed TEXT, tie INTEGER NOT NULL,
        PRIMARY KEY (draw, school, child, fill)) STRICT;
    """,
    # the staging table: its files, and their rows with cells, other columns and notes as JSON
    """
    CREATE TABLE staged_file (
        id INTEGER PRIMARY KEY, name TEXT NOT NULL UNIQUE, digest TEXT NOT NULL,
        is_form INTEGER NOT NULL, is_uk INTEGER NOT NULL, changes TEXT NOT NULL,
        who TEXT NOT NULL, added TEXT NOT NULL) STRICT;
    CREATE TABLE staged_row (
        id INTEGER PRIMARY KEY, file INTEGER NOT NULL REFERENCES staged_file (id),
        number INTEGER NOT NULL, cells TEXT NOT NULL, others TEXT NOT NULL, notes TEXT NOT NULL,
        state TEXT NOT NULL, version INTEGER NOT NULL DEFAULT 1, who TEXT NOT NULL,
        added TEXT NOT NULL, changed_by TEXT NOT NULL, changed TEXT NOT NULL,
        sent TEXT NOT NULL DEFAULT '', entry INTEGER, UNIQUE (file, number)) STRICT;
    CREATE INDEX staged_row_state ON staged_row (state);
    """,
    """
    CREATE TABLE school_draft (
        number INTEGER PRIMARY KEY AUTOINCREMENT, cells TEXT NOT NULL) STRICT;
    CREATE TABLE answer (
        number INTEGER PRIMARY KEY AUTOINCREMENT,
        person TEXT NOT NULL REFERENCES person (name) ON DELETE CASCADE,
        typed TEXT NOT NULL, kind TEXT NOT NULL, child INTEGER, school TEXT NOT NULL,
        name TEXT NOT NULL, seen TEXT NOT NULL, state TEXT NOT NULL, said TEXT NOT NULL,
        after INTEGER NOT NULL) STRICT;
    """,
    # what was done outside of the application, until it is in the history
    """
    CREATE TABLE told (
        number INTEGER PRIMARY KEY, key TEXT NOT NULL, who TEXT NOT NULL, what TEXT NOT NULL,
        about TEXT NOT NULL) STRICT;
    """,
    # who has asked to give up a draw whose lots are sealed
    """
    ALTER TABLE draw ADD COLUMN give_up_by TEXT;
    """,
    # where the point of a row came from, as JSON
    """
    ALTER TABLE staged_row ADD COLUMN point TEXT NOT NULL DEFAULT '';
    """,
    # why what follows a step of a draw by itself was not done
    """
    ALTER TABLE draw ADD COLUMN trouble TEXT;
    """,
    # notes and files of children, each with the child's name as it was then
    """
    CREATE TABLE note (
        number INTEGER PRIMARY KEY AUTOINCREMENT, child INTEGER NOT NULL, name TEXT NOT NULL,
        text TEXT NOT NULL, who TEXT NOT NULL, at TEXT NOT NULL, struck_by TEXT, struck_at TEXT,
        struck_why TEXT) STRICT;
    CREATE INDEX note_child ON note (child);
    CREATE TABLE child_file (
        number INTEGER PRIMARY KEY AUTOINCREMENT, child INTEGER NOT NULL, name TEXT NOT NULL,
        called TEXT NOT NULL, size INTEGER NOT NULL, digest TEXT NOT NULL, data BLOB,
        who TEXT NOT NULL, at TEXT NOT NULL, removed_by TEXT, removed_at TEXT,
        removed_why TEXT) STRICT;
    CREATE INDEX child_file_child ON child_file (child);
    """,
    # of a copy the last entry of the history before it, who asked for it, and its test; restores,
    # with what came since the copy; and of a draw the one that it repeats, and why with other lots
    """
    ALTER TABLE copy ADD COLUMN position INTEGER;
    ALTER TABLE copy ADD COLUMN who TEXT NOT NULL DEFAULT '';
    ALTER TABLE copy ADD COLUMN tested TEXT;
    ALTER TABLE copy ADD COLUMN test TEXT;
    CREATE TABLE restore (
        id INTEGER PRIMARY KEY AUTOINCREMENT, copy INTEGER NOT NULL REFERENCES copy (number),
        state TEXT NOT NULL, version INTEGER NOT NULL,
        copy_before INTEGER REFERENCES copy (number), draw INTEGER REFERENCES draw (id)) STRICT;
    CREATE TABLE restore_step (
        restore INTEGER NOT NULL REFERENCES restore (id), version INTEGER NOT NULL,
        at TEXT NOT NULL, who TEXT NOT NULL, state TEXT NOT NULL, said TEXT NOT NULL,
        PRIMARY KEY (restore, version)) STRICT;
    CREATE TABLE again (
        restore INTEGER NOT NULL REFERENCES restore (id), entry INTEGER NOT NULL,
        is_chosen INTEGER NOT NULL, state TEXT NOT NULL, said TEXT NOT NULL DEFAULT '',
        after INTEGER NOT NULL DEFAULT 0, sent INTEGER, PRIMARY KEY (restore, entry)) STRICT;
    ALTER TABLE draw ADD COLUMN repeats INTEGER REFERENCES draw (id);
    ALTER TABLE draw ADD COLUMN other_lots TEXT NOT NULL DEFAULT '';
    """,
    # letters: templates with all their versions; sets of letters that are made or were; each letter
    # as it was; audits of draws that were not held here; and rows of reminders and withdrawals
    """
    CREATE TABLE letter_template (
        id INTEGER PRIMARY KEY AUTOINCREMENT, name TEXT NOT NULL UNIQUE) STRICT;
    CREATE TABLE letter_version (
        template INTEGER NOT NULL REFERENCES letter_template (id), version INTEGER NOT NULL,
        text TEXT NOT NULL, pictures TEXT NOT NULL, who TEXT NOT NULL, at TEXT NOT NULL,
        PRIMARY KEY (template, version)) STRICT;
    CREATE TABLE letter_picture (digest TEXT PRIMARY KEY, data BLOB NOT NULL) STRICT;
    CREATE TABLE letter_set (
        id INTEGER PRIMARY KEY AUTOINCREMENT, key TEXT NOT NULL UNIQUE, who TEXT NOT NULL,
        at TEXT NOT NULL, asked TEXT NOT NULL, state TEXT NOT NULL, said TEXT NOT NULL DEFAULT '',
        seen TEXT, is_draft INTEGER NOT NULL DEFAULT 0, total INTEGER NOT NULL, ended TEXT,
        taken TEXT, sent TEXT, sent_by TEXT, recorded TEXT) STRICT;
    CREATE TABLE letter (
        id INTEGER PRIMARY KEY AUTOINCREMENT, set_id INTEGER NOT NULL REFERENCES letter_set (id),
        place INTEGER NOT NULL, child INTEGER NOT NULL, about TEXT NOT NULL, words TEXT NOT NULL,
        html BLOB NOT NULL, UNIQUE (set_id, place)) STRICT;
    CREATE INDEX letter_child ON letter (child);
    CREATE TABLE letter_audit (
        draw INTEGER PRIMARY KEY, outcome TEXT NOT NULL, is_right INTEGER NOT NULL,
        said TEXT NOT NULL, who TEXT NOT NULL, at TEXT NOT NULL) STRICT;
    CREATE TABLE notice_row (
        id INTEGER PRIMARY KEY AUTOINCREMENT, key TEXT NOT NULL UNIQUE, kind TEXT NOT NULL,
        day TEXT NOT NULL, who TEXT NOT NULL, at TEXT NOT NULL, copy INTEGER, said TEXT NOT NULL
        DEFAULT '') STRICT;
    CREATE TABLE notice (
        row_id INTEGER NOT NULL REFERENCES notice_row (id), place INTEGER NOT NULL,
        child INTEGER NOT NULL, school TEXT NOT NULL, seen TEXT NOT NULL, state TEXT NOT NULL,
        said TEXT NOT NULL, after INTEGER NOT NULL, PRIMARY KEY (row_id, place)) STRICT;
    """,
    # what a person has chosen of a list, by a name
    """
    CREATE TABLE list_view (
        number INTEGER PRIMARY KEY AUTOINCREMENT,
        person TEXT NOT NULL REFERENCES person (name) ON DELETE CASCADE,
        title TEXT NOT NULL, list TEXT NOT NULL, address TEXT NOT NULL,
        UNIQUE (person, title)) STRICT;
    """,
    # the figures that were made: the page as it is published, and what was said beside it as JSON
    """
    CREATE TABLE figures (
        number INTEGER PRIMARY KEY AUTOINCREMENT, who TEXT NOT NULL, made TEXT NOT NULL,
        page BLOB NOT NULL, digest TEXT NOT NULL, about TEXT NOT NULL,
        taken_by TEXT NOT NULL DEFAULT '', taken TEXT NOT NULL DEFAULT '') STRICT;
    """,
    # what was not understood of an answer
    """
    ALTER TABLE answer ADD COLUMN trouble TEXT NOT NULL DEFAULT '';
    """,
    # what letters say of the office, with all versions, as JSON; and where letters go, as lines
    """
    CREATE TABLE letter_sender (
        version INTEGER PRIMARY KEY, fields TEXT NOT NULL, who TEXT NOT NULL,
        at TEXT NOT NULL) STRICT;
    CREATE TABLE letter_address (
        child INTEGER PRIMARY KEY, lines TEXT NOT NULL, who TEXT NOT NULL,
        at TEXT NOT NULL) STRICT;
    """,
    # why a draw whose lots are sealed is given up
    """
    ALTER TABLE draw ADD COLUMN give_up_why TEXT NOT NULL DEFAULT '';
    """,
    # the account of the authority's provider by which a person signed in first, as JSON
    """
    ALTER TABLE person ADD COLUMN account TEXT NOT NULL DEFAULT '';
    """,
    # what is sent to the register in rows, of which answers, reminders with withdrawals, and what
    # is sent again after a restore are views: what each is about is JSON, in a form with a version
    """
    CREATE TABLE sending (
        number INTEGER PRIMARY KEY AUTOINCREMENT, kind TEXT NOT NULL, batch TEXT NOT NULL,
        place INTEGER NOT NULL, form INTEGER NOT NULL DEFAULT 1, about TEXT NOT NULL, seen TEXT,
        state TEXT NOT NULL, said TEXT NOT NULL, who TEXT NOT NULL DEFAULT '',
        after INTEGER NOT NULL DEFAULT 0, sent INTEGER) STRICT;
    CREATE INDEX sending_batch ON sending (kind, batch);
    INSERT INTO sqlite_sequence SELECT 'sending', seq FROM sqlite_sequence WHERE name='answer';
    INSERT INTO sending (number, kind, batch, place, about, seen, state, said, who, after)
        SELECT number, 'answer', person, 0, json_object('typed', typed, 'kind', kind, 'child',
            child, 'school', school, 'name', name, 'trouble', trouble), seen, state, said, person,
            after
        FROM answer;
    INSERT INTO sending (kind, batch, place, about, seen, state, said, after)
        SELECT 'notice', row_id, place, json_object('cmd', kind, 'child', child, 'school', school,
            'day', day), seen, state, notice.said, after
        FROM notice JOIN notice_row ON id=row_id ORDER BY row_id, place;
    INSERT INTO sending (kind, batch, place, about, state, said, after, sent)
        SELECT 'again', restore, entry, json_object('is_chosen', is_chosen), state, said, after,
            sent
        FROM again ORDER BY restore, entry;
    DROP TABLE answer;
    DROP TABLE notice;
    DROP TABLE again;
    CREATE VIEW answer AS SELECT number, batch AS person, about ->> 'typed' AS typed,
        about ->> 'kind' AS kind, about ->> 'child' AS child, about ->> 'school' AS school,
        about ->> 'name' AS name, seen, state, said, after, about ->> 'trouble' AS trouble
        FROM sending WHERE sending.kind='answer';
    CREATE VIEW notice AS SELECT CAST(batch AS INTEGER) AS row_id, place,
        about ->> 'child' AS child, about ->> 'school' AS school, seen, state, said, after
        FROM sending WHERE kind='notice';
    CREATE VIEW again AS SELECT CAST(batch AS INTEGER) AS restore, place AS entry,
        about ->> 'is_chosen' AS is_chosen, state, said, after, sent
        FROM sending WHERE kind='again';
    """,
    # of a row of the staging table its cells as they were read, as JSON its places in the files
    # that were replaced since, and what it was before the last correction of many rows with the
    # entry of the history that this has; and of a file which one it is to replace
    """
    ALTER TABLE staged_row ADD COLUMN first TEXT NOT NULL DEFAULT '';
    ALTER TABLE staged_row ADD COLUMN places TEXT NOT NULL DEFAULT '[]';
    ALTER TABLE staged_row ADD COLUMN mend INTEGER;
    ALTER TABLE staged_row ADD COLUMN before TEXT NOT NULL DEFAULT '';
    ALTER TABLE staged_file ADD COLUMN replaces INTEGER REFERENCES staged_file (id);
    """,
    # lines of the draft of schools are sent in rows too; their numbers stay, and no later line has
    # one of them
    """
    INSERT INTO sqlite_sequence SELECT 'sending', 0
        WHERE NOT EXISTS (SELECT 1 FROM sqlite_sequence WHERE name='sending');
    INSERT INTO sending (kind, batch, place, about, state, said)
        SELECT 'school', 'draft', number, cells, 'waits', '' FROM school_draft ORDER BY number;
    UPDATE sqlite_sequence SET seq=max(seq, coalesce((SELECT max(seq) FROM sqlite_sequence
        WHERE name='school_draft'), 0)) WHERE name='sending';
    DROP TABLE school_draft;
    CREATE VIEW school_draft AS SELECT place AS number, about AS cells, state, said, who, after
        FROM sending WHERE kind='school';
    """,
    # an import of rows of the staging table is sent so as well: what it is about is the digest of
    # its rows, which have the name of its batch
    """
    INSERT INTO sending (kind, batch, place, about, state, said, after)
        SELECT DISTINCT 'import', sent, 0, json_object('digest',
            substr(sent, instr(sent, ' ') + 1)), 'sending', '', CAST(sent AS INTEGER)
        FROM staged_row WHERE state='sending';
    CREATE VIEW staged_import AS SELECT number, batch AS sent, about ->> 'digest' AS digest, state,
        said, who, after FROM sending WHERE kind='import';
    """,
    # why a row of the staging table is set aside, or what its family was asked
    """
    ALTER TABLE staged_row ADD COLUMN remark TEXT NOT NULL DEFAULT '';
    """,
    # how an office names a draw. That of an earlier release has the number of the round by those
    # that were run before it, and the school by its code
    """
    ALTER TABLE draw ADD COLUMN name TEXT NOT NULL DEFAULT '';
    UPDATE draw SET name=CASE WHEN school IS NULL
        THEN 'round ' || (1 + (SELECT count(*) FROM draw AS other WHERE other.school IS NULL
            AND other.first<draw.first AND other.state IN ('audited', 'opened')))
        ELSE 'the offer of ' || fills || iif(fills=1, ' place', ' places') || ' at ' || school END;
    """,
    # files of catchment areas, with their features as JSON: the one in use, and one that waits
    """
    CREATE TABLE area_file (
        number INTEGER PRIMARY KEY AUTOINCREMENT, name TEXT NOT NULL, digest TEXT NOT NULL,
        who TEXT NOT NULL, added TEXT NOT NULL, named_by TEXT NOT NULL, features TEXT NOT NULL,
        used_by TEXT NOT NULL DEFAULT '', used TEXT NOT NULL DEFAULT '') STRICT;
    """,
)
