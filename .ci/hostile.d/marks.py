"""Tries of the file of the marks, `reports.db`, beside a history of three rows that are to be reported: what is no such
file, files that may not be read or written, other tables, and numbers that have no 32 bits. Where the marks can't be kept,
`report` ends with 7, prints nothing, and leaves the file. Where they can, a further call prints nothing."""
import os
import sqlite3

from files import as_nobody, own, real_history
from kinds import Kind
from trial import call, entries_told, fault_of

TABLE = "CREATE TABLE reported (place INTEGER PRIMARY KEY, entry INTEGER NOT NULL UNIQUE) STRICT"
ALL = [1, 2, 3]


def marks(site):
    """Returns the path of the marks."""
    return site.folder / "reports.db"


def make(path, entries=(), table=TABLE, more=(), before=()):
    """Makes a file of marks by Python's SQLite, by this table, and asks more of it."""
    base = sqlite3.connect(path, isolation_level=None)
    for it in (*before, table):
        base.execute(it)
    for it in entries:
        base.execute("INSERT INTO reported (entry) VALUES (?)", (it,))
    for it in more:
        base.execute(it)
    base.close()


def report(site, *words, **how):
    """Calls `report` in the site's folder."""
    return call(site.program, ["report", *words], site.folder, b"", **how)


def told(site, wanted, **how):
    """Returns what is wrong unless these entries are told, and nothing by a further call."""
    for entries in (wanted, []):
        ended = report(site, **how)
        fault = fault_of(["report"], ended, (0,))
        if fault or entries_told(ended.out) != entries:
            return fault or f"wanted the entries {entries}, got {ended.out!r}"
    return None


def refused(site, **how):
    """Returns what is wrong unless a call ends with 7 and prints nothing."""
    ended = report(site, **how)
    return fault_of(["report"], ended, (7,)) or (f"it prints {ended.out!r}" if ended.out else None)


def refused_and_kept(site, **how):
    """Returns what is wrong unless a call ends with 7, prints nothing, and leaves the file as it was."""
    before = marks(site).read_bytes()
    fault = refused(site, **how)
    return fault or (None if marks(site).read_bytes() == before else "the file of the marks isn't as it was")


def missing(site, random):
    """No file: it is made, and keeps the marks."""
    return told(site, ALL)


def some_marked(site, random):
    """What is marked isn't told, and a mark of an entry that no row has does nothing."""
    make(marks(site), [2, 70000])
    return told(site, [1, 3])


def empty(site, random):
    """An empty file is an empty database."""
    marks(site).touch()
    return told(site, ALL)


def one_zero(site, random):
    """One zero byte, as a crash may leave it, is an empty database."""
    marks(site).write_bytes(b"\x00")
    return told(site, ALL)


def one_byte(site, random):
    """A file of one other byte is no database."""
    marks(site).write_bytes(b"x")
    return refused_and_kept(site)


def a_text(site, random):
    """A text is no database."""
    marks(site).write_bytes(b"No database at all, but a text of some length.\n" * random.choice((1, 100)))
    return refused_and_kept(site)


def headed(site, random):
    """Any bytes behind the first words of a database are none."""
    marks(site).write_bytes(b"SQLite format 3\x00" + random.randbytes(random.choice((1, 84, 496, 4080, 8176))))
    return refused_and_kept(site)


def a_folder(site, random):
    """A folder is no file of marks, and is left."""
    marks(site).mkdir()
    return refused(site) or (None if marks(site).is_dir() else "the folder is gone")


def a_pipe(site, random):
    """A pipe by name is none, and the call doesn't wait for it."""
    os.mkfifo(marks(site))
    return refused(site) or (None if marks(site).is_fifo() else "the pipe is gone")


def a_device(site, random):
    """A link to a device is none that keeps a mark."""
    os.symlink("/dev/full", marks(site))
    return refused(site)


def a_circle(site, random):
    """A link to itself is none."""
    os.symlink("reports.db", marks(site))
    return refused(site)


def a_link(site, random):
    """A link to a file of marks is that file, and the link stays."""
    make(site.folder / "other.db", [1])
    os.symlink("other.db", marks(site))
    return told(site, [2, 3]) or (None if marks(site).is_symlink() else "the link is gone")


def the_history(site, random):
    """A link to the history: the two files are one, which the program has open already."""
    os.symlink("history.db", marks(site))
    before = (site.folder / "history.db").read_bytes()
    fault = fault_of(["report"], report(site), (0, 7))
    return fault or (None if (site.folder / "history.db").read_bytes() == before else "the history isn't as it was")


def log_is_folder(site, random):
    """A folder where the log of the marks should be."""
    make(marks(site), [1])
    (site.folder / "reports.db-wal").mkdir()
    return refused_and_kept(site)


def other_tables(site, random):
    """A database of something else gets the table beside its own, which stays."""
    make(marks(site), table="CREATE TABLE friends (name TEXT)", more=["INSERT INTO friends VALUES ('Ada')"])
    fault = told(site, ALL)
    with sqlite3.connect(marks(site)) as base:
        if not fault and base.execute("SELECT name FROM friends").fetchall() != [("Ada",)]:
            fault = "a table of somebody else isn't as it was"
    base.close()
    return fault


def of_nobody(site, random):
    """A file of the user whom permissions bind is used: what is refused below is refused for its permissions."""
    make(marks(site), [2])
    own(site)
    return told(site, [1, 3], **as_nobody())


def not_readable(site, random):
    """A file that may not be read."""
    make(marks(site), [2])
    own(site)
    marks(site).chmod(0)
    return refused_and_kept(site, **as_nobody())


def read_only(site, random):
    """A file that may not be written."""
    make(marks(site), [2])
    own(site)
    marks(site).chmod(0o444)
    return refused_and_kept(site, **as_nobody())


def no_history(site, random):
    """Beside what is no history nothing is told, and no mark is made."""
    make(marks(site), [2])
    (site.folder / "history.db").write_bytes(b"No database at all, but a text of some length.")
    return refused_and_kept(site)


def no_valid_history(site, random):
    """Beside a history that isn't valid nothing is told, and no mark is made."""
    make(marks(site), [3])
    with sqlite3.connect(site.folder / "history.db") as base:
        base.execute("DELETE FROM history2 WHERE entry = 2")
    base.close()
    before = marks(site).read_bytes()
    ended = report(site)
    fault = fault_of(["report"], ended, (9,)) or (f"it prints {ended.out!r}" if ended.out else None)
    return fault or (None if marks(site).read_bytes() == before else "the file of the marks isn't as it was")


def unsettled(site, random):
    """Rows that aren't judged aren't told."""
    with sqlite3.connect(site.folder / "history.db") as base:
        base.execute(f"UPDATE history2 SET state = {random.choice((1, 4, 100))} WHERE entry = 2")
    base.close()
    return told(site, [1, 3])


TRIES = [
    missing, some_marked, empty, one_zero, one_byte, a_text, headed, a_folder, a_pipe, a_device, a_circle, a_link,
    the_history, log_is_folder, other_tables, of_nobody, not_readable, read_only, no_history, no_valid_history,
    unsettled,
]
# Tables of that name which are other ones.
TABLES = [
    ("another column", "CREATE TABLE reported (place INTEGER PRIMARY KEY, row INTEGER NOT NULL UNIQUE) STRICT"),
    ("a column more", TABLE.replace(") STRICT", ", at INTEGER) STRICT")),
    ("a column less", "CREATE TABLE reported (place INTEGER PRIMARY KEY) STRICT"),
    ("not STRICT", TABLE.removesuffix(" STRICT")),
    ("not UNIQUE", TABLE.replace(" UNIQUE", "")),
    ("not NOT NULL", TABLE.replace(" NOT NULL", "")),
    ("no key", TABLE.replace(" PRIMARY KEY", "")),
    ("another key", "CREATE TABLE reported (place INTEGER NOT NULL UNIQUE, entry INTEGER PRIMARY KEY) STRICT"),
    ("a text", TABLE.replace("entry INTEGER", "entry TEXT")),
    ("a CHECK", TABLE.replace("UNIQUE", "UNIQUE CHECK (entry < 3)")),
    ("a view", "CREATE VIEW reported AS SELECT 1 AS place, 1 AS entry"),
]
NO_ENTRIES = (-1, 2**32, 2**63 - 1, -(2**63))


def other_table(site, index, random):
    """Another table of that name is left as it is."""
    site.fresh()
    real_history(site.folder / "history.db", 3)
    what, table = TABLES[index]
    make(marks(site), table=table)
    fault = refused_and_kept(site)
    return fault and f"{what}: {fault}"


def no_entry(site, index, random):
    """A number that has no 32 bits is among the marks."""
    site.fresh()
    real_history(site.folder / "history.db", 3)
    make(marks(site), [1, NO_ENTRIES[index]])
    fault = refused_and_kept(site)
    return fault and f"the mark {NO_ENTRIES[index]}: {fault}"


def of_table(site, index, random):
    """One try of the table, beside a history of three rows."""
    site.fresh()
    real_history(site.folder / "history.db", 3)
    fault = TRIES[index](site, random)
    return fault and f"{TRIES[index].__doc__.split('.')[0]}: {fault}"


def kinds():
    """Returns the kinds of tries with the file of the marks."""
    return [
        Kind("what is no file of marks, or may be one", of_table, len(TRIES)),
        Kind("another table of the marks", other_table, len(TABLES)),
        Kind("a mark without 32 bits", no_entry, len(NO_ENTRIES)),
    ]
