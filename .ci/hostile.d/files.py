"""Tries of the files beside the program: what is no history where the history should be, histories that are cut or
that have a wrong bit, files that may not be read or written, a disk that is full, and payloads that are none."""
import os
import resource
import shutil
import signal
import sqlite3
import subprocess
import threading
from pathlib import Path

from kinds import TOP, Kind, Skipped
from rich import NEW
from streams import history_fault
from trial import TEXTS, call, fault_of

FIRST = (TOP / "examples/first-install/campaign.json").read_bytes()
REPORT = (TOP / "examples/first-install/report.txt").read_bytes()
EMPTY = "e3b0c44298fc1c149afbf4c8996fb92427ae41e4649b934ca495991b7852b855"
NOBODY = 65534


def run(site, document=FIRST, **how):
    """Plays a campaign in the site's folder."""
    return call(site.program, ["run"], site.folder, document, **how)


def fault_unless(ended, status, out=None):
    """Returns what is wrong unless this is the status, with its text, and the output where it is given."""
    fault = fault_of(["run"], ended, (status,))
    if not fault and out is not None and ended.out != out:
        fault = f"wanted {out!r}, got {ended.out!r}"
    return fault


def refused_and_kept(site, *more):
    """Returns what is wrong unless a call ends with 7 before it plays anything, and leaves these files as they were."""
    paths = [site.folder / it for it in ("history.db", *more)]
    before = [it.read_bytes() for it in paths]
    fault = fault_unless(run(site), 7, b"")
    if not fault and before != [it.read_bytes() for it in paths]:
        fault = "the history's files aren't as they were"
    return fault


def real_history(path, rows=1, more=(), before=()):
    """Makes a history by Python's SQLite: a file of several pages, with no log beside it. What is asked before is asked
    of an empty database, and more of the one that was made."""
    schema = (
        "CREATE TABLE schema (number INTEGER NOT NULL) STRICT",
        "CREATE TABLE history2 (entry INTEGER PRIMARY KEY, tag TEXT NOT NULL UNIQUE, client INTEGER NOT NULL, device BLOB NOT NULL, component TEXT NOT NULL, version_old TEXT NOT NULL, version_new TEXT NOT NULL, digest BLOB NOT NULL, flags INTEGER NOT NULL, state INTEGER NOT NULL, reason INTEGER NOT NULL, time_added INTEGER NOT NULL, time_changed INTEGER NOT NULL, duration INTEGER NOT NULL, protocol TEXT, retry_of INTEGER) STRICT",
        "INSERT INTO schema VALUES (2)",
    )
    base = sqlite3.connect(path, isolation_level=None)
    for it in (*before, *schema):
        base.execute(it)
    row = (1, bytes(20), "com.example.hub", "1.0.0", "1.1.0", bytes(32), 0, 2, 0, 10, 20, 0, None, None)
    base.execute("BEGIN")
    base.executemany(
        f"INSERT INTO history2 VALUES ({', '.join('?' * 16)})", ((i, f"old{i}", *row) for i in range(1, rows + 1))
    )
    base.execute("COMMIT")
    for it in more:
        base.execute(it)
    base.close()


def db(site):
    """Returns the path of the history."""
    return site.folder / "history.db"


def a_folder(site, random):
    """A folder is no history, and is left."""
    db(site).mkdir()
    return fault_unless(run(site), 7, b"") or (None if db(site).is_dir() else "the folder is gone")


def a_pipe(site, random):
    """A pipe by name is no history, and the call doesn't wait for it."""
    os.mkfifo(db(site))
    return fault_unless(run(site), 7, b"") or (None if db(site).is_fifo() else "the pipe is gone")


def a_device(site, random):
    """A link to a device is no history that can be kept: nothing may be played."""
    os.symlink("/dev/full", db(site))
    return fault_unless(run(site), 7)


def a_link(site, random):
    """A link to a history is that history, and the link stays."""
    real_history(site.folder / "other.db")
    os.symlink("other.db", db(site))
    fault = fault_unless(run(site), 0, REPORT.replace(b" entry 1", b" entry 2"))
    return fault or (None if db(site).is_symlink() else "the link is gone")


def a_broken_link(site, random):
    """A link to nothing: the history is made where it points, or the call ends with 7."""
    os.symlink("nowhere.db", db(site))
    return fault_of(["run"], run(site), (0, 7)) or history_fault(site)


def a_circle(site, random):
    """A link to itself is no history."""
    os.symlink("history.db", db(site))
    return fault_unless(run(site), 7, b"")


def empty(site, random):
    """An empty file becomes a history, as SQLite has it."""
    db(site).touch()
    return fault_unless(run(site), 0, REPORT) or history_fault(site)


def random_file(site, random):
    """A file of any bytes is left as it is."""
    length = random.choice((2, 3, 15, 16, 17, 99, 100, 101, 511, 512, 4095, 4096, 4097, 8192, 100000))
    db(site).write_bytes(b"\x00" + random.randbytes(length - 1))
    return refused_and_kept(site)


def headed_file(site, random):
    """Any bytes behind the first words of a database are left as they are."""
    db(site).write_bytes(b"SQLite format 3\x00" + random.randbytes(random.choice((1, 83, 84, 85, 496, 4080, 8176))))
    return refused_and_kept(site)


def one_byte(site, random):
    """A file of one byte is no database, and is left as it is."""
    db(site).write_bytes(b"x")
    return refused_and_kept(site)


def other_tables(site, random):
    """A database of something else gets the tables beside its own, which stay."""
    with sqlite3.connect(db(site)) as base:
        base.execute("CREATE TABLE friends (name TEXT)")
        base.execute("INSERT INTO friends VALUES ('Ada')")
    base.close()
    fault = fault_unless(run(site), 0, REPORT)
    with sqlite3.connect(db(site)) as base:
        if not fault and base.execute("SELECT name FROM friends").fetchall() != [("Ada",)]:
            fault = "a table of somebody else isn't as it was"
    base.close()
    return fault


# Rows that no row stands for, by the column and what is put there.
NO_ROWS = [
    ("tag", "''"), ("tag", "'a b'"), ("tag", "'" + "x" * 65 + "'"), ("tag", "'é'"), ("client", "-1"),
    ("client", "4294967296"), ("device", "x'00'"), ("device", "zeroblob(21)"), ("component", "''"),
    ("component", "'" + "x" * 65 + "'"), ("version_old", "''"), ("version_new", "'a b'"), ("digest", "x''"),
    ("digest", "zeroblob(33)"), ("flags", "256"), ("flags", "-1"), ("state", "0"), ("state", "5"), ("state", "101"),
    ("reason", "-1"), ("reason", "1000"), ("time_added", "-1"), ("time_changed", "-9223372036854775808"),
    ("duration", "-1"), ("duration", "4294967296"), ("protocol", "'a b'"), ("retry_of", "-1"), ("retry_of", "4294967296"),
]


def no_row(site, number):
    """A row that no row stands for."""
    column, value = NO_ROWS[number]
    real_history(db(site), 3, [f"UPDATE history2 SET {column} = {value} WHERE entry = 2"])
    fault = fault_unless(run(site), 7)
    return fault and f"{column} = {value}: {fault}"


# Histories that are other ones than the program makes: what is done to a real one, and which statuses may come.
OTHERS = [
    ("an entry 0", ["UPDATE history2 SET entry = 0 WHERE entry = 1"], (7, 9)),
    ("an entry below 0", ["UPDATE history2 SET entry = -5 WHERE entry = 1"], (7, 9)),
    ("an entry past all", ["UPDATE history2 SET entry = 9223372036854775807 WHERE entry = 3"], (7, 9)),
    ("a row that is missing", ["DELETE FROM history2 WHERE entry = 2"], (9,)),
    ("another number", ["UPDATE schema SET number = 3"], (7,)),
    ("the older number", ["UPDATE schema SET number = 1"], (7,)),
    ("no number", ["DELETE FROM schema"], (7,)),
    ("two numbers", ["INSERT INTO schema VALUES (1)"], (7,)),
    ("no table of the rows", ["DROP TABLE history2"], (7,)),
    ("no table schema", ["DROP TABLE schema"], (7,)),
    ("a column less", ["ALTER TABLE history2 DROP COLUMN reason"], (7,)),
    ("a column of another name", ["ALTER TABLE history2 RENAME COLUMN reason TO cause"], (7,)),
    ("a view for a table", ["ALTER TABLE history2 RENAME TO h", "CREATE VIEW history2 AS SELECT * FROM h"], (7,)),
    ("an index more", ["CREATE INDEX by_client ON history2 (client)"], (0, 7)),
    ("a trigger", ["CREATE TRIGGER t AFTER INSERT ON history2 BEGIN DELETE FROM history2; END"], (0, 7)),
    ("two open rows of one device", ["UPDATE history2 SET state = 100 WHERE entry < 3"], (9,)),
]


def other_history(site, number):
    """A history that is another one than the program makes."""
    what, more, statuses = OTHERS[number]
    real_history(db(site), 3, more)
    ended = run(site)
    fault = fault_of(["run"], ended, statuses)
    return fault and f"{what}: {fault}"


def another_column(site, random):
    """A history with a column more is none of this program's: nothing is played, and it is left as it is."""
    real_history(db(site), 1, ["ALTER TABLE history2 ADD COLUMN more INTEGER"])
    return refused_and_kept(site)


def in_utf_16(site, random):
    """A history in UTF-16. KNOWN EDGE: it is refused."""
    real_history(db(site), before=["PRAGMA encoding = 'UTF-16le'"])
    return refused_and_kept(site)


def with_auto_vacuum(site, random):
    """A history that keeps its free pages for the system. KNOWN EDGE: it is refused."""
    real_history(db(site), before=["PRAGMA auto_vacuum = FULL"])
    return refused_and_kept(site)


def as_nobody():
    """Returns how a call is made by a user whom permissions bind."""
    return {"user": NOBODY, "group": NOBODY, "extra_groups": []} if os.geteuid() == 0 else {}


def own(site):
    """Gives the folder and all that is in it to the user of `as_nobody`."""
    if os.geteuid() == 0:
        for it in [site.folder, *site.folder.rglob("*")]:
            os.chown(it, NOBODY, NOBODY, follow_symlinks=False)


def of_nobody(site, random):
    """A history of the user whom permissions bind is played: what is refused below is refused for its permissions."""
    real_history(db(site))
    own(site)
    return fault_unless(run(site, **as_nobody()), 0, REPORT.replace(b" entry 1", b" entry 2"))


def read_only(site, random):
    """A history that may not be written is no history that can be kept: nothing may be played."""
    real_history(db(site))
    own(site)
    db(site).chmod(0o444)
    before = db(site).read_bytes()
    fault = fault_unless(run(site, **as_nobody()), 7, b"")
    return fault or (None if db(site).read_bytes() == before else "it was written")


def not_readable(site, random):
    """A history that may not be read."""
    real_history(db(site))
    own(site)
    db(site).chmod(0)
    return fault_unless(run(site, **as_nobody()), 7, b"")


def shut_folder(site, random):
    """A folder in which no file can be made."""
    own(site)
    site.folder.chmod(0o555)
    ended = run(site, **as_nobody())
    site.folder.chmod(0o755)
    return fault_unless(ended, 7, b"")


def shut_folder_with_history(site, random):
    """A history in a folder in which its log can't be made: nothing may be played that isn't kept."""
    real_history(db(site))
    own(site)
    site.folder.chmod(0o555)
    ended = run(site, **as_nobody())
    site.folder.chmod(0o755)
    return fault_unless(ended, 7, b"")


def full_disk(site, random):
    """A disk with no room, or with some: the history ends where the room does, and is whole before that."""
    room = random.choice((0, 1, 2, 3, 8, 16, 32, 33, 64, 65, 66, 67, 80)) * 4096
    disk = site.folder / "disk"
    disk.mkdir()
    made = subprocess.run(
        ["mount", "-t", "tmpfs", "-o", "size=2m,mode=777", "tmpfs", disk], capture_output=True
    )
    if made.returncode != 0:
        raise Skipped("no file system can be mounted here")
    try:
        shutil.copytree(site.folder / "payloads", disk / "payloads")
        with open(disk / "filler", "wb") as filler:
            try:
                while os.statvfs(disk).f_bavail * os.statvfs(disk).f_bsize > room:
                    filler.write(bytes(4096))
                    filler.flush()
            except OSError:
                pass
        first = call(site.program, ["run"], disk, FIRST)
        fault = fault_of(["run"], first, (0, 7))
        (disk / "filler").unlink()
        if not fault:
            second = call(site.program, ["run"], disk, FIRST)
            fault = fault_of(["run"], second, (0,)) or twice_written(first.out, second.out)
        return fault and f"room for {room} bytes: {fault}"
    finally:
        subprocess.run(["umount", "-l", disk], capture_output=True)


def twice_written(*reports):
    """Returns what is wrong where these calls, over one history, begin more than one write of the board."""
    marks = sum(line.count(b" began") for out in reports for line in out.split(b"\n") if b" end write " in line)
    return None if marks <= 1 else f"the board is written {marks} times: {reports!r}"


def short_files(site, random):
    """Files may not be longer than so many bytes: a write past that fails, as on a full disk."""
    most = random.choice((0, 1, 512, 4095, 4096, 8192, 32768, 65536, 131072, 135168, 266240, 270336))

    def limit():
        signal.signal(signal.SIGXFSZ, signal.SIG_IGN)
        resource.setrlimit(resource.RLIMIT_FSIZE, (most, most))

    first = run(site, preexec_fn=limit)
    fault = fault_of(["run"], first, (0, 7))
    if not fault:
        second = run(site)
        fault = fault_of(["run"], second, (0,)) or twice_written(first.out, second.out)
    return fault and f"files of at most {most} bytes: {fault}"


def few_files(site, random):
    """Few files may be open at once, but one more than the three streams, which the loader needs for the C library."""
    most = random.randrange(4, 10)
    ended = run(site, preexec_fn=lambda: resource.setrlimit(resource.RLIMIT_NOFILE, (most, most)))
    fault = fault_of(["run"], ended, (0, 4, 5, 6, 7))
    return fault and f"at most {most} files: {fault}"


def stale_log(site, random):
    """A log that belongs to another history, or to none, is none of this one's."""
    log = site.folder / "history.db-wal"
    real_history(db(site), 2)
    way = random.randrange(4)
    if way == 0:
        log.write_bytes(random.randbytes(random.choice((1, 31, 32, 33, 4120, 40000))))
    elif way == 1:
        log.touch()
    elif way == 2:
        log.write_bytes(b"\x37\x7f\x06\x82\x00\x2d\xe2\x18\x00\x00\x10\x00" + random.randbytes(8260))
    else:
        db(site).unlink()
        run(site)
        db(site).unlink()
        real_history(db(site), 2)
    ended = run(site)
    fault = fault_of(["run"], ended, (0, 7)) or (history_fault(site) if ended.status == 0 else None)
    return fault and f"way {way}: {fault}"


def log_is_folder(site, random):
    """A folder where the log should be."""
    real_history(db(site))
    (site.folder / "history.db-wal").mkdir()
    return fault_unless(run(site), 7, b"")


def torn_log(site, random):
    """A log that is cut at any byte: the rows are those of whole commits, from the first on."""
    run(site)
    log = site.folder / "history.db-wal"
    whole = log.read_bytes()
    log.write_bytes(whole[: random.choice((random.randrange(len(whole)), random.randrange(40000)))])
    ended = run(site)
    return fault_of(["run"], ended, (0, 7)) or (history_fault(site) if ended.status == 0 else None)


def wrong_bit_in_log(site, random):
    """A log with a bit turned: its checksums tell, so the rows are those of whole commits before it."""
    run(site)
    log = site.folder / "history.db-wal"
    whole = bytearray(log.read_bytes())
    at = random.choice((random.randrange(len(whole)), random.randrange(min(len(whole), 40000))))
    whole[at] ^= 1 << random.randrange(8)
    log.write_bytes(whole)
    ended = run(site)
    return fault_of(["run"], ended, (0, 7)) or (history_fault(site) if ended.status == 0 else None)


def sample(site):
    """Returns the bytes of a real history of some pages, which is made once."""
    if "history" not in site.kept:
        path = site.home / "sample.db"
        path.unlink(missing_ok=True)
        real_history(path, 120)
        site.kept["history"] = path.read_bytes()
    return site.kept["history"]


def cut_at_page(site, index, random):
    """A history that ends behind one of its pages, or some bytes later."""
    site.fresh()
    whole = sample(site)
    at = 4096 * (index // 3 % (len(whole) // 4096)) + (0, 1, 2048)[index % 3]
    db(site).write_bytes(whole[:at])
    ended = run(site)
    fault = fault_of(["run"], ended, (0,) if at == 0 else (0, 7, 9) if at == 1 else (7, 9))
    return fault and f"cut to {at} of {len(whole)} bytes: {fault}"


def wrong_bit(site, index, random):
    """A history of which one bit of the first two pages is another one."""
    site.fresh()
    whole = bytearray(sample(site))
    whole[index // 8] ^= 1 << index % 8
    db(site).write_bytes(whole)
    ended = run(site)
    fault = fault_of(["run"], ended, (0, 7, 9))
    if not fault and ended.status == 7 and not ended.out and db(site).read_bytes() != whole:
        fault = "it is refused, and isn't as it was"
    return fault and f"bit {index % 8} of byte {index // 8}: {fault}"


def payload_of(change):
    """Returns a try whose payload is changed, and what the claim must be answered."""
    return lambda site, random: payload(site, random, change)


def payload(site, random, change):
    """Plays the first install over a payload that is changed."""
    path = site.folder / "payloads" / NEW
    answer = change(path, random)
    own(site)
    ended = run(site, **as_nobody())
    fault = fault_of(["run"], ended, (0,))
    line = b"client 1 claim t1 " + answer.encode() + b"\n"
    return fault or (None if line in ended.out else f"wanted {line!r}, got {ended.out!r}")


def is_folder(path, random):
    """A folder is no payload: the shelf fails."""
    path.unlink()
    path.mkdir()
    return "refused 14 payload shelf-fault"


def is_pipe(path, random):
    """A pipe by name is no payload: the shelf fails, and doesn't wait for it."""
    path.unlink()
    os.mkfifo(path)
    return "refused 14 payload shelf-fault"


def is_device(path, random):
    """A link to a device that never ends is no payload: the shelf fails."""
    path.unlink()
    os.symlink("/dev/zero", path)
    return "refused 14 payload shelf-fault"


def is_link(path, random):
    """A link to the payload is the payload."""
    path.rename(path.with_name("other"))
    os.symlink("other", path)
    return "entry 1"


def is_broken_link(path, random):
    """A link to nothing is nothing."""
    path.unlink()
    os.symlink("nowhere", path)
    return "refused 14 payload missing"


def is_circle(path, random):
    """A link to itself is a fault."""
    path.unlink()
    os.symlink(path.name, path)
    return "refused 14 payload shelf-fault"


def is_unreadable(path, random):
    """A file that may not be read is a fault."""
    path.chmod(0)
    return "refused 14 payload shelf-fault"


def in_shut_folder(path, random):
    """A folder that may not be entered is a fault."""
    path.parent.chmod(0o600)
    return "refused 14 payload shelf-fault"


def no_shelf(path, random):
    """No folder of payloads at all: the payload isn't there."""
    shutil.rmtree(path.parent)
    return "refused 14 payload missing"


def shelf_is_file(path, random):
    """A file where the folder of payloads should be is a fault."""
    shutil.rmtree(path.parent)
    path.parent.touch()
    return "refused 14 payload shelf-fault"


def is_shorter(path, random):
    """A file that is shorter than is said."""
    length = random.randrange(14)
    path.write_bytes(path.read_bytes()[:length])
    return f"refused 14 payload length {length}"


def is_longer(path, random):
    """A file that is longer than is said."""
    more = random.choice((1, 4096, 4194304))
    path.write_bytes(path.read_bytes() + bytes(more))
    return f"refused 14 payload length {14 + more}"


def is_sparse(path, random):
    """A file of many bytes that takes no room."""
    with open(path, "r+b") as file:
        file.truncate(1 << 40)
    return f"refused 14 payload length {1 << 40}"


def empty_pipe(site, random):
    """A pipe by name where an empty payload should be: the shelf fails, and doesn't wait for it."""
    os.mkfifo(site.folder / "payloads" / EMPTY)
    text = FIRST.replace(NEW.encode(), EMPTY.encode()).replace(b'"size": 14', b'"size": 0', 1)
    ended = run(site, text)
    fault = fault_of(["run"], ended, (0,))
    return fault or (None if b"client 1 claim t1 refused 14 payload shelf-fault\n" in ended.out else f"got {ended.out!r}")


def growing(site, random):
    """A file that grows, shrinks and changes while it is read: it is taken only as it is said to be."""
    path = site.folder / "payloads" / NEW
    good = path.read_bytes()
    stop = threading.Event()

    def change():
        with open(path, "r+b", buffering=0) as file:
            while not stop.is_set():
                file.seek(0)
                file.write(random.choice((good, good, good + b"x", b"EMU1 09090909\n")))
                if random.random() < 0.5:
                    file.truncate(random.choice((14, 14, 7, 5000)))

    writer = threading.Thread(target=change)
    writer.start()
    ended = run(site)
    stop.set()
    writer.join()
    fault = fault_of(["run"], ended, (0,))
    if not fault and b" end write ok " in ended.out and b" end write ok 1.1.0 runtime" not in ended.out:
        fault = f"another payload was written: {ended.out!r}"
    return fault


HISTORIES = [
    a_folder, a_pipe, a_device, a_link, a_broken_link, a_circle, empty, one_byte, other_tables, another_column,
    in_utf_16, with_auto_vacuum, of_nobody, read_only, not_readable, shut_folder, shut_folder_with_history, log_is_folder,
]
PAYLOADS = [
    is_folder, is_pipe, is_device, is_link, is_broken_link, is_circle, is_unreadable, in_shut_folder, no_shelf,
    shelf_is_file, is_shorter, is_longer, is_sparse,
]
AT_RANDOM = [random_file, headed_file, full_disk, short_files, few_files, stale_log, torn_log, wrong_bit_in_log]


def table(rows):
    """Returns the attempt of a kind whose tries are these, each in a fresh folder."""

    def attempt(site, index, random):
        it = rows[index % len(rows)]
        site.fresh()
        fault = it(site, random)
        return fault and f"{(it.__doc__ or 'a payload').split('.')[0]}: {fault}"

    return attempt


def numbered(attempt):
    """Returns the attempt of a kind whose tries go by their number, each in a fresh folder."""

    def numbered_attempt(site, index, random):
        site.fresh()
        return attempt(site, index)

    return numbered_attempt


def kinds():
    """Returns the kinds of tries with files."""
    payloads = [payload_of(it) for it in PAYLOADS] + [empty_pipe]
    return [
        Kind("what is no history, or may not be one", table(HISTORIES), len(HISTORIES)),
        Kind("a payload that is none", table(payloads), len(payloads)),
        Kind("a row that no row stands for", numbered(no_row), len(NO_ROWS)),
        Kind("another history than the program makes", numbered(other_history), len(OTHERS)),
        Kind("a history cut behind a page", cut_at_page, 3 * 12),
        Kind("a history with a wrong bit", wrong_bit, 2 * 4096 * 8),
        Kind("random bytes, no room, few files, stale and torn logs", table(AT_RANDOM)),
        Kind("a payload that changes while it is read", table([growing])),
    ]
