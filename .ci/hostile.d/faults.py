"""Tries of calls of the system that fail: one call of one kind, by its number, is answered with an error, by the tool
strace. Whatever could not be stored is told, and the next run finds a sound history and writes nothing twice. Where a
payload can't be read, the install that wanted it is refused, and the next one finds it. A row whose mark could not be
stored isn't reported, and no row is reported twice."""
import hashlib
import json
import os
import shutil

from files import FIRST, real_history, run, twice_written
from kinds import Kind, Skipped
from marks import ALL, marks, report
from rich import NEW
from streams import history_fault
from trial import call, entries_told, fault_of

# Which calls fail, with which error, and how many there are of each at most.
CALLS = [
    ("fdatasync", "EIO", 18), ("fsync", "EIO", 6), ("pwrite64", "EIO", 22), ("pwrite64", "ENOSPC", 22),
    ("write", "EIO", 20), ("fcntl", "ENOLCK", 4), ("ftruncate", "EIO", 3), ("unlink", "EACCES", 2),
]
FAULTS = [(name, error, number) for name, error, most in CALLS for number in range(1, most + 1)]


def three_boots():
    """Returns the first install with two boots behind it, in which nothing is asked for."""
    site = json.loads(FIRST)
    site["boots"] += [{"time": 2000, "scripts": []}, {"time": 3000, "scripts": []}]
    return json.dumps(site).encode()


DOCUMENT = three_boots()


def call_failing(site, word, document, name, error, number, *only):
    """Calls a command over a document, in which that call of the system fails: that of any file, or of these paths."""
    tool = shutil.which("strace")
    if not tool:
        raise Skipped("there is no strace here")
    words = ["-f", "-o", os.devnull, *(it for path in only for it in ("-P", os.path.realpath(path)))]
    words += ["-e", f"trace={name}", "-e", f"inject={name}:error={error}:when={number}"]
    ended = call(tool, [*words, site.program, word], site.folder, document)
    if b"PTRACE" in ended.told or b"ptrace" in ended.told:
        raise Skipped("no program can be traced here")
    return ended


def fails(site, index, random):
    """One call fails, and a run over what is left goes well."""
    name, error, number = FAULTS[index]
    site.fresh()
    first = call_failing(site, "run", DOCUMENT, name, error, number)
    fault = fault_of(["run"], first, (0, 5, 7))
    if not fault:
        second = run(site, DOCUMENT)
        fault = fault_of(["run"], second, (0,)) or twice_written(first.out, second.out) or history_fault(site)
    return fault and f"call {number} of {name} fails with {error}: {fault}"


MAKING = [it for it in FAULTS if it[0] in ("fdatasync", "fsync", "pwrite64") and it[1] == "EIO"]


def log_removed(site, index, random):
    """One call fails, and then the log is removed. KNOWN EDGE: where the history was just being made, what is left may
    be a page of a file that is no database by itself; each later run leaves it, and ends with 7."""
    name, error, number = MAKING[index]
    site.fresh()
    first = call_failing(site, "run", FIRST, name, error, number)
    log, base = site.folder / "history.db-wal", site.folder / "history.db"
    log.unlink(missing_ok=True)
    left = base.read_bytes() if base.exists() else b""
    # A file of one byte is taken for one that is just being made.
    torn = len(left) > 1 and not left.startswith(b"SQLite format 3\x00")
    second = run(site)
    fault = fault_of(["run"], first, (0, 7)) or fault_of(["run"], second, (7,) if torn else (0,))
    if not fault and torn and base.read_bytes() != left:
        fault = "what is no database isn't as it was"
    return fault and f"call {number} of {name} fails with {error}, and the log is removed: {fault}"


# So many reads a payload takes, of a block of 4,096 bytes each.
READS = 3


def payload_of_blocks(site):
    """Puts a payload of so many blocks on the shelf. Returns where it lies, and a document with two installs of it."""
    shelf = site.folder / "payloads"
    payload = (shelf / NEW).read_bytes().ljust(4096 * (READS - 1) + 1, b".")
    path = shelf / hashlib.sha256(payload).hexdigest()
    path.write_bytes(payload)
    document = json.loads(FIRST)
    document["components"][0]["releases"][0] |= {"sha256": path.name, "size": len(payload)}
    script = document["boots"][0]["scripts"][0]
    script.append({**script[0], "tag": "t2"})
    return path, json.dumps(document).encode()


TOLD = (
    b"client 1 claim t1 refused 14 payload shelf-fault\n", b"client 1 claim t2 entry 1\n",
    b"client 1 entry 1 end write ok 1.1.0 runtime began ended\n",
)


def read_fails(site, index, random):
    """A read of a payload fails, the first one or one midway: that is a fault of the shelf, and the next install finds
    the payload."""
    site.fresh()
    path, document = payload_of_blocks(site)
    ended = call_failing(site, "run", document, "read,pread64,readv,preadv", "EIO", index + 1, path)
    fault = fault_of(["run"], ended, (0,))
    if not fault and not all(line in ended.out for line in TOLD):
        fault = f"got {ended.out!r}"
    return fault and f"read {index + 1} of {READS} of a payload fails: {fault}"


# Which calls that store the marks fail.
MARKING = [(name, error, number) for name, error in (("pwrite64", "EIO"), ("pwrite64", "ENOSPC"), ("fdatasync", "EIO"))
           for number in range(1, 13)]


def mark_fails(site, index, random):
    """A call that stores the marks fails: the rows before are told, and the next call tells the others, but perhaps for
    the one whose mark was in doubt."""
    name, error, number = MARKING[index]
    site.fresh()
    real_history(site.folder / "history.db", len(ALL))
    path = marks(site)
    first = call_failing(site, "report", b"", name, error, number, path, f"{path}-wal")
    second, third = report(site), report(site)
    fault = fault_of(["report"], first, (0, 7))
    fault = fault or fault_of(["report"], second, (0,)) or fault_of(["report"], third, (0,))
    before, behind = entries_told(first.out), entries_told(second.out)
    each = sorted({*before, *behind})
    lost = len(ALL) - len(each)
    if not fault and (before + behind != each or lost > (first.status == 7) or third.out):
        fault = f"told {before} with status {first.status}, then {behind}, then {third.out!r}"
    return fault and f"call {number} of {name} fails with {error}: {fault}"


def kinds():
    """Returns the kinds of tries with calls that fail."""
    return [
        Kind("a call of the system that fails, and the run after it", fails, len(FAULTS)),
        Kind("a read of a payload that fails", read_fails, READS),
        Kind("a mark that can't be stored", mark_fails, len(MARKING)),
        Kind("a call that fails, and a log that is removed", log_removed, len(MAKING)),
    ]
