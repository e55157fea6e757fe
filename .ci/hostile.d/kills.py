"""Tries of kills at random times: runs over one history are killed, and the next run finds what it needs. No request is
done twice, each row that was begun is judged, and the file stays a sound database. Behind each run a call of `report`
is killed, and the next one tells the rows that are left: no row is told twice, and each that is judged is marked."""
import shutil
import sqlite3
import subprocess
import time

import trial
from kinds import Kind
from rich import HUB, NEW, document, text_of
from trial import Ended, call, entries_told, fault_of

BOARDS = 12
# The number of the state of a row that is begun.
BEGUN = 100


def campaign(number):
    """Returns the document of one run: each board gets a new request, and those of the last two runs come again, so
    that a request is asked for after the run that was killed over it. The second boot does what was put off."""
    base = document()
    hub = {k: v for k, v in base["boards"][1].items() if k not in ("parent", "faults", "loader-instance-ids", "counterparts")}
    hub.update({"plugin": "flash", "flags": ["updatable"]})
    boards = [{**hub, "port": f"p{i}", "physical": f"p{i}"} for i in range(BOARDS)]
    scripts = [[] for _ in range(4)]
    for run in (number - 2, number - 1, number):
        for i in range(BOARDS):
            item = {"do": "install", "device": f"p{i}", "tag": f"r{run}b{i}", "version": "1.1.0"}
            item["flags"] = ["allow-reinstall"] + (["offline"] if (run + i) % 5 == 0 else [])
            scripts[i % 4].append(item)
    return text_of(
        {
            "format": 1,
            "machine": {"daemon": "1.9.5", "pool": 16},
            "components": [
                {"id": "com.example.hub", "provides": [HUB], "releases": [{"version": "1.1.0", "sha256": NEW, "size": 14}]}
            ],
            "boards": boards,
            "clients": [{}] * 4,
            "boots": [{"time": 1000, "scripts": scripts}, {"time": 2000, "scripts": []}],
        }
    ).encode()


def killed(site, word, document, seconds):
    """Starts this command and kills it after so long, if it hasn't ended. Returns its output, and what is wrong."""
    child = subprocess.Popen(
        [site.program, word], cwd=site.folder, env={}, stdin=subprocess.PIPE, stdout=subprocess.PIPE,
        stderr=subprocess.PIPE,
    )
    child.stdin.write(document)
    child.stdin.close()
    child.stdin = None
    try:
        child.wait(seconds)
    except subprocess.TimeoutExpired:
        child.kill()
    out, told = child.communicate()
    if child.returncode == -9:
        return out, None
    return out, fault_of([word], Ended(child.returncode, out, told), (0,))


def copied(site):
    """Returns a folder with copies of the files of the history and of the marks."""
    copy = site.home / "copy"
    shutil.rmtree(copy, ignore_errors=True)
    copy.mkdir()
    for it in site.folder.glob("*.db*"):
        shutil.copyfile(it, copy / it.name)
    return copy


def rows_fault(site):
    """Returns what is wrong with the history after a run that came to its end, as SQLite reads a copy of it."""
    base = sqlite3.connect(copied(site) / "history.db")
    try:
        sound = base.execute("PRAGMA integrity_check").fetchone()[0]
        if sound != "ok":
            return f"SQLite says of the history: {sound!r}"
        begun = base.execute("SELECT tag FROM history2 WHERE state = ?", (BEGUN,)).fetchall()
        if begun:
            return f"rows stay begun: {begun!r}"
        twice = base.execute("SELECT tag FROM history2 GROUP BY tag HAVING count(*) > 1").fetchall()
        return f"tags with two rows: {twice!r}" if twice else None
    finally:
        base.close()


def marks_fault(site):
    """Returns what is wrong with the marks after a `report` that came to its end, as SQLite reads a copy of them."""
    copy = copied(site)
    base = sqlite3.connect(copy / "history.db")
    try:
        base.execute("ATTACH ? AS marks", (str(copy / "reports.db"),))
        sound = base.execute("PRAGMA marks.integrity_check").fetchone()[0]
        if sound != "ok":
            return f"SQLite says of the marks: {sound!r}"
        judged = [it[0] for it in base.execute("SELECT entry FROM history2 WHERE state IN (2, 3) ORDER BY entry")]
        marked = [it[0] for it in base.execute("SELECT entry FROM reported ORDER BY entry")]
    finally:
        base.close()
    if marked != judged:
        return f"these rows are judged: {judged}, and these are marked: {marked}"
    lost = set(judged) - site.kept["told"]
    return f"after {site.kept['cut']} kills nobody was told of {sorted(lost)}" if len(lost) > site.kept["cut"] else None


def told_fault(site, out):
    """Returns what is wrong where a `report` tells a row that an earlier one told."""
    entries = entries_told(out)
    twice = site.kept["told"].intersection(entries)
    site.kept["told"].update(entries)
    return f"rows that were told before: {sorted(twice)}" if twice else None


def reports_fault(site, random):
    """Kills a `report`, and lets the next come to its end. Returns what is wrong with what they tell and mark."""
    cut, fault = killed(site, "report", b"", random.random() * site.kept["reports"])
    site.kept["cut"] += 1
    started = time.monotonic()
    whole = call(site.program, ["report"], site.folder)
    site.kept["reports"] = (site.kept["reports"] * 3 + time.monotonic() - started) / 4
    fault = fault or fault_of(["report"], whole, (0,)) or told_fault(site, cut) or told_fault(site, whole.out)
    return fault or marks_fault(site)


def entries_of(out):
    """Returns the entries whose write this report begins, each as often as it does."""
    return [line.split()[3] for line in out.split(b"\n") if b" end write " in line and b" began" in line]


def writes_fault(site, out):
    """Returns what is wrong where a report begins the write of an entry that an earlier one began."""
    begun = site.kept.setdefault("begun", set())
    for entry in entries_of(out):
        if entry in begun:
            return f"the write of entry {entry.decode()} begins twice"
        begun.add(entry)
    return None


def kill(site, index, random):
    """Kills one run, and lets the next come to its end, over the history of all kills before; then `report` so too."""
    if site.kept.get("made") is None:
        site.fresh()
        started = time.monotonic()
        whole = call(site.program, ["run"], site.folder, campaign(0))
        takes = time.monotonic() - started
        site.kept.update(made=1, takes=takes, begun=set(), told=set(), cut=0, reports=takes)
        fault = fault_of(["run"], whole, (0,)) or writes_fault(site, whole.out)
        if fault:
            return fault
    number = site.kept["made"]
    site.kept["made"] += 1
    text = campaign(number)
    out, fault = killed(site, "run", text, random.random() * site.kept["takes"])
    fault = fault or writes_fault(site, out)
    if not fault:
        started = time.monotonic()
        whole = call(site.program, ["run"], site.folder, text)
        site.kept["takes"] = (site.kept["takes"] * 3 + time.monotonic() - started) / 4
        fault = fault_of(["run"], whole, (0,)) or writes_fault(site, whole.out) or rows_fault(site)
    fault = fault or reports_fault(site, random)
    if fault:
        site.kept["made"] = None
    return fault and f"after kill {number}: {fault}"


def kinds():
    """Returns the kinds of tries with kills. All of one worker's go over one history, so `--jobs 1` has one for all."""
    return [Kind("a kill at a random time, and the call after it", kill)]
