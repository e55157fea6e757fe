"""Tries of the three streams: closed ones, ones that can't be read or written, readers that leave, and inputs that
come in pieces. What is said must be right wherever a stream is left to say it, and no stream may stand in for the
history."""
import os
import signal
import sqlite3
import subprocess
import threading
import time

import trial
from documents import RICH
from kinds import Kind, Skipped
from rich import document, text_of
from trial import Ended, call, events_of, fault_of, report_fault

# How each stream may be given.
INPUTS = ("whole", "closed", "a folder", "for writing", "nothing")
OUTPUTS = ("a pipe", "closed", "full", "for reading", "a reader that left")


def open_all(input_way, output_way, error_way):
    """Returns the three streams as descriptors, with -1 for one that is to be closed, and the ends that are read."""
    ends = [None, None]
    streams = [-1, -1, -1]
    if input_way == "whole":
        streams[0], writer = os.pipe()
        os.write(writer, RICH)
        os.close(writer)
    elif input_way != "closed":
        where, how = {"a folder": ("/", os.O_RDONLY), "for writing": ("/dev/null", os.O_WRONLY)}.get(
            input_way, ("/dev/null", os.O_RDONLY)
        )
        streams[0] = os.open(where, how)
    for at, way in enumerate((output_way, error_way)):
        if way == "full":
            streams[at + 1] = os.open("/dev/full", os.O_WRONLY)
        elif way == "for reading":
            streams[at + 1] = os.open("/dev/null", os.O_RDONLY)
        elif way != "closed":
            reader, streams[at + 1] = os.pipe()
            if way == "a pipe":
                ends[at] = reader
            else:
                os.close(reader)
    return streams, ends


def call_over(site, words, streams, ends):
    """Calls the program over these streams, and reads what comes at these ends."""

    def arrange():
        # Each stream is moved out of the way first, since one may have another's number.
        moved = [os.dup2(it, 100 + at) if it >= 0 else -1 for at, it in enumerate(streams)]
        for at, it in enumerate(moved):
            if it < 0:
                os.close(at)
            else:
                os.dup2(it, at)
        os.closerange(3, 256)

    child = subprocess.Popen([site.program, *words], cwd=site.folder, env={}, preexec_fn=arrange, close_fds=False)
    for it in streams:
        if it >= 0:
            os.close(it)
    got = [b"", b""]

    def read(at):
        with open(ends[at], "rb") as end:
            got[at] = end.read()

    readers = [threading.Thread(target=read, args=(at,)) for at in range(2) if ends[at] is not None]
    for it in readers:
        it.start()
    try:
        status = child.wait(trial.LIMIT)
    except subprocess.TimeoutExpired:
        child.kill()
        child.wait()
        status = None
    for it in readers:
        it.join()
    return Ended(status, *got)


def wanted_status(command, input_way, output_way):
    """Returns the status that such streams must give, whichever one is looked at first."""
    if command == "ids":
        return 0 if output_way == "a pipe" else 5
    if input_way == "nothing":
        return 3
    if input_way != "whole":
        return 4
    return 0 if output_way == "a pipe" else 5


def streams(site, index, random):
    """Each way of each stream, with three commands."""
    command = ("run", "check", "ids")[index % 3]
    index //= 3
    ways = INPUTS[index % 5], OUTPUTS[index // 5 % 5], OUTPUTS[index // 25]
    if "full" in ways and not os.path.exists("/dev/full"):
        raise Skipped("there is no /dev/full")
    site.fresh()
    ended = call_over(site, [command, *(["a"] if command == "ids" else [])], *open_all(*ways))
    what = f"{command}, input {ways[0]}, output {ways[1]}, error {ways[2]}"
    wanted = wanted_status(command, ways[0], ways[1])
    if ended.status != wanted:
        return f"{what}: wanted {wanted}, got {ended}"
    if ways[2] != "a pipe":
        ended.told = trial.TEXTS[ended.status].encode()
        if ended.status == 3:
            ended.told = b"fwupdemu: document: document 0 0 0 text: not-json\n"
    if ways[1] != "a pipe" and ended.status == 0:
        ended.status, ended.told = 5, trial.TEXTS[5].encode()
    fault = fault_of([command], ended) or history_fault(site)
    return fault and f"{what}: {fault}"


def history_fault(site):
    """Returns what is wrong with the history that a call left, as SQLite reads it."""
    path = site.folder / "history.db"
    if not path.exists():
        return None
    with sqlite3.connect(path) as base:
        sound = base.execute("PRAGMA integrity_check").fetchone()[0]
        tables = sorted(it[0] for it in base.execute("SELECT name FROM sqlite_schema WHERE type = 'table'"))
    base.close()
    if sound != "ok" or tables != ["history2", "schema"]:
        return f"a history with {tables}, of which SQLite says {sound!r}"
    return None


# A campaign whose report is longer than what a pipe holds.
ASKS = [{"do": "get-devices"}] * 2000
LONG = text_of({**document(), "boots": [{"time": 1, "scripts": [ASKS, ASKS]}]}).encode()


def leaving(site, index, random):
    """The reader of the output takes some bytes and leaves."""
    taken = random.choice((0, 1, 17, 18, 19, random.randrange(4096), random.randrange(65536), random.randrange(400000)))
    child = subprocess.Popen(
        [site.program, "run"], cwd=site.fresh(), env={}, stdin=subprocess.PIPE, stdout=subprocess.PIPE,
        stderr=subprocess.PIPE,
    )
    timer = threading.Timer(trial.LIMIT, child.kill)
    timer.start()
    child.stdin.write(LONG)
    child.stdin.close()
    child.stdin = None
    out = child.stdout.read(taken)
    child.stdout.close()
    told = child.stderr.read()
    ended = Ended(child.wait(), out, told)
    child.stderr.close()
    timer.cancel()
    return fault_of(["run"], ended, (5,)) or report_fault(out, False)


def slow(site, index, random):
    """The input comes byte by byte, or in pieces of random length with pauses between them."""
    child = subprocess.Popen(
        [site.program, "run"], cwd=site.fresh(), env={}, stdin=subprocess.PIPE, stdout=subprocess.PIPE,
        stderr=subprocess.PIPE, bufsize=0,
    )
    timer = threading.Timer(trial.LIMIT, child.kill)
    timer.start()
    cut = random.randrange(len(RICH)) if index % 4 == 3 else len(RICH)
    at = 0
    while at < cut:
        piece = 1 if index % 2 == 0 else random.choice((1, 2, 100, 1000, 4096))
        child.stdin.write(RICH[at : min(at + piece, cut)])
        at += piece
        if random.random() < 0.01:
            time.sleep(0.001)
    out, told = child.communicate()
    timer.cancel()
    ended = Ended(child.returncode, out, told)
    return fault_of(["run"], ended, (0,) if cut == len(RICH) else (3,))


def stopped(site, index, random):
    """The process is stopped and goes on, and gets signals that it need not heed."""
    child = subprocess.Popen(
        [site.program, "run"], cwd=site.fresh(), env={}, stdin=subprocess.PIPE, stdout=subprocess.PIPE,
        stderr=subprocess.PIPE,
    )
    for _ in range(random.randrange(1, 6)):
        os.kill(child.pid, random.choice((signal.SIGSTOP, signal.SIGWINCH, signal.SIGURG, signal.SIGCHLD)))
        time.sleep(random.random() * 0.01)
        os.kill(child.pid, signal.SIGCONT)
    try:
        out, told = child.communicate(RICH, timeout=trial.LIMIT)
    except subprocess.TimeoutExpired:
        child.kill()
        child.communicate()
        return fault_of(["run"], Ended(None, b"", b""))
    return fault_of(["run"], Ended(child.returncode, out, told), (0,))


def kinds():
    """Returns the kinds of tries with streams."""
    return [
        Kind("each way of each stream", streams, 375),
        Kind("a reader that leaves", leaving),
        Kind("an input in pieces", slow),
        Kind("a process that is stopped and goes on", stopped),
    ]
