"""A stress of the lock, by hand: 16 clients take some 90,000 turns in one run, while their threads are moved between
processors, slowed and stopped at random. A turn that nobody wakes for is a call that doesn't end."""
import os
import random as randoms
import signal
import subprocess
import time

import trial
from kinds import Kind
from rich import HUB, NEW, OLD, text_of
from trial import Ended, fault_of

BOARDS, BOOTS, CLIENTS = 256, 32, 16
# Each install makes 11 events, and each boot one.
EVENTS = BOARDS * BOOTS * 11 + BOOTS


def campaign(boards=BOARDS, boots=BOOTS, clients=CLIENTS):
    """Returns a campaign that installs one release after the other on each board in each boot."""
    hub = {"plugin": "flash", "instance-ids": [HUB], "flags": ["updatable"], "version-format": "triplet"}
    releases = [{"version": "1.1.0", "sha256": NEW, "size": 14}, {"version": "1.0.0", "sha256": OLD, "size": 14}]
    found = []
    for boot in range(boots):
        scripts = [[] for _ in range(clients)]
        for i in range(boards):
            item = {"do": "install", "device": f"p{i}", "tag": f"b{boot}p{i}", "version": "1.0.0" if boot % 2 else "1.1.0"}
            scripts[i % clients].append({**item, "flags": ["allow-older"]})
        found.append({"time": boot, "scripts": scripts})
    return {
        "format": 1,
        "machine": {"daemon": "1.9.5", "pool": 16384},
        "components": [{"id": "com.example.hub", "provides": [HUB], "releases": releases}],
        "boards": [{**hub, "port": f"p{i}", "physical": f"p{i}", "image": "EMU1 01000000\n"} for i in range(boards)],
        "clients": [{}] * clients,
        "boots": found,
    }


def disturb(pid, random):
    """Moves one thread to another processor, or slows it, or stops all for a moment."""
    try:
        thread = int(random.choice(os.listdir(f"/proc/{pid}/task")))
        way = random.randrange(8)
        if way == 0:
            os.kill(pid, signal.SIGSTOP)
            time.sleep(random.random() * 0.002)
            os.kill(pid, signal.SIGCONT)
        elif way < 5:
            every = sorted(os.sched_getaffinity(0))
            os.sched_setaffinity(thread, random.sample(every, random.randrange(1, len(every) + 1)))
        elif os.geteuid() == 0:
            os.setpriority(os.PRIO_PROCESS, thread, random.randrange(-5, 20))
    except (ProcessLookupError, FileNotFoundError):
        # That thread, or the program, has ended.
        return


def stress(site, index, random):
    """One run of all turns."""
    site.fresh()
    (site.folder / "campaign.json").write_text(text_of(campaign()))
    with open(site.folder / "campaign.json", "rb") as document, open(site.folder / "report", "wb") as report:
        child = subprocess.Popen(
            [site.program, "run"], cwd=site.folder, env={}, stdin=document, stdout=report, stderr=subprocess.PIPE
        )
    until = time.monotonic() + trial.LIMIT
    pauses = randoms.Random(random.random())
    while child.poll() is None and time.monotonic() < until:
        disturb(child.pid, pauses)
        time.sleep(pauses.random() * 0.001)
    late = child.poll() is None
    if late:
        child.kill()
    _, told = child.communicate()
    out = (site.folder / "report").read_bytes()
    fault = fault_of(["run"], Ended(None if late else child.returncode, out, told), (0,))
    if not fault and not out.endswith(b"\nend %d\n" % EVENTS):
        fault = f"wanted {EVENTS} events: {out[-40:]!r}"
    return fault


def kinds():
    """Returns the kind of stress."""
    return [Kind("90,144 turns of 16 clients", stress)]
