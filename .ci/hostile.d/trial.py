"""Calls of the built program, and what may come of any of them: one of the statuses of docs/FORMATS.md with its text on
standard error, and on standard output what the command writes, a front of it, or nothing. Never a signal, and never
a call that doesn't end."""
import json
import os
import re
import subprocess
from dataclasses import dataclass

# So many seconds a call may take. A call takes some milliseconds, and the largest documents a second; but where the
# machine is busy with proofs, each second may become a minute.
LIMIT = 300.0

NAME = r"[!-~]{1,64}"
NUMBER = r"(?:0|[1-9][0-9]*)"
SECTIONS = "document|format|machine|quirks|components|remotes|boards|clients|boots"
REASON = (
    r"(?:not-json|wrong-kind|missing|bad-guid|bad-version|bad-digest|bad-pattern \d+|bad-compare|too-many|repeated"
    r"|bad-quirk [1-5] \d+|bad-reference)"
)
TEXTS = {
    0: "",
    2: "fwupdemu: usage\n",
    3: rf"fwupdemu: (?:document: (?:{SECTIONS}) {NUMBER} {NUMBER} {NUMBER} [a-z0-9-]+: {REASON}"
    r"|document is longer than 16777216 bytes)\n",
    4: "fwupdemu: reading failed\n",
    5: "fwupdemu: writing failed\n",
    6: "fwupdemu: no memory\n",
    7: "fwupdemu: history failed\n",
    9: rf"fwupdemu: history row {NUMBER}\n",
}

PROBLEM = (
    "(?:system-power-too-low|unreachable|power-too-low|update-pending|require-ac-power|lid-is-closed|update-in-progress)"
)
CAUSE = (
    "(?:1 id-missing|2 version-compare|3 no-bootloader-version|4 vendor-mismatch|5 no-such-device|6 no-such-ancestor"
    rf"|7 device-in-use {NUMBER}|8 hardware-missing|9 hardware-forbidden|10 client-feature-missing)"
)
STATE = "(?:pending|begun|needs-reboot|success|failed)"
REFUSAL = (
    rf"(?:1 no-device|2 no-release|3 busy {NUMBER}|4 unsettled {NUMBER}|5 not-updatable|6 locked|7 problem {PROBLEM}"
    rf"|8 same-version|9 older|10 unmet {NUMBER} {CAUSE}|11 veto {NAME}|12 size {NUMBER} {NUMBER} {NUMBER}"
    rf"|13 no-room {NUMBER} {NUMBER}|14 payload (?:missing|shelf-fault|length {NUMBER}|mismatch [0-9a-f]{{64}})"
    r"|15 rows-full|16 keeper-fault"
    rf"|17 retry (?:no-row|other-device|not-failed {STATE}|retried {NUMBER}|other-release))"
)
RETRY = rf"(?: retry-of {NUMBER})?"
ANSWER = rf"(?:hold {NUMBER}|entry {NUMBER}|kept {NUMBER} {STATE}|refused {REFUSAL})"
SEEN = rf"(?:{NAME} (?:runtime|bootloader)|gone|stranger)"
MARKS = "(?: (?:entered|began|ended|left))*"
STEP = "(?:prepare|detach|write|attach|reload|cleanup)"
QUESTION = rf"(?:get-devices|get-history|(?:get-releases|get-upgrades|get-results|settle) {NAME})"
EVENTS = [
    rf"boot {NUMBER} time {NUMBER}(?: keeper-fault| doubt kept| doubt lost)*",
    rf"client {NUMBER} ask {NAME} {NAME} {NAME}{RETRY} {ANSWER}",
    rf"client {NUMBER} (?:claim {NAME}|ask entry {NUMBER}) {ANSWER}",
    rf"client {NUMBER} schedule {NAME} {NAME} {NAME}{RETRY} {ANSWER}",
    rf"client {NUMBER} resume {NUMBER} (?:begun|refused {REFUSAL})(?: keeper-fault)?",
    rf"client {NUMBER} entry {NUMBER} start {STEP}",
    rf"client {NUMBER} entry {NUMBER} end {STEP} (?:ok|fault-(?:failed|torn|gone|stranger)) {SEEN}{MARKS}",
    rf"client {NUMBER} entry {NUMBER} finish {STATE}(?: no-memory| keeper-fault)?",
    rf"client {NUMBER} judge {NUMBER} {NAME} {STATE}(?: no-memory| keeper-fault)?",
    rf"client {NUMBER} (?:unplug|plug) {NAME} (?:done|no-device|busy {NUMBER}|not-there|already-there)",
    rf"client {NUMBER} gave-back (?:(?:pending|entry) {NUMBER}|{NAME})",
    rf"client {NUMBER} {QUESTION}",
    "cut",
]
EVENT = re.compile("|".join(EVENTS).encode())
BELOW = re.compile(rb"  [^\n]+")
REQUIREMENT = rf"  {NUMBER} (?:holds|unmet {CAUSE})\n"
QUOTED = r'"(?:[!#-\[\]-~]|\\["\\]){1,64}"'
# The line of a row that is reported.
ROW = (
    rf'\{{"changed":{NUMBER},"component":{QUOTED},"device":"[0-9a-f]{{40}}","digest":"[0-9a-f]{{64}}"'
    rf',"duration":{NUMBER},"entry":{NUMBER},"new":{QUOTED},"old":{QUOTED},"protocol":(?:null|{QUOTED})'
    rf',"reason":{NUMBER},"retry-of":(?:null|{NUMBER}),"state":"(?:success|failed)","tag":{QUOTED}\}}\n'
)
LINES = {
    b"check": r"ok boards \d+ components \d+ clients \d+ boots \d+\n",
    b"remotes": rf"(?:remote {NAME} order \d+ (?:en|dis)abled components \d+ releases \d+ kept \d+\n)+releases \d+\n",
    b"plan": rf"plan {NUMBER}\n(?:  {NUMBER} {NAME} {NAME}\n)*",
    b"explain": rf"explain {NAME} {NAME}\n(?:{REQUIREMENT})*verdict (?:accept|refused {REFUSAL})\n",
    b"make": r"boards \d+ clients \d+ accepted \d+ writes \d+ success \d+ failed \d+ kept \d+\n",
    b"ids": r"(?:[^\n]{1,255} [0-9a-f]{8}(?:-[0-9a-f]{4}){3}-[0-9a-f]{12}\n){1,64}",
    b"report": rf"(?:{ROW})*",
}


@dataclass
class Ended:
    """How a call ended: its exit status, or minus the signal, or None where it was still running at the limit."""

    status: int
    out: bytes
    told: bytes

    def __str__(self):
        return f"status {self.status}, {len(self.out)} bytes of output, told {self.told[:120]!r}"


def call(program, words, folder, data=b"", **how):
    """Calls the program with these words and this input in that folder."""
    try:
        done = subprocess.run(
            [program, *words], input=data, cwd=folder, env={}, timeout=LIMIT, capture_output=True, **how
        )
    except subprocess.TimeoutExpired as late:
        return Ended(None, late.stdout or b"", late.stderr or b"")
    return Ended(done.returncode, done.stdout, done.stderr)


def events_of(report):
    """Returns how many events the whole lines of a report hold, or what is wrong with one of these lines."""
    lines = report.split(b"\n")
    events = 0
    for number, line in enumerate(lines[1:-1], 2):
        if line.startswith(b"end "):
            if number + 1 != len(lines) or line != b"end %d" % events:
                return f"line {number} ends the report wrongly: {line!r}"
        elif EVENT.fullmatch(line):
            events += 1
        elif not (events and BELOW.fullmatch(line)):
            return f"line {number} is none of a report: {line[:100]!r}"
    return events


def report_fault(out, whole):
    """Returns what is wrong with this report, of which only a front need be there if it isn't to be whole."""
    first = b"fwupdemu report 1\n"
    if not out.startswith(first) and (whole or not first.startswith(out)):
        return f"no report: {out[:100]!r}"
    events = events_of(out)
    if isinstance(events, str):
        return events
    if whole and not out.endswith(b"\nend %d\n" % events):
        return f"a report without its last line: it ends in {out[-60:]!r}"
    return None


def entries_told(out):
    """Returns the entries of the lines of rows that are whole, in their order."""
    return [json.loads(line)["entry"] for line in out.split(b"\n")[:-1]]


def rows_fault(out, status):
    """Returns what is wrong with the lines of rows: all are whole but under 5, where the last may be cut, and there are
    none of a history that isn't valid."""
    whole = out if status != 5 else out[: out.rfind(b"\n") + 1]
    if status == 9 or not re.fullmatch(LINES[b"report"], whole.decode("utf-8", "replace")):
        return f"other lines than those of rows: {out[:300]!r}"
    entries = entries_told(whole)
    if any(one >= other for one, other in zip(entries, entries[1:])):
        return f"rows that don't come in their order: {entries}"
    return None


def output_fault(word, ended):
    """Returns what is wrong with the output of a command."""
    out, status = ended.out, ended.status
    if not out and status != 0:
        return None
    if status in (2, 3, 4):
        return f"output under status {status}: {out[:100]!r}"
    if word in (b"run", b"update"):
        return report_fault(out, status in (0, 7, 9))
    if word == b"report":
        return rows_fault(out, status)
    if status == 0 and not re.fullmatch(LINES.get(word, "no command"), out.decode("utf-8", "replace")):
        return f"none of the lines of {word!r}: {out[:200]!r}"
    return None


def fault_of(words, ended, statuses=tuple(TEXTS)):
    """Returns what is wrong with how a call ended, which may be any of docs/FORMATS.md, or these statuses of it."""
    if ended.status is None:
        return f"still running after {LIMIT:.0f} s"
    if ended.status not in statuses or ended.status not in TEXTS:
        return f"not a status of {statuses}: {ended}"
    if not re.fullmatch(TEXTS[ended.status], ended.told.decode("utf-8", "replace")):
        return f"another text than that of its status: {ended}"
    return output_fault(os.fsencode(words[0]) if words else b"", ended)
