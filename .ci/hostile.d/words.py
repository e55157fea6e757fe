"""Tries of the words of the command line. What must come of them is worked out here, from docs/FORMATS.md."""
import os
import re
import uuid

from documents import RICH
from files import real_history
from kinds import Kind
from trial import call, entries_told, fault_of

COMMANDS = ["run", "check", "remotes", "plan", "update", "explain", "ids", "make", "report"]
FORMS = [*COMMANDS, "help", "--", "-", "-h", "--help", "--clients", "--clients=3", "--max", "--max=3", "", "RUN"]
VALUES = [
    "usb1", "usb2", "1.1.0", "9", "1", "0", "16", "17", "256", "257", "04", "+4", "1.0", "com.example.hub", "é", "a b",
]
# Values of `--max`: the bounds, what wraps around to a number within them, and what only looks like a number.
MOST = [
    "1", "2", "65535", "65536", "0", "65537", "065536", "00", "-1", "+1", "4294967296", "4294967297",
    "18446744073709551616", "18446744073709551617", "9" * 40, "1e3", "0x10", "1.0", "1_000", "1,000", " 1", "1 ", "１",
    "٣", "", "x", "--", "--max", "--max=1",
]
NUMBER = re.compile(r"[1-9][0-9]{0,8}")
NAME = re.compile(rb"[!-~]{1,64}")
TAG = re.compile(rb"[!-~]{1,56}")


def values_of(words):
    """Returns the values among the words behind a command, or None where one of them stands for an option."""
    if "--" in words:
        at = words.index("--")
        before, behind = words[:at], words[at + 1 :]
    else:
        before, behind = words, []
    return None if any(it.startswith("-") for it in before) else before + behind


def with_option(words, option):
    """Returns the values among the words behind a command, and those of its option, or None where a word stands for
    another option, or where the option lacks its value."""
    before, behind = (words[: words.index("--")], words[words.index("--") + 1 :]) if "--" in words else (words, [])
    stated, values, rest = [], [], list(before)
    while rest:
        it = rest.pop(0)
        if it == option:
            if not rest:
                return None
            stated.append(rest.pop(0))
        elif it.startswith(f"{option}="):
            stated.append(it[len(option) + 1 :])
        elif it.startswith("-"):
            return None
        else:
            values.append(it)
    return values + behind, stated


def made(words):
    """Whether the words behind `make` are a number and perhaps the option."""
    values, clients = with_option(words, "--clients") or ([], [])
    if len(values) != 1 or len(clients) > 1:
        return False
    return in_range(values[0], 256) and all(in_range(it, 16) for it in clients)


def reported(words):
    """Whether the words behind `report` are perhaps the option, and no more."""
    values, most = with_option(words, "--max") or (["no"], [])
    return not values and len(most) <= 1 and all(in_range(it, 65536) for it in most)


def in_range(digits, most):
    """Whether these are the digits of a number from 1 to that."""
    return bool(NUMBER.fullmatch(digits)) and int(digits) <= most


def is_line(word):
    """Whether a word is a text of which `ids` makes a GUID."""
    raw = os.fsencode(word)
    try:
        raw.decode("utf-8")
    except UnicodeDecodeError:
        return False
    return 1 <= len(raw) <= 255 and not any(it < 0x20 or it == 0x7F for it in raw)


def is_command(words):
    """Whether the words are a command."""
    if not words:
        return False
    values = values_of(words[1:])
    if words[0] == "make":
        return made(words[1:])
    if words[0] == "report":
        return reported(words[1:])
    if values is None:
        return False
    if words[0] in ("run", "check", "remotes"):
        return not values
    if words[0] in ("plan", "update"):
        return len(values) == 1 and bool(TAG.fullmatch(os.fsencode(values[0])))
    if words[0] == "explain":
        return len(values) == 2 and all(NAME.fullmatch(os.fsencode(it)) for it in values)
    return words[0] == "ids" and 1 <= len(values) <= 64 and all(map(is_line, values))


def guid_of(text):
    """Returns the GUID of a text."""
    if re.fullmatch(r"[0-9a-fA-F]{8}(?:-[0-9a-fA-F]{4}){3}-[0-9a-fA-F]{12}", text):
        return text.lower()
    return str(uuid.uuid5(uuid.NAMESPACE_DNS, text))


def judged(site, words):
    """Calls the program with these words, and returns what is wrong with what came."""
    ended = call(site.program, [os.fsencode(it) for it in words], site.folder, RICH)
    fault = fault_of(words, ended)
    if not fault and (ended.status == 2) == is_command(words):
        fault = f"{'a command' if is_command(words) else 'no command'}, and {ended}"
    if not fault and ended.status == 0 and words[0] == "ids":
        wanted = "".join(f"{it} {guid_of(it)}\n" for it in values_of(words[1:]))
        if ended.out != wanted.encode():
            fault = f"other GUIDs than Python's: {ended.out!r}"
    if not fault and words and words[0] == "report":
        fault = told_fault(site, words, ended)
    return fault and f"{words!r}: {fault}"


def told_fault(site, words, ended):
    """Returns what is wrong where more rows are told than the words say, or one that was told over this history
    before."""
    told = site.kept.setdefault("told", set())
    entries = entries_told(ended.out)
    most = with_option(words[1:], "--max")
    if entries and len(entries) > int((most[1] or [65536])[0]):
        return f"{len(entries)} rows are told"
    twice = told.intersection(entries)
    told.update(entries)
    return f"told before: {sorted(twice)}" if twice else None


def at_most(site, index, random):
    """`report` with each value of its option, behind it and in one word with it, alone, and before another word, over a
    history of a few rows."""
    value = MOST[index // 6]
    site.fresh()
    real_history(site.folder / "history.db", 4)
    option = (["--max", value], [f"--max={value}"])[index % 2]
    words = (option, [*option, "--"], [*option, "--max", "2"])[index % 6 // 2]
    fault = judged(site, ["report", *words])
    return fault or judged(site, ["report"])


def few(site, index, random):
    """Some words of those that mean something, and others."""
    words = [random.choice(COMMANDS if random.random() < 0.8 else FORMS)]
    words += [random.choice(VALUES + FORMS) for _ in range(random.choice((0, 0, 1, 1, 2, 2, 3, 4)))]
    if random.random() < 0.3:
        words.insert(random.randrange(len(words) + 1), random.choice(["--clients", "--", "--clients=16", "--clients=017"]))
    if words[0] == "report" and random.random() < 0.5:
        words[1:] = random.choice((["--max", random.choice(MOST)], [f"--max={random.choice(MOST)}"])) + words[1:2]
    return judged(site, words)


def any_word(random, most):
    """Returns a word of any bytes but 0, which no word may have."""
    length = random.choice((1, 2, 7, 63, 64, 65, 254, 255, 256, most))
    if random.random() < 0.5:
        return os.fsdecode(bytes(random.randrange(1, 256) for _ in range(length)))
    return "".join(random.choice("aZ09.-_~éß€\U0001f600 ") for _ in range(length))[:length]


def strange(site, index, random):
    """Words of any bytes, most of them no UTF-8, behind a command or alone."""
    known = ["ids"], ["ids"], ["ids", "--"], ["explain"], ["make"], ["run"], ["report"], ["report", "--max"]
    words = random.choice(([], *known))
    return judged(site, words + [any_word(random, 300) for _ in range(random.choice((1, 1, 2, 3)))])


def many(site, index, random):
    """63, 64 and 65 words, and many more, behind each command."""
    count = (0, 1, 2, 63, 64, 65, 66, 128, 1000, 20000)[index // 7]
    word = ("ids", "ids", "explain", "make", "run", "report", "x")[index % 7]
    words = [word, *(["--"] if index % 7 == 1 else []), *(f"w{i}" for i in range(count))]
    return judged(site, words)


def long(site, index, random):
    """One word of 255 bytes, 256, and as many as the system lets a word have."""
    length = (56, 57, 255, 256, 4096, 100000, 131071)[index // 6]
    words = (("ids",), ("explain",), ("make",), ("plan",), ("x",), ("report", "--max"))[index % 6]
    return judged(site, [*words, ("1" if index % 6 == 5 else "a") * length])


def kinds():
    """Returns the kinds of tries with words."""
    return [
        Kind("words that nearly mean something", few),
        Kind("words of any bytes", strange),
        Kind("many words", many, 70),
        Kind("a long word", long, 42),
        Kind("how many rows to report", at_most, 6 * len(MOST)),
    ]
