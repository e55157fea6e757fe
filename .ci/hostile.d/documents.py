"""Tries of documents: changes of one that has every field, fronts of it, random bytes, deep nests and long lists.
What must be told comes from docs/FORMATS.md, and whether a text is JSON from Python's reader."""
import json
import re

from kinds import Kind
from rich import NOT_JSON, Raw, changed, changes, document, text_of
from trial import call, fault_of

RICH = text_of(document()).encode()
OK = "ok boards 2 components 1 clients 2 boots 2\n"


def check(site, text, statuses=(0, 3, 6)):
    """Calls `check` with this document. Returns how it ended, and what is wrong with that."""
    ended = call(site.program, ["check"], site.folder, text)
    return ended, fault_of(["check"], ended, statuses)


def told_instead(ended, wanted):
    """Returns what is wrong where this has to be told: a place and a reason, or nothing for a document."""
    got = ended.told.decode("utf-8", "replace")
    if got == (f"fwupdemu: document: {wanted}\n" if wanted else ""):
        return None
    return f"wanted {wanted or 'no fault'}, got {got!r}"


def one_member(site, index, random):
    """A change of one member."""
    what, change, place, reason, else_told = ALL_CHANGES[index]
    ended, fault = check(site, changed(*change).encode("utf-8"))
    if not fault:
        wanted = NOT_JSON if reason == "not-json" else f"{place}: {reason}" if reason else None
        fault = told_instead(ended, wanted)
        if fault and not reason and else_told and ended.told.endswith(f": {else_told}\n".encode()):
            fault = None
    return fault and f"{what}: {fault}"


def played(site, index, random):
    """A change of one member, whose campaign is played where the document is one."""
    what, change, _, _, _ = ALL_CHANGES[index]
    ended = call(site.program, ["run"], site.fresh(), changed(*change).encode("utf-8"))
    fault = fault_of(["run"], ended, (0, 3, 6))
    return fault and f"{what}: {fault}"


def front(site, index, random):
    """A front of the document that isn't the whole."""
    ended, fault = check(site, RICH[:index])
    return fault or told_instead(ended, NOT_JSON)


def is_json(text):
    """Whether a text is JSON that this program reads: numbers within the floats, no half of a surrogate pair, and at
    most 127 deep. Python's reader takes more, which is refused here."""

    def none(word):
        raise ValueError(word)

    def within(digits):
        value = float(digits)
        if value in (float("inf"), float("-inf")):
            raise ValueError(digits)
        return value

    try:
        value = json.loads(text.decode("utf-8"), parse_constant=none, parse_float=within, parse_int=within)
    except (ValueError, RecursionError):
        return False
    if re.search("[\ud800-\udfff]", json.dumps(value, ensure_ascii=False)):
        return False
    return depth_of(value) <= 127


def depth_of(value):
    """Returns how deep lists and objects nest in a value."""
    inner = value.values() if isinstance(value, dict) else value if isinstance(value, list) else ()
    return max(map(depth_of, inner), default=0) + 1 if isinstance(value, (dict, list)) else 0


def random_bytes(site, index, random):
    """Some bytes of the document are other ones, are gone, or are new."""
    text = bytearray(RICH)
    for _ in range(random.choice((1, 1, 1, 2, 5, 40))):
        at = random.randrange(len(text))
        byte = random.choice((random.randrange(256), random.choice(b'{}[]",:\\0123456789eE+-.tfnu \n\xc3\xed\x00')))
        way = random.randrange(4)
        if way == 0:
            text[at] = byte
        elif way == 1:
            del text[at : at + random.choice((1, 1, 9))]
        elif way == 2:
            text.insert(at, byte)
        else:
            text[at] ^= 1 << random.randrange(8)
    ended, fault = check(site, bytes(text))
    if not fault and is_json(bytes(text)) != (not ended.told.endswith(b"text: not-json\n")):
        # A top that is no object is told in the same way.
        fault = f"Python's reader says {is_json(bytes(text))}, and this was told: {ended.told!r}: {bytes(text)!r}"
    return fault


def member(text):
    """Returns the document with a member that it doesn't know, of that text."""
    return RICH[:-1] + b', "x": ' + text + b"}"


def nests():
    """Returns documents that nest deep: what they are, their text, and what must be told."""
    found = []
    for opening, inner, closing in ((b"[", b"", b"]"), (b'{"a":', b"1", b"}"), (b'[{"a":', b"[]", b"}]")):
        each = 2 if opening.startswith(b"[{") else 1
        most = (126 - (inner == b"[]")) // each
        for many in (most, most + 1, 1000, 100000, 2000000):
            text = opening * many + inner + closing * many
            found.append((f"{many} times {opening!r}", member(text), None if many == most else NOT_JSON))
        for many in (1, 127, 128, 100000, 16777216 // len(opening)):
            found.append((f"{many} times {opening!r} and no end", opening * many, NOT_JSON))
    return found


def remotes(components):
    """Returns two remotes with these components, of which the first isn't enabled."""
    return [{"name": f"r{it}", "enabled": it == 1, "components": components} for it in range(2)]


def lists():
    """Returns documents with long lists: what they are, their text, and what must be told."""
    item, release = {"do": "get-devices"}, {"version": "1", "sha256": "0" * 64, "size": 0}
    some = {"id": "c", "provides": [], "releases": [release] * 5000}
    bare = {**some, "releases": []}
    board = document()["boards"][1]
    boards = [{**board, "port": f"p{i}", "physical": f"p{i}", "parent": f"p{i - 1}"} for i in range(256)]
    del boards[0]["parent"]
    plain = [{k: v for k, v in it.items() if k != "parent"} for it in boards]
    scripts = [[item] * 4096] * 2
    found = [
        ("a chain of 9 boards", {"boards": boards[:9], "boots": []}, None),
        ("a chain of 10 boards", {"boards": boards[:10], "boots": []}, "boards 9 0 0 parent: bad-reference"),
        ("256 boards", {"boards": plain, "boots": []}, None),
        ("257 boards", {"boards": [*plain, plain[0]], "boots": []}, "document 0 0 0 boards: too-many"),
        ("8,192 items", {"boots": [{"time": 1, "scripts": scripts}]}, None),
        ("an item more", {"boots": [{"time": 1, "scripts": scripts}, {"time": 1, "scripts": [[item]]}]},
         "boots 1 0 0 do: too-many"),
        ("an item more in one list", {"boots": [{"time": 1, "scripts": [[item] * 8193]}]}, "boots 0 0 8192 do: too-many"),
        ("20,000 releases", {"components": [some] * 4}, None),
        ("a release more", {"components": [some] * 4 + [{**some, "releases": [release]}]},
         "components 4 0 0 releases: too-many"),
        ("4,096 components", {"components": [{**some, "releases": []}] * 4096}, None),
        ("20,000 releases of remotes", {"components": [], "remotes": remotes([some] * 2)}, None),
        ("a release more of a remote", {"components": [some], "remotes": remotes([some] * 2)}, "remotes 1 1 0 releases: too-many"),
        ("4,096 components of remotes", {"components": [], "remotes": remotes([bare] * 2048)}, None),
        ("a component more of a remote", {"components": [bare], "remotes": remotes([bare] * 2048)},
         "remotes 1 0 0 components: too-many"),
        ("16 clients", {"clients": [{}] * 16}, None),
        ("64 quirk files", {"quirks": ["[x]\n"] * 64}, None),
        ("a list of a million", {"x": Raw("[" + "1," * 999999 + "1]")}, None),
        ("a million members", {"x": Raw("{" + '"a":1,' * 999999 + '"a":1}')}, None),
        ("a million quirk files", {"quirks": Raw("[" + '"",' * 999999 + '""]')}, "document 0 0 0 quirks: too-many"),
        ("a text of 16,000,000 bytes", {"x": "y" * 16000000}, None),
        ("a number of 16,000,000 digits", {"x": Raw("1" * 16000000)}, NOT_JSON),
    ]
    return [(what, text_of({**document(), **change}).encode(), wanted) for what, change, wanted in found]


def deep(site, index, random):
    """A document that nests deep."""
    return by_table(site, NESTS[index])


def long(site, index, random):
    """A document with a long list."""
    return by_table(site, LISTS[index])


def by_table(site, row):
    what, text, wanted = row
    ended, fault = check(site, text)
    fault = fault or told_instead(ended, wanted)
    return fault and f"{what}: {fault}"


class Lazy:
    """A list that is made when it is first looked at."""

    def __init__(self, make):
        self.make, self.made = make, None

    def __getitem__(self, index):
        self.made = self.made or self.make()
        return self.made[index]

    def __len__(self):
        self.made = self.made or self.make()
        return len(self.made)


ALL_CHANGES = Lazy(changes)
NESTS = Lazy(nests)
LISTS = Lazy(lists)


def kinds():
    """Returns the kinds of tries with documents."""
    return [
        Kind("a change of one member", one_member, len(ALL_CHANGES)),
        Kind("a change of one member, played", played, len(ALL_CHANGES)),
        Kind("a front of a document", front, len(RICH)),
        Kind("random bytes in a document", random_bytes),
        Kind("a deep nest", deep, len(NESTS)),
        Kind("a long list", long, len(LISTS)),
    ]
