#!/usr/bin/env python3
"""A second reading of docs/FORMATS.md: prints the report of a campaign, `second_reading.py campaign.json`, or what `plan`
or `update` prints, `second_reading.py campaign.json plan TAG`.

It is written from that page alone, shares nothing with the program, and stands beside it as a check: what both print is
compared for the examples and for random campaigns. It plays documents without a fault, in each boot of which at most one
client has a script, so that the report is determined, and whose history neither fails nor fills up.
"""
import functools
import hashlib
import json
import re
import sys
import uuid
from dataclasses import dataclass, field
from pathlib import Path

STEPS = ["prepare", "detach", "write", "attach", "reload", "cleanup"]
FLAGS = ["internal", "updatable", "require-ac", "locked", "needs-bootloader", "is-bootloader", "needs-reboot",
         "wait-for-replug", "install-parent-first", "emulated"]
# The plugins in the order in which they run, with what each adds to a board's priority.
PLUGINS = {"power": 0, "capsule": 1, "flash": 0, "loader": 0}
OPEN_STATES = ("pending", "begun", "needs-reboot")
GUID = re.compile(r"[0-9a-fA-F]{8}(-[0-9a-fA-F]{4}){3}-[0-9a-fA-F]{12}")
HARDWARE = uuid.UUID("70ffd812-4c7f-4c7d-0000-000000000000")
BLOCK = 4096


# ---- words

def guid_of(text):
    """The GUID of a text."""
    return text.lower() if GUID.fullmatch(text) else str(uuid.uuid5(uuid.NAMESPACE_DNS, text))


def is_guid(name):
    return GUID.fullmatch(name) is not None


def is_device_id(name):
    return re.fullmatch(r"[0-9a-fA-F]{40}", name) is not None


def hardware_ids(smbios):
    """The hardware IDs of the SMBIOS texts, of which an empty one leaves out its combinations."""
    maker, family, product, sku = (smbios.get(it, "") for it in ("manufacturer", "family", "product", "sku"))
    kinds = [(maker, family, product, sku), (maker, family, product), (maker, sku), (maker, product), (maker, family), (maker,)]
    made = [hashlib.sha1(HARDWARE.bytes + "&".join(it).encode("utf-16-le")).digest() for it in kinds if all(it)]
    return [str(uuid.UUID(bytes=it[:16], version=5)) for it in made]


def raw_version(image):
    """The raw version of an image, or nothing where it is bad."""
    found = re.match(rb"EMU1 ([0-9a-fA-F]{8})\n", image)
    return int(found.group(1), 16) if found else None


# For each format how many bits each decimal number has, from the highest on.
BITS = {"plain": [32], "number": [32], "pair": [16, 16], "triplet": [8, 8, 16], "quad": [8, 8, 8, 8], "bcd": [8, 8, 8, 8],
        "surface-legacy": [10, 12, 10], "surface": [8, 16, 8], "intel-me": [3, 5, 8, 16], "intel-me2": [4, 4, 8, 16]}


def version_text(form, raw):
    """A raw version in its format."""
    if form == "hex":
        return f"0x{raw:08x}"
    if form in ("dell-bios", "dell-bios-msb"):
        bits, left, raw = [8, 8, 8], 24, raw & 0xFFFFFF if form == "dell-bios" else raw >> 8
    else:
        bits, left = BITS[form], 32
    numbers = []
    for width in bits:
        left -= width
        numbers.append(raw >> left & (1 << width) - 1)
    if form == "bcd":
        numbers = [it // 16 * 10 + it % 16 for it in numbers]
    if form == "intel-me":
        numbers[0] += 11
    return ".".join(map(str, numbers))


def raw_of(form, version):
    """The least raw version whose text is equal to a version, or nothing."""
    if form == "hex":
        found = re.fullmatch("0*x([0-9a-f]{8})", version)
        return int(found.group(1), 16) if found else None
    if not re.fullmatch("[0-9.]*", version):
        return None
    numbers = [int(it or 0) for it in version.split(".")]
    if form in ("dell-bios", "dell-bios-msb"):
        bits = [8, 8, 8]
    else:
        bits = BITS[form]
    if form == "intel-me":
        numbers[0] -= 11
    if form == "bcd":
        numbers = [(max(0, -(-(it - 15) // 10)), it) for it in numbers]
        numbers = [tens * 16 + it - tens * 10 for tens, it in numbers]
    if len(numbers) != len(bits) or any(not 0 <= it < 1 << width for it, width in zip(numbers, bits)):
        return None
    raw = 0
    for it, width in zip(numbers, bits):
        raw = raw << width | it
    return raw << 8 if form == "dell-bios-msb" else raw


def compared(left, right):
    """-1, 0 or 1: the order of versions."""
    def sections(version):
        found = [re.fullmatch(r"([0-9]*)(.*)", it) for it in version.split(".")]
        return [(int(it.group(1) or 0), [0 if c == "~" else ord(c) + 2 for c in it.group(2)] + [1]) for it in found]
    left, right = sections(left), sections(right)
    return (left > right) - (left < right)


def passes(test, found):
    """Whether a version or a vendor ID passes the comparison of a requirement."""
    word, wanted = test["compare"], test["version"]
    if word == "glob":
        return re.fullmatch("".join({"*": ".*", "?": "."}.get(c, re.escape(c)) for c in wanted), found, re.S) is not None
    if word == "regex":
        return re.search(wanted, found) is not None
    order = compared(found, wanted)
    return {"eq": order == 0, "ne": order != 0, "lt": order < 0, "le": order <= 0, "gt": order > 0, "ge": order >= 0}[word]


# ---- boards

@dataclass
class Board:
    """A board: what is stated of it, after the quirks, and how it stands."""
    sheet: dict
    image: bytes
    staged: bytes = None
    mode: str = "runtime"
    place: str = "gone"
    calls: int = 0
    untold: list = field(default_factory=list)
    entry: int = None

    @property
    def port(self):
        return self.sheet["port"]

    @property
    def version(self):
        return version_text(self.sheet["version-format"], raw_version(self.image) or 0)

    @property
    def is_here(self):
        return self.place == "home"

    @property
    def seen(self):
        return f"{self.version} {self.mode}" if self.is_here else self.place

    @property
    def guids(self):
        return self.side(self.mode) if self.is_here else []

    @property
    def flags(self):
        in_loader = {"is-bootloader"} if self.is_here and self.mode == "bootloader" else set()
        return self.sheet["flags"] | in_loader

    def side(self, mode):
        return self.sheet["runtime-guids" if mode == "runtime" else "loader-guids"]

    def start(self):
        self.mode = "bootloader" if raw_version(self.image) is None else "runtime"

    def boot(self, is_absent):
        if self.staged is not None:
            self.image, self.staged = self.staged, None
        self.start()
        self.place = "gone" if is_absent else "home"

    def call(self, step, payload):
        """One of the board's five steps. Answers the planned fault, if there is one."""
        self.calls += 1
        fault = next((it["fault"] for it in self.sheet.get("faults", []) if it["call"] == self.calls), None)
        if fault is None:
            self.untold += self.done(step, payload)
        elif fault != "failed" and step in ("program", "stage"):
            self.untold += ["began"]
            if step == "program":
                self.image = b""
                self.start()
        if fault in ("gone", "stranger"):
            self.place = fault
        return fault

    def done(self, step, payload):
        """Makes a step that has no fault, and answers its marks."""
        if step == "enter" and self.is_here and self.mode == "runtime":
            self.mode = "bootloader"
            return ["entered"]
        if step == "leave" and self.is_here and self.mode == "bootloader" and raw_version(self.image) is not None:
            self.mode = "runtime"
            return ["left"]
        if step == "program":
            self.image = payload
            self.mode = "bootloader" if raw_version(payload) is None else self.mode
        if step == "stage":
            self.staged = payload
        return ["began", "ended"] if step in ("program", "stage") else []

    def work(self, step, payload):
        """What the board's plugin does in a step of an update."""
        plugin = self.sheet["plugin"]
        if step == "write":
            return self.call("stage" if plugin == "capsule" else "program", payload)
        if step == "reload":
            return self.call("look", payload)
        if plugin == "loader" and step in ("detach", "attach"):
            return self.call("enter" if step == "detach" else "leave", payload)
        return None


def sheet_of(stated):
    """What a document states of a board, with its lists as lists and its GUIDs made."""
    sheet = dict(stated)
    sheet["flags"] = set(stated.get("flags", []))
    sheet["vendor-ids"] = list(stated.get("vendor-ids", []))
    sheet["runtime-guids"] = unique(map(guid_of, stated["instance-ids"]))
    sheet["loader-guids"] = unique(map(guid_of, stated.get("loader-instance-ids", stated["instance-ids"])))
    sheet["counterparts"] = unique(map(guid_of, stated.get("counterparts", [])))
    joined = stated["physical"] + (":" + stated["logical"] if "logical" in stated else "")
    sheet["device"] = hashlib.sha1(joined.encode()).hexdigest()
    return sheet


def unique(texts):
    return list(dict.fromkeys(texts))


# ---- quirk files

def number_in(value):
    """A quirk's number, or nothing where it can't be read."""
    if re.fullmatch(r"0|[1-9][0-9]*", value):
        return int(value)
    return int(value, 16) if re.fullmatch(r"0x[0-9a-fA-F]{1,8}", value) else None


def is_line(text):
    return len(text.encode()) <= 255 and not any(ord(c) < 0x20 or ord(c) == 0x7F for c in text)


def is_name(text):
    return re.fullmatch(r"[!-~]{1,64}", text) is not None


def quirk_lines(text):
    """The GUID of the group, the key and the value of each line."""
    group = None
    for line in text.split("\n"):
        line = line.removesuffix("\r").strip(" \t")
        if line.startswith("["):
            group = guid_of(line[1:-1])
        elif line and not line.startswith("#"):
            key, _, value = line.partition("=")
            yield group, key.strip(" \t"), value.strip(" \t")


def apply_quirk(sheet, key, value):
    """One line of a quirk file on a sheet; what can't be read is passed over."""
    elements = [it.strip(" \t") for it in value.split(",") if it.strip(" \t")]
    singles = {"Plugin": "plugin", "Protocol": "protocol", "Name": "name", "Vendor": "vendor"}
    sizes = {"FirmwareSizeMin": "size-min", "FirmwareSizeMax": "size-max"}
    if key in singles and (is_name(value) if key in ("Plugin", "Protocol") else is_line(value)):
        sheet[singles[key]] = value
    elif key == "VersionFormat" and value in (*BITS, "hex", "dell-bios", "dell-bios-msb"):
        sheet["version-format"] = value
    elif key in sizes and number_in(value) is not None and number_in(value) <= 4194304:
        sheet[sizes[key]] = number_in(value)
    elif key == "InstallDuration" and number_in(value) is not None and number_in(value) <= 4294967295:
        sheet["duration"] = number_in(value)
    elif key == "Flags":
        for flag in elements:
            word = flag.removeprefix("~")
            if word in FLAGS and word != "is-bootloader":
                (sheet["flags"].discard if flag.startswith("~") else sheet["flags"].add)(word)
    elif key in ("Guid", "CounterpartGuid"):
        into = "runtime-guids" if key == "Guid" else "counterparts"
        sheet[into] = unique(sheet[into] + [guid_of(it) for it in elements if is_line(it)])
    elif key == "VendorId":
        sheet["vendor-ids"] = unique(sheet["vendor-ids"] + [it for it in elements if is_name(it)])


def with_quirks(sheets, files):
    """The sheets after all quirk files, whose groups go by the GUIDs that a sheet had before."""
    for sheet in sheets:
        had = set(sheet["runtime-guids"] + sheet["loader-guids"])
        for text in files:
            for group, key, value in quirk_lines(text):
                if group in had:
                    apply_quirk(sheet, key, value)
    return sheets


def devices_of(boards):
    """Of the boards with one device ID the one that is the device, in the order of the boards."""
    def rank(at):
        sheet = boards[at].sheet
        plugin = sheet["plugin"]
        return -sheet.get("priority", 0) - PLUGINS[plugin], list(PLUGINS).index(plugin), at
    served = [at for at, it in enumerate(boards) if it.sheet["plugin"] in PLUGINS]
    best = {}
    for at in sorted(served, key=rank):
        best.setdefault(boards[at].sheet["device"], at)
    return [boards[at] for at in sorted(best.values())]


# ---- the campaign

def remotes_of(document):
    """The remotes, the document's own first, each with its components without what an enabled one before it has too."""
    remotes = [{"name": "local", "components": document["components"]}, *document.get("remotes", [])]
    left, earlier = {}, {}
    for at in sorted(range(len(remotes)), key=lambda at: remotes[at].get("order", 0)):
        if not remotes[at].get("enabled", True):
            continue
        components = remotes[at]["components"]
        left[at] = [{**one, "releases": [it for it in one["releases"] if all(compared(it["version"], old) for old in earlier.get(one["id"], []))]}
                    for one in components]
        for one in components:
            earlier.setdefault(one["id"], []).extend(it["version"] for it in one["releases"])
    return remotes, left


def merged(document):
    """The components of the enabled remotes, by order."""
    return [one for components in remotes_of(document)[1].values() for one in components]


def remotes_told(document):
    """What the command `remotes` prints."""
    remotes, left = remotes_of(document)
    count = lambda components: sum(len(it["releases"]) for it in components)
    lines = [f"remote {it['name']} order {it.get('order', 0)} {'enabled' if it.get('enabled', True) else 'disabled'} "
             f"components {len(it['components'])} releases {count(it['components'])} kept {count(left.get(at, []))}"
             for at, it in enumerate(remotes)]
    return "\n".join([*lines, f"releases {count(merged(document))}"]) + "\n"


class Cut(Exception):
    """The power is cut in place of an event."""


@dataclass
class Row:
    """A row of the history."""
    entry: int
    tag: str
    client: int
    device: str
    old: str
    new: str
    digest: str
    flags: list
    state: str
    duration: int
    protocol: str
    retry_of: int = None
    reason: int = 0


@dataclass
class Found:
    """What a request that is accepted found."""
    board: Board
    component: dict
    release: dict

    @property
    def blocks(self):
        return -(-self.release["size"] // BLOCK)


class Campaign:
    """A campaign as it is played; `rows` is the history, also that of a former call."""

    def __init__(self, document, shelf, rows=()):
        self.machine, self.components = document["machine"], merged(document)
        self.features = [it.get("features", []) for it in document["clients"]]
        self.boots, self.shelf, self.rows = document["boots"], shelf, list(rows)
        sheets = with_quirks([sheet_of(it) for it in document["boards"]], document.get("quirks", []))
        self.boards = [Board(it, it["image"].encode()) for it in sheets]
        self.devices = devices_of(self.boards)
        self.hardware = hardware_ids(self.machine.get("smbios", {})) + [it.lower() for it in self.machine.get("hardware", [])]
        self.lines, self.events, self.count, self.limit = [], 0, 0, None
        # The rows that were finished in this boot.
        self.finished = set()

    # -- what is told

    def event(self, line, is_counted=True):
        """An event, in whose place the power may be cut."""
        self.events += 1
        if is_counted and self.limit is not None and self.count >= self.limit:
            self.lines.append("cut")
            raise Cut
        self.count += is_counted
        self.lines.append(line)

    def tell(self, line):
        self.lines.append("  " + line)

    def tell_list(self, lines):
        for line in lines[:64] or ["none"]:
            self.tell(line)
        if len(lines) > 64:
            self.tell(f"more {len(lines) - 64}")

    # -- what is found

    def device_named(self, name):
        if is_device_id(name):
            return next((it for it in self.devices if it.sheet["device"] == name.lower()), None)
        if is_guid(name):
            return self.device_with(name.lower())
        return next((it for it in self.devices if it.port == name), None)

    def device_with(self, guid):
        return next((it for it in self.devices if guid in it.guids), None)

    def ancestor(self, board, depth):
        for _ in range(depth):
            parent = board.sheet.get("parent")
            board = next((it for it in self.devices if parent is not None and it.port == parent), None)
            if board is None:
                return None
        return board

    def releases_for(self, board):
        return [(component, release) for component in self.components for release in component["releases"]
                if any(it.lower() in board.guids for it in component["provides"])]

    def row_of(self, board, states):
        return next((it for it in self.rows if it.device == board.sheet["device"] and it.state in states), None)

    def problems(self, board):
        sheet, machine = board.sheet, self.machine
        checks = [("system-power-too-low", machine.get("power-low")), ("unreachable", sheet.get("unreachable")),
                  ("power-too-low", sheet.get("power-low")), ("update-pending", self.row_of(board, ["pending"])),
                  ("require-ac-power", "require-ac" in sheet["flags"] and not machine.get("on-ac", True)),
                  ("lid-is-closed", sheet.get("lid") and machine.get("lid-closed")),
                  ("update-in-progress", board.entry is not None)]
        return [word for word, holds in checks if holds]

    # -- requirements

    def cause(self, test, board, features):
        """Why a requirement doesn't hold, or nothing."""
        tag, text = test["tag"], test.get("text", "")
        if tag == "client":
            return None if text in features else "10 client-feature-missing"
        if tag in ("hardware", "not_hardware"):
            has = any(it.lower() in self.hardware for it in text.split("|"))
            return None if has == (tag == "hardware") else "9 hardware-forbidden" if has else "8 hardware-missing"
        if tag == "id":
            ids = {**self.machine.get("ids", {}), "org.freedesktop.fwupd": self.machine["daemon"]}
            return self.version_cause(test, ids.get(text), "1 id-missing")
        if text == "":
            return self.version_cause(test, board.version, None)
        if text == "bootloader":
            return self.version_cause(test, board.sheet.get("bootloader-version"), "3 no-bootloader-version")
        if text == "vendor-id":
            is_equal = test["compare"] == "eq"
            fits = any(it == test["version"] if is_equal else passes(test, it) for it in board.sheet["vendor-ids"])
            return None if fits else "4 vendor-mismatch"
        return self.other_cause(test, board, text.lower())

    @staticmethod
    def version_cause(test, version, missing):
        if version is None:
            return missing
        return None if passes(test, version) else "2 version-compare"

    def other_cause(self, test, board, guid):
        """The cause of a requirement on another device or an ancestor."""
        if "depth" in test:
            other, missing = self.ancestor(board, test["depth"]), "6 no-such-ancestor"
        else:
            other, missing = self.device_with(guid), "5 no-such-device"
        if other is None or guid not in other.guids:
            return missing
        if other.entry is not None:
            return f"7 device-in-use {other.entry}"
        return self.version_cause(test, other.version, None) if "compare" in test else None

    # -- the verdict

    def verdict(self, stage, item, features, own=None):
        """The first refusal of a request, or what it found. `own` is the row that makes it, where it was put off."""
        kept = next((it for it in self.rows if own is None and it.tag == item["tag"]), None)
        if kept:
            return f"kept {kept.entry} {kept.state}", None
        board = self.device_named(item["device"])
        if board is None or not board.is_here:
            return "refused 1 no-device", None
        found = next((it for it in self.releases_for(board) if compared(it[1]["version"], item["version"]) == 0), None)
        if found is None or (own and own.digest != found[1]["sha256"]):
            return "refused 2 no-release", None
        found = Found(board, *found)
        refusal = next((it for it in self.refusals(stage, item, found, features, own) if it), None)
        return ("refused " + refusal if refusal else None), found

    def refusals(self, stage, item, found, features, own):
        """The refusals from the third on, in their order; those that don't hold are empty."""
        board, release, flags = found.board, found.release, item.get("flags", [])
        order = compared(release["version"], board.version)
        low, high = board.sheet.get("size-min", 0), board.sheet.get("size-max", 4194304)
        waits = next((it for it in self.rows if it is not own and it.device == board.sheet["device"] and it.state in OPEN_STATES), None)
        yield f"3 busy {board.entry}" if board.entry is not None else ""
        yield f"4 unsettled {waits.entry}" if waits else ""
        fault = self.retry_fault(item.get("retry-of"), found, own)
        yield f"17 retry {fault}" if fault else ""
        yield "5 not-updatable" if "updatable" not in board.flags else ""
        yield "6 locked" if "locked" in board.flags else ""
        yield next((f"7 problem {it}" for it in self.problems(board) if not it.startswith("update-")), "")
        yield "8 same-version" if order == 0 and "allow-reinstall" not in flags else ""
        yield "9 older" if order < 0 and "allow-older" not in flags else ""
        causes = [self.cause(it, board, features) for it in found.component.get("requires", [])]
        yield next((f"10 unmet {at} {it}" for at, it in enumerate(causes) if it), "")
        yield "11 veto power" if "internal" in board.flags and not self.machine.get("on-ac", True) else ""
        yield f"12 size {release['size']} {low} {high}" if not low <= release["size"] <= high else ""
        free = self.machine["pool"]
        yield f"13 no-room {found.blocks} {free}" if stage == "ask" and found.blocks > free else ""

    def retry_fault(self, entry, found, own):
        """Why the row of that entry can't be tried again, or nothing, also where none is named."""
        if entry is None:
            return None
        row = next((it for it in self.rows if it.entry == entry), None)
        if row is None:
            return "no-row"
        if row.device != found.board.sheet["device"]:
            return "other-device"
        if row.state != "failed":
            return f"not-failed {row.state}"
        other = next((it for it in self.rows if it is not own and it.retry_of == entry), None)
        if other:
            return f"retried {other.entry}"
        return None if row.digest == found.release["sha256"] else "other-release"

    def fetched(self, release):
        """The refusal of a payload, or its bytes."""
        payload = self.shelf(release["sha256"])
        if payload is None:
            return "refused 14 payload missing", None
        if len(payload) != release["size"]:
            return f"refused 14 payload length {len(payload)}", None
        digest = hashlib.sha256(payload).hexdigest()
        return (f"refused 14 payload mismatch {digest}", None) if digest != release["sha256"] else (None, payload)

    # -- installs

    def install(self, client, item):
        features, flags, named = self.features[client - 1], item.get("flags", []), item["device"]
        named = named.lower() if is_guid(named) or is_device_id(named) else named
        asked = f"{item['tag']} {named} {item['version']}{self.retry_text(item.get('retry-of'))}"
        is_put_off = "offline" in flags
        refusal, found = self.verdict("schedule" if is_put_off else "ask", item, features)
        if is_put_off:
            self.event(f"client {client} schedule {asked} {refusal or f'entry {len(self.rows) + 1}'}")
            if not refusal:
                self.add_row(client, item, found, "pending")
            return
        self.event(f"client {client} ask {asked} {refusal or f'hold {found.blocks}'}")
        if refusal:
            return
        refusal, payload = self.fetched(found.release)
        answer = refusal or f"entry {len(self.rows) + 1}"
        self.event_or_give_back(f"client {client} claim {item['tag']} {answer}", f"client {client} gave-back {item['tag']}")
        if not refusal:
            self.make_steps(client, self.add_row(client, item, found, "begun"), found, payload)

    def event_or_give_back(self, line, given_back):
        try:
            self.event(line)
        except Cut:
            self.event(given_back, False)
            raise

    def add_row(self, client, item, found, state):
        row = Row(len(self.rows) + 1, item["tag"], client, found.board.sheet["device"], found.board.version,
                  found.release["version"], found.release["sha256"], item.get("flags", []), state,
                  found.board.sheet.get("duration", 0), found.board.sheet.get("protocol", "-"), item.get("retry-of"))
        self.rows.append(row)
        return row

    def resume(self, row):
        """Goes on with an install that was put off, or fails it."""
        item = {"tag": row.tag, "device": row.device, "version": row.new, "flags": row.flags, "retry-of": row.retry_of}
        refusal, found = self.verdict("ask", item, self.features[row.client - 1], row)
        self.event(f"client 0 ask entry {row.entry} {refusal or f'hold {found.blocks}'}")
        if refusal:
            self.event(f"client 0 resume {row.entry} {refusal}")
        else:
            refusal, payload = self.fetched(found.release)
            self.event_or_give_back(f"client 0 resume {row.entry} {refusal or 'begun'}", f"client 0 gave-back pending {row.entry}")
        if refusal:
            row.state, row.reason = "failed", int(refusal.split()[1])
        else:
            row.state = "begun"
            self.make_steps(0, row, found, payload)

    def make_steps(self, client, row, found, payload):
        board, line = found.board, f"client {client} entry {row.entry}"
        board.entry = row.entry
        try:
            outcomes = self.steps_made(line, board, found.component, payload)
            state = self.closing(row, board, outcomes)
            self.event(f"{line} finish {state}")
            row.state = state
            self.finished.add(row.entry)
        except Cut:
            self.event(f"client {client} gave-back entry {row.entry}", False)
            raise
        finally:
            board.entry = None

    def steps_made(self, line, board, component, payload):
        """The steps that are wanted, in their order, with the fault of each."""
        mode, outcomes = board.mode, {}
        provided = [it.lower() for it in component["provides"]] + board.sheet["counterparts"]
        for step in STEPS:
            wanted = {"detach": outcomes.get("prepare", "") is None and "needs-bootloader" in board.sheet["flags"] and mode == "runtime",
                      "write": not any(outcomes.values()) and any(it in provided for it in board.guids),
                      "attach": "detach" in outcomes or mode == "bootloader"}
            if wanted.get(step, True):
                self.event(f"{line} start {step}")
                outcomes[step] = fault = board.work(step, payload)
                marks = "".join(" " + it for it in board.untold)
                self.event(f"{line} end {step} {'fault-' + fault if fault else 'ok'} {board.seen}{marks}")
                board.untold = []
        return outcomes

    def closing(self, row, board, outcomes):
        if outcomes["reload"] or not board.is_here:
            return "begun"
        if "needs-reboot" in board.sheet["flags"] and outcomes.get("write", "") is None:
            return "needs-reboot"
        return self.judgement(row, board)

    @staticmethod
    def judgement(row, board):
        return "success" if compared(board.version, row.new) == 0 else "failed"

    def can_be_judged(self, row):
        """Whether nothing has to come before it: no boot, no finish."""
        return row.state == "begun" or row.state == "needs-reboot" and row.entry not in self.finished

    def judge(self, client, row, board):
        state = self.judgement(row, board)
        self.event(f"client {client} judge {row.entry} {board.version} {state}")
        row.state = state

    # -- questions, plugs

    @staticmethod
    def retry_text(entry):
        return "" if entry is None else f" retry-of {entry}"

    def row_text(self, row):
        port = next((it.port for it in self.devices if it.sheet["device"] == row.device), row.device)
        return f"{row.entry} {row.tag} {port} {row.old} {row.new} {row.state} {row.reason} {row.duration} {row.protocol}{self.retry_text(row.retry_of)}"

    @staticmethod
    def release_text(board, component, release):
        custom = component.get("custom", {})
        words = ("older", "same", "newer")[compared(release["version"], board.version) + 1]
        for word, key in (("format", "LVFS::VersionFormat"), ("protocol", "LVFS::UpdateProtocol")):
            words += f" {word} {custom[key]}" if key in custom else ""
        return f"{component['id']} {release['version']} urgency {release.get('urgency', 'unknown')} size {release['size']} {words}"

    def device_text(self, board):
        flags = ",".join(it for it in FLAGS if it in board.flags) or "-"
        name = f" {board.sheet['name']}" if board.sheet.get("name") else ""
        return (f"{board.port} {board.seen} flags {flags} problems {','.join(self.problems(board)) or '-'} "
                f"guids {','.join(board.guids) or '-'} name{name}")

    def ask(self, client, item):
        """A question of a script, with its reply."""
        kind, name = item["do"], item.get("device")
        if kind in ("get-devices", "get-history"):
            self.event(f"client {client} {kind}")
            if kind == "get-history":
                return self.tell_list([self.row_text(it) for it in reversed(self.rows)])
            for board in self.devices:
                self.tell(self.device_text(board))
            return None
        board = self.device_named(name)
        row = self.row_of(board, OPEN_STATES) if board else None
        if kind == "settle" and row and self.can_be_judged(row) and board.is_here:
            return self.judge(client, row, board)
        named = name.lower() if is_guid(name) or is_device_id(name) else name
        self.event(f"client {client} {kind} {named}")
        if board is None or (not board.is_here and kind != "get-results"):
            return self.tell("refused 1 no-device")
        if kind == "settle":
            return self.tell(f"waits {row.entry}" if row else "nothing")
        if kind == "get-results":
            return self.tell_list([self.row_text(it) for it in self.rows if it.device == board.sheet["device"]][-1:])
        texts = [self.release_text(board, *it) for it in self.releases_for(board)
                 if kind == "get-releases" or compared(it[1]["version"], board.version) > 0]
        return self.tell_list(texts)

    def plug(self, client, item):
        """A device is taken out of its port, or put back."""
        board, name = self.device_named(item["device"]), item["device"]
        named = name.lower() if is_guid(name) or is_device_id(name) else name
        is_out = item["do"] == "unplug"
        if board is None:
            result = "no-device"
        elif is_out:
            result = "done" if board.is_here else "not-there"
        else:
            result = "already-there" if board.is_here else "done"
        self.event(f"client {client} {item['do']} {named} {result}")
        if result == "done":
            board.place = "gone" if is_out else "home"
            if not is_out:
                board.start()

    # -- boots

    def start_boot(self, number, boot):
        self.limit, self.count, self.finished = boot.get("cut-after"), 0, set()
        self.event(f"boot {number} time {boot['time']}", False)
        for board in self.boards:
            board.boot(board.port in boot.get("absent", []))
        for board in self.boards:
            if board.untold:
                self.tell(f"told {board.port} {' '.join(board.untold)}")
                board.untold = []
        for board in self.boards:
            self.tell(f"board {board.port} {board.seen}")

    def do_tasks(self):
        """What the daemon does by itself: it judges what it can, and resumes what was put off."""
        waiting, put_off = [it for it in self.rows if it.state in OPEN_STATES[1:]], [it for it in self.rows if it.state == "pending"]
        for row in waiting:
            board = next((it for it in self.devices if it.sheet["device"] == row.device), None)
            if board and board.is_here:
                self.judge(0, row, board)
        for row in put_off:
            self.resume(row)

    def play(self, boot):
        self.do_tasks()
        for client, script in enumerate(boot.get("scripts", []), 1):
            for item in script:
                if item["do"] == "install":
                    self.install(client, item)
                elif item["do"] in ("plug", "unplug"):
                    self.plug(client, item)
                else:
                    self.ask(client, item)

    def report(self):
        """Plays the campaign, and answers its report."""
        for number, boot in enumerate(self.boots, 1):
            self.start_boot(number, boot)
            try:
                self.play(boot)
            except Cut:
                pass
        return "\n".join(["fwupdemu report 1", *self.lines, f"end {self.events}"]) + "\n"


# ---- plans

class Plan(Campaign):
    """The installs that bring each device of a document as far as it can come, over its first boot."""

    def __init__(self, document, tag, rows=()):
        super().__init__(document, None, [Row(**vars(it)) for it in rows])
        self.document, self.tag, self.items, self.told = document, tag, [], []
        self.own = self.features[0] if self.features else []
        if self.boots:
            self.start_boot(1, self.boots[0])
            for board in self.walk():
                while len(self.items) < 8192 and self.goes_on(board):
                    pass

    def walk(self):
        """The devices in the order in which they are visited."""
        def parent(board):
            return next((it for it in self.devices if it.port == board.sheet.get("parent")), None)

        def visit(board):
            children = [it for it in self.devices if parent(it) is board]
            early = [it for it in children if "install-parent-first" not in it.sheet["flags"]]
            late = [it for it in children if it not in early]
            return [*(it for child in early for it in visit(child)), board, *(it for child in late for it in visit(child))]
        return [it for board in self.devices if parent(board) is None for it in visit(board)]

    def goes_on(self, board):
        """Adds the install of the highest release that the device can reach next, where there is one."""
        if not board.is_here:
            return False
        above = [it for it in self.releases_for(board) if compared(it[1]["version"], board.version) > 0]
        for component, release in sorted(above, key=functools.cmp_to_key(lambda a, b: compared(b[1]["version"], a[1]["version"]))):
            raw = raw_of(board.sheet["version-format"], release["version"])
            if raw is not None and self.is_taken(board, component, release, raw):
                return True
        return False

    def is_taken(self, board, component, release, raw):
        """Adds the install, where it is accepted with that very release, and ends well."""
        item = {"do": "install", "tag": f"{self.tag}-{len(self.items) + 1}", "device": board.sheet["device"], "version": release["version"]}
        refusal, found = self.verdict("ask", item, self.own)
        if refusal or found.release is not release:
            return False
        detached = "needs-bootloader" in board.sheet["flags"] and board.mode == "runtime"
        provided = [it.lower() for it in component["provides"]] + board.sheet["counterparts"]
        written = any(it in provided for it in board.side("bootloader" if detached else board.mode))
        waits = written and "needs-reboot" in board.sheet["flags"]
        shown = raw if written and not waits else raw_version(board.image) or 0
        if not waits and compared(version_text(board.sheet["version-format"], shown), release["version"]) != 0:
            return False
        self.add_row(1, item, found, "needs-reboot" if waits else "success")
        board.image, board.mode = f"EMU1 {shown:08x}\n".encode(), "runtime"
        self.items.append(item)
        self.told.append(f"  {len(self.items)} {board.port} {release['version']}")
        return True

    def text(self):
        """What the command `plan` prints."""
        return "\n".join([f"plan {len(self.items)}", *self.told]) + "\n"

    def played(self, shelf, rows=()):
        """The campaign that the command `update` plays."""
        boots = [{**it, "scripts": [self.items]} for it in self.boots[:1]]
        return Campaign({**self.document, "clients": self.document["clients"] or [{}], "boots": boots}, shelf, rows)


def folder_shelf(folder):
    """A shelf over a folder of payloads."""
    def file_named(digest):
        path = Path(folder, digest)
        return path.read_bytes() if path.exists() else None
    return file_named


def is_determined(document):
    """At most one client has a script in each boot."""
    return all(sum(1 for it in boot.get("scripts", []) if it) <= 1 for boot in document["boots"])


def main():
    words = sys.argv[2:]
    if len(sys.argv) not in (2, 4) or (words and words[0] not in ("plan", "update")):
        print("second_reading.py: usage: second_reading.py campaign.json [plan TAG | update TAG]", file=sys.stderr)
        return 2
    path = Path(sys.argv[1])
    document = json.loads(path.read_text())
    if words:
        plan = Plan(document, words[1])
        sys.stdout.write(plan.text() if words[0] == "plan" else plan.played(folder_shelf(path.parent / "payloads")).report())
        return 0
    if not is_determined(document):
        print("second_reading.py: in one boot two clients have a script", file=sys.stderr)
        return 3
    sys.stdout.write(Campaign(document, folder_shelf(path.parent / "payloads")).report())
    return 0


if __name__ == "__main__":
    sys.exit(main())
