"""One document that has every field, and what docs/FORMATS.md says of each field: which values it takes, and how
another one is told. The documents of the tries are made of it, and so is what each must be answered."""
import copy
import json
from dataclasses import dataclass, field

HUB = "2082b5e0-7a64-478a-b1b2-e3404fab6dad"
DOCK = "11111111-1111-4111-8111-111111111111"
HARDWARE = "33333333-3333-4333-8333-333333333333"
OTHER = "44444444-4444-4444-8444-444444444444"
NEW = "9770ab3285028befb05af65f2ad3bd2d36afb87626032bc8a9ac195219be71d7"
OLD = "c9a69fece8c4c54b1942720921d0cc74b307337503b677c013941c03278e2c46"
NOT_JSON = "document 0 0 0 text: not-json"


class Raw(str):
    """Text that stands in a document as it is."""


@dataclass(frozen=True)
class Again:
    """The name of a member that another one of the object has too."""

    name: str


def text_of(value):
    """Returns a document's text, in which a member's name may come twice."""
    if isinstance(value, Raw):
        return str(value)
    if isinstance(value, dict):
        members = (f"{json.dumps(getattr(k, 'name', k))}: {text_of(v)}" for k, v in value.items())
        return "{" + ", ".join(members) + "}"
    if isinstance(value, list):
        return "[" + ", ".join(map(text_of, value)) + "]"
    return json.dumps(value)


def document():
    """Returns the document. Its campaign goes well: each of its installs is accepted, but for the last one, which would try a
    row again while another one waits."""
    requires = [
        {"tag": "id", "text": "org.freedesktop.fwupd", "compare": "ge", "version": "1.8.0"},
        {"tag": "id", "text": "org.kernel", "compare": "glob", "version": "6.*"},
        {"tag": "firmware", "text": "", "compare": "regex", "version": "^1[.]0"},
        {"tag": "firmware", "text": "bootloader", "compare": "lt", "version": "0.2"},
        {"tag": "firmware", "text": "vendor-id", "compare": "eq", "version": "USB:0x0A5C"},
        {"tag": "firmware", "text": DOCK, "compare": "ne", "version": "9"},
        {"tag": "firmware", "text": DOCK, "depth": 1, "compare": "le", "version": "2.0"},
        {"tag": "hardware", "text": f"{HARDWARE}|{OTHER}"},
        {"tag": "not_hardware", "text": OTHER},
        {"tag": "client", "text": "detach-action"},
    ]
    releases = [
        {"version": "1.1.0", "urgency": "high", "sha256": NEW, "size": 14},
        {"version": "1.0.0", "urgency": "low", "sha256": OLD, "size": 14},
    ]
    install = {"do": "install", "device": "usb2", "tag": "t1", "version": "1.1.0", "flags": []}
    later = {"do": "install", "device": "usb2", "tag": "t2", "version": "1.1.0", "flags": ["offline", "allow-reinstall"]}
    again = {"do": "install", "device": "usb2", "tag": "t3", "version": "1.1.0", "retry-of": 1}
    return {
        "format": 1,
        "machine": {
            "daemon": "1.9.5",
            "ids": {"org.kernel": "6.1.0"},
            "smbios": {"manufacturer": "Emu", "family": "Lator", "product": "One", "sku": "1-2"},
            "hardware": [HARDWARE],
            "on-ac": True,
            "power-low": False,
            "lid-closed": False,
            "pool": 16,
        },
        "quirks": [f"# A quirk file\n[{HUB}]\nName = Hub\nFlags = require-ac\nVendorId = USB:0x17EF\n"],
        "components": [
            {
                "id": "com.example.hub",
                "name": "Hub",
                "provides": [HUB],
                "requires": requires,
                "custom": {"LVFS::VersionFormat": "triplet", "LVFS::UpdateProtocol": "com.example"},
                "releases": releases,
            }
        ],
        "remotes": [{"name": "testing", "order": 5, "enabled": True, "components": []}],
        "boards": [
            {
                "port": "usb1",
                "physical": "usb-1",
                "plugin": "power",
                "instance-ids": [DOCK],
                "version-format": "pair",
                "image": "EMU1 00010000\n",
            },
            {
                "port": "usb2",
                "physical": "usb-2",
                "logical": "hub",
                "priority": 7,
                "plugin": "loader",
                "name": "Hub 2",
                "vendor": "Emu",
                "vendor-ids": ["USB:0x0A5C"],
                "instance-ids": [HUB],
                "loader-instance-ids": [OTHER],
                "counterparts": [OTHER],
                "flags": ["updatable", "needs-bootloader", "internal"],
                "version-format": "triplet",
                "protocol": "com.example",
                "bootloader-version": "0.1.2",
                "size-min": 1,
                "size-max": 4096,
                "duration": 60,
                "parent": "usb1",
                "image": "EMU1 01000000\n",
                "unreachable": False,
                "power-low": False,
                "lid": True,
                "faults": [{"call": 4294967294, "fault": "torn"}],
            },
        ],
        "clients": [{"features": ["detach-action"]}, {}],
        "boots": [
            {
                "time": 1000,
                "cut-after": 1000000,
                "absent": [],
                "scripts": [
                    [
                        {"do": "get-devices"},
                        {"do": "get-releases", "device": "usb2"},
                        {"do": "get-upgrades", "device": HUB},
                        install,
                        {"do": "get-results", "device": "usb2"},
                        later,
                        {"do": "settle", "device": "usb2"},
                        {"do": "get-history"},
                        again,
                    ],
                    [{"do": "unplug", "device": "usb1"}, {"do": "plug", "device": "usb1"}],
                ],
            },
            {"time": 2000, "absent": ["usb1"], "scripts": []},
        ],
    }


@dataclass
class Field:
    """One field: its place in the document, how a fault of it is told, and some of its values."""

    path: tuple
    place: str
    kind: str
    # The reason that is told where it is removed, or none.
    gone: str = None
    good: list = field(default_factory=list)
    bad: list = field(default_factory=list)
    # What else may be told where it is taken away, or has another good value.
    else_told: str = None


KINDS = {"null": None, "flag": True, "number": 0, "text": "x", "list": [], "object": {}}
WRONG = "wrong-kind"


def number(low, high):
    """Returns the values that a number of this range may have, and others."""
    good = [low, high]
    bad = [(v, WRONG) for v in (-1, low - 1, high + 1, 2**63, 2**64 - 1, 2**64, 10**40) if not low <= v <= high]
    bad += [(Raw(v), WRONG) for v in ("1.0", "1e2", "-0", "1E+2")] + [(Raw(v), "not-json") for v in ("1e999", "01", "+1", ".5")]
    return {"kind": "number", "good": good, "bad": bad}


def text(good, bad, reason=WRONG):
    """Returns these values of a text, and others, for this reason."""
    return {"kind": "text", "good": good, "bad": [(v, reason) for v in bad]}


CONTROLS = ["\x00", "a\x01", "\x1f", "a\x7f"]
NAMES = (["!", "~" * 64], ["", " ", "a b", "~" * 65, "é", *CONTROLS])
LINES = (["", " ", "é" * 127 + "a", "~" * 255, "\U0001f600"], ["~" * 256, "é" * 128, *CONTROLS])


def name(**more):
    """Returns the values of a name."""
    return {**text(*NAMES), **more}


def version():
    """Returns the values of a version."""
    return text(*NAMES, "bad-version")


def line(empty=True):
    """Returns the values of a line."""
    good, bad = LINES
    return text(good, bad) if empty else text(good[1:], ["", *bad])


def flag():
    """Returns the values of what is true or false."""
    return {"kind": "flag", "good": [True, False]}


def word(*words):
    """Returns the values of a word of these."""
    return text(list(words), ["", "x", words[0].upper(), f"{words[0]} ", *CONTROLS])


def some(entry, most, entries=(), reason=WRONG, least=0):
    """Returns the values of a list of up to so many entries, of which these are none."""
    good = [[entry] * least, [entry] * most]
    bad = [([entry] * (most + 1), "too-many"), ([entry] * (most * 20), "too-many")]
    bad += [([entry, v], WRONG) for v in (None, 1, [], {})] + [([entry, v], reason) for v in entries]
    return {"kind": "list", "good": good, "bad": bad}


GUIDS = ("", "x", HUB[:-1], HUB + "0", HUB.replace("-", "_"), HUB[:-1] + "g", *CONTROLS)
FLAGS = (
    "updatable internal locked require-ac needs-bootloader needs-reboot wait-for-replug install-parent-first emulated"
).split()


def machine_fields():
    """Returns the fields of the machine."""
    at = "machine 0 0 0"
    yield Field(("machine", "daemon"), f"{at} daemon", gone="missing", **version())
    ids = {"kind": "object", "good": [{}, {f"i{i}": "1" for i in range(64)}]}
    ids["bad"] = [({f"i{i}": "1" for i in range(65)}, "too-many"), ({"i": 1}, WRONG), ({"": "1"}, WRONG)]
    ids["bad"] += [({"i": ""}, "bad-version"), ({"a b": "1"}, WRONG), ({"a\x01": "1"}, WRONG)]
    yield Field(("machine", "ids"), f"{at} ids", **ids)
    yield Field(("machine", "smbios"), f"{at} smbios", kind="object", good=[{}])
    for part in ("manufacturer", "family", "product", "sku"):
        texts = text(["", " ", "~" * 255], ["~" * 256, "é", *CONTROLS])
        yield Field(("machine", "smbios", part), f"{at} smbios", **texts)
    yield Field(("machine", "hardware"), f"{at} hardware", **some(HUB.upper(), 64, GUIDS, "bad-guid"))
    for part in ("on-ac", "power-low", "lid-closed"):
        yield Field(("machine", part), f"{at} {part}", **flag())
    yield Field(("machine", "pool"), f"{at} pool", gone="missing", **number(0, 16384))


def component_fields():
    """Returns the fields of a component, of its releases and of its requirements."""
    at, top = "components 0 0 0", ("components", 0)
    yield Field((*top, "id"), f"{at} id", gone="missing", **name())
    yield Field((*top, "name"), f"{at} name", **line())
    yield Field((*top, "provides"), f"{at} provides", gone="missing", **some(OTHER, 64, GUIDS, "bad-guid"))
    few = {"kind": "list", "good": [[]], "bad": [([{"tag": "client", "text": "x"}] * 65, "too-many")]}
    yield Field((*top, "requires"), f"{at} requires", **few)
    yield Field((*top, "custom"), f"{at} custom", kind="object", good=[{}, {"x": "y"}])
    release = {"version": "1", "sha256": OLD, "size": 0}
    many = {"kind": "list", "good": [[], [release] * 20000], "bad": [([release] * 20001, "too-many")]}
    yield Field((*top, "releases"), f"{at} releases", gone="missing", **many)
    at = "components 0 1 0"
    low = (*top, "releases", 1)
    yield Field((*low, "version"), f"{at} version", gone="missing", **version())
    yield Field((*low, "urgency"), f"{at} urgency", **word("unknown", "low", "medium", "high", "critical"))
    digests = text(["0" * 64], ["", "0" * 63, "0" * 65, "A" * 64, "g" * 64, *CONTROLS], "bad-digest")
    yield Field((*low, "sha256"), f"{at} sha256", gone="missing", **digests)
    yield Field((*low, "size"), f"{at} size", gone="missing", **number(0, 4194304))
    yield from requirement_fields()


def remote_fields():
    """Returns the fields of a remote, beside one component of the document's own."""
    at, top = "remotes 0 0 0", ("remotes", 0)
    named = name(gone="missing")
    named["bad"] = named["bad"] + [("local", "repeated")]
    yield Field((*top, "name"), f"{at} name", **named)
    yield Field((*top, "order"), f"{at} order", **number(0, 1000))
    yield Field((*top, "enabled"), f"{at} enabled", **flag())
    one = {"id": "c", "provides": [], "releases": []}
    many = {"kind": "list", "good": [[], [one] * 4095], "bad": [([one] * 4096, "too-many")]}
    yield Field((*top, "components"), f"{at} components", gone="missing", **many)


def requirement_fields():
    """Returns the fields of requirements."""
    low = ("components", 0, "requires")
    yield Field((*low, 0, "tag"), "components 0 0 0 tag", gone="missing", **text(["id"], ["", "x", "ID", *CONTROLS]))
    yield Field((*low, 0, "text"), "components 0 0 0 text", gone=WRONG, **name())
    compares = text(["eq", "ne", "lt", "le", "gt", "ge", "glob", "regex"], ["", "EQ", "=", *CONTROLS], "bad-compare")
    yield Field((*low, 0, "compare"), "components 0 0 0 compare", gone="missing", **compares)
    yield Field((*low, 0, "version"), "components 0 0 0 version", gone="missing", **version())
    globs = text(["", "*", "?" * 255], ["x" * 256])
    globs["bad"] += [("[", "bad-pattern 0"), ("1]", "bad-pattern 1"), ("a\\", "bad-pattern 1"), ("1\x01", "bad-pattern 1")]
    yield Field((*low, 1, "version"), "components 0 1 0 version", gone="missing", **globs)
    regexes = text(["", "a|b", "[a-f]*", "." * 255], ["x" * 256])
    regexes["bad"] += [("a{2}", "bad-pattern 1"), ("a+?", "bad-pattern 2"), ("a$^", "bad-pattern 1"), ("x[", "bad-pattern 1")]
    regexes["bad"] += [("[a-c-e]", "bad-pattern 4"), ("[xb-a]", "bad-pattern 2"), ("a\\", "bad-pattern 1")]
    yield Field((*low, 2, "version"), "components 0 2 0 version", gone="missing", **regexes)
    yield Field((*low, 6, "depth"), "components 0 6 0 depth", **number(1, 8))
    guids = text([HUB, "|".join([HUB] * 64)], [g for g in GUIDS] + [f"{HUB}|", f"|{HUB}"], "bad-guid")
    guids["bad"].append(("|".join([HUB] * 65), "too-many"))
    yield Field((*low, 7, "text"), "components 0 7 0 text", gone="bad-guid", **guids)
    yield Field((*low, 9, "text"), "components 0 9 0 text", gone=WRONG, **name())


def board_fields():
    """Returns the fields of a board."""
    at, top = "boards 1 0 0", ("boards", 1)
    ports = ["usb1", DOCK, "a" * 40]
    first = name(gone="missing", else_told="bad-reference")
    first["bad"] = first["bad"] + [(ports[0], "repeated"), (ports[1], WRONG), (ports[2], WRONG)]
    yield Field((*top, "port"), f"{at} port", **first)
    yield Field((*top, "physical"), f"{at} physical", gone="missing", **line(empty=False))
    yield Field((*top, "logical"), f"{at} logical", **line())
    yield Field((*top, "priority"), f"{at} priority", **number(0, 1000))
    yield Field((*top, "plugin"), f"{at} plugin", gone="missing", **name())
    for part in ("name", "vendor"):
        yield Field((*top, part), f"{at} {part}", **line())
    yield Field((*top, "vendor-ids"), f"{at} vendor-ids", **some("USB:0x0A5C", 64, NAMES[1]))
    instances = some("USB\\VID_0A5C", 64, ["", *LINES[1]], least=1)
    for part in ("instance-ids", "loader-instance-ids"):
        yield Field((*top, part), f"{at} {part}", gone="missing" if part == "instance-ids" else None, **instances)
    yield Field((*top, "counterparts"), f"{at} counterparts", **some("x", 64, ["", *LINES[1]]))
    flags = {"kind": "list", "good": [[], FLAGS], "bad": [([v], WRONG) for v in (None, 1, "", "x", "is-bootloader")]}
    yield Field((*top, "flags"), f"{at} flags", **flags)
    formats = "plain number hex pair triplet quad bcd dell-bios dell-bios-msb surface-legacy surface intel-me intel-me2"
    yield Field((*top, "version-format"), f"{at} version-format", gone="missing", **word(*formats.split()))
    yield Field((*top, "protocol"), f"{at} protocol", **name())
    yield Field((*top, "bootloader-version"), f"{at} bootloader-version", **version())
    for part in ("size-min", "size-max"):
        yield Field((*top, part), f"{at} {part}", **number(0, 4194304))
    yield Field((*top, "duration"), f"{at} duration", **number(0, 4294967295))
    parents = text(["usb1"], ["usb2", "usb3", "", "a b"], "bad-reference")
    yield Field((*top, "parent"), f"{at} parent", **parents)
    yield Field((*top, "image"), f"{at} image", gone="missing", **text(["", "\x00" * 255, "é" * 127], ["x" * 256, "é" * 128]))
    for part in ("unreachable", "power-low", "lid"):
        yield Field((*top, part), f"{at} {part}", **flag())
    yield from fault_fields()


def fault_fields():
    """Returns the fields of a planned fault, and the list of them."""
    at, top = "boards 1 0 0 faults", ("boards", 1, "faults")
    plans = [{"call": i, "fault": "gone"} for i in range(1, 67)]
    lists = {"kind": "list", "good": [[], plans[:64]], "bad": [(plans[:65], "too-many"), ([plans[2]] * 2, "repeated")]}
    lists["bad"].append((plans[:2][::-1], "repeated"))
    yield Field(top, at, **lists)
    yield Field((*top, 0, "call"), at, gone="missing", **number(1, 4294967295))
    yield Field((*top, 0, "fault"), at, gone="missing", **word("failed", "torn", "gone", "stranger"))


def boot_fields():
    """Returns the fields of a boot, of a client, and of items."""
    yield Field(("clients", 0, "features"), "clients 0 0 0 features", **some("x", 64, NAMES[1]))
    at, top = "boots 0 0 0", ("boots", 0)
    yield Field((*top, "time"), f"{at} time", gone="missing", **number(0, 2**63 - 1))
    yield Field((*top, "cut-after"), f"{at} cut-after", **number(0, 1000000))
    absent = {"kind": "list", "good": [[], ["usb2"]], "bad": [(["usb3"], "bad-reference")]}
    absent["bad"] += [([v], WRONG) for v in (None, 1)]
    yield Field((*top, "absent"), f"{at} absent", **absent)
    scripts = {"kind": "list", "good": [[], [[], []]], "bad": [([[], [], []], "too-many")]}
    yield Field((*top, "scripts"), f"{at} scripts", **scripts)
    verbs = text(["get-devices", "get-history"], ["", "x", "Install", *CONTROLS])
    yield Field((*top, "scripts", 0, 0, "do"), "boots 0 0 0 do", gone="missing", **verbs)
    for item in (1, 3):
        yield Field((*top, "scripts", 0, item, "device"), f"boots 0 0 {item} device", gone="missing", **name())
    yield Field((*top, "scripts", 0, 3, "tag"), "boots 0 0 3 tag", gone="missing", **name())
    yield Field((*top, "scripts", 0, 3, "version"), "boots 0 0 3 version", gone="missing", **version())
    words = ["offline", "allow-reinstall", "allow-older"]
    flags = {"kind": "list", "good": [[], words], "bad": [([v], WRONG) for v in (None, 1, "", "x")]}
    yield Field((*top, "scripts", 0, 3, "flags"), "boots 0 0 3 flags", **flags)
    yield Field((*top, "scripts", 0, 8, "retry-of"), "boots 0 0 8 retry-of", **number(1, 65536))


def section_fields():
    """Returns the sections."""
    yield Field(("format",), "format 0 0 0 format", "number", "missing", [1], [(v, WRONG) for v in (0, 2, -1, Raw("1.0"))])
    yield Field(("machine",), "document 0 0 0 machine", "object", "missing")
    kinds = {"quirks": ("[x]\n", 64), "components": (None, 4096), "remotes": (None, 16), "boards": (None, 256), "clients": ({}, 16)}
    for part, (entry, most) in kinds.items():
        gone = None if part in ("quirks", "remotes") else "missing"
        found = Field((part,), f"document 0 0 0 {part}", "list", gone, [], [([entry] * (most + 1), "too-many")])
        found.else_told = "bad-reference" if part == "boards" else "too-many"
        yield found
    entry = {"time": 1, "scripts": []}
    yield Field(("boots",), "document 0 0 0 boots", "list", "missing", [[], [entry] * 32], [([entry] * 33, "too-many")])


def fields():
    """Returns every field."""
    groups = (section_fields, machine_fields, component_fields, remote_fields, board_fields, boot_fields)
    return [it for group in groups for it in group()]


def changed(path, change):
    """Returns the document in which that change was made to the object that holds the field, and its name."""
    top = document()
    inner = top
    for step in path[:-1]:
        inner = inner[step]
    change(inner, path[-1])
    return text_of(top)


def changes():
    """Returns each change of one member: what it is, the text, the place, and the reason that has to be told or None.
    Where the field may break a reference to it, its reason comes too."""
    found = []
    for it in fields():

        def add(what, change, reason, it=it):
            found.append((f"{'.'.join(map(str, it.path))} {what}", (it.path, change), it.place, reason, it.else_told))

        add("removed", lambda inner, last: inner.pop(last), it.gone)
        for kind, value in KINDS.items():
            if kind != it.kind:
                add(f"is {kind}", lambda inner, last, v=value: inner.update({last: v}), WRONG)
                add(f"twice, last {kind}", lambda inner, last, v=value: inner.update({Again(last): v}), WRONG)
                add(f"twice, first {kind}", lambda inner, last, v=value: first(inner, last, v), None)
        for value in it.good:
            add(f"good {str(value)[:20]!r}", lambda inner, last, v=value: inner.update({last: v}), None)
        for value, reason in it.bad:
            add(f"bad {str(value)[:20]!r}", lambda inner, last, v=value: inner.update({last: v}), reason)
    return found


def first(inner, last, value):
    """Puts a member of that name and value before the one that is there."""
    kept = copy.deepcopy(inner)
    inner.clear()
    inner[Again(last)] = value
    inner.update(kept)
