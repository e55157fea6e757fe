"""Makes the whole document, and the payloads of its releases."""
import json
import re

from . import boards, components, plans, quirks
from .faults import Fault
from .leftovers import Leftovers
from .texts import clean, is_name
from .versions import written_out

DAEMON = "org.freedesktop.fwupd"
# What the daemon's version is taken to be where nobody tells it.
DEFAULT_DAEMON = "2.0.0"
POOL_BLOCKS = 64
MOST_IDS = 64
MOST_HARDWARE = 64
LARGEST_BYTES = 16777216
# What fwupdmgr says that it can do, for requirements `client`.
FEATURES = ("can-report", "detach-action", "update-action", "switch-branch", "requests", "fde-warning", "community-text",
            "show-problems")


def machine_of(versions, hwids, leftovers):
    """Returns the machine: what else runs there, by `fwupdmgr --version --json`, and its hardware, by `hwids`."""
    ids = {}
    for it in versions:
        named, version = it.get("AppstreamId"), it.get("Version")
        if it.get("Type", "runtime") != "runtime":
            continue
        if isinstance(named, str) and isinstance(version, str) and is_name(named) and is_name(version):
            ids.setdefault(named, version)
        else:
            leftovers.add("version of software", "it has no name, or no version of up to 64 bytes")
    daemon = ids.pop(DAEMON, None)
    if daemon is None:
        leftovers.add("version of the daemon", f"nobody told it (--versions does): {DEFAULT_DAEMON} is taken")
    machine = {"daemon": daemon or DEFAULT_DAEMON, "ids": dict(list(ids.items())[:MOST_IDS])}
    hardware = list(dict.fromkeys(it.lower() for it in re.findall(r"\{([0-9a-fA-F-]{36})\}", hwids)))
    for _ in hardware[MOST_HARDWARE:]:
        leftovers.add("hardware ID past the last", f"a machine has up to {MOST_HARDWARE}")
    if hardware:
        machine["hardware"] = hardware[:MOST_HARDWARE]
    machine["pool"] = POOL_BLOCKS
    return machine


def make(devices, candidates, quirk_files, machine, plan, leftovers):
    """Returns the document and the payloads by their digests.

    `candidates` is None where there is no metadata: then the releases count that fwupd tells beside its devices.
    """
    for device in devices:
        boards.show_hidden(device)
        device.flags = list(device.own_flags)
        quirks.apply(quirk_files, device)
    ordered = boards.order(devices, leftovers)
    kept = [device for device, _ in ordered]
    if candidates is None:
        candidates = components.from_devices(kept)
    chosen = components.for_boards(candidates, kept, leftovers)
    stock = list(zip(kept, boards_of(ordered, chosen, leftovers)))
    shelf = components.Shelf()
    listed = components_of(chosen, stock, shelf, leftovers)
    for device in kept:
        for it in boards.problems_of(device, Leftovers()):
            machine.update(boards.PROBLEMS[it][1])
    document = {
        "format": 1,
        "machine": machine,
        "quirks": quirks.texts_for(quirk_files, kept, leftovers),
        "components": listed,
        "boards": [board for _, board in stock],
        "clients": [{"features": list(FEATURES)}],
        "boots": plans.boots_of(plan, stock, listed, shelf),
        "not-carried-over": leftovers.members(),
    }
    named = {release["sha256"] for component in listed for release in component["releases"]}
    return document, {digest: shelf.images[digest] for digest in named}


def boards_of(ordered, chosen, leftovers):
    """Returns the boards of the devices, whose formats are chosen with a view to the releases for them."""
    ports = boards.ports_of([device for device, _ in ordered])
    by_id = {id(device): port for (device, _), port in zip(ordered, ports)}
    made = []
    for (device, parent), port in zip(ordered, ports):
        fitting = [it for it, devices in chosen if any(device is other for other in devices)]
        if device.format is None:
            device.format = next((it.format() for it in fitting if it.format()), None)
        releases = [written_out(release.version, device.format) for it in fitting for release in it.releases]
        made.append(boards.board_of(device, port, by_id.get(id(parent)), releases, leftovers))
    return made


def components_of(chosen, stock, shelf, leftovers):
    """Returns the components of the candidates that are for the boards, with no more releases than there may be."""
    by_device = {id(device): board for device, board in stock}
    listed = []
    for candidate, fitting in chosen:
        told = next((it.format for it in fitting if it.format), None)
        listed.append(components.component_of(candidate, [by_device[id(it)] for it in fitting], told, shelf, leftovers))
    components.cut_releases(listed, leftovers)
    return listed


def written(document):
    """Returns the document's bytes."""
    text = json.dumps(document, indent=2, ensure_ascii=False, allow_nan=False) + "\n"
    content = clean(text).encode()
    if len(content) > LARGEST_BYTES:
        raise Fault(f"the document is longer than {LARGEST_BYTES} bytes; give it fewer devices or less metadata")
    return content
