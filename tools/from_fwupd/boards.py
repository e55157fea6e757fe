"""Makes the boards of the document: one of each device that fwupd tells."""
import itertools
import re

from .texts import as_line, clean, is_name, passed_over
from .versions import FORMATS, choose, raw_of, render

MOST_BOARDS = 256
MOST_ELEMENTS = 64
MOST_ANCESTORS = 8
LONGEST_DURATION = 0xFFFFFFFF
# Shorter than a device ID and a GUID, so that a port has the form of neither.
LONGEST_PORT = 32
IMAGE_BYTES = 14
FLAGS = ("internal", "updatable", "require-ac", "locked", "needs-bootloader", "needs-reboot", "wait-for-replug",
         "install-parent-first", "emulated")
# Why a flag of fwupd has no place in the document.
FLAG_REASONS = {
    "is-bootloader": "a board starts in bootloader mode only without good firmware; it stands in runtime mode",
    "needs-shutdown": "the board has needs-reboot in its place: the next boot judges the update",
    "needs-activation": "the board has needs-reboot in its place: there is no activation",
    "supported": "which releases there are is shown by get-releases",
    "can-verify": "there is no verification",
    "can-verify-image": "there is no reading back",
    "signed-payload": "there are no signatures",
    "unsigned-payload": "there are no signatures",
    "can-emulation-tag": "no emulation is recorded",
    "emulation-tag": "no emulation is recorded",
    "dual-image": "a board has one image",
    "self-recovery": "a board keeps what a broken write left",
    "another-write-required": "an entry writes once",
    "backup-before-install": "nothing is kept of the old firmware",
    "usable-during-update": "a board that is being updated is in use",
    "updatable-hidden": "the problem that hides `updatable` isn't one of a board",
}
# What a problem of fwupd is here: a member of the board, or of the machine.
PROBLEMS = {
    "unreachable": ({"unreachable": True}, {}),
    "power-too-low": ({"power-low": True}, {}),
    "lid-is-closed": ({"lid": True}, {"lid-closed": True}),
    "require-ac-power": ({}, {"on-ac": False}),
    "system-power-too-low": ({}, {"power-low": True}),
}
# Why a member of a device has no place in the document. Members of prose are counted as one kind.
MEMBER_REASONS = {
    "VersionLowest": "there is no lowest version: an older release only needs allow-older",
    "VersionRaw": "the raw version is the one that shows the version's text",
    "VersionBootloaderRaw": "the version of the boot loader is a text",
    "Branch": "there are no branches; a component of another branch is left out",
    "CompositeId": "there are no composite updates",
    "RequestFlags": "nobody is asked to do something",
    "Checksums": "the image is a made one",
    "BatteryLevel": "there are no measured batteries",
    "BatteryThreshold": "there are no measured batteries",
    "UpdateState": "the history begins empty",
    "UpdateError": "the history begins empty",
    "Serial": "a board is named by its port",
}
PROSE = ("Summary", "Icons", "DetailsUrl", "Modified", "Issues", "UpdateMessage", "UpdateImage")
# The members of a device that have a place in the document, or whose content is told elsewhere in it.
CARRIED = ("Guid", "InstanceIds", "Flags", "Problems", "Name", "Vendor", "VendorId", "VendorIds", "Protocol",
           "Protocols", "InstallDuration", "VersionBootloader", "Releases", "ParentDeviceId", "Plugin", "DeviceId",
           "Version", "VersionFormat", "Created")


def plugin_of(flags):
    """Returns the plugin that stands for fwupd's, by the device's flags. The table is in README.md."""
    if not {"needs-reboot", "needs-shutdown", "needs-activation"}.isdisjoint(flags):
        return "capsule"
    if not {"needs-bootloader", "is-bootloader"}.isdisjoint(flags):
        return "loader"
    return "flash"


def order(devices, leftovers):
    """Returns the devices, each behind its parent, as pairs of a device and its parent, or None."""
    waiting, by_id = [], {}
    for device in devices:
        named = device.text("DeviceId")
        if named and named in by_id:
            leftovers.add("device told twice", "two devices have one ID, and the first counts")
            continue
        by_id[named] = device
        waiting.append(device)
    parents = {id(it): parent_of(it, by_id, leftovers) for it in waiting}
    ordered, depths = [], {}
    while waiting:
        rest = []
        for device in waiting:
            parent = parents[id(device)]
            if parent is not None and id(parent) not in depths:
                rest.append(device)
                continue
            if parent is not None and depths[id(parent)] == MOST_ANCESTORS:
                leftovers.add("parent too far down", f"a board has up to {MOST_ANCESTORS} ancestors")
                parent = None
            depths[id(device)] = 0 if parent is None else depths[id(parent)] + 1
            ordered.append((device, parent))
        if len(rest) == len(waiting):
            leftovers.add("parent that is a descendant", "the devices are each other's parents")
            parents[id(rest[0])] = None
        waiting = rest
    for _ in ordered[MOST_BOARDS:]:
        leftovers.add("device past the last board", f"a document has up to {MOST_BOARDS} boards")
    return ordered[:MOST_BOARDS]


def parent_of(device, by_id, leftovers):
    named = device.text("ParentDeviceId")
    if named and named not in by_id:
        leftovers.add("parent that isn't told", "the list of devices doesn't have it")
    return by_id.get(named) if named else None


def ports_of(devices):
    """Returns a port for each device, after its name, and with a number where another device has it."""
    ports = []
    for device in devices:
        words = device.text("Name") or device.text("Plugin")
        name = re.sub(r"[^a-z0-9]+", "-", words.lower())[:LONGEST_PORT].strip("-") or "board"
        numbered = (f"{name}-{number}" for number in itertools.count(2))
        ports.append(next(it for it in itertools.chain([name], numbered) if it not in ports))
    return ports


def board_of(device, port, parent, releases, leftovers):
    """Returns the board of a device; `releases` are the versions that are there for it."""
    version = device.told.get("Version")
    form = choose(device.format, version, releases)
    board = {"port": port, "physical": as_line(device.text("DeviceId")) or f"port-{port}", "plugin": plugin_of(device.flags)}
    for key, told in (("name", "Name"), ("vendor", "Vendor")):
        if device.text(told):
            board[key] = as_line(device.text(told))
    board["vendor-ids"] = vendor_ids_of(device, leftovers)
    board["instance-ids"] = instance_ids_of(device, leftovers)
    board["flags"] = flags_of(device.own_flags, board["plugin"], leftovers)
    board["version-format"] = form
    add_protocol(board, device, leftovers)
    add_bootloader_version(board, device, leftovers)
    if "InstallDuration" in device.told:
        board["duration"] = min(max(device.told["InstallDuration"], 0), LONGEST_DURATION)
    if parent is not None:
        board["parent"] = parent
    board["image"] = image(raw_version(device, form, leftovers)).decode()
    for it in problems_of(device, leftovers):
        board.update(PROBLEMS[it][0])
    board["fwupd"] = left_of(device, leftovers)
    return board


def image(raw):
    """Returns a made image with this raw version."""
    return f"EMU1 {raw:08x}\n".encode()


def raw_version(device, form, leftovers):
    """Returns the raw version that shows the device's version under the board's format, or else 0."""
    version = device.told.get("Version")
    if form != device.format:
        leftovers.add(f"version format {device.format or 'none'}", format_reason(device.format))
    if version is None:
        leftovers.add("device without a version", "a board has one: it shows that of the raw version 0")
        return 0
    raw = raw_of(form, version)
    if raw is None:
        leftovers.add("version of a device that no format shows", "the board shows that of the raw version 0")
        return 0
    if render(form, raw) != version:
        leftovers.add("version that is written otherwise", "the board's version is equal, but without leading zeros")
    return raw


def format_reason(form):
    """Says why a board hasn't the device's own format."""
    if form is None:
        return "a board has one: it has one that shows its version"
    if form in FORMATS:
        return "it can't show the device's version here; the board has one that can"
    return "there is no such format here; the board has one that shows its version"


def names_among(texts, what, leftovers):
    """Returns those of the texts that are names, once each, and no more than a list may have."""
    names = []
    for it in dict.fromkeys(texts):
        if is_name(it) and len(names) < MOST_ELEMENTS:
            names.append(it)
        else:
            leftovers.add(what, "it is no name of up to 64 bytes, or one too many")
    return names


def vendor_ids_of(device, leftovers):
    told = device.told.get("VendorIds") or [it for it in device.text("VendorId").split("|") if it]
    return names_among(told, "vendor ID", leftovers)


def instance_ids_of(device, leftovers):
    texts = device.instance_ids[:MOST_ELEMENTS]
    for _ in device.instance_ids[MOST_ELEMENTS:]:
        leftovers.add("instance ID past the last", f"a board has up to {MOST_ELEMENTS}")
    if not texts:
        leftovers.add("device without a GUID", "a board has one: it is made of the device ID")
    return texts or [as_line("FROM-FWUPD\\" + (device.text("DeviceId") or device.text("Name")))]


def problems_of(device, leftovers):
    told = list(device.told.get("Problems", [])) + (["unreachable"] if "unreachable" in device.own_flags else [])
    for it in dict.fromkeys(told):
        if it in PROBLEMS:
            yield it
        else:
            leftovers.add(f"problem {it}", "it isn't one that the document states of a board or the machine")


def show_hidden(device):
    """Gives a device the flag that its problems hide, where each of them is carried over: these refuse by themselves."""
    told = device.told.get("Problems", [])
    if "updatable-hidden" in device.own_flags and told and all(it in PROBLEMS for it in told):
        device.own_flags[device.own_flags.index("updatable-hidden")] = "updatable"


def flags_of(flags, plugin, leftovers):
    """Returns the board's flags, of these of its device before the quirks."""
    kept = []
    for it in dict.fromkeys(flags):
        if it in FLAGS:
            kept.append(it)
        elif it != "unreachable":
            leftovers.add(f"flag {it}", FLAG_REASONS.get(it, "there is no such flag here"))
    return kept + (["needs-reboot"] if plugin == "capsule" and "needs-reboot" not in kept else [])


def add_protocol(board, device, leftovers):
    told = device.told.get("Protocols") or [it for it in device.text("Protocol").split("|") if it]
    names = [it for it in told if is_name(it)]
    if names:
        board["protocol"] = names[0]
    for _ in range(len(told) - len(names[:1])):
        leftovers.add("protocol", "a board has one, and this is another")


def add_bootloader_version(board, device, leftovers):
    version = device.told.get("VersionBootloader")
    if version is not None and is_name(version):
        board["bootloader-version"] = version
    elif version is not None:
        leftovers.add("bootloader version", "it is no version of up to 64 bytes")


def left_of(device, leftovers):
    """Returns what fwupd tells of a device and the board hasn't, for a member that is passed over."""
    told = ("DeviceId", "Plugin", "Version", "VersionFormat")
    left = {key: passed_over(device.told[key]) for key in told if key in device.told}
    flags = [clean(it) for it in device.told.get("Flags", []) if it not in FLAGS]
    if flags:
        left["Flags"] = flags
    for key, value in device.told.items():
        if key in CARRIED:
            continue
        left[clean(key)] = passed_over(value)
        if key in PROSE:
            leftovers.add("prose of a device", "nothing here tells it: summaries, icons, links, messages")
        else:
            leftovers.add(f"member {key} of a device", MEMBER_REASONS.get(key, "a board has nothing like it"))
    return left
