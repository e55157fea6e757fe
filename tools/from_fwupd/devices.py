"""Reads what `fwupdmgr get-devices --json` or `fwupdtool get-devices --json` writes."""
import json
from dataclasses import dataclass, field

from .faults import Fault
from .texts import guid_of, is_guid, is_line

# What a device may say of itself, and of which kind it is. What isn't named here is of any kind.
KINDS = {
    "DeviceId": str, "ParentDeviceId": str, "Name": str, "Vendor": str, "Plugin": str, "Version": str,
    "VersionBootloader": str, "VersionFormat": str, "Branch": str, "Protocol": str, "VendorId": str,
    "InstallDuration": int, "Created": int, "Guid": list, "InstanceIds": list, "Flags": list, "Problems": list,
    "Protocols": list, "VendorIds": list, "Releases": list,
}
KIND_NAMES = {str: "a text", int: "a whole number", list: "a list"}


@dataclass
class Device:
    """A device as fwupd tells it, and what the quirk files make of it: its flags, its format, and what they add."""

    told: dict
    instance_ids: list
    own_flags: list
    format: str | None
    flags: list = field(default_factory=list)
    added_ids: list = field(default_factory=list)
    counterparts: list = field(default_factory=list)

    def text(self, key):
        return self.told.get(key, "")

    def guids(self):
        return [guid_of(it) for it in self.instance_ids + self.added_ids]


def read(text, where, leftovers):
    """Returns the devices that a text tells; `where` names it in a fault."""
    top = parse(text, where)
    if not isinstance(top, dict):
        raise Fault(f"{where}: what fwupd tells is one JSON object, and this is none")
    told = top.get("Error")
    if told is not None:
        message = told.get("Message") if isinstance(told, dict) else told
        raise Fault(f"{where}: fwupd told no devices, but an error: {message}")
    told = top.get("Devices")
    if not isinstance(told, list):
        raise Fault(f"{where}: there is no list `Devices`; `fwupdmgr get-devices --json` writes one")
    if not told:
        raise Fault(f"{where}: the list `Devices` is empty")
    return [device_of(it, f"{where}: Devices[{at}]", leftovers) for at, it in enumerate(told)]


def parse(text, where):
    """Returns the JSON value of a text."""
    def refuse(word):
        raise ValueError(f"{word} is no number of JSON")

    try:
        return json.loads(text, parse_constant=refuse)
    except RecursionError:
        raise Fault(f"{where}: the JSON nests too deep") from None
    except ValueError as told:
        raise Fault(f"{where}: this isn't JSON: {told}") from None


def device_of(told, where, leftovers):
    if not isinstance(told, dict):
        raise Fault(f"{where} is no object")
    for key, kind in KINDS.items():
        value = told.get(key)
        if key in told and (not isinstance(value, kind) or isinstance(value, bool)):
            raise Fault(f"{where}.{key} isn't {KIND_NAMES[kind]}")
        if kind is list and key != "Releases" and not all(isinstance(it, str) for it in value or []):
            raise Fault(f"{where}.{key} isn't a list of texts")
    form = told.get("VersionFormat")
    return Device(told, instance_ids_of(told, where, leftovers), list(told.get("Flags", [])),
                  None if form == "unknown" else form)


def instance_ids_of(told, where, leftovers):
    """Returns the device's GUIDs, each as the instance ID that it is made of where fwupd tells that."""
    origins = {}
    for it in told.get("InstanceIds", []):
        origins.setdefault(guid_of(it), it)
    found = []
    for guid in told.get("Guid", []):
        if not is_guid(guid):
            raise Fault(f"{where}.Guid has {guid!r}, which is no GUID")
        origin = origins.pop(guid.lower(), guid)
        found.append(origin if is_line(origin) else guid)
    for _ in origins:
        leftovers.add("instance ID without its GUID", "fwupd tells the ID, but doesn't match the device by it")
    return list(dict.fromkeys(found))
