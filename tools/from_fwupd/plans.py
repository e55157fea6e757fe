"""Makes the boots of the document: what the client asks for."""
from .versions import render, version_key

PLANS = ("latest", "none")
LATER_SECONDS = 3600
LATEST_TIME = (1 << 63) - 1 - LATER_SECONDS


def boots_of(plan, stock, components, shelf):
    """Returns the boots of a plan. `stock` has the devices, after their quirks, each with its board."""
    time = min(max(0, *(device.told.get("Created", 0) for device, _ in stock)), LATEST_TIME)
    if plan == "none":
        return [{"time": time, "scripts": [[{"do": "get-devices"}]]}]
    items, reboots = [], False
    for device, board in install_order(stock):
        version = newest_for(device, board, components, shelf)
        if version is not None:
            items.append({"do": "install", "tag": f"t{len(items) + 1}", "device": board["port"], "version": version})
            reboots = reboots or "needs-reboot" in board["flags"] + device.flags
    asked = {"do": "get-devices"}, {"do": "get-history"}
    boots = [{"time": time, "scripts": [[asked[0], *items, asked[1]]]}]
    if reboots:
        boots.append({"time": time + LATER_SECONDS, "scripts": [list(asked)]})
    return boots


def install_order(stock):
    """Returns the devices with their boards in the order in which fwupd updates them.

    A device comes before its parent, and behind it where it has the flag `install-parent-first`.
    """
    ranks = {}
    for device, board in stock:
        step = 1 if "install-parent-first" in device.flags else -1
        ranks[board["port"]] = ranks[board["parent"]] + step if "parent" in board else 0
    return sorted(stock, key=lambda it: ranks[it[1]["port"]])


def newest_for(device, board, components, shelf):
    """Returns the version of the newest release for the device, or None where it has none that is newer."""
    if "updatable" not in device.flags:
        return None
    form, guids = board["version-format"], set(device.guids())
    versions = [release["version"] for component in components if not guids.isdisjoint(component["provides"])
                for release in component["releases"] if shelf.is_shown(release, form)]
    shown = render(form, int(board["image"].split()[1], 16))
    newest = max(versions, key=version_key, default=shown)
    return newest if version_key(newest) > version_key(shown) else None
