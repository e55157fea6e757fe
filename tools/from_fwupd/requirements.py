"""Makes the requirements of a component: what the guide's `<requires>` states, as far as the document has it."""
from .patterns import is_glob, is_regex
from .texts import as_line, is_guid, is_name
from .versions import written_out

MOST_REQUIREMENTS = 64
MOST_GUIDS = 64
DEEPEST = 8
ORDERS = ("eq", "ne", "lt", "le", "gt", "ge")
PATTERNS = {"glob": is_glob, "regex": is_regex}


class LeftOut(Exception):
    """A requirement that has no place in the document: its kind, and why."""


def requirements_of(elements, told, leftovers):
    """Returns the requirements that are carried over, and the texts of the others.

    `told` is the device's format, in which fwupd reads a raw number.
    """
    carried, left = [], []
    for it in elements:
        try:
            if len(carried) == MOST_REQUIREMENTS:
                raise LeftOut("requirement past the last", f"a component has up to {MOST_REQUIREMENTS}")
            carried.append(requirement_of(it, told))
        except LeftOut as why:
            leftovers.add(*why.args)
            left.append(described(it))
    return carried, left


def described(element):
    """Returns a requirement as a line, for a member that is passed over."""
    attributes = "".join(f" {key}={value}" for key, value in element.attrib.items())
    return as_line(f"{element.tag}{attributes}: {words(element)}")


def words(element):
    return "".join(element.itertext()).strip()


def requirement_of(element, told):
    text, tag = words(element), element.tag
    if tag == "id":
        if not is_name(text):
            raise LeftOut("requirement <id>", "its text is no name of up to 64 bytes")
        return {"tag": "id", "text": text, **comparison(element, "<id>", None)}
    if tag == "firmware":
        return firmware(element, text, told)
    if tag in ("hardware", "not_hardware"):
        guids = [it.strip() for it in text.split("|")]
        if not all(is_guid(it) for it in guids) or len(guids) > MOST_GUIDS:
            raise LeftOut(f"requirement <{tag}>", f"it isn't 1 to {MOST_GUIDS} GUIDs")
        return {"tag": tag, "text": "|".join(guids)}
    if tag == "client":
        if not is_name(text):
            raise LeftOut("requirement <client>", "its text is no name of up to 64 bytes")
        return {"tag": "client", "text": text}
    raise LeftOut(f"requirement <{tag}>", "there is no such requirement here")


def firmware(element, text, told):
    """Returns a requirement of a version: the device's own, its boot loader's, or another device's."""
    depth = element.get("depth")
    if text in ("", "bootloader") and depth is None:
        found = {"tag": "firmware", **({"text": text} if text else {})}
        return {**found, **comparison(element, "<firmware>", told)}
    if text == "vendor-id" and depth is None:
        return {"tag": "firmware", "text": text, **vendor_comparison(element)}
    if text == "not-child" or depth is not None and depth.startswith("-"):
        raise LeftOut("requirement of a child", "a device is found by its ancestors alone")
    if depth == "0":
        raise LeftOut("requirement of a sibling", "a device is found by its ancestors alone")
    if not is_guid(text):
        several = all(is_guid(it) for it in text.split("|"))
        why = "it names several devices" if several else "its text isn't one of the guide's"
        raise LeftOut("requirement <firmware>", why)
    found = {"tag": "firmware", "text": text}
    if depth is not None:
        if not depth.isascii() or not depth.isdigit() or not 1 <= int(depth) <= DEEPEST:
            raise LeftOut("requirement <firmware>", f"its depth isn't 1 to {DEEPEST}")
        found["depth"] = int(depth)
    if element.get("compare") is None and element.get("version") is None:
        return found
    return {**found, **comparison(element, "<firmware>", None)}


def comparison(element, what, told):
    """Returns the two members that compare a version."""
    compare, version = element.get("compare"), element.get("version")
    if compare is None or version is None:
        raise LeftOut(f"requirement {what}", "it doesn't say with what a version is compared, and how")
    if compare in PATTERNS:
        return pattern(compare, version)
    if compare not in ORDERS:
        raise LeftOut(f"requirement {what}", "its word of comparison isn't one of the guide's")
    version = written_out(version, told)
    if not is_name(version):
        raise LeftOut(f"requirement {what}", "its version isn't one of up to 64 bytes")
    return {"compare": compare, "version": version}


def vendor_comparison(element):
    compare, version = element.get("compare"), element.get("version", "")
    if compare in PATTERNS:
        return pattern(compare, version)
    if compare != "eq" or not is_name(version):
        raise LeftOut("requirement <firmware> vendor-id", "it is neither `eq` with a name, `glob` nor `regex`")
    return {"compare": compare, "version": version}


def pattern(compare, text):
    if not PATTERNS[compare](text):
        raise LeftOut(f"requirement with a {compare}", "the pattern has what there isn't here, such as groups or counts")
    return {"compare": compare, "version": text}
