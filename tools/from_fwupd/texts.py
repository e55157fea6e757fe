"""The kinds of texts that the document has, and how a text of fwupd becomes one."""
import re
import uuid

LINE_BYTES = 255
NAME = re.compile(r"[!-~]{1,64}")
GUID = re.compile(r"[0-9a-fA-F]{8}(-[0-9a-fA-F]{4}){3}-[0-9a-fA-F]{12}")
DEEPEST = 32


def is_name(text):
    """Whether a text is a name, which has the same form as a version."""
    return NAME.fullmatch(text) is not None


def is_line(text):
    """Whether a text is a line that isn't empty."""
    return text == clean(text) and re.search(r"[\x00-\x1f\x7f]", text) is None and 0 < len(text.encode()) <= LINE_BYTES


def is_guid(text):
    return GUID.fullmatch(text) is not None


def guid_of(text):
    """Returns the GUID that a text writes, or else its version 5 UUID in the DNS namespace."""
    return text.lower() if is_guid(text) else str(uuid.uuid5(uuid.NAMESPACE_DNS, clean(text)))


def clean(text):
    """Returns a text that UTF-8 can write: a half of a surrogate pair becomes a question mark."""
    return text.encode(errors="replace").decode()


def as_line(text):
    """Returns a text as one line: without control bytes, and cut where it is too long."""
    line = re.sub(r"[\x00-\x1f\x7f]+", " ", clean(text)).strip()
    return line.encode()[:LINE_BYTES].decode(errors="ignore")


def passed_over(value, depth=0):
    """Returns a JSON value as one that every reader of JSON takes, for a member that is passed over."""
    if isinstance(value, str):
        return clean(value)
    if isinstance(value, list) and depth < DEEPEST:
        return [passed_over(it, depth + 1) for it in value]
    if isinstance(value, dict) and depth < DEEPEST:
        return {clean(key): passed_over(it, depth + 1) for key, it in value.items()}
    if value is None or isinstance(value, (bool, float)) or isinstance(value, int) and abs(value) < 1 << 63:
        return value
    return clean(str(value))[:LINE_BYTES]
