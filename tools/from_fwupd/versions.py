"""The thirteen version formats that the document has: a raw number as a text, and the raw number of a text."""
import re

# Of each format whose texts are decimal numbers with dots: how many bits each number has, from the highest on, and
# how many of the lowest bits aren't shown. What is left of the 32 bits above them isn't shown either.
FIELDS = {
    "plain": ((32,), 0),
    "number": ((32,), 0),
    "pair": ((16, 16), 0),
    "triplet": ((8, 8, 16), 0),
    "quad": ((8, 8, 8, 8), 0),
    "dell-bios": ((8, 8, 8), 0),
    "dell-bios-msb": ((8, 8, 8), 8),
    "surface-legacy": ((10, 12, 10), 0),
    "surface": ((8, 16, 8), 0),
    "intel-me": ((3, 5, 8, 16), 0),
    "intel-me2": ((4, 4, 8, 16), 0),
}
FORMATS = (*FIELDS, "bcd", "hex")
# The formats that may stand in for one that can't show a version: those that say least of the device come first.
STAND_INS = ("number", "pair", "triplet", "quad", "surface", "surface-legacy", "intel-me2", "intel-me", "hex")
INTEL_ME_FIRST = 11
HIGHEST = 0xFFFFFFFF
# fwupd takes a number without dots for a raw one only where it is at least this.
LEAST_RAW = 0xFF


def render(form, raw):
    """Returns the text of a raw number under a format."""
    if form == "hex":
        return f"0x{raw:08x}"
    if form == "bcd":
        return ".".join(str((byte >> 4) * 10 + (byte & 15)) for byte in raw.to_bytes(4, "big"))
    bits, rest = FIELDS[form]
    numbers = []
    raw >>= rest
    for width in reversed(bits):
        numbers.insert(0, raw & ((1 << width) - 1))
        raw >>= width
    if form == "intel-me":
        numbers[0] += INTEL_ME_FIRST
    return ".".join(map(str, numbers))


def raw_of(form, text):
    """Returns a raw number whose text under the format is equal to this version, or None where there is none."""
    if form == "hex":
        return int(text, 16) if re.fullmatch(r"0x[0-9a-f]{8}", text) else None
    if not re.fullmatch(r"[0-9]{1,20}(\.[0-9]{1,20})*", text):
        return None
    numbers = [int(it) for it in text.split(".")]
    if form == "bcd":
        return bcd_raw(numbers)
    bits, rest = FIELDS[form]
    if form == "intel-me":
        numbers[0] -= INTEL_ME_FIRST
    if len(numbers) != len(bits) or any(not 0 <= it < 1 << width for it, width in zip(numbers, bits)):
        return None
    raw = 0
    for number, width in zip(numbers, bits):
        raw = raw << width | number
    return raw << rest


def bcd_raw(numbers):
    """Returns the raw number of four numbers under `bcd`, or None: ten times an upper half of a byte, and a lower."""
    halves = [(min(it // 10, 15), it - 10 * min(it // 10, 15)) for it in numbers]
    if len(numbers) != 4 or any(lower > 15 for _, lower in halves):
        return None
    return int.from_bytes(bytes(upper << 4 | lower for upper, lower in halves), "big")


def version_key(text):
    """Returns the key by which versions are in order: sections by their number, then by the rest behind it."""
    return [section_key(it) for it in text.split(".")]


def section_key(section):
    digits = re.match(r"[0-9]*", section).group()
    rest = section[len(digits):]
    # The end stands above `~` and below every other byte.
    return (int(digits or "0"), [-1 if it == "~" else ord(it) for it in rest] + [0])


def written_out(text, form):
    """Returns a release's version as fwupd reads it: a raw number is the text that the format gives it.

    fwupd takes a version without dots for a raw number, unless its format is one of plain numbers or the number is
    too small to be one.
    """
    if form not in FORMATS or form in ("plain", "number"):
        return text
    if re.fullmatch(r"[0-9]{1,10}", text):
        raw = int(text)
    elif re.fullmatch(r"0x[0-9a-fA-F]{1,8}", text):
        raw = int(text, 16)
    else:
        return text
    return render(form, raw) if LEAST_RAW <= raw <= HIGHEST else text


def choose(told, version, releases):
    """Returns the format in which a board shows its version: the one told, unless it can't show it but another can.

    Of several others it is the one that shows the most of the releases' versions, and of these the first.
    """
    if told in FORMATS and (version is None or raw_of(told, version) is not None):
        return told
    others = [it for it in STAND_INS if version is not None and raw_of(it, version) is not None]
    if not others:
        if told in FORMATS:
            return told
        others = STAND_INS
    return max(others, key=lambda form: sum(raw_of(form, it) is not None for it in releases))
