"""Reads a folder of fwupd's quirk files, and makes of them the quirk files of the document.

Of each file the groups are kept that are for one of the devices: the others would change nothing. Lines that would
mean something else here are kept as comments. What fwupd tells of a device it tells after its quirks, so a quirk gives
it a single value, such as a name, only where fwupd tells none. What the quirks do to a device's flags, GUIDs and
format is also done here, since the choice of a plugin and of raw versions rests on it.
"""
import gzip
import zlib
from dataclasses import dataclass
from pathlib import Path

from .boards import FLAGS, IMAGE_BYTES
from .faults import Fault, UnreadableFault
from .texts import guid_of, is_guid
from .versions import FORMATS

MOST_FILES = 64
LARGEST_BYTES = 1 << 20
LARGEST_PAYLOAD = 1 << 22
BOUNDS = ("FirmwareSizeMin", "FirmwareSizeMax")
# The single values, and where a device tells them.
SINGLE = {"Name": ("Name",), "Vendor": ("Vendor",), "Protocol": ("Protocols", "Protocol"),
          "InstallDuration": ("InstallDuration",)}
KEYS = (*SINGLE, *BOUNDS, "Flags", "Guid", "VendorId", "CounterpartGuid")


@dataclass
class Line:
    """A line of a quirk file, with the GUID of its group where it stands in one."""

    text: str
    group: str | None = None
    key: str | None = None
    value: str = ""


def read(folder):
    """Returns of each quirk file in the folder its lines, in the order in which fwupd reads the files."""
    if not Path(folder).is_dir():
        raise UnreadableFault(f"{folder}: there is no such folder of quirk files")
    found = sorted(it for it in Path(folder).iterdir() if it.name.endswith((".quirk", ".quirk.gz")))
    if not found:
        raise Fault(f"{folder}: there is no file *.quirk or *.quirk.gz")
    return [lines_of(text_of(it), it) for it in found]


def text_of(path):
    try:
        content = path.read_bytes()
        if path.suffix == ".gz":
            content = gzip.decompress(content)
        return content.decode()
    except UnicodeDecodeError:
        raise Fault(f"{path}: this isn't UTF-8") from None
    except (gzip.BadGzipFile, EOFError, zlib.error):
        raise Fault(f"{path}: this isn't a whole gzip file") from None
    except OSError as told:
        raise UnreadableFault(f"{path}: {told.strerror}") from None


def lines_of(text, path):
    lines, group = [], None
    for number, raw in enumerate(text.split("\n"), 1):
        line = raw.strip(" \t\r")
        if any(it < " " and it != "\t" or it == "\x7f" for it in line):
            raise Fault(f"{path}: line {number} has a control byte")
        if not line or line.startswith("#"):
            continue
        if line.startswith("["):
            name = line[1:-1]
            if not line.endswith("]") or not 0 < len(name.encode()) < 256 or "[" in name or "]" in name:
                raise Fault(f"{path}: line {number} begins a group, and isn't [NAME]")
            group = guid_of(name)
            lines.append(Line(line, group))
            continue
        key, equals, value = line.partition("=")
        if group is None or not equals:
            raise Fault(f"{path}: line {number} is no KEY = VALUE in a group")
        lines.append(Line(line, group, key.strip(" \t"), value.strip(" \t")))
    return lines


def elements(value):
    return [it for it in (part.strip(" \t") for part in value.split(",")) if it]


def apply(files, device):
    """Does to a device what its quirks do to its GUIDs, flags and format."""
    groups = set(device.guids())
    for line in (it for lines in files for it in lines if it.key and it.group in groups):
        if line.key == "VersionFormat" and line.value in FORMATS and "VersionFormat" not in device.told:
            device.format = line.value
        elif line.key == "Guid":
            device.added_ids += [it for it in elements(line.value) if guid_of(it) not in device.guids()]
        elif line.key == "CounterpartGuid":
            device.counterparts += [guid_of(it) for it in elements(line.value)]
        elif line.key == "Flags":
            for it in elements(line.value):
                change_flag(device.flags, it)


def change_flag(flags, word):
    name = word.lstrip("~")
    if word.startswith("~"):
        flags[:] = [it for it in flags if it != name]
    elif name not in flags:
        flags.append(name)


def texts_for(files, devices, leftovers):
    """Returns the document's quirk files: of each file the groups that are for one of these devices, if there are any."""
    owners = {}
    for device in devices:
        for guid in device.guids():
            owners.setdefault(guid, []).append(device)
    texts = []
    for lines in files:
        kept = [kept_line(it, owners[it.group], leftovers) for it in lines if it.group in owners]
        for _ in {it.group for it in lines} - owners.keys():
            leftovers.add("quirk group of no board", "it is for a device, or hardware, that isn't in the document")
        if kept:
            texts.append("".join(it + "\n" for it in kept))
    if len(texts) > MOST_FILES:
        texts[MOST_FILES - 1:] = ["".join(texts[MOST_FILES - 1:])]
    if any(len(it.encode()) > LARGEST_BYTES for it in texts):
        raise Fault(f"the quirks of these devices are longer than {LARGEST_BYTES} bytes")
    return texts


def kept_line(line, devices, leftovers):
    """Returns a line as it stands in the document: a comment where it would mean something else there."""
    if line.key is None:
        return line.text
    for it in elements(line.value) if line.key == "Flags" else []:
        if it.lstrip("~") not in FLAGS:
            leftovers.add(f"quirk flag {it.lstrip('~')}", "there is no such flag here")
    why = reason_to_hide(line, devices)
    if why is not None:
        leftovers.add(f"quirk key {line.key}", why)
        return f"# {line.text}"
    if line.key == "VersionFormat":
        return f"# {line.text}"
    if line.key not in KEYS:
        leftovers.add(f"quirk key {line.key}", "it is for a plugin of fwupd, or for what isn't emulated")
    return line.text


def reason_to_hide(line, devices):
    """Says why a line can't stand in the document as it is, or returns None."""
    if line.key == "Plugin":
        return "the board's own plugin stands for fwupd's"
    if line.key == "VersionFormat" and any(it.format != line.value for it in devices):
        return "fwupd tells another format of the device, or there is no such format here"
    if line.key in BOUNDS and not takes_images(line):
        return f"made images have {IMAGE_BYTES} bytes, and payloads up to {LARGEST_PAYLOAD}"
    if any(key in it.told for key in SINGLE.get(line.key, ()) for it in devices):
        return "fwupd tells its own of the device, after its quirks"
    return None


def takes_images(line):
    """Whether made images are within this bound of a firmware's size."""
    try:
        bound = int(line.value, 16 if line.value.startswith("0x") else 10)
    except ValueError:
        return True
    return bound <= IMAGE_BYTES if line.key == "FirmwareSizeMin" else IMAGE_BYTES <= bound <= LARGEST_PAYLOAD
