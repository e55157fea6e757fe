"""Reads metadata as the LVFS publishes it: AppStream XML, plain or packed, a file or a folder of such files."""
import gzip
import io
import lzma
import xml.etree.ElementTree as ElementTree
import zlib
from pathlib import Path

from .faults import Fault, UnreadableFault

ENDINGS = (".xml", ".xml.gz", ".xml.xz", ".xml.zst")
LARGEST_BYTES = 1 << 29


def read(path, leftovers):
    """Returns the elements of the firmware components that the file, or the files of the folder, have."""
    top = Path(path)
    if not top.is_dir():
        return firmware_of(text_of(top), top, leftovers)
    found = sorted(it for it in top.rglob("*") if it.name.endswith(ENDINGS) and it.is_file())
    if not found:
        raise Fault(f"{top}: the folder has no metadata (*.xml, *.xml.gz, *.xml.xz, *.xml.zst)")
    return [component for it in found for component in firmware_of(text_of(it), it, leftovers, in_folder=True)]


def text_of(path):
    """Returns what a file holds, unpacked where it is packed."""
    try:
        content = path.read_bytes()
    except OSError as told:
        raise UnreadableFault(f"{path}: {told.strerror}") from None
    if content.startswith(b"\x28\xb5\x2f\xfd"):
        return unzstd(content, path)
    try:
        if content.startswith(b"\x1f\x8b"):
            return unpacked(gzip.GzipFile(fileobj=io.BytesIO(content)), path)
        if content.startswith(b"\xfd7zXZ\x00"):
            return unpacked(lzma.LZMAFile(io.BytesIO(content)), path)
    except (OSError, EOFError, zlib.error, lzma.LZMAError):
        raise Fault(f"{path}: this is no whole packed file") from None
    return content


def unpacked(stream, path):
    content = stream.read(LARGEST_BYTES + 1)
    if len(content) > LARGEST_BYTES:
        raise Fault(f"{path}: unpacked it is longer than {LARGEST_BYTES} bytes")
    return content


def unzstd(content, path):
    """Unpacks zstd, which the standard library of newer Pythons reads."""
    try:
        from compression import zstd
    except ImportError:
        raise Fault(f"{path}: this is packed by zstd, which this Python doesn't read; unpack it by `zstd -d`") from None
    try:
        return unpacked(zstd.ZstdFile(io.BytesIO(content)), path)
    except (OSError, EOFError, zstd.ZstdError):
        raise Fault(f"{path}: this is no whole packed file") from None


def firmware_of(text, path, leftovers, in_folder=False):
    """Returns the firmware components of an XML text. In a folder other XML may lie beside the metadata."""
    try:
        top = ElementTree.fromstring(text)
    except ElementTree.ParseError as told:
        raise Fault(f"{path}: this isn't XML: {told}") from None
    if top.tag not in ("component", "components"):
        if not in_folder:
            raise Fault(f"{path}: this is no AppStream metadata: its top is <{top.tag}>, not <components> or <component>")
        leftovers.add("XML file that is no AppStream metadata", "its top is neither <components> nor <component>")
        return []
    found = []
    for it in [top] if top.tag == "component" else top.findall("component"):
        if it.get("type") == "firmware":
            found.append(it)
        else:
            leftovers.add("component that is no firmware", "it is for no device")
    return found
