"""The command line: reads the inputs, and writes the document, its payloads, and what wasn't carried over."""
import argparse
import os
import sys
from pathlib import Path

from . import campaign, components, devices, metadata, plans, quirks
from .faults import Fault, UnreadableFault, UnwritableFault
from .leftovers import Leftovers

HELP = """\
Makes a campaign document for fwupdemu from what a real fwupd tells of its devices.

  fwupdmgr get-devices --json > devices.json
  tools/from-fwupd devices.json --metadata /var/lib/fwupd/metadata --out campaign
  cd campaign && fwupdemu run < campaign.json
"""
MORE = """\
Which plugin stands for fwupd's, by the flags of the device:
  capsule   needs-reboot, needs-shutdown or needs-activation; the board has needs-reboot
  loader    else needs-bootloader or is-bootloader
  flash     else
(`power` is for no device: it forbids updates of internal devices while there is no external power.)

What can't be carried over is told on standard error, each kind once with its count, and stands in the document as
members that are passed over: `not-carried-over`, `fwupd` of a board, `lvfs` of a component and a release.

Exit status: 0 done, 2 wrong words, 3 an input that isn't what it should be, 4 one that can't be read, 5 an output
that can't be written.
"""


def words():
    parser = argparse.ArgumentParser(prog="from-fwupd", description=HELP, epilog=MORE,
                                     formatter_class=argparse.RawDescriptionHelpFormatter)
    parser.add_argument("devices", nargs="?", default="-", metavar="DEVICES",
                        help="what `get-devices --json` wrote; standard input without it, or for `-`")
    parser.add_argument("--metadata", action="append", metavar="PATH",
                        help="AppStream XML, plain, .gz, .xz or .zst, or a folder of such files; may come several "
                             "times; without it the releases count that fwupd tells beside its devices")
    parser.add_argument("--quirks", metavar="FOLDER", help="a folder of fwupd's quirk files")
    parser.add_argument("--versions", metavar="FILE", help="what `fwupdmgr --version --json` wrote")
    parser.add_argument("--hwids", metavar="FILE", help="what `fwupdmgr hwids` wrote")
    parser.add_argument("--plan", choices=plans.PLANS, default="latest",
                        help="install the newest release of each board (the default), or nothing")
    parser.add_argument("--out", metavar="FOLDER", help="write campaign.json and payloads/ there, and not the document alone to standard output")
    parser.add_argument("--force", action="store_true", help="write over the campaign.json that is in FOLDER")
    return parser


def main(arguments):
    asked = words().parse_args(arguments)
    leftovers = Leftovers()
    try:
        document, payloads = made_of(asked, leftovers)
        write(asked, campaign.written(document), payloads)
    except Fault as told:
        print(f"from-fwupd: {told}", file=sys.stderr)
        return told.status
    for line in leftovers.lines():
        print(f"from-fwupd: not carried over: {line}", file=sys.stderr)
    return 0


def made_of(asked, leftovers):
    """Returns the document and the payloads of the inputs that were asked for."""
    where = "standard input" if asked.devices == "-" else asked.devices
    told = devices.read(text_of(asked.devices), where, leftovers)
    candidates = None
    if asked.metadata is not None:
        elements = [it for path in asked.metadata for it in metadata.read(path, leftovers)]
        candidates = [components.from_element(it) for it in elements]
    quirk_files = [] if asked.quirks is None else quirks.read(asked.quirks)
    machine = campaign.machine_of(versions_of(asked.versions), text_of(asked.hwids) if asked.hwids else "", leftovers)
    return campaign.make(told, candidates, quirk_files, machine, asked.plan, leftovers)


def text_of(name):
    """Returns the text of a file, or of standard input."""
    try:
        content = sys.stdin.buffer.read() if name == "-" else Path(name).read_bytes()
        return content.decode("utf-8-sig")
    except OSError as told:
        raise UnreadableFault(f"{name}: {told.strerror}") from None
    except UnicodeDecodeError:
        raise Fault(f"{name}: this isn't UTF-8") from None


def versions_of(name):
    """Returns the list of what runs, with its versions."""
    if name is None:
        return []
    told = devices.parse(text_of(name), name)
    listed = told.get("Versions") if isinstance(told, dict) else None
    if not isinstance(listed, list) or not all(isinstance(it, dict) for it in listed):
        raise Fault(f"{name}: there is no list `Versions` of objects; `fwupdmgr --version --json` writes one")
    return listed


def write(asked, content, payloads):
    """Writes the document, and the payloads where there is a folder for them."""
    try:
        if asked.out is None:
            sys.stdout.buffer.write(content)
            sys.stdout.buffer.flush()
            return
        folder = Path(asked.out)
        if (folder / "campaign.json").exists() and not asked.force:
            raise UnwritableFault(f"{folder / 'campaign.json'} is there already; --force writes over it")
        (folder / "payloads").mkdir(parents=True, exist_ok=True)
        for digest, payload in payloads.items():
            put(folder / "payloads" / digest, payload)
        put(folder / "campaign.json", content)
    except OSError as told:
        raise UnwritableFault(f"{asked.out or 'standard output'}: {told.strerror}") from None


def put(path, content):
    """Writes a file whole: what stands there before stays until the new one is there."""
    part = path.with_name(path.name + ".part")
    part.write_bytes(content)
    os.replace(part, path)
