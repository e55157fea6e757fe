"""Makes the components of the document: of each piece of metadata that is for one of the boards."""
import hashlib
import re
from dataclasses import dataclass, field

from .boards import image
from .requirements import described, requirements_of
from .texts import as_line, is_guid, is_name
from .versions import raw_of, render, version_key, written_out

MOST_COMPONENTS = 4096
MOST_RELEASES = 20000
MOST_PROVIDES = 64
URGENCIES = ("unknown", "low", "medium", "high", "critical")
FORMAT_KEY, PROTOCOL_KEY = "LVFS::VersionFormat", "LVFS::UpdateProtocol"
# The elements that have a place in the document, and those that only tell people something.
PARTS = ("id", "name", "provides", "requires", "custom", "metadata", "releases", "checksum", "size", "artifacts")
PROSE = ("name_variant_suffix", "summary", "description", "developer_name", "developer", "project_license",
         "metadata_license", "url", "categories", "keywords", "screenshots", "issues", "location", "icon")
DATES = ("date", "timestamp", "id", "type")


@dataclass
class Candidate:
    """A component of the metadata, before it is known whether it is for a board."""

    id: str
    name: str
    guids: list
    releases: list
    branch: str = ""
    custom: dict = field(default_factory=dict)
    element: object = None

    def format(self):
        return self.custom.get(FORMAT_KEY)


@dataclass
class Release:
    """A release of the metadata."""

    version: str
    urgency: str
    element: object = None


def from_element(element):
    """Returns the candidate that an XML element states."""
    provided = [it for it in element.findall("provides/firmware") if it.get("type") in (None, "flashed")]
    guids = [it.lower() for it in map(words, provided) if is_guid(it)]
    custom = {it.get("key", ""): words(it) for tag in ("metadata", "custom") for it in element.findall(f"{tag}/value")}
    releases = [Release(it.get("version", ""), it.get("urgency", "unknown"), it)
                for it in element.findall("releases/release")]
    return Candidate(words(element.find("id")), words(element.find("name")), list(dict.fromkeys(guids)), releases,
                     words(element.find("branch")), custom, element)


def words(element):
    return "" if element is None else " ".join("".join(element.itertext()).split())


def from_devices(devices):
    """Returns candidates of the releases that fwupd tells beside its devices: these have no requirements."""
    candidates = {}
    for device in devices:
        for told in (it for it in device.told.get("Releases", []) if isinstance(it, dict)):
            named = str(told.get("AppstreamId", ""))
            of = candidates.setdefault(named, Candidate(named, str(told.get("Name", "")), [], []))
            of.guids += [it for it in device.guids() if it not in of.guids]
            version = str(told.get("Version", ""))
            if version not in [it.version for it in of.releases]:
                of.releases.append(Release(version, str(told.get("Urgency", "unknown"))))
    return list(candidates.values())


def for_boards(candidates, devices, leftovers):
    """Returns the candidates that are for one of the devices, each with these devices."""
    owners = {}
    for at, device in enumerate(devices):
        for guid in {*device.guids(), *device.counterparts}:
            owners.setdefault(guid, set()).add(at)
    chosen = []
    for it in candidates:
        places = set().union(*(owners.get(guid, ()) for guid in it.guids))
        fitting = [devices[at] for at in sorted(places)]
        branched = [device for device in fitting if device.text("Branch") == it.branch]
        if not fitting:
            leftovers.add("component of no board", "no device of the document has one of its GUIDs")
        elif not branched:
            leftovers.add("component of another branch", "there are no branches: a device gets those of its own alone")
        else:
            chosen.append((it, branched))
    for _ in chosen[MOST_COMPONENTS:]:
        leftovers.add("component past the last", f"a document has up to {MOST_COMPONENTS}")
    return chosen[:MOST_COMPONENTS]


class Shelf:
    """The payloads of the releases: made images, by their digests."""

    def __init__(self):
        self.images = {}

    def put(self, raw):
        """Makes the image with this raw version, and returns its digest and its size."""
        made = image(raw)
        digest = hashlib.sha256(made).hexdigest()
        self.images[digest] = made
        return digest, len(made)

    def is_shown(self, release, form):
        """Whether a board of this format that has the release's image shows the release's version."""
        raw = int(self.images[release["sha256"]].split()[1], 16)
        return version_key(render(form, raw)) == version_key(release["version"])


def component_of(candidate, boards, told, shelf, leftovers):
    """Returns the component of a candidate, whose releases are for these boards.

    `told` is the format of the boards' devices, in which fwupd reads a raw number.
    """
    component = {"id": id_of(candidate.id, leftovers)}
    left = {} if component["id"] == candidate.id else {"id": as_line(candidate.id)}
    if candidate.name:
        component["name"] = as_line(candidate.name)
    component["provides"] = candidate.guids[:MOST_PROVIDES]
    if candidate.element is not None:
        left.update(leaves(candidate.element, leftovers))
        add_requirements(component, left, candidate, told, leftovers)
    for _ in range(provided_count(candidate) - len(component["provides"])):
        leftovers.add("provided firmware", f"it is no GUID that is flashed, or past the {MOST_PROVIDES} that there may be")
    component.update(custom_of(candidate.custom, leftovers))
    component["releases"], left_out = releases_of(candidate.releases, boards, told, shelf, leftovers)
    if left_out:
        left["releases"] = left_out
    if left:
        component["lvfs"] = left
    return component


def provided_count(candidate):
    return len(candidate.guids) if candidate.element is None else len(candidate.element.findall("provides/firmware"))


def add_requirements(component, left, candidate, told, leftovers):
    """Adds the requirements to the component, and those that aren't carried over to what is passed over."""
    requires, left_out = requirements_of(candidate.element.findall("requires/*"), told, leftovers)
    if requires:
        component["requires"] = requires
    if left_out:
        left["requires"] = left_out
    for tag in ("suggests", "recommends"):
        for it in candidate.element.findall(f"{tag}/*"):
            leftovers.add("requirement that is only recommended", "each requirement has to hold here")
            left.setdefault(tag, []).append(described(it))


def leaves(element, leftovers):
    """Returns the children that have no place in the document, each as a line, for a member that is passed over."""
    left = {}
    for child in element:
        tag = as_line(str(child.tag))
        if tag in PARTS or tag in ("suggests", "recommends"):
            continue
        left.setdefault(tag, as_line(words(child)))
        if tag in PROSE:
            leftovers.add(f"prose of a {element.tag}", "nothing here tells it: names, summaries, licences, links, places")
        else:
            leftovers.add(f"element <{tag}> of a {element.tag}", "nothing here tells it or rests on it")
    return left


def id_of(text, leftovers):
    """Returns a component's ID as a name."""
    if is_name(text):
        return text
    leftovers.add("component ID that is no name", "it is written with up to 64 bytes of plain ASCII")
    return re.sub(r"[^!-~]+", "-", text)[:64] or "nameless"


def custom_of(custom, leftovers):
    """Returns the member `custom`, if there is one: what isn't known there is passed over."""
    members = {}
    for key, value in custom.items():
        known = key in (FORMAT_KEY, PROTOCOL_KEY)
        if not known or not is_name(value):
            leftovers.add(f"custom key {key}", "its value is no name" if known else "nothing here rests on it")
        if not known or is_name(value):
            members[as_line(key)] = as_line(value)
    return {"custom": members} if members else {}


def releases_of(releases, boards, told, shelf, leftovers):
    """Returns the releases that one of the boards can show, and for the others what is passed over."""
    carried, left = [], []
    formats = list(dict.fromkeys(it["version-format"] for it in boards))
    for it in releases:
        version = written_out(it.version, told)
        if version != it.version:
            leftovers.add("raw version number of a release", "it is written out as the device's format shows it")
        raws = [raw for raw in (raw_of(form, version) for form in formats) if raw is not None]
        if not is_name(version) or not raws:
            leftovers.add("release whose version no board can show", "its device would never show that it has it")
            left.append({"version": as_line(it.version), **told_of(it, leftovers)})
            continue
        if len(set(raws)) > 1 or len(raws) < len(formats):
            leftovers.add("release for boards of several formats", "its one image shows the version on some of them alone")
        if not any(render(form, raws[0]) == version for form in formats):
            leftovers.add("release that is written otherwise", "the board's version is equal, but without leading zeros")
        carried.append(made_release(version, it, shelf.put(raws[0]), leftovers))
    return carried, left


def made_release(version, release, payload, leftovers):
    digest, size = payload
    made = {"version": version, "sha256": digest, "size": size}
    if release.urgency in URGENCIES:
        made["urgency"] = release.urgency
    else:
        leftovers.add(f"urgency {release.urgency}", "it is unknown here")
    left = told_of(release, leftovers)
    if left:
        made["lvfs"] = left
    return made


def told_of(release, leftovers):
    """Returns what the metadata tells of a release and the document hasn't, for a member that is passed over."""
    if release.element is None:
        return {}
    left = leaves(release.element, leftovers)
    for key, value in release.element.attrib.items():
        if key not in ("version", "urgency"):
            left[as_line(key)] = as_line(value)
            what = "date of a release" if key in DATES else f"attribute {key} of a release"
            leftovers.add(what, "nothing here tells it or rests on it")
    for part in (release.element, *release.element.findall("artifacts/artifact")):
        for it in part.findall("checksum[@type='sha256']"):
            of_content = it.get("target", "content") == "content"
            left.setdefault("sha256" if of_content else "container-sha256", as_line(words(it)))
        for it in part.findall("size[@type='installed']"):
            left.setdefault("size", as_line(words(it)))
    if "sha256" in left or "size" in left:
        leftovers.add("real digest and size of a release", "its payload is a made image")
    return left


def cut_releases(components, leftovers):
    """Takes away the releases past the last that a document may have."""
    room = MOST_RELEASES
    for component in components:
        for _ in component["releases"][room:]:
            leftovers.add("release past the last", f"a document has up to {MOST_RELEASES}")
        component["releases"] = component["releases"][:room]
        room -= len(component["releases"])
