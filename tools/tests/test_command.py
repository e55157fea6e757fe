"""The tool as a whole, over the small machine of data/: what it writes, and what it says of bad input."""
import contextlib
import gzip
import hashlib
import io
import json
import lzma
import tempfile
import unittest
from pathlib import Path
from unittest import mock

from from_fwupd.command import main

DATA = Path(__file__).resolve().parent / "data"
EVERYTHING = [str(DATA / "devices.json"), "--metadata", str(DATA / "metadata"), "--quirks", str(DATA / "quirks"),
              "--versions", str(DATA / "versions.json"), "--hwids", str(DATA / "hwids.txt")]


def told(*words, given=b""):
    """Calls the tool, and returns its status, the bytes that it wrote, and what it told on standard error."""
    out, error = io.TextIOWrapper(io.BytesIO(), encoding="utf-8"), io.StringIO()
    with contextlib.redirect_stdout(out), contextlib.redirect_stderr(error), \
            mock.patch("sys.stdin", io.TextIOWrapper(io.BytesIO(given))):
        try:
            status = main([str(it) for it in words])
        except SystemExit as ended:
            status = ended.code
    return status, out.buffer.getvalue(), error.getvalue()


def document_of(*words, given=b""):
    status, out, error = told(*words, given=given)
    if status != 0:
        raise AssertionError(error)
    return json.loads(out)


def machine(**changed):
    """Returns what fwupd tells of a machine with one device."""
    device = {"Name": "Thing", "DeviceId": "a" * 40, "Guid": ["2082b5e0-7a64-478a-b1b2-e3404fab6dad"], "Flags": ["updatable"],
              "Plugin": "thing", "Version": "1.0.0", "VersionFormat": "triplet", **changed}
    return json.dumps({"Devices": [{key: value for key, value in device.items() if value is not None}]}).encode()


def board_of(**changed):
    return document_of(given=machine(**changed))["boards"][0]


class SmallMachine(unittest.TestCase):
    @classmethod
    def setUpClass(cls):
        cls.document = document_of(*EVERYTHING)
        cls.boards = {it["port"]: it for it in cls.document["boards"]}
        cls.components = {it["id"]: it for it in cls.document["components"]}

    def test_the_machine_has_what_runs_there(self):
        self.assertEqual(self.document["machine"], {"daemon": "2.0.20", "ids": {"org.kernel": "6.1.0-example"},
                                                    "hardware": ["6de5d951-d755-576b-bd09-c5cf66b27234"], "pool": 64})

    def test_a_board_has_what_its_device_tells(self):
        hub = self.boards["example-hub"]
        self.assertEqual({key: hub[key] for key in hub if key != "fwupd"}, {
            "port": "example-hub", "physical": "65acf0a7ced564a4880cf946224e60b745d3d631", "plugin": "flash",
            "name": "Example Hub™", "vendor": "Example Ltd.", "vendor-ids": ["USB:0x1234"],
            "instance-ids": ["USB\\VID_1234&PID_0001"], "flags": ["updatable"], "version-format": "triplet",
            "protocol": "com.example.hub", "bootloader-version": "0.1.2", "duration": 15, "image": "EMU1 01020003\n"})
        self.assertEqual(hub["fwupd"]["VersionLowest"], "1.0.0")

    def test_plugins_go_by_flags(self):
        self.assertEqual({port: it["plugin"] for port, it in self.boards.items()}, {
            "example-hub": "flash", "example-hub-port-controller": "flash", "system-firmware": "capsule",
            "example-mouse": "flash", "example-key": "loader", "example-lamp": "flash", "cpu": "flash"})

    def test_parents_stand_first(self):
        self.assertEqual(self.boards["example-hub-port-controller"]["parent"], "example-hub")
        ports = list(self.boards)
        self.assertLess(ports.index("example-hub"), ports.index("example-hub-port-controller"))

    def test_formats_that_show_no_version_are_replaced(self):
        self.assertEqual((self.boards["example-mouse"]["version-format"], self.boards["example-mouse"]["image"]),
                         ("pair", "EMU1 00010009\n"))
        self.assertEqual(self.boards["example-key"]["version-format"], "triplet")
        self.assertEqual(self.boards["example-lamp"]["image"], "EMU1 00000000\n")
        self.assertEqual(self.boards["example-lamp"]["fwupd"]["Version"], "LMP01.02_B0021")

    def test_a_problem_that_is_carried_over_hides_no_flag(self):
        lamp = self.boards["example-lamp"]
        self.assertEqual((lamp["unreachable"], lamp["flags"]), (True, ["updatable"]))

    def test_requirements_have_the_words_of_the_guide(self):
        self.assertEqual(self.components["com.example.hub"]["requires"], [
            {"tag": "id", "text": "org.freedesktop.fwupd", "compare": "ge", "version": "1.9.5"},
            {"tag": "id", "text": "org.kernel", "compare": "ge", "version": "5.10"},
            {"tag": "firmware", "compare": "ge", "version": "1.2.0"},
            {"tag": "firmware", "text": "bootloader", "compare": "ge", "version": "0.1.0"},
            {"tag": "firmware", "text": "vendor-id", "compare": "regex", "version": "USB:0x1234|USB:0xABCD"},
            {"tag": "firmware", "text": "2d5fe048-0f52-5375-af96-62ba8cb3c9d8"},
            {"tag": "hardware", "text": "6de5d951-d755-576b-bd09-c5cf66b27234|11111111-2222-3333-4444-555555555555"},
            {"tag": "not_hardware", "text": "00000000-0000-0000-0000-000000000001"},
            {"tag": "client", "text": "detach-action"}])
        self.assertEqual(self.components["com.example.hub.port"]["requires"], [
            {"tag": "firmware", "text": "18f514d2-c12e-581f-a696-cc6d6c271699", "depth": 1, "compare": "ge", "version": "1.2.10"}])
        self.assertEqual(self.components["com.example.system"]["requires"],
                         [{"tag": "firmware", "compare": "ge", "version": "0.1.2.0"}])

    def test_what_is_left_of_a_component_is_passed_over(self):
        left = self.components["com.example.hub"]["lvfs"]
        self.assertEqual(left["requires"], [
            "firmware compare=regex version=^(A|B)[0-9]{2}$:",
            "firmware depth=0 compare=ge version=1.0: b03ac1b6-0332-5220-832f-23bf3ac75b7a",
            "firmware: not-child", "memory compare=ge: 4096"])
        self.assertEqual(left["releases"], [{"version": "1.2.4-beta"}])
        self.assertEqual(self.components["com.example.hub"]["releases"][0]["lvfs"]["size"], "32768")

    def test_a_release_has_a_made_image_that_shows_its_version(self):
        payload = b"EMU1 0102000a\n"
        release = self.components["com.example.hub"]["releases"][0]
        self.assertEqual((release["version"], release["urgency"], release["sha256"], release["size"]),
                         ("1.2.10", "high", hashlib.sha256(payload).hexdigest(), len(payload)))

    def test_only_components_of_boards_and_branches_are_there(self):
        self.assertEqual([it["id"] for it in self.document["components"]],
                         ["com.example.key", "com.example.hub", "com.example.system", "com.example.mouse", "com.example.hub.port"])

    def test_the_newest_releases_are_planned_in_fwupds_order(self):
        first, second = self.document["boots"]
        self.assertEqual([(it["device"], it["version"]) for it in first["scripts"][0] if it["do"] == "install"], [
            ("example-hub", "1.2.10"), ("system-firmware", "0.1.28.0"), ("example-mouse", "1.10"), ("example-key", "1.0.0"),
            ("example-hub-port-controller", "5.07.06")])
        self.assertEqual((first["time"], second["time"]), (1750000100, 1750003700))

    def test_nothing_is_planned_where_nothing_is_asked(self):
        self.assertEqual(document_of(*EVERYTHING, "--plan", "none")["boots"],
                         [{"time": 1750000100, "scripts": [[{"do": "get-devices"}]]}])

    def test_quirks_of_its_devices_are_kept(self):
        self.assertEqual(self.document["quirks"], [
            "[USB\\VID_1234&PID_0004]\n# Plugin = dfu\nFlags = needs-bootloader,no-generic-guids\n"
            "CounterpartGuid = USB\\VID_1234&PID_0005&LOADER\nVendor = Example Ltd.\n# Name = Another Name\n"
            "# FirmwareSizeMin = 0x8000\nFirmwareSizeMax = 0x20000\nDfuForceVersion = 0x011a\n"])

    def test_each_kind_is_told_once_with_its_count(self):
        _, _, error = told(*EVERYTHING)
        lines = [f"from-fwupd: not carried over: {it['kind']} ({it['count']}): {it['why']}" for it in self.document["not-carried-over"]]
        self.assertEqual(error.splitlines(), lines)
        counts = {it["kind"]: it["count"] for it in self.document["not-carried-over"]}
        self.assertEqual(len(counts), len(lines))
        self.assertEqual([counts[it] for it in ("flag supported", "requirement of a child", "version format bcd",
                                                "release whose version no board can show", "quirk flag no-generic-guids")],
                         [2, 1, 1, 2, 1])


class Devices(unittest.TestCase):
    def test_without_metadata_the_told_releases_count(self):
        document = document_of(DATA / "devices.json")
        self.assertEqual([(it["id"], [its["version"] for its in it["releases"]]) for it in document["components"]],
                         [("com.example.hub", ["1.2.4"])])

    def test_ports_are_names_of_their_own(self):
        one = json.loads(machine())["Devices"][0]
        names = ["Thing", "Thing!", "", "ünï", "A" * 300, "2082b5e0-7a64-478a-b1b2-e3404fab6dad", "f" * 40]
        given = [{**one, "Name": name, "DeviceId": str(at), "Plugin": "p"} for at, name in enumerate(names)]
        document = document_of(given=json.dumps({"Devices": given}).encode())
        self.assertEqual([it["port"] for it in document["boards"]],
                         ["thing", "thing-2", "p", "n", "a" * 32, "2082b5e0-7a64-478a-b1b2-e3404fab", "f" * 32])

    def test_flags_that_wait_for_a_boot_make_a_capsule(self):
        for it in ("needs-reboot", "needs-shutdown", "needs-activation"):
            board = board_of(Flags=["updatable", it])
            self.assertEqual((board["plugin"], board["flags"]), ("capsule", ["updatable", "needs-reboot"]))

    def test_a_device_in_its_boot_loader_stands_in_runtime_mode(self):
        board = board_of(Flags=["updatable", "is-bootloader"])
        self.assertEqual((board["plugin"], board["flags"], board["image"]), ("loader", ["updatable"], "EMU1 01000000\n"))

    def test_problems_are_of_the_board_or_the_machine(self):
        document = document_of(given=machine(Problems=["power-too-low", "lid-is-closed", "require-ac-power", "system-power-too-low"]))
        self.assertEqual([document["boards"][0].get(it) for it in ("power-low", "lid")], [True, True])
        self.assertEqual([document["machine"].get(it) for it in ("lid-closed", "on-ac", "power-low")], [True, False, True])

    def test_a_problem_that_is_left_out_keeps_its_flag_hidden(self):
        self.assertEqual(board_of(Flags=["updatable-hidden"], Problems=["missing-license"])["flags"], [])

    def test_a_component_may_tell_the_format(self):
        with tempfile.TemporaryDirectory() as room:
            path = Path(room, "a.xml")
            path.write_text('<component type="firmware"><id>a</id><provides><firmware>2082b5e0-7a64-478a-b1b2-e3404fab6dad'
                            '</firmware></provides><custom><value key="LVFS::VersionFormat">surface</value></custom></component>')
            for told_format, wanted in ((None, "surface"), ("unknown", "surface"), ("dell-bios", "dell-bios")):
                board = document_of("--metadata", path, given=machine(VersionFormat=told_format))["boards"][0]
                self.assertEqual(board["version-format"], wanted)

    def test_parents_that_lead_nowhere_are_left_out(self):
        one = json.loads(machine())["Devices"][0]
        chain = [{**one, "DeviceId": str(at), "ParentDeviceId": str(at - 1)} for at in range(1, 12)]
        circle = [{**one, "DeviceId": "x", "ParentDeviceId": "y"}, {**one, "DeviceId": "y", "ParentDeviceId": "x"}, {**one, "DeviceId": "y"}]
        document = document_of(given=json.dumps({"Devices": chain[::-1] + circle}).encode())
        self.assertEqual(len(document["boards"]), 13)
        self.assertEqual(sum("parent" in it for it in document["boards"]), 10)
        kinds = [it["kind"] for it in document["not-carried-over"]]
        for it in ("parent that isn't told", "parent too far down", "parent that is a descendant", "device told twice"):
            self.assertIn(it, kinds)

    def test_more_devices_than_boards(self):
        one = json.loads(machine())["Devices"][0]
        given = json.dumps({"Devices": [{**one, "DeviceId": str(at)} for at in range(300)]}).encode()
        document = document_of(given=given)
        self.assertEqual(len(document["boards"]), 256)
        self.assertIn({"kind": "device past the last board", "count": 44, "why": "a document has up to 256 boards"},
                      document["not-carried-over"])

    def test_odd_texts_become_lines_and_names(self):
        board = board_of(Name="A\nB\ud800\x7f" + "é" * 200, VendorIds=["a b", "x" * 65, "USB:1"], Odd={"deep": [1e308, 1 << 70]},
                         Version=None, VersionBootloader="1 2")
        self.assertEqual(board["vendor-ids"], ["USB:1"])
        self.assertLessEqual(len(board["name"].encode()), 255)
        self.assertTrue(board["name"].startswith("A B? é"))
        self.assertEqual(board["fwupd"]["Odd"], {"deep": [1e308, str(1 << 70)]})
        self.assertNotIn("bootloader-version", board)


class BadInput(unittest.TestCase):
    def refused(self, status, text, *words, given=b""):
        """The tool ends with this status, writes nothing, and tells one line that has this text."""
        got, out, error = told(*words, given=given)
        self.assertEqual((got, out), (status, b""), error)
        self.assertEqual(error.count("\n"), 1)
        self.assertIn(text, error)

    def test_devices_that_are_none(self):
        for given, text in ((b"", "this isn't JSON"), (b"{", "this isn't JSON"), (b"[]", "one JSON object"), (b"{}", "`Devices`"),
                            (b'{"Devices": []}', "is empty"), (b'{"Devices": [1]}', "Devices[0] is no object"),
                            (b"[" * 100000, "too deep"), (b'{"Devices": [{"a": NaN}]}', "NaN is no number"),
                            (b"\xff", "isn't UTF-8"),
                            (b'{"Error": {"Message": "No detected devices"}}', "but an error: No detected devices"),
                            (machine(Version=1), "Devices[0].Version isn't a text"),
                            (machine(Flags="x"), "Devices[0].Flags isn't a list"),
                            (machine(Guid=[1]), "Devices[0].Guid isn't a list of texts"),
                            (machine(Guid=["x"]), "which is no GUID"),
                            (machine(InstallDuration=True), "isn't a whole number")):
            self.refused(3, text, given=given)

    def test_files_that_can_not_be_read(self):
        self.refused(4, "No such file", "/nowhere/devices.json")
        self.refused(4, "Is a directory", DATA)
        for it in ("--metadata", "--quirks", "--versions", "--hwids"):
            self.refused(4, "/nowhere/file", DATA / "devices.json", it, "/nowhere/file")

    def test_metadata_that_is_none(self):
        with tempfile.TemporaryDirectory() as room:
            for name, content, text in (("a.xml", b"<components>", "isn't XML"), ("b.xml", b"<html/>", "no AppStream metadata"),
                                        ("c.xml.gz", gzip.compress(b"<components/>")[:-9], "no whole packed file"),
                                        ("d.xml.xz", lzma.compress(b"<components/>")[:-9], "no whole packed file")):
                path = Path(room, name)
                path.write_bytes(content)
                self.refused(3, text, DATA / "devices.json", "--metadata", path)
            other = Path(room, "other")
            other.mkdir()
            (other / "a.xml").write_text("<html/>")
            (other / "b.metainfo.xml").write_bytes((DATA / "metadata/key.metainfo.xml").read_bytes())
            self.assertEqual(len(document_of(DATA / "devices.json", "--metadata", other)["components"]), 1)
            Path(room, "none").mkdir()
            self.refused(3, "has no metadata", DATA / "devices.json", "--metadata", Path(room, "none"))

    def test_quirk_files_that_are_none(self):
        with tempfile.TemporaryDirectory() as room:
            self.refused(3, "there is no file", DATA / "devices.json", "--quirks", room)
            path = Path(room, "a.quirk")
            for content, text in ((b"Flags = locked", "line 1 is no KEY"), (b"\n[a", "line 2 begins a group"), (b"[a]\nx", "line 2 is no KEY"),
                                  (b"[a]\n\x01", "line 2 has a control byte"), (b"\xff", "isn't UTF-8"), (b"[]", "line 1 begins")):
                path.write_bytes(content)
                self.refused(3, text, DATA / "devices.json", "--quirks", room)

    def test_versions_that_are_none(self):
        self.refused(3, "`Versions`", DATA / "devices.json", "--versions", DATA / "devices.json")

    def test_words_that_are_none(self):
        self.assertEqual(told("--plan", "some")[0], 2)
        self.assertEqual(told("--nothing")[0], 2)


class Files(unittest.TestCase):
    def test_packed_metadata_is_read(self):
        plain = (DATA / "metadata/lvfs.xml").read_bytes()
        wanted = document_of(DATA / "devices.json", "--metadata", DATA / "metadata/lvfs.xml")
        with tempfile.TemporaryDirectory() as room:
            for name, content in (("a.xml.gz", gzip.compress(plain)), ("a.xml.xz", lzma.compress(plain))):
                Path(room, name).write_bytes(content)
                self.assertEqual(document_of(DATA / "devices.json", "--metadata", Path(room, name)), wanted)

    def test_packed_quirks_are_read(self):
        wanted = document_of(*EVERYTHING)
        with tempfile.TemporaryDirectory() as room:
            Path(room, "a.quirk.gz").write_bytes(gzip.compress((DATA / "quirks/example.quirk").read_bytes()))
            self.assertEqual(document_of(*EVERYTHING, "--quirks", room), wanted)

    def test_a_folder_gets_the_document_and_its_payloads(self):
        with tempfile.TemporaryDirectory() as room:
            folder = Path(room, "new/campaign")
            self.assertEqual(told(*EVERYTHING, "--out", folder)[:2], (0, b""))
            content = (folder / "campaign.json").read_bytes()
            self.assertEqual(content, told(*EVERYTHING)[1])
            named = {release["sha256"] for it in json.loads(content)["components"] for release in it["releases"]}
            self.assertEqual({it.name for it in (folder / "payloads").iterdir()}, named)
            for it in (folder / "payloads").iterdir():
                self.assertEqual(hashlib.sha256(it.read_bytes()).hexdigest(), it.name)

    def test_a_document_that_is_there_is_kept(self):
        with tempfile.TemporaryDirectory() as room:
            path = Path(room, "campaign.json")
            path.write_text("mine")
            self.assertEqual(told(*EVERYTHING, "--out", room)[0], 5)
            self.assertEqual(path.read_text(), "mine")
            self.assertEqual(told(*EVERYTHING, "--out", room, "--force")[0], 0)
            self.assertNotEqual(path.read_text(), "mine")

    def test_an_output_that_can_not_be_written(self):
        status, _, error = told(*EVERYTHING, "--out", "/dev/null/there")
        self.assertEqual(status, 5, error)


if __name__ == "__main__":
    unittest.main()
