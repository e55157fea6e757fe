"""The version formats, and which raw number shows a version."""
import random
import unittest

from from_fwupd.versions import FORMATS, choose, raw_of, render, version_key, written_out

# Of each format the texts of 0x01020304, 0 and 0xffffffff, as docs/FORMATS.md gives its numbers.
TEXTS = {
    "plain": ("16909060", "0", "4294967295"),
    "number": ("16909060", "0", "4294967295"),
    "pair": ("258.772", "0.0", "65535.65535"),
    "triplet": ("1.2.772", "0.0.0", "255.255.65535"),
    "quad": ("1.2.3.4", "0.0.0.0", "255.255.255.255"),
    "bcd": ("1.2.3.4", "0.0.0.0", "165.165.165.165"),
    "dell-bios": ("2.3.4", "0.0.0", "255.255.255"),
    "dell-bios-msb": ("1.2.3", "0.0.0", "255.255.255"),
    "surface-legacy": ("4.128.772", "0.0.0", "1023.4095.1023"),
    "surface": ("1.515.4", "0.0.0", "255.65535.255"),
    "intel-me": ("11.1.2.772", "11.0.0.0", "18.31.255.65535"),
    "intel-me2": ("0.1.2.772", "0.0.0.0", "15.15.255.65535"),
    "hex": ("0x01020304", "0x00000000", "0xffffffff"),
}


class Versions(unittest.TestCase):
    def test_each_format_shows_its_texts(self):
        self.assertEqual(set(TEXTS), set(FORMATS))
        for form, texts in TEXTS.items():
            self.assertEqual(tuple(render(form, raw) for raw in (0x01020304, 0, 0xFFFFFFFF)), texts)

    def test_a_shown_version_has_a_raw_number_that_shows_it(self):
        numbers = random.Random(1)
        for form in FORMATS:
            for raw in [0, 1, 0x99999999, 0xFFFFFFFF, *(numbers.getrandbits(32) for _ in range(500))]:
                text = render(form, raw)
                self.assertEqual(render(form, raw_of(form, text)), text)

    def test_what_a_format_can_not_show_has_none(self):
        for form, text in (("triplet", "1.2"), ("triplet", "1.2.65536"), ("triplet", "1.2.3-beta"), ("triplet", "256.0.0"),
                           ("quad", "1.2.3.256"), ("bcd", "1.2.3.166"), ("intel-me", "10.0.0.0"), ("intel-me", "19.0.0.0"),
                           ("hex", "0x0003"), ("hex", "0x0000ABCD"), ("number", "4294967296"), ("plain", "X37"),
                           ("number", ""), ("pair", "1."), ("pair", "-1.0"), ("pair", "١.٢"), ("number", "9" * 5000)):
            self.assertIsNone(raw_of(form, text), (form, text))

    def test_leading_zeros_make_an_equal_version(self):
        self.assertEqual(raw_of("triplet", "5.07.005"), 0x05070005)
        self.assertEqual(version_key("5.07.005"), version_key("5.7.5"))

    def test_versions_are_in_order(self):
        order = ["0x10", "1.0~rc1", "1.0", "1.0+git", "1.0rc10", "1.0rc9", "1.2.3", "1.2.3.4", "1.9.5", "1.10.0", "10"]
        self.assertEqual(sorted(reversed(order), key=version_key), order)
        self.assertEqual(version_key("1.00"), version_key("1.0"))

    def test_a_raw_number_is_written_out(self):
        self.assertEqual(written_out("65563", "quad"), "0.1.0.27")
        self.assertEqual(written_out("0x0001001b", "quad"), "0.1.0.27")
        for text, form in (("254", "quad"), ("65563", "number"), ("65563", None), ("1.65563", "quad"), ("4294967296", "quad")):
            self.assertEqual(written_out(text, form), text)

    def test_the_format_told_is_taken_where_it_shows_the_version(self):
        self.assertEqual(choose("quad", "1.2.3.4", []), "quad")
        self.assertEqual(choose("quad", None, ["1.2"]), "quad")

    def test_another_format_stands_in_where_it_does_not(self):
        self.assertEqual(choose("bcd", "4.01", ["4.02"]), "pair")
        self.assertEqual(choose(None, "1.2.3", []), "triplet")
        self.assertEqual(choose("intel-csme19", "12.0.1.2", []), "quad")
        self.assertEqual(choose(None, "1.2.3", ["1.300.4"]), "surface")

    def test_what_no_format_shows_keeps_the_format_told(self):
        self.assertEqual(choose("plain", "RQR12.05_B0028", []), "plain")
        self.assertEqual(choose(None, "RQR12.05_B0028", ["1.2"]), "pair")


if __name__ == "__main__":
    unittest.main()
