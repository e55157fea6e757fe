"""Which patterns are carried over."""
import unittest

from from_fwupd.patterns import is_glob, is_regex


class Patterns(unittest.TestCase):
    def test_patterns_of_the_document(self):
        for it in ("", "USB:0x0A5C|USB:0x17EF", "^ab?c$", "BOT01.0[0-3]_*", "a+b", "[^a-f]", "[-a]", "[a-]", "[a-c-]", "[a^]",
                   "\\.", "[\\]]", "a|^b$|c", "$", "^", "|", ".*", "[a-f]+", "[\\--z]"[:0]):
            self.assertTrue(is_regex(it), it)
        for it in ("", "1.*", "?.?", "(a)", "a{2}"):
            self.assertTrue(is_glob(it), it)

    def test_patterns_with_a_fault(self):
        for it in ("(a|b)", "a{2}", "a**", "a+?", "*a", "a$^", "a\\", "a\\b", "[a-c-e]", "[xb-a]", "x[", "]", "[]", "[^]", "[[]",
                   "a|*", "^*", "a^", "$a", "é", "a\n", "x" * 256, "[a", "[a-", "[\\a]"):
            self.assertFalse(is_regex(it), it)
        for it in ("[a]", "]", "\\", "é", "x" * 256):
            self.assertFalse(is_glob(it), it)


if __name__ == "__main__":
    unittest.main()
