"""Lines, words and texts."""

import unittest

import support  # noqa: F401
from transyt.text import csv_name, decoded, escaped, lines_of, name_fault, number_of, rest_of, words_of


class Lines(unittest.TestCase):
    def test_cut_at_lf_alone(self) -> None:
        self.assertEqual(lines_of("a\u0085b\u2028c\x0bd\x0ce\nf\rg\n"), ["a\u0085b\u2028c\x0bd\x0ce", "f\rg"])

    def test_one_cr_is_taken_off(self) -> None:
        self.assertEqual(lines_of("a\r\nb\r\r\nc\r"), ["a", "b\r", "c"])

    def test_last_line_without_its_end(self) -> None:
        self.assertEqual(lines_of("a\n\nb"), ["a", "", "b"])
        self.assertEqual(lines_of(""), [])

    def test_latin_1_a_with_ring_doesnt_cut(self) -> None:
        self.assertEqual(lines_of(decoded("* NAME NODE 2 Åkervägen\n".encode())), ["* NAME NODE 2 Åkervägen"])

    def test_bytes_that_arent_utf_8(self) -> None:
        self.assertEqual(decoded(b"a\xe4b\n"), "a\ufffdb\n")


class Words(unittest.TestCase):
    def test_cut_at_blanks_and_tabs_alone(self) -> None:
        self.assertEqual(words_of(" \tNODE\t1  2\u00a03\u2003 "), ["NODE", "1", "2\u00a03\u2003"])

    def test_rest_keeps_inner_blanks(self) -> None:
        self.assertEqual(rest_of("*  NAME NODE\t2  Market  Street \t", 4), "Market  Street")
        self.assertEqual(rest_of("* NAME", 4), "")

    def test_numbers(self) -> None:
        self.assertEqual([number_of(word) for word in ("007", "123456789", "1234567890", "-1", "+1", "1_0", "٣", "")],
                         [7, 123456789, None, None, None, None, None, None])


class Shown(unittest.TestCase):
    def test_control_characters_on_a_terminal(self) -> None:
        self.assertEqual(escaped("a\x1b[2Jb\x07\x85\u202eé"), "a\\x1b[2Jb\\x07\\x85\\u202eé")

    def test_formulas_in_a_spreadsheet(self) -> None:
        self.assertEqual([csv_name(name) for name in ("=1", "+a", "-b", "@c", "d=", "")],
                         ["'=1", "'+a", "'-b", "'@c", "d=", ""])


class NameFaults(unittest.TestCase):
    def test_names_that_can_be(self) -> None:
        for name in ("Market Street", "Åkervägen", "=1+1", "<script>", "x" * 200):
            self.assertIsNone(name_fault(name))

    def test_names_that_cant(self) -> None:
        for name, said in (("a\nb", "U+000A"), ("a\rb", "U+000D"), ("a\x1bb", "U+001B"), ("a\u202eb", "U+202E"),
                           ("a\u200fb", "direction"), ("x" * 201, "201 characters")):
            self.assertIn(said, name_fault(name))

    def test_line_of_a_name(self) -> None:
        self.assertIn("4,096 bytes", name_fault("\U0001f6a6" * 200, "* NAME LINK 21 " + "y" * 3300))


if __name__ == "__main__":
    unittest.main()
