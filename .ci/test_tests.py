"""How tests.py counts: what rt ci, unittest and all.py say at their ends, and groups that end badly."""
import contextlib
import io
import os
import tempfile
import unittest
from typing import Tuple
from unittest import mock

import tests
from tests import Count, told, unit_tests


class Counting(unittest.TestCase):
    def test_a_last_line(self) -> None:
        self.assertEqual(told("45 passed, 0 failed"), Count(45, 0))
        self.assertEqual(told("45 passed, 2 failed (transyt and the crates below alone: not the gate)"), Count(45, 2))
        self.assertIsNone(told("rt: FAILED: transyt"))

    def test_unittest(self) -> None:
        ran = "..\n----\nRan 7 tests in 0.1s\n\n"
        self.assertEqual(unit_tests(ran + "OK\n"), Count(7, 0))
        self.assertEqual(unit_tests(ran + "OK (skipped=2)\n"), Count(5, 0))
        self.assertEqual(unit_tests(ran + "FAILED (failures=1, errors=2, skipped=1)\n"), Count(3, 3))
        self.assertEqual(unit_tests(ran + "FAILED (unexpected successes=1)\n"), Count(6, 1))
        self.assertIsNone(unit_tests("Segmentation fault\n"))

    def test_a_group_that_ends_badly_has_failed(self) -> None:
        with contextlib.redirect_stdout(io.StringIO()) as out:
            def count(program: str) -> Count:
                return tests.group("x", ["-c", program], told)

            self.assertEqual(count("print('3 passed, 0 failed')"), Count(3, 0))
            self.assertEqual(count("print('3 passed, 0 failed'); exit(1)"), Count(3, 1))
            self.assertEqual(count("print('3 passed, 2 failed'); exit(1)"), Count(3, 2))
            self.assertEqual(count("exit(4)"), Count(0, 1))
            with mock.patch("tests.SECONDS", 0.2):
                self.assertEqual(count("import time; time.sleep(9)"), Count(0, 1))
        self.assertIn("it took too long", out.getvalue())

    def test_a_group_without_a_number_has_failed(self) -> None:
        with contextlib.redirect_stdout(io.StringIO()):
            self.assertEqual(tests.group("x", ["-c", "pass"], told), Count(0, 1))

    def test_a_folder_without_tests_is_left_out(self) -> None:
        with contextlib.redirect_stdout(io.StringIO()) as out:
            self.assertEqual(tests.unit_group("crates"), Count(0, 0))
            self.assertEqual(tests.unit_group("no/such/folder"), Count(0, 0))
        self.assertEqual(out.getvalue(), ".ci: crates has no tests\n.ci: no/such/folder has no tests\n")

    def test_each_piece_of_the_script_is_a_test(self) -> None:
        self.assertEqual(tests.pieces(), ["building", "first_look", "help", "install", "terminal", "version",
                                          "without_kit", "words"])
        with tempfile.TemporaryDirectory() as folder, contextlib.redirect_stdout(io.StringIO()) as out:
            os.makedirs(f"{folder}/.ci/script")
            texts = {"common": "exit 5", "a": ". .ci/script/common", "b": "true", "c": "exec sleep 99"}
            for name, text in texts.items():
                with open(f"{folder}/.ci/script/{name}", "w", encoding="ascii") as it:
                    it.write(text)
            with mock.patch("tests.ROOT", folder), mock.patch("tests.SECONDS", 5):
                self.assertEqual(tests.script(), Count(1, 2))
        self.assertEqual(out.getvalue(), ".ci: the script ./transyt\nc: it took too long\n")

    def end(self, status: str, line: str, groups: Count) -> Tuple[int, str]:
        """The exit number and the last line, where each group of unit tests has these numbers."""
        out = io.StringIO()
        with mock.patch("tests.unit_group", lambda folder: groups), mock.patch("tests.compared", lambda: Count(5, 0)), \
                mock.patch("tests.script", lambda: Count(0, 0)):
            with contextlib.redirect_stdout(out):
                ended = tests.main(status, line)
        return ended, out.getvalue().splitlines()[-1]

    def test_the_last_line_and_the_worse_status(self) -> None:
        self.assertEqual(self.end("0", "100 passed, 0 failed", Count(10, 0)), (0, "135 passed, 0 failed"))
        self.assertEqual(self.end("1", "98 passed, 2 failed", Count(10, 0)), (1, "133 passed, 2 failed"))
        self.assertEqual(self.end("0", "100 passed, 0 failed", Count(9, 1)), (1, "132 passed, 3 failed"))
        self.assertEqual(self.end("137", "Killed", Count(0, 0)), (137, "5 passed, 1 failed"))


if __name__ == "__main__":
    unittest.main()
