"""The program, and what a check of it says."""
import os
import tempfile
import unittest
from unittest import mock

from jepmon import program
from jepmon.program import finding, report


class Reports(unittest.TestCase):
    def test_a_report(self):
        text = "key 7 model register budget 4096 events 6 status dead 5\nillegal key 7 index 5\n"
        found = program.report_of(text, "", 1)
        self.assertEqual(found.keys, [program.KeyLine(7, "register", 4096, 6, "dead", 5)])
        self.assertEqual((found.word, found.key, found.index), ("illegal", 7, 5))

    def test_a_line_is_read_as_it_is_written(self):
        for status, index in (("alive", None), ("dead", 5), ("over", 0), ("dead-by", 5), ("ordered", 7), ("confirmed", None)):
            line = program.KeyLine(7, "fifo-queue", 4096, 6, status, index)
            self.assertEqual(report.key_line(line.text), line)
        for verdict in (report.verdict_of((5, 7), (3, 1)), report.verdict_of(None, (3, 1))):
            self.assertEqual(report.verdict_in(verdict.line), verdict)
        for other in ("key 7 model register budget 4096 events 6", "key x model register budget 4096 events 6 status alive", "legal"):
            self.assertEqual((report.key_line(other), report.verdict_in(other)), (None, None))

    def test_refusals(self):
        found = program.report_of("refused 5 BadValue event 3\n", "", 3)
        self.assertEqual((found.word, found.key, found.index), ("refused", None, 3))
        found = program.report_of("", "refused 10 BadConcurrency\n", 3)
        self.assertEqual((found.word, found.verdict, found.index), ("refused", "refused 10 BadConcurrency", None))


class Finding(unittest.TestCase):
    def test_the_one_that_is_named(self):
        with mock.patch.dict(os.environ, {"JEPMON": "/there/jepmon"}):
            self.assertEqual(program.find_program(), "/there/jepmon")
            self.assertEqual(program.find_program("/here/jepmon"), "/here/jepmon")

    def test_no_script_is_taken(self):
        with tempfile.TemporaryDirectory() as folder:
            path = os.path.join(folder, "jepmon")
            with open(path, "w") as file:
                file.write("#!/bin/sh\n")
            os.chmod(path, 0o755)
            with mock.patch.dict(os.environ, {"PATH": folder}), mock.patch("sys.prefix", folder), \
                    mock.patch.object(finding, "__file__", "/nowhere/python/jepmon/program/finding.py"):
                os.environ.pop("JEPMON", None)
                with self.assertRaises(program.ProgramError):
                    program.find_program()


if __name__ == "__main__":
    unittest.main()
