"""What every tool does with `--help` and with wrong arguments."""
import contextlib
import io
import os
import sys
import unittest
from unittest import mock

from tool import NAMES, TOP, ToolTest
from lib import command


class Arguments(ToolTest):
    def test_each_tool_is_named_here(self):
        files = {path.name for path in (TOP / "tools").iterdir() if path.is_file()}
        self.assertEqual(files, set(NAMES))
        for name in NAMES:
            self.assertTrue(os.access(TOP / "tools" / name, os.X_OK), name)

    def test_each_tool_answers_help(self):
        for name in NAMES:
            with self.subTest(name):
                self.assertTrue(self.passes(name, "--help").startswith(f"usage: {name}"))

    def test_an_unknown_option_is_one_line(self):
        for name in NAMES:
            with self.subTest(name):
                self.refuses(
                    "unrecognized arguments: --typo (--help lists the options)",
                    name,
                    "--typo",
                    PATH=str(self.folder()),
                    RT="/no/rt",
                )

    def test_a_number_below_one_is_one_line(self):
        for name, option, text in (
            ("compare_with_rust", "--lists", "0"),
            ("mutants", "--jobs", "two"),
            ("speed", "--rounds", "-1"),
        ):
            says = f"argument {option}: {text} is not a number from 1 (--help lists the options)"
            with self.subTest(says):
                # A tool that takes the number should not begin to build.
                self.refuses(says, name, f"{option}={text}", PATH=str(self.folder()), RT="/no/rt")

    def test_a_missing_file_or_folder_is_one_line(self):
        missing = [
            ("audit", (), "crates/thin_rows/src", "there is no folder crates/thin_rows/src"),
            ("compare_with_rust", (), "tools/rust/replay/main.rs", "replay was not built"),
            ("pages", (), "crates/thin_examples", "no folder crates/thin_examples/src"),
            ("reference", (), "crates/thin_rows/src", "there is no folder crates/thin_rows/src"),
            ("speed", (), "tools/data", "tools/data/workloads.json: No such file or directory"),
            ("speed", ("--picture",), "docs/FIGURES.md", "docs/FIGURES.md: No such file"),
        ]
        programs = self.folder()
        for name in ("rt", "rustc"):
            (programs / name).write_text("#!/bin/sh\nexit 1\n", encoding="utf-8")
            (programs / name).chmod(0o755)
        top = self.copy("proofs", "specs")
        for name, arguments, gone, says in missing:
            with self.subTest(f"{name} without {gone}"):
                (top / gone).rename(top / "gone")
                ran = self.run_tool(name, *arguments, top=top, PATH=str(programs))
                (top / "gone").rename(top / gone)
                self.assertEqual((ran.returncode, ran.stdout, ran.stderr.count("\n")), (2, "", 1))
                self.assertTrue(ran.stderr.startswith(f"{name}: "))
                self.assertIn(says, ran.stderr)


class Ending(unittest.TestCase):
    def ended(self, main):
        """The status with which a tool ends, and what it wrote to stderr."""
        with contextlib.redirect_stderr(io.StringIO()) as said, mock.patch.object(
            sys, "argv", ["tools/tool"]
        ):
            with self.assertRaises(SystemExit) as ended:
                command.run_tool(main)
        return ended.exception.code, said.getvalue()

    def test_the_status_of_a_tool_is_what_it_returns(self):
        for status in (0, 1):
            self.assertEqual(self.ended(lambda: status), (status, ""))

    def test_a_tool_that_cannot_go_on_ends_with_one_line(self):
        told = [
            (command.Stopped("no crate"), "no crate"),
            (KeyboardInterrupt(), "interrupted"),
            (FileNotFoundError(2, "No such file", "rt"), "rt: No such file"),
            (UnicodeDecodeError("utf-8", b"\xff", 0, 1, "odd"), "a file is not UTF-8: "),
        ]
        for error, says in told:
            with self.subTest(says):
                status, said = self.ended(mock.Mock(side_effect=error))
                self.assertEqual((status, said.count("\n")), (2, 1))
                self.assertTrue(said.startswith(f"tool: {says}"), said)


if __name__ == "__main__":
    unittest.main()
