"""tools/compare_with_rust: the lists that it makes, and what it compares.

Texts and scripts stand in the place of both programs.
"""
import contextlib
import io
import types
import unittest
from pathlib import Path
from unittest import mock

from tool import TOP, ToolTest, load
from lib.command import Stopped
from lib.random_lists import made_lists

SCRIPT = TOP / "crates" / "thin_replay"
compare = load("compare_with_rust")


def lines_of(name):
    return (SCRIPT / name).read_text(encoding="utf-8").splitlines()


class Differ(ToolTest):
    def setUp(self):
        count = len(lines_of("stdin")) - 1
        self.help, self.answers = lines_of("stdout")[:-count], lines_of("stdout")[-count:]

    def ran(self, answers=None, **changed):
        """What the tool returns, prints and writes if the Rust program has these answers, or those
        of the gate's script."""
        folder = self.folder()
        given = types.SimpleNamespace(seed="11", lists=50, crate=Path("lib.rs"), write=folder)
        given.__dict__.update(changed)

        def answers_of_rust(lines):
            return self.help if lines == ["help"] else answers or self.answers

        call = compare.write_all if given.write else compare.compare
        with mock.patch.object(compare, "answers_of_rust", answers_of_rust):
            with contextlib.redirect_stdout(io.StringIO()) as said:
                difference = call(given)
        files = {path.name: path.read_text(encoding="utf-8") for path in folder.iterdir()}
        return difference, said.getvalue(), files

    def test_the_script_of_the_gate(self):
        difference, said, files = self.ran()
        self.assertIsNone(difference)
        self.assertRegex(said, r"\Awritten: 50 lists, \d+ lines\nthe capacities are those of the ")
        self.assertRegex(said, r"; those of \d+ of \d+ lines are the crate's, too\n\Z")
        for name in ("stdin", "stdout", "stdin.from"):
            self.assertEqual(files[name].splitlines(), lines_of(name), name)

    def test_no_crate_confirms_the_capacities(self):
        answers = ["done"] * sum(len(it.lines) for it in made_lists("2", 3, False, True))
        _, said, files = self.ran(answers, crate=None, seed="2", lists=3)
        self.assertTrue(said.endswith("are those of the rules of this program alone\n"), said)
        command = "tools/compare_with_rust --lists 3 --seed 2 --write FOLDER\n"
        self.assertEqual(files["stdin.from"], command)

    def test_a_capacity_that_the_crate_contradicts_is_not_written(self):
        at = next(at for at, line in enumerate(self.answers) if "; capacity 4" in line)
        wrong = list(self.answers)
        wrong[at] = wrong[at].replace("; capacity 4", "; capacity 5")
        difference, _, files = self.ran(wrong)
        self.assertEqual(files, {})
        self.assertRegex(difference[0], r": the crate has the capacities \[5\], not \[4\]")

    def test_answers_are_compared(self):
        made = compare.lines_of(made_lists("11", 50, False))
        answers = ["done"] * len(made)
        for status, told, what in ((0, "", None), (4, "a fault", ["a fault"])):

            def run(words, **_):
                cases = sorted(Path(words[-1]).iterdir())
                self.assertEqual(sum(it.suffix == ".stdout" for it in cases), 3)
                lines = [it.read_text(encoding="utf-8").splitlines() for it in cases]
                self.assertEqual(sum(map(len, lines)), 2 * len(made))
                return mock.Mock(returncode=status, stdout=told, stderr="")

            with self.subTest(status), mock.patch.object(compare.subprocess, "run", run):
                self.assertEqual(self.ran(answers, crate=None, write=None)[0], what)
        for status in (1, 2, 3):
            ran = mock.Mock(returncode=status, stdout="said", stderr="")
            with mock.patch.object(compare.subprocess, "run", return_value=ran):
                with self.assertRaisesRegex(Stopped, "^crates/thin_replay was not built; .*\nsaid"):
                    self.ran(answers, crate=None, write=None)

    def test_a_rust_program_that_fails(self):
        ran = mock.Mock(returncode=7, stderr="told")
        with mock.patch.object(compare.subprocess, "run", return_value=ran):
            with self.assertRaisesRegex(Stopped, "replay in Rust ended with status 7: told"):
                compare.answers_of_rust([])
            with self.assertRaisesRegex(Stopped, "tools/rust/replay was not built"):
                compare.build(None)

    def test_what_it_needs(self):
        programs = self.folder()
        for says, *words in (
            ("there is no folder /no/folder", "--write", "/no/folder"),
            ("there is no file /no/lib.rs", "--crate", "/no/lib.rs"),
            ("there is no program rustc",),
        ):
            self.refuses(says, "compare_with_rust", *words, PATH=str(programs))


if __name__ == "__main__":
    unittest.main()
