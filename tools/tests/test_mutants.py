"""tools/mutants: wrong bodies fit the sources, and what does not is told. Nothing is built."""
import contextlib
import io
import shutil
import types
import unittest
from unittest import mock

from tool import ToolTest, load
from lib import record
from lib.command import KITS

RIGHT = """
what = "Planted."
old = "mod runner;"
new = "mod run;"
seen = "list_tests drops_each_value_once"
"""


class Mutants(ToolTest):
    def test_an_edit_and_bodies_that_fit_no_source(self):
        said = self.passes("mutants", "--check")
        self.assertRegex(said, r"\A\d+ bodies and \d+ must-fail edits, 0 of them do not fit\n")
        top = self.copy("proofs", "specs")
        shutil.rmtree(top / "crates" / "thin_rows" / "src")
        edit = top / "crates" / "thin_vec" / "must-fail" / "planted.edit"
        edit.write_text("file: src/none.rt\nold: a\nnew: b\n", encoding="utf-8")
        (top / "docs" / "gate.toml").unlink(missing_ok=True)
        said = self.finds("mutants", "--check", top=top)
        says = "must-fail/planted.edit: there is no file crates/thin_vec/src/none.rt\n"
        self.assertIn(says, said)
        self.assertRegex(said, r"(?m)^\w+: there is no file crates/thin_rows/src/")
        self.assertIn("docs/gate.toml has no trial of these bodies: `tools/mutants` tries", said)

    def test_a_body_that_is_described_wrongly(self):
        place = "tools/mutants.d/thin_runner/lib.toml"
        top = self.copy("proofs", "specs")
        path = top / place
        for text, status, says in (
            ("[planted", 2, f"{place}: Expected ']' at the end of a table declaration"),
            (f"[planted]{RIGHT}why = ''", 2, f"{place}: planted has an unknown key why"),
            ("[planted]", 2, f"{place}: planted has no text `what`"),
            (f"[drop_leaks]{RIGHT}", 2, f"drop_leaks is also in {place}"),
            (f"[planted]{RIGHT.replace('mod runner', 'no')}", 1, "has the old text 0 times"),
            (f"[planted]{RIGHT.replace('_once', '')}", 1, "is no list_tests drops_each_value"),
            (f"[planted]{RIGHT.replace('mod run;', 'Absent::NAME')}", 1, "lib.rt has no Absent"),
        ):
            path.write_text(text, encoding="utf-8")
            with self.subTest(says):
                ran = self.run_tool("mutants", "--check", top=top)
                self.assertEqual(ran.returncode, status)
                self.assertIn(says, ran.stderr)

    def test_a_sample_is_of_one_crate_and_another_one_for_each_commit(self):
        mutants = load("mutants")
        bodies = mutants.wrong_bodies()
        samples = set()
        for number in range(100):
            found = mutants.sample(bodies, f"commit {number}", 6, 12)
            self.assertEqual(found, mutants.sample(bodies[::-1], f"commit {number}", 6, 12))
            self.assertTrue(6 <= len(found) <= 12)
            self.assertEqual(len({it.seen[0] for it in found}), 1)
            self.assertFalse(any(it.alone for it in found))
            samples.add(tuple(it.name for it in found))
        self.assertEqual(len(samples), 100)

    def test_a_crate_with_a_body_can_name_what_hands_on_the_number(self):
        listed = "thin_vec: thin_block\nlow:\ntests: thin_vec low\nother:\n"
        files = [f"crates/{crate}/src/lib.rt" for crate in ("thin_vec", "low", "tests")]
        self.assertEqual(
            load("mutants").with_thin_vec(listed, files),
            listed.replace("low:", "low: thin_vec"),
        )

    def test_a_test_sees_a_body_only_if_it_passes_without_one(self):
        mutants = load("mutants")
        # The numbers of a body with which each test fails.
        fails = {"blind": (), "always": (0, 1), "sees": (1,)}
        for named, alone, all_tests, said, bad in (
            ("blind", False, False, "NOT SEEN {}: no test fails\n", 1),
            ("always", False, False, "NOT SEEN {}: no test fails\n", 1),
            ("always", True, False, "NOT SEEN {}: no test fails\n", 1),
            ("sees", False, False, "seen {}: list_tests sees\n", 0),
            ("blind", False, True, "NOT SEEN {}: list_tests sees\n", 1),
        ):
            body = mutants.wrong_bodies()[0]
            body.seen, body.alone = ("list_tests", named), alone
            options = types.SimpleNamespace(jobs=1, all=all_tests)

            def tests(copy, crate):
                number = not copy.number_of if alone and copy.folder.name == body.name else 0
                return mock.Mock(
                    crate=crate,
                    panics=dict.fromkeys(fails),
                    named=lambda name: [name],
                    fails=lambda test, at: (at or number) in fails[test],
                    passes=lambda test: 0 not in fails[test],
                )

            found = {"Tests": tests, "has_test": lambda crate, _: crate == "list_tests"}
            with self.subTest(said), mock.patch.multiple(mutants, **found):
                with contextlib.redirect_stdout(io.StringIO()) as told:
                    trial = mutants.Trial([body], options, self.folder())
                    self.assertEqual(trial.try_all(), bad)
                self.assertEqual(told.getvalue(), said.format(body.name))

    def test_a_trial_of_all_bodies_is_recorded(self):
        mutants = load("mutants")
        path, bodies = self.folder() / "record.toml", mutants.wrong_bodies()
        for commit in ("abc", ""):
            with contextlib.ExitStack() as stack:
                stack.enter_context(mock.patch.object(record, "RECORD", path))
                stack.enter_context(mock.patch.object(mutants, "commit_here", lambda: commit))
                told = stack.enter_context(contextlib.redirect_stdout(io.StringIO()))
                mutants.record_trial(bodies, 3)
                found = record.recorded()["wrong_bodies"]
            self.assertEqual(told.getvalue() == "", bool(commit))
            self.assertEqual(found["commit"], "abc")
            self.assertEqual((found["bodies"], found["seen"]), (len(bodies), len(bodies) - 3))
            self.assertEqual(found["checksum"], mutants.checksum(bodies))
        self.assertNotEqual(mutants.checksum(bodies), mutants.checksum(bodies[1:]))

    def test_what_it_cannot_try(self):
        self.refuses("there is no such body: typo", "mutants", "--only", "typo", RT="/no/rt")
        only = ["mutants", "--only", "unfinished_splice"]
        self.refuses("there is no program /no/rt", *only, RT="/no/rt")
        rt = self.folder() / "rt"
        rt.write_text("#!/bin/sh\necho some-kit logic 1\n", encoding="utf-8")
        rt.chmod(0o755)
        says = "first_list: `rt try` did not start what keeps its program; the kit is some-kit"
        self.refuses(f"{says}; this tool was written for {KITS}", *only, RT=str(rt))

    def test_what_the_compiler_has_to_refuse(self):
        mutants = load("mutants")
        said = "one:\nsrc/main.rt:3:1: error[linear-value-let-go]: no\n"
        more = f"{said}src/main.rt:4:1: error: no\n"
        for told, test, is_seen in (
            (said, "compile linear-value-let-go", True),
            (said, "compile", True),
            (said, "compile other", False),
            (more, "compile linear-value-let-go", False),
            (said, "output", False),
        ):
            with self.subTest(test, said=told):
                self.assertEqual(mutants.is_refused(told, test), is_seen)


if __name__ == "__main__":
    unittest.main()
