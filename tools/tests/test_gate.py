"""tools/gate: what it records. `rt` is a short program of the test."""
import shutil
import sys
import tomllib
import unittest
from unittest import mock

from tool import TOP, ToolTest, commit, load
from lib.command import KITS

EDIT = "rt: one/must-fail/two.edit: refused, as it must be"
PASSED = f"== one\n{EDIT}: open goal\n{EDIT}\n3 passed, 0 failed\n"


class Gate(ToolTest):
    def repository(self, says=PASSED, status=0, more=""):
        """A commit with tools/gate, and a program beside it, in the place of `rt`."""
        folder = self.folder()
        top, rt = folder / "copy", folder / "rt"
        (top / "docs").mkdir(parents=True)
        unread = shutil.ignore_patterns("__pycache__")
        shutil.copytree(TOP / "tools" / "lib", top / "tools" / "lib", ignore=unread)
        shutil.copy(TOP / "tools" / "gate", top / "tools")
        (folder / "says").write_text(says, encoding="utf-8")
        rt.write_text(
            "#!/bin/sh\n[ $1 = version ] && echo some-kit logic 1 && exit\n"
            f"echo $* >{folder}/called\n{more}\ncat {folder}/says\nexit {status}\n",
            encoding="utf-8",
        )
        rt.chmod(0o755)
        self.called, self.rt, self.commit = folder / "called", str(rt), commit(top)
        return top

    def test_an_edit_that_shows_little(self):
        for edit in ("rt: one: BAD EDIT: no", f"{EDIT} (only by a limit)", f"{EDIT} (only because"):
            with self.subTest(edit):
                top = self.repository(f"{edit}\n{PASSED}")
                ran = self.run_tool("gate", top=top, RT=self.rt)
                self.assertEqual((ran.returncode, ran.stderr), (1, f"{edit}\n"))
                self.assertFalse((top / "docs" / "gate.toml").exists())

    def test_a_record(self):
        top = self.repository()
        path = top / "docs" / "gate.toml"
        path.write_text("[wrong_bodies]\nbodies = 2\n\n[gate]\npassed = 9\n", encoding="utf-8")
        said = self.passes("gate", top=top, RT=self.rt)
        self.assertEqual(said, f"{PASSED}docs/gate.toml is written\n")
        self.assertEqual(self.called.read_text(encoding="utf-8"), "ci --anew\n")
        text = path.read_text(encoding="utf-8")
        found = tomllib.loads(text)
        self.assertEqual(found["wrong_bodies"], {"bodies": 2})
        gate = found["gate"]
        self.assertEqual((gate["commit"], gate["kit"]), (self.commit, "some-kit logic 1"))
        self.assertEqual((gate["passed"], gate["failed"], gate["edits_refused"]), (3, 0, 2))
        self.assertEqual(gate["clock_minutes"], 0)
        self.assertRegex(text, r"(?m)^day = \d{4}-\d\d-\d\d$")

    def test_what_is_not_recorded(self):
        says = "gate: `rt ci --anew` did not say what passed; the kit is some-kit"
        says += f"; this tool was written for {KITS}\n"
        changed = "gate: files were changed meanwhile: there is no record\n"
        for lines, status, more, ends in (
            ("2 passed, 1 failed\n", 1, "", (1, "")),
            ("unknown words\n", 1, "", (2, says)),
            ("", 0, "", (2, says)),
            (PASSED, 0, "touch new", (2, changed)),
        ):
            with self.subTest(lines, more=more):
                top = self.repository(lines, status, more)
                ran = self.run_tool("gate", top=top, RT=self.rt)
                self.assertEqual((ran.returncode, ran.stderr), ends)
                self.assertFalse((top / "docs" / "gate.toml").exists())

    def test_files_of_no_commit(self):
        top = self.repository()
        (top / "new").touch()
        says = "the files are those of no commit, so there is nothing to record"
        self.refuses(says, "gate", top=top, RT=self.rt)
        shutil.rmtree(top / ".git")
        self.refuses(says, "gate", top=top, RT=self.rt)
        self.assertFalse(self.called.exists())

    def test_the_time_of_each_process(self):
        burns = "import time\nwhile time.process_time() < 0.6:\n    pass"
        top = self.repository(more=f"{sys.executable} -c '{burns}' & wait; sh -c 'sleep 0.2; :'")
        gate = load("gate")
        with mock.patch.object(gate, "RT", str(self.rt)), mock.patch("builtins.print"):
            status, lines, (clock, processor) = gate.run_ci()
        self.assertEqual((status, lines), (0, PASSED.splitlines()))
        self.assertGreater(60 * processor, 0.6)
        self.assertGreater(60 * clock, 0.8)


if __name__ == "__main__":
    unittest.main()
