"""How rattle_source.py reads what no source of the repository has.

`tools/reference --check` and `tools/audit` see if it reads the sources in another way than before.
"""
import unittest
from unittest import mock

from tool import ToolTest
from lib import rattle_source

SOURCE = """ghost use Rattle.one.specs.List.{size as length};

pub trait Look {
    fn look(&self) -> bool
        ensures text { result ≡ is_at "}" };
}

fn forgets() {
    use std::{
        mem,
        ptr,
    }; mem::forget(1); // use std::io;
}
"""
SPECS = "-- `size v` is a number.\nabbrev pub size : V → ℕ\nsize v = length v\n"


class Reading(ToolTest):
    def setUp(self):
        self.top = self.folder()
        self.path = self.top / "double.rt"
        self.path.write_text(SOURCE, encoding="utf-8")

    def test_a_brace_in_a_text(self):
        look = rattle_source.items_of(self.path)[1]
        self.assertEqual(look.path, "Look::look")
        self.assertEqual(look.clauses, [("ensures", "text", 'result ≡ is_at "}"')])

    def test_code_beside_an_import(self):
        code = [line.strip() for _, line in rattle_source.code_of(self.path)]
        self.assertIn("mem::forget(1); // use std::io;", code)
        self.assertEqual(rattle_source.imports_of(self.path), ["use std::{ mem, ptr, };"])

    def test_a_definition_with_another_name(self):
        specs = self.top / "crates" / "one" / "specs" / "List.antt"
        specs.parent.mkdir(parents=True)
        specs.write_text(SPECS, encoding="utf-8")
        with mock.patch.object(rattle_source, "TOP", self.top):
            found = rattle_source.definition(self.path, "length")
        self.assertEqual(found, (specs, "size"))


if __name__ == "__main__":
    unittest.main()
