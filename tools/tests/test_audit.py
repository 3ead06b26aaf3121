"""tools/audit: it sees a new and a missing line."""
import unittest

from tool import ToolTest, change, load


class Audit(ToolTest):
    def test_a_new_line_and_one_that_is_gone(self):
        top = self.copy("mutants.d", "docs")
        source = top / "crates" / "thin_runner" / "src" / "lib.rt"
        source.write_text(
            source.read_text(encoding="utf-8") + "\nunsafe fn planted() {}\n", encoding="utf-8"
        )
        expected = top / "tools" / "data" / "audit.expected"
        change(expected, "# unsafe\n", "# unsafe\nnone.rt:gone: unsafe\n")
        said = self.finds("audit", top=top)
        self.assertIn(
            "1 new, 1 gone\n  + thin_runner/src/lib.rt:planted: unsafe fn planted() {}\n"
            "  - none.rt:gone: unsafe\n",
            said,
        )
        self.passes("audit", "--write", top=top)
        written = expected.read_text(encoding="utf-8")
        self.assertIn("\nthin_runner/src/lib.rt:planted: unsafe fn planted() {}\n", written)
        self.assertNotIn("gone", written)

    def test_an_import_of_what_is_about_memory(self):
        top = self.copy("mutants.d", "docs")
        lemmas = top / "crates" / "thin_runner" / "proofs" / "RunLemmas.antt"
        text = lemmas.read_text(encoding="utf-8")
        imported = "use Rattle.thin_block.specs.Ownership.{Owns}"
        lemmas.write_text(f"{imported}\n{text}", encoding="utf-8")
        said = self.finds("audit", top=top)
        found = "thin_runner/proofs/RunLemmas.antt: Rattle.thin_block.specs.Ownership"
        self.assertIn(f"1 new, 0 gone\n  + {found}\n", said)

    def test_the_lines_of_each_search_are_listed(self):
        said = self.passes("audit", "--list")
        for name in load("audit").FINDS:
            self.assertEqual(f"\n{said}".count(f"\n# {name}\n"), 1, name)

    def test_wrong_uses(self):
        top = self.copy("mutants.d", "proofs", "specs")
        path = top / "tools" / "data" / "audit.expected"
        text = path.read_text(encoding="utf-8")
        says = "argument --write: not allowed with argument --list (--help lists the options)"
        self.refuses(says, "audit", "--list", "--write", top=top)
        path.write_text(f"none.rt: a line\n{text}", encoding="utf-8")
        says = "tools/data/audit.expected: the line 'none.rt: a line' is in no section"
        self.refuses(says, "audit", top=top)
        path.write_text(f"{text}\n# draws\n", encoding="utf-8")
        said = self.finds("audit", top=top)
        self.assertIn("has a section 'draws'; no search is compared with it\n", said)

    def test_it_reads_each_crate_of_the_product(self):
        top = self.copy("mutants.d", "docs")
        crates = ("thin_block", "thin_vec", "thin_rows", "thin_runner")
        more = "\nuse std::{\n    mem,\n    io,\n};\nfn planted() {\n    mem::swap(1);\n}\n"
        for crate in crates:
            path = top / "crates" / crate / "src" / "lib.rt"
            path.write_text(path.read_text(encoding="utf-8") + more, encoding="utf-8")
        said = self.finds("audit", top=top)
        for crate in crates:
            self.assertIn(f"  + {crate}/src/lib.rt: use std::{{ mem, io, }};\n", said)
            self.assertIn(f"  + {crate}/src/lib.rt:planted: mem::swap(1);\n", said)

    def test_lines_that_write_to_an_item(self):
        top = self.copy("mutants.d", "docs")
        path = top / "crates" / "thin_vec" / "src" / "lib.rt"
        planted = {
            "lent": ("swap(&mut list[len], at);", "for place in &mut *self {", "self[at].set(1);"),
            "exchanged": ("self[index] = value;", "list[starts[at]] = item;"),
        }
        lines = "".join(f"    {line}\n" for some in planted.values() for line in some)
        text = f"{path.read_text(encoding='utf-8')}\nfn planted() {{\n{lines}}}\n"
        path.write_text(text, encoding="utf-8")
        for name, some in planted.items():
            said = self.finds("audit", top=top)
            self.assertIn(f"{len(some)} new, 0 gone", said)
            for line in some:
                self.assertIn(f"  + thin_vec/src/lib.rt:planted: {line}\n", said)


if __name__ == "__main__":
    unittest.main()
