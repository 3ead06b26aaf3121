"""tools/reference: a page is as the code is, and --write follows a change."""
import unittest

from tool import ToolTest, change, load


class MadePages(ToolTest):
    def test_a_page_follows_the_code(self):
        top = self.copy("mutants.d")
        source = top / "crates" / "thin_rows" / "src" / "table.rt"
        change(source, "    /// ", "    /// Planted. ")
        page = "crates/thin_vec/DEFINITIONS.md"
        change(top / page, "The ", "The planted ")
        said = self.finds("reference", "--check", top=top)
        for name in (page, "crates/thin_rows/REFERENCE.md"):
            self.assertIn(f"{name} is not as the code is: run tools/reference --write\n", said)
        self.passes("reference", "--write", top=top)
        self.assertNotIn(" planted ", (top / page).read_text(encoding="utf-8"))
        made = (top / "crates" / "thin_rows" / "REFERENCE.md").read_text(encoding="utf-8")
        self.assertIn("Planted.", made)

    def test_the_definitions_that_a_contract_uses(self):
        reference = load("reference")
        found = reference.used_definitions("thin_vec")
        # The contracts that import `vec_len` from std mean the word about a `Vec`.
        self.assertNotIn("vec_len", found)
        # One is named in a record, and one in a trait.
        self.assertIn("Fits", found["IsBounded"][3])
        self.assertIn("IsValidGrowth", found["IsLawful"][3])

    def test_a_word_of_the_library_without_a_meaning(self):
        top = self.copy("mutants.d", "proofs")
        change(top / "tools" / "data" / "std_glossary.toml", "IsOk = ", "IsPlanted = ")
        says = "tools/data/std_glossary.toml: IsOk has no meaning; IsPlanted is used by no contract"
        self.refuses(says, "reference", "--check", top=top)

    def test_an_unknown_crate_is_told_before_a_page_is_written(self):
        top = self.copy("mutants.d", "proofs", "specs")
        page = top / "crates" / "thin_vec" / "REFERENCE.md"
        page.write_text("", encoding="utf-8")
        says = "no reference of typo: there are those of thin_vec and thin_rows"
        says += " (--help lists the options)"
        self.refuses(says, "reference", "thin_vec", "typo", "--write", top=top)
        self.assertEqual(page.read_text(encoding="utf-8"), "")


if __name__ == "__main__":
    unittest.main()
