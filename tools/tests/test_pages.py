"""tools/pages: what is wrong with a page, and how it asks the other tools.

The repository is a small one.
"""
import shutil
import unittest

from tool import TOP, ToolTest, change, commit, git

STUB = "#!/usr/bin/env python3\nimport sys\nprint({says!r}, file=sys.stderr)\nsys.exit({status})\n"
README = (
    "# One\n\n# One\n\n[one](#one-1) [an example](crates/thin_examples/README.md#one)\n\n"
    "```rust\nlet a = 1;\n```\n"
)
MAP = "# One\n\n## The map\n\n- `crates/thin_examples/`\n\n## Two\n"
# The pages are right, and there is no record of a gate.
OK = "docs/gate.toml has no gate: `tools/gate` writes it\npages: ok\n"
EXAMPLES = "# One\n\n- [`one`](src/main.rt)\n"


class Pages(ToolTest):
    def repository(self, status=0, says="told"):
        """A repository of two pages, whose other tools only end with a status."""
        top = self.folder()
        examples = top / "crates" / "thin_examples"
        (examples / "src").mkdir(parents=True)
        (top / "tools").mkdir()
        shutil.copy(TOP / "tools" / "pages", top / "tools")
        unread = shutil.ignore_patterns("__pycache__")
        shutil.copytree(TOP / "tools" / "lib", top / "tools" / "lib", ignore=unread)
        (top / "tools" / "reference").write_text(
            STUB.format(status=status, says=says), encoding="utf-8"
        )
        texts = {
            "README.md": EXAMPLES,
            "src/main.rt": "//! One.\n    let a = 1;\n",
        }
        for name, text in texts.items():
            (examples / name).write_text(text, encoding="utf-8")
        (top / "README.md").write_text(README, encoding="utf-8")
        (top / "CONTRIBUTING.md").write_text(MAP, encoding="utf-8")
        return top

    def test_right_pages(self):
        self.assertEqual(self.passes("pages", "--check", top=self.repository()), OK)

    def test_each_kind_of_fault(self):
        top = self.repository()
        wrong = [
            ("README.md", "\n[a](no.md)\n", "README.md:11: the link no.md leads to no file"),
            ("README.md", "\n[a](#two)\n", "README.md:11: the link #two leads to no heading"),
            (
                "README.md",
                "\n```rust\nlet b = 1;\n```\n",
                "README.md:11: this code is in no source file",
            ),
            ("README.md", "\nThere are 12 tests.\n", 'README.md:11: "12 tests" is a count'),
            ("README.md", f"\n{101 * 'a'}\n", "README.md:11: this line has 101 columns"),
            (
                "crates/thin_examples/src/main.rt",
                f"    // {94 * 'a'}\n",
                "crates/thin_examples/src/main.rt:3: this line has 101 columns",
            ),
            ("README.md", "\nSee `src/no.rt`.\n", "README.md:11: there is no file src/no.rt"),
            ("README.md", "\nSee `src/no/`.\n", "README.md:11: there is no folder src/no/"),
            ("README.md", "\nRun `tools/no`.\n", "README.md:11: there is no tool no"),
            (
                "README.md",
                "\nRun `tools/pages --no`.\n",
                "README.md:11: tools/pages has no option --no",
            ),
        ]
        for name, more, says in wrong:
            with self.subTest(says):
                text = (top / name).read_text(encoding="utf-8")
                (top / name).write_text(text + more, encoding="utf-8")
                said = self.finds("pages", top=top)
                (top / name).write_text(text, encoding="utf-8")
                self.assertTrue(said.startswith(says) and said.endswith("\npages: 1 wrong\n"), said)

    def test_a_crate_that_the_map_lacks(self):
        top = self.repository()
        (top / "crates" / "lost").mkdir()
        says = "CONTRIBUTING.md:3: the map lacks crates/lost/\npages: 1 wrong\n"
        self.assertEqual(self.finds("pages", top=top), says)
        page = top / "CONTRIBUTING.md"
        page.write_text(MAP + "\n- `crates/lost/`\n", encoding="utf-8")
        self.assertEqual(self.finds("pages", top=top), says)
        page.write_text(MAP.replace("\n\n## Two", "\n- `crates/lost/`\n"), encoding="utf-8")
        self.assertEqual(self.passes("pages", top=top), OK)

    def test_a_library_of_an_older_version(self):
        top = self.repository()
        root = top / "crates" / "thin_vec" / "src"
        root.mkdir(parents=True)
        (top / "CONTRIBUTING.md").write_text(
            MAP.replace("\n\n## Two", "\n- `crates/thin_vec/`\n\n## Two"), encoding="utf-8"
        )
        (top / "CHANGELOG.md").write_text(
            "# One\n\n## Version 3, to come\n\n## Version 2: 3 May 2026\n\n"
            "- **Version 1** (2 May 2026)\n",
            encoding="utf-8",
        )
        (root / "lib.rt").write_text("//! One.\n//! Version 1 of 2 May 2026.\n", encoding="utf-8")
        says = "crates/thin_vec/src/lib.rt does not name the newest version of CHANGELOG.md, 2 of "
        self.assertIn(says + "3 May 2026\npages: 1 wrong\n", self.finds("pages", top=top))
        (root / "lib.rt").write_text("//! One.\n//! Version 2 of 3 May 2026.\n", encoding="utf-8")
        self.assertEqual(self.passes("pages", top=top), OK)

    def test_members_and_labels(self):
        top = self.repository()
        (top / "docs").mkdir()
        page = top / "docs" / "CONTRACTS.md"
        source = top / "crates" / "thin_examples" / "src" / "main.rt"
        source.write_text(
            "//! One.\n    let a = 1;\nstruct One;\n    fn make() -> One\n"
            "        ensures made { result }\n    {\n    }\n",
            encoding="utf-8",
        )
        (top / "tools" / "reference").write_text('print("ensures made: make")\n', encoding="utf-8")
        head = "# Words\n\n## Labels\n\n| Label | Says |\n|---|---|\n"
        right = head + "| `made` | what `One::make` made |\n"
        page.write_text(right, encoding="utf-8")
        self.assertEqual(self.passes("pages", top=top), OK)
        wrong = [
            (right + "\nSee `One::lost`.\n", "docs/CONTRACTS.md:9: there is no One::lost"),
            (right + "| `lost` | - |\n", "docs/CONTRACTS.md:8: no clause has the label lost"),
            (head, "docs/CONTRACTS.md:3: the table lacks the label made"),
        ]
        for text, says in wrong:
            with self.subTest(says):
                page.write_text(text, encoding="utf-8")
                self.assertEqual(self.finds("pages", top=top), says + "\npages: 1 wrong\n")

    def test_names_of_what_shows_a_claim(self):
        top = self.repository()
        crate = top / "crates" / "thin_examples"
        code = {
            "src/main.rt": "//! One.\n    let a = 1;\nfn make()\n    ensures made { true }\n{\n}\n"
            "impl Deep {\n    fn drop()\n        ensures after { true }\n    {\n    }\n}\n"
            "#[test]\nfn makes_one() {\n}\nfn row_7() {\n}\n",
            "specs/One.antt": "pub record IsOne : Type 0 where\n",
            "proofs/One.antt": "pub is-one : IsOne\n",
            "must-fail/one_is_two.edit": "",
        }
        for name, text in code.items():
            (crate / name).parent.mkdir(exist_ok=True)
            (crate / name).write_text(text, encoding="utf-8")
        (top / "tools" / "data").mkdir()
        (top / "tools" / "data" / "audit.expected").write_text("# walks\n", encoding="utf-8")
        (top / "docs").mkdir()
        page = top / "docs" / "PROOFS.md"
        right = (
            "# One\n\nSee `none`.\n\n- That `none` is one. — `made` of\n  `make`; `after` of"
            " `Deep::drop`;\n  `makes_one`, `IsOne`, `is-one`, `one_is_two`, `walks`, row 7.\n"
        )
        wrong = [
            ("`made` of", "`after` of", "make has no clause after"),
            ("`make`;", "`make` and `drop`;", "drop has no clause made"),
            ("`makes_one`", "`makes_two`", "there is no makes_two"),
            ("`IsOne`", "`IsTwo`", "there is no IsTwo"),
            ("`is-one`", "`is-two`", "there is no is-two"),
            ("`one_is_two`", "`one_is_one`", "there is no one_is_one"),
            ("`walks`", "`walks on`", "there is no walks on"),
            ("row 7", "rows 7 and 8", "there is no row_8"),
        ]
        page.write_text(right, encoding="utf-8")
        self.assertEqual(self.passes("pages", top=top), OK)
        for old, new, says in wrong:
            with self.subTest(says):
                page.write_text(right.replace(old, new), encoding="utf-8")
                self.assertEqual(
                    self.finds("pages", top=top), f"docs/PROOFS.md:5: {says}\npages: 1 wrong\n"
                )

    def test_a_record_of_an_older_product(self):
        top, folder = self.repository(), "crates/thin_vec/must-fail"
        edit, record = top / folder / "one.edit", top / "docs" / "gate.toml"
        change(top / "CONTRIBUTING.md", "\n\n## Two", "\n- `crates/thin_vec/`\n\n## Two")
        change(top / "README.md", "# One\n", "# One\n\nSee [the record](docs/gate.toml).\n")
        edit.parent.mkdir(parents=True)
        edit.touch()
        first = commit(top)
        self.assertEqual(self.passes("pages", top=top), OK)
        record.parent.mkdir()
        record.write_text(f'[gate]\ncommit = "{first}"\nfailed = 0\n', encoding="utf-8")
        (top / "crates" / "thin_vec" / "README.md").write_text("# One\n", encoding="utf-8")
        commit(top)
        self.assertEqual(self.passes("pages", top=top), "pages: ok\n")
        edit.write_text("# One\n", encoding="utf-8")
        says = f"docs/gate.toml is of an older product: since {first[:8]}, 1 of its files have"
        says += f" changed, such as {folder}/one.edit\npages: ok\n"
        self.assertEqual(self.passes("pages", top=top), says)
        commit(top)
        self.assertEqual(self.passes("pages", top=top), says)
        # A copy without the commit of the record cannot be compared with it.
        shallow, exported = self.folder() / "copy", top / "copy"
        git(top, "clone", "--quiet", "--depth=1", f"file://{top}", str(shallow))
        shutil.copytree(shallow, exported, ignore=shutil.ignore_patterns(".git"))
        says = f"docs/gate.toml: commit {first[:8]} is not here, so its product cannot be compared"
        for copy in (shallow, exported):
            self.assertEqual(self.passes("pages", top=copy), f"{says}\npages: ok\n")

    def test_a_wrong_record(self):
        top = self.repository()
        change(top / "README.md", "# One\n", "# One\n\nThe kit is `kit-1\nlogic 2`.\n")
        (top / "docs").mkdir()
        record, first = top / "docs" / "gate.toml", commit(top)
        gate = f'[gate]\ncommit = "{first}"\nkit = "kit-1 logic 2"\nfailed = 0\n'
        right = gate + f'[wrong_bodies]\ncommit = "{first}"\nbodies = 2\nseen = 2\n'
        record.write_text(right, encoding="utf-8")
        self.assertEqual(self.passes("pages", top=top), "pages: ok\n")
        for old, new, says in (
            ("failed = 0", "failed = 1", "not all passed, or not all wrong bodies were seen"),
            ("seen = 2", "seen = 1", "not all passed, or not all wrong bodies were seen"),
            ("kit-1", "kit-2", "README does not name its kit, kit-2 logic 2"),
        ):
            with self.subTest(new):
                record.write_text(right.replace(old, new, 1), encoding="utf-8")
                said = self.finds("pages", top=top)
                self.assertEqual(said, f"docs/gate.toml: {says}\npages: 1 wrong\n")
        record.write_text("[gate", encoding="utf-8")
        says = "docs/gate.toml: Expected ']' at the end of a table declaration (at end of document)"
        self.refuses(says, "pages", top=top)

    def test_what_another_tool_finds_is_wrong(self):
        self.assertEqual(self.finds("pages", top=self.repository(1)), "told\npages: 1 wrong\n")

    def test_another_tool_that_cannot_run(self):
        self.refuses(
            "reference: no such file", "pages", top=self.repository(2, "reference: no such file")
        )


if __name__ == "__main__":
    unittest.main()
