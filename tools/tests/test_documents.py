"""Tests of the documents: each link and each anchor leads somewhere, and words that the glossary replaced stay away."""

import os
import pathlib
import re
import subprocess
import unittest

ROOT = pathlib.Path(__file__).resolve().parents[2]
PAGES = sorted(path for pattern in ("*.md", "docs/*.md", "examples/*.md", "c/**/*.md", ".ci/**/*.md")
               for path in ROOT.glob(pattern))


def anchors(path):
    """The anchors of a page's headings."""
    headings = re.findall(r"^#+ (.*)$", path.read_text(encoding="utf-8"), re.MULTILINE)
    return {re.sub(r"[^\w\- ]", "", heading.strip().lower()).replace(" ", "-") for heading in headings}


class Links(unittest.TestCase):

    def test_each_link_leads_somewhere(self):
        self.assertGreater(len(PAGES), 20)
        for page in PAGES:
            for link in re.findall(r"\]\(([^)\s]+)\)", page.read_text(encoding="utf-8")):
                name, _, anchor = link.partition("#")
                target = pathlib.Path(os.path.normpath(page.parent / name)) if name else page
                with self.subTest(page=page.name, link=link):
                    if not link.startswith(("http:", "https:", "mailto:")):
                        self.assertTrue(target.exists())
                        if anchor and target.suffix == ".md":
                            self.assertIn(anchor, anchors(target))


class Crates(unittest.TestCase):
    """Each crate's README, and the table that is made of them."""

    def test_the_table_of_crates_is_that_of_their_pages(self):
        done = subprocess.run([ROOT / "tools" / "crate_table"], capture_output=True, text=True)
        self.assertEqual((done.returncode, done.stdout), (0, ""))

    def test_a_file_of_lemmas_says_what_rests_on_it(self):
        done = subprocess.run([ROOT / "tools" / "proof_lines"], capture_output=True, text=True)
        self.assertEqual((done.returncode, done.stdout), (0, ""))

    def test_a_crate_has_what_its_page_names(self):
        for page in sorted((ROOT / "crates").glob("*/README.md")):
            files = [file for part in ("src", "specs") for file in (page.parent / part).rglob("*.*t*")]
            names = {word for file in files for word in re.findall(r"\w+", file.read_text(encoding="utf-8"))}
            names |= {file.stem for file in files} | {path.parent.name for path in files}
            begin = page.read_text(encoding="utf-8").split("\n\n")[2]
            for name in re.findall(r"`(?:specs/|src/)?(\w+)(?:\.\w+)?`", begin):
                with self.subTest(crate=page.parent.name, name=name):
                    self.assertTrue(name in names or (ROOT / "crates" / name).is_dir())


class Claims(unittest.TestCase):
    """What docs/proved.md cites is there: each crate, each name in it, and each clause or field."""

    PROVED = (ROOT / "docs" / "proved.md").read_text(encoding="utf-8")

    @staticmethod
    def texts(pattern):
        return [path.read_text(encoding="utf-8") for path in (ROOT / "crates").glob(pattern)]

    def test_each_name_stands_in_its_crate(self):
        cited = re.findall(r"\b([a-z][a-z0-9_]*)((?:::\w+)+)", self.PROVED)
        self.assertGreater(len(cited), 200)
        words = {}
        for crate, path in cited:
            if crate not in words:
                texts = [text for part in ("src/**/*.rt", "specs/**/*.antt") for text in self.texts(f"{crate}/{part}")]
                words[crate] = {word for text in texts for word in re.findall(r"\w+", text)}
            for name in path.split("::")[1:]:
                with self.subTest(crate=crate, name=name):
                    self.assertIn(name, words[crate])

    def test_each_clause_and_field_is_one(self):
        clauses = {name for text in self.texts("*/src/**/*.rt") for name in re.findall(r"ensures (\w+) \{", text)}
        fields = {name for text in self.texts("*/specs/**/*.antt") for name in re.findall(r"^ +pub (\w+) :", text, re.MULTILINE)}
        cited = set(re.findall(r"`\.(\w+)`", self.PROVED)) - {"ci"}
        self.assertGreater(len(cited), 50)
        self.assertEqual(cited - clauses - fields, set())


class Decisions(unittest.TestCase):

    def test_sections_and_choices_are_numbered(self):
        section = choice = 0
        for line in (ROOT / "docs" / "DECISIONS.md").read_text(encoding="utf-8").split("\n"):
            if line.startswith("## "):
                section, choice = section + 1, 0
                self.assertTrue(line.startswith(f"## {section}. "), line)
            elif line.startswith("- "):
                choice += 1
                self.assertTrue(line.startswith(f"- **{section}.{choice}** "), line[:60])
        self.assertGreater(section, 20)


class Words(unittest.TestCase):
    """Words for which docs/glossary.md has better ones; names and the program's output stand in backticks or indented."""

    GONE = (r"tells?|told|telling|misdeeds?|so many|want of memory|judges?|judged|banks?|pieces?|heads?"
            r"|hand(?:s|ed)? out|what always holds|behind")
    # Where they are the right ones: what stands in a queue or at a wall, the names of the library, sentences that define them.
    KEPT = {
        "DECISIONS.md": {"behind"}, "blocks.md": {"behind"}, "formats.md": {"behind"},
        "proved.md": {"behind", "heads"},
        "speed.md": {"behind"}, "trust.md": {"behind"},
    }

    # How comments look, by a file's ending; "behind" may stand in them where something lags or queues.
    COMMENTS = {
        **dict.fromkeys((".h", ".hpp", ".c", ".cpp"), r"/\*.*?\*/|//[^\n]*"), ".py": r"#[^\n]*|\"\"\".*?\"\"\"",
        ".st": r"\(\*.*?\*\)", **dict.fromkeys((".bench", ".prog", ".toml", ".switches", ".hal"), r"#[^\n]*"),
    }

    def test_they_stay_away_from_comments_too(self):
        files = [path for folder in ("c", "python", "examples") for path in (ROOT / folder).rglob("*")]
        self.assertGreater(len(files), 50)
        for file in files:
            if file.suffix in self.COMMENTS:
                text = file.read_text(encoding="utf-8")
                comments = re.findall(self.COMMENTS[file.suffix], text, re.DOTALL)
                found = {word.lower() for comment in comments
                         for word in re.findall(rf"\b(?:{self.GONE})\b", comment, re.IGNORECASE)}
                with self.subTest(file=str(file.relative_to(ROOT))):
                    self.assertEqual(found - {"behind"}, set())

    def test_words_that_the_glossary_replaced_stay_away(self):
        for page in PAGES:
            if page.name == "glossary.md" or ".ci" in page.parts:
                continue
            lines = [line for line in page.read_text(encoding="utf-8").split("\n") if not line.startswith("    ")]
            text = re.sub(r"`[^`]*`|\]\([^)]*\)", "", "\n".join(lines))
            found = {word.lower() for word in re.findall(rf"\b(?:{self.GONE})\b", text, re.IGNORECASE)}
            with self.subTest(page=page.name):
                self.assertEqual(found - self.KEPT.get(page.name, set()), set())


if __name__ == "__main__":
    unittest.main()
