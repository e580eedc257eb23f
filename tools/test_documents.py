"""Holds that no sentence of the pages that are read first is longer than LONGEST words, and that each link to a
section has one.

    tools/test_documents.py              the tests
    tools/test_documents.py PAGE ..      tells the longer sentences of these pages, each with its count of words
"""
import glob
import os
import re
import sys
import unittest

ROOT = os.path.dirname(os.path.dirname(os.path.realpath(__file__)))
LONGEST = 40
PAGES = ("README.md", "docs/TOUR.md", "docs/CONTROLLER.md", "docs/CLAIMS.md", "docs/MAP.md")
# Where all documents are, for their links.
PLACES = ("*.md", "docs/*.md", "lab/*.md", "examples/*/*.md", "planner_tools/page/*.md")

# What isn't read as sentences: blocks of code, and lines of tables. (Marks of what scripts write are passed over.)
APART = re.compile(r"^```.*?^```$|^\|.*?$", re.M | re.S)
MARK = re.compile(r"<!--.*?-->", re.S)
# Where a block of text begins: behind an empty line, at a heading, at an item of a list, and at a quotation.
BLOCK = re.compile(r"\n\s*\n|\n(?=#)|\n(?=\s*(?:[-*]|\d+\.) )|\n(?=> )")
# What a sentence ends with: a stop, perhaps behind a bracket or a mark of emphasis, before a space or the end.
END = re.compile(r"(?<=[.?!])(?:[)*\"']*)(?:\s+|$)")


def sentences(page: str) -> list[str]:
    """Returns the sentences of a page, outside code and tables. Code and links in a sentence count as their words."""
    found = []
    for block in BLOCK.split(APART.sub("\n\n", MARK.sub("", page))):
        text = re.sub(r"`+([^`]*)`+", lambda code: code[1].replace(".", "·"), block)
        text = re.sub(r"!?\[([^\]]*)\]\([^)]*\)", r"\1", text)
        text = re.sub(r"^\s*(?:#+|>|[-*]|\d+\.)\s+", "", text)
        found += [" ".join(part.split()) for part in END.split(text) if part.strip()]
    return found


def too_long(page: str, longest: int = LONGEST) -> list[str]:
    """Returns the sentences of a page that have more words than the longest may have."""
    return [one for one in sentences(page) if len(one.split()) > longest]


def sections(page: str) -> set[str]:
    """Returns the names by which links reach the sections of a page."""
    heads = re.findall(r"^#+ +(.*)$", APART.sub("", page), re.M)
    return {re.sub(r"[^\w\- ]", "", head.lower()).replace(" ", "-") for head in heads}


def lost(path: str) -> list[str]:
    """Returns the links of a page to sections that aren't there, of its own or of another page."""
    found = []
    for target, name in re.findall(r"\]\(([^)#:]*)#([^)]*)\)", read(path)):
        other = os.path.join(os.path.dirname(path), target) if target else path
        if name not in sections(read(other)):
            found.append(f"{target}#{name}")
    return found


def read(path: str) -> str:
    """Returns the text of a file, whose path goes from the root on."""
    with open(os.path.join(ROOT, path), encoding="utf-8") as file:
        return file.read()


class Documents(unittest.TestCase):
    def test_no_sentence_is_longer_than_can_be_read_at_once(self) -> None:
        for path in PAGES:
            with self.subTest(path):
                self.assertEqual([], too_long(read(path)))

    def test_each_link_to_a_section_has_one(self) -> None:
        found = [path for place in PLACES for path in sorted(glob.glob(os.path.join(ROOT, place)))]
        self.assertLess(20, len(found))
        for path in (os.path.relpath(path, ROOT) for path in found):
            with self.subTest(path):
                self.assertEqual([], lost(path))

    def test_sections_have_the_names_of_their_heads(self) -> None:
        page = "# A `serve`, one\n\n```\n# no\n```\n## What can't be said\n"
        self.assertEqual(sections(page), {"a-serve-one", "what-cant-be-said"})

    def test_a_page_is_cut_at_the_ends_of_sentences(self) -> None:
        for page, wanted in (
            ("# A head\n\nOne [link of words](to.md) here. `planner check ..` is code! (So.)\nYes.",
             ["A head", "One link of words here.", "planner check ·· is code!", "(So.", "Yes."]),
            ("- an item\n- two. Three\n\n| a | table. |\n\n```\ncode. code.\n```\n", ["an item", "two.", "Three"]),
            ("> said: <!-- m -->so<!-- /m -->\n", ["said: so"]),
        ):
            self.assertEqual(sentences(page), wanted)

    def test_a_sentence_goes_on_over_lines_and_behind_colons(self) -> None:
        self.assertEqual(sentences("a b:\nc; d, e.g\nf. g"), ["a b: c; d, e.g f.", "g"])

    def test_the_longer_ones_are_told(self) -> None:
        self.assertEqual(too_long("a b c d. e f.", 3), ["a b c d."])
        self.assertEqual(too_long("a b c d. e f.", 4), [])


def main(paths: list[str]) -> None:
    """Prints the longer sentences of these pages."""
    for path in paths:
        with open(path, encoding="utf-8") as file:
            for one in too_long(file.read()):
                print(f"{path}: {len(one.split())}: {one}")


if __name__ == "__main__":
    if len(sys.argv) > 1:
        main(sys.argv[1:])
    else:
        unittest.main()
