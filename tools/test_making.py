"""Tests of making.py: what is written, what is said of what differs, and which marks a part stands between."""
from __future__ import annotations

import contextlib
import io
import os
import tempfile
import unittest
from unittest import mock

import making


class Making(unittest.TestCase):
    def setUp(self) -> None:
        folder = tempfile.TemporaryDirectory(prefix="making-")
        self.addCleanup(folder.cleanup)
        self.root = folder.name
        with open(f"{self.root}/one", "w", encoding="utf-8") as file:
            file.write("old\n")
        changed = mock.patch.object(making, "ROOT", self.root)
        changed.start()
        self.addCleanup(changed.stop)

    def ran(self, words: list[str], wanted: dict[str, str], wrong: list[str]) -> tuple[int, str]:
        """Returns the status of a script, and what it says."""
        said = io.StringIO()
        with contextlib.redirect_stderr(said):
            return making.run("script", words, "how it is called", lambda: (wanted, wrong)), said.getvalue()

    def test_what_differs_is_said_and_then_written(self) -> None:
        wanted = {"one": "new\n", "two": "made\n"}
        told = "isn't what tools/script.py makes: run python3 tools/script.py"
        said = "".join(f"script: {it} {told}\n" for it in wanted)
        self.assertEqual(self.ran(["--check"], wanted, []), (1, said))
        self.assertEqual((making.read("one"), os.listdir(self.root)), ("old\n", ["one"]))
        self.assertEqual(self.ran([], wanted, []), (0, ""))
        self.assertEqual({it: making.read(it) for it in wanted}, wanted)
        self.assertEqual(self.ran(["--check"], wanted, []), (0, ""))

    def test_what_is_wrong_besides_fails_both_ways(self) -> None:
        calls: list[list[str]] = [[], ["--check"]]
        for words in calls:
            said = self.ran(words, {"one": "old\n"}, ["one is before two"])
            self.assertEqual(said, (1, "script: one is before two\n"))

    def test_other_words(self) -> None:
        self.assertEqual(self.ran(["--write"], {}, []), (2, "how it is called\n"))

    def test_files_of_crates_in_order(self) -> None:
        for path in ("two/src/b.rt", "two/src/a.rt", "two/specs/in/Lib.antt", "one/src/lib.rt", "one/proofs/Lib.antt"):
            os.makedirs(os.path.dirname(f"{self.root}/crates/{path}"), exist_ok=True)
            with open(f"{self.root}/crates/{path}", "w", encoding="utf-8") as file:
                file.write(path)
        found = list(making.files_of(("src", "specs"), self.root))
        paths = ("one/src/lib.rt", "two/src/a.rt", "two/src/b.rt", "two/specs/in/Lib.antt")
        self.assertEqual(found, [(it.split("/")[0], f"crates/{it}", it) for it in paths])
        self.assertEqual([it[0] for it in making.files_of(("src", "proofs"), self.root, ["one"])], ["one", "one"])

    def test_a_part_stands_between_its_marks(self) -> None:
        text = "a <!-- two -->old\ntext<!-- /two --> b"
        self.assertEqual(making.with_part(text, "two", r"\1", "one"), r"a <!-- two -->\1<!-- /two --> b")

        def make() -> making.Made:
            return {"one": making.with_part("<!-- two -->", "two", "", "one")}, []

        said = io.StringIO()
        with contextlib.redirect_stderr(said):
            self.assertEqual(making.run("script", [], "", make), 1)
        told = "script: one has no marks <!-- two --> and <!-- /two --> around what is made\n"
        self.assertEqual(told, said.getvalue())


if __name__ == "__main__":
    unittest.main()
