"""Tests of commands.py: how a template is filled, that the files of planner_cli are what it writes, and that no command
is left out elsewhere."""
from __future__ import annotations

import glob
import os
import re
import sys
import unittest

import command_table
import commands
import making
import test_words

sys.path.insert(0, os.path.join(making.ROOT, "planner_tools", "tests"))
from planner_tools import explanations  # noqa: E402
import usual  # noqa: E402

ROWS = tuple(it for it in command_table.ROWS if it.name in ("check", "simulate", "serve", "sample"))


class Templates(unittest.TestCase):
    def test_a_block_stands_once_for_each_command_of_its_kind(self) -> None:
        template = "first %Names%\n@each reads %Name%(\n@each reads )\n@each reads_none %name%\nlast\n"
        self.assertEqual(
            commands.written(template, ROWS),
            "first Check, Simulate, Serve, Sample\nCheck(\n)\nSimulate(\n)\nServe(\n)\nsample\nlast\n",
        )

    def test_a_block_of_several_functions_stands_in_each(self) -> None:
        template = "@block ends\n    all %Told%\n@each serves     %Name%\n@end\none\n@put ends\ntwo\n@put ends\n"
        block = "    all Check, Simulate, Sample\n    Serve\n"
        self.assertEqual(commands.written(template, ROWS), f"one\n{block}two\n{block}")

    def test_numbers_among_the_names_are_given_to_the_answer(self) -> None:
        template = (
            "@each answers Of%Name% : %before%%Meaning%; %Answer%; %OfIn%; %dialogue%; (λ %m%. Of%Name% %given%%m%)\n"
        )
        self.assertEqual(commands.written(template, ROWS).splitlines(), [
            "OfCheck : CheckMeaning; IsCheckAnswer; OfCheck; check_dialogue names; (λ m. OfCheck m)",
            "OfSimulate : ℕ → ℕ → CheckMeaning; (IsSimulateAnswer names.start names.count); "
            "(OfSimulate c.in-Simulate.names.start c.in-Simulate.names.count); check_dialogue names.check; "
            "(λ m. OfSimulate names.start names.count m)",
        ])

    def test_a_definition_is_imported_once(self) -> None:
        pairs = [("one.Names", "A"), ("two.Names", "B"), ("one.Names", "C"), ("one.Names", "A")]
        self.assertEqual(commands.imports(pairs),
                         "use Rattle.one.specs.Names.{A, C}\nuse Rattle.two.specs.Names.{B}")

    def test_the_libraries_are_those_of_the_commands(self) -> None:
        self.assertEqual(
            commands.with_libraries("one: two\nplanner_cli: old\n", ROWS),
            "one: two\nplanner_cli: file_access certificates command_base check_base check_command simulate_command "
            "serve_command law_serve_promise sample_command\n",
        )


# Where each command has to be named, and how: in its crate of tests, in the tests of whole runs, in the documents,
# among what is said of wrong files and words, and, of one that reads lines, in the scripts that attack it. The tests of
# the front end and the attacks run any other command by its usage.
PLACES = {
    "crates.txt": r"(?m)^\w+_tests staticlib:.* %s_command\b",
    "planner_tools/tests/test_runs.py": r'"%s"',
    "docs/FORMATS.md": r"`%s[` ]",
    "docs/TOUR.md": r"\bplanner %s\b",
    "planner_tools/tests/said.txt": r"(?m)^run %s\b",
}
SERVED = {"planner_tools/**/tests/*.py": r'"%s[" ]', "reliability/*.py": r'"%s"'}


def text_of(pattern: str) -> str:
    """Returns the texts of all files that the pattern names, one behind the other."""
    texts = []
    for path in sorted(glob.glob(os.path.join(making.ROOT, pattern), recursive=True)):
        with open(path, encoding="utf-8") as file:
            texts.append(file.read())
    return "\n".join(texts)


class Repository(unittest.TestCase):
    def test_no_command_is_left_out(self) -> None:
        for place, pattern in {**PLACES, **SERVED}.items():
            text = text_of(place)
            for row in command_table.ROWS:
                with self.subTest(place=place, command=row.name):
                    is_wanted = place in PLACES or row.kind == "serves"
                    is_there = not is_wanted or re.search(pattern.replace("%s", row.name), text)
                    self.assertTrue(is_there, f"{place} has nothing of {row.name}")

    def test_each_command_has_tests_of_its_own(self) -> None:
        for row in command_table.ROWS:
            with self.subTest(row.name):
                name = f"{row.name}_command_tests"
                own = [f"crates/*/src/{name}.rt", f"crates/{name}/src/lib.rt"]
                self.assertTrue(any(text_of(it) for it in own), f"no crate of tests has a module {name}")

    def test_each_command_has_a_usual_run(self) -> None:
        served = [it.name for it in command_table.ROWS if it.kind == "serves"]
        self.assertEqual([usual.SERVES], served)
        for command in test_words.words.PROVED:
            with self.subTest(command.name):
                self.assertEqual(usual.words_of(command)[0], command.name)

    def test_the_front_end_knows_each_kind_of_file(self) -> None:
        kinds = re.findall(r'(?m)^kind_name \w+ = codes "(\w+)"', making.read("crates/command_base/specs/Kinds.antt"))
        self.assertEqual(set(kinds), set(explanations.WORD_OF_KIND))
        self.assertEqual(set(), set(explanations.WORD_OF_KIND.values()) - set(test_words.words.FILES))

    def test_the_files_are_what_is_written(self) -> None:
        self.assertEqual(making.settle("commands", commands.texts(), True), [])

    def test_each_command_of_the_table_is_one_of_the_front_end(self) -> None:
        self.assertEqual({it.name for it in command_table.ROWS}, {it.name for it in test_words.words.PROVED})


if __name__ == "__main__":
    unittest.main()
