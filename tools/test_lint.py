"""Tests of lint.py, and that it finds nothing in the repository."""
from __future__ import annotations

import contextlib
import io
import os
import shutil
import tempfile
import unittest
import unittest.mock

import lint

TYPE_CHECKING = False
if TYPE_CHECKING:
    from typing import Callable, TypeVar
    Found = TypeVar("Found")


class Lint(unittest.TestCase):
    def test_nothing_is_found_in_the_repository(self) -> None:
        self.assertEqual([], lint.findings())

    def test_all_scripts_are_looked_at(self) -> None:
        python, shell = ([os.path.relpath(path, lint.ROOT) for path in paths] for paths in lint.scripts())
        self.assertLessEqual({"planner", "tools/lint.py", "planner_tools/main.py", "bench/ratio.py"}, set(python))
        self.assertLessEqual({".ci/run", "lab/bridges.sh", "docs/planner.bash"}, set(shell))

    def of(self, text: str, look: Callable[[str], list[Found]]) -> list[Found]:
        """What one look says of a script."""
        with tempfile.TemporaryDirectory() as folder:
            path = os.path.join(folder, "one.py")
            with open(path, "w", encoding="utf-8") as file:
                file.write(text)
            return look(path)

    def test_what_is_found(self) -> None:
        for text, words in (
            ("x = 1 \n", "white space at its end"),
            ("if x is 1: pass\n", '"is" with'),
            ("def f(:\n", "it isn't Python"),
            ("x = 1" + " " * 120 + "# y\n", "more than 120 signs"),
            ('"""' + "a " * 70 + '."""\n', "more than 120 signs"),
            ("if x:\n\ty = 1\n", "a tab"),
        ):
            with self.subTest(words):
                self.assertIn(words, " ".join(line for _, line in self.of(text, lint.of_python)))

    @unittest.skipUnless(any(map(shutil.which, lint.PYFLAKES)), "pyflakes isn't on this machine")
    def test_names_that_nothing_uses_are_found(self) -> None:
        for text, words in (
            ("import os\n", "'os' imported but unused"),
            ("def f():\n    a = 1\n", "'a' is assigned to but never used"),
            ("x = f'a'\n", "missing placeholders"),
            ("def f():\n    return g\n", "undefined name 'g'"),
        ):
            with self.subTest(words):
                self.assertIn(words, " ".join(self.of(text, lambda path: lint.of_names([path]))))

    @unittest.skipUnless(shutil.which("mypy"), "mypy isn't on this machine")
    def test_what_has_no_types_is_found(self) -> None:
        for text, words in (
            ("def f(x):\n    return x\n", "missing a type annotation"),
            ("def f(x: int) -> str:\n    return x\n", "Incompatible return value"),
        ):
            with self.subTest(words), tempfile.TemporaryDirectory() as folder:
                with open(os.path.join(folder, "one.py"), "w", encoding="utf-8") as file:
                    file.write(text)
                self.assertIn(words, " ".join(lint.types_in(folder, ["one.py"])))

    @unittest.skipUnless(shutil.which("mypy"), "mypy isn't on this machine")
    def test_of_tools_the_tests_have_types_too(self) -> None:
        with unittest.mock.patch.object(lint, "types_in", return_value=[]) as types_in:
            lint.of_types()
        names = {os.path.relpath(call.args[0], lint.ROOT): set(call.args[1]) for call in types_in.call_args_list}
        self.assertLessEqual({"lint.py", "test_lint.py"}, names["tools"])
        self.assertEqual(set(), {name for name in names["reliability"] if name.startswith("test_")})

    def test_what_is_used_is_not_found(self) -> None:
        text = (
            "import os.path\nimport sys as system\nimport json  # noqa: F401\n\n\ndef f():\n    a = 1\n\n"
            "    def g():\n        return a\n    return g, os.path, system, f'{1:{a}}'\n"
        )
        self.assertEqual([], self.of(text, lint.of_python))
        self.assertEqual([], self.of(text, lambda path: lint.of_names([path])))

    def test_where_pyflakes_is_not_there_a_line_says_so(self) -> None:
        no_program = unittest.mock.patch("lint.shutil.which", return_value=None)
        with no_program, contextlib.redirect_stderr(io.StringIO()) as said:
            self.assertEqual([], self.of("import os\n", lambda path: lint.of_names([path])))
            self.assertEqual([], lint.of_types() + lint.of_shell([]))
        self.assertEqual([
            "lint: pyflakes isn't on this machine, so what it finds is left out (Debian's package pyflakes3)",
            "lint: mypy isn't on this machine, so what it finds is left out (Debian's package mypy)",
            "lint: shellcheck isn't on this machine, so what it finds is left out (Debian's package shellcheck)",
        ], said.getvalue().splitlines())


if __name__ == "__main__":
    unittest.main()
