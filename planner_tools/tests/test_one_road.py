"""One road: the program is run for a person by one function alone, which warns, explains, and heeds `--strict` and
`--quiet`."""
import ast
import os
import unittest

import rows

TOOLS = os.path.join(rows.ROOT, "planner_tools")
# The modules that begin processes, and why that is no way round.
BEGIN = {
    "program.py": "runs and builds the program, for the module below",
    "switches/beside.py": (
        "runs it beside the switches, while they are listened to; `conversation.py` says what it refuses by the one"
        " function"
    ),
    "page/verdict.py": "asks for what a page shows; `page.py` says what is refused by the one function",
    "page/layout.py": "runs graphviz", "install/toolchain.py": "runs the toolchain",
}
# Those that run the program without that function, beside `program.py` itself and the one that has it.
RUN = {
    "convert/from_ofctl.py": "says what `import` refuses by the lines of its own texts",
    "convert/to_ofctl.py": "asks `check` of the plan, only to say beside its scripts what that answers",
}


def modules():
    """Each module, by its path from the package on, with its tree."""
    for at, folders, names in os.walk(TOOLS):
        folders[:] = [name for name in folders if name not in ("tests", "__pycache__")]
        for name in names:
            if name.endswith(".py"):
                path = os.path.join(at, name)
                with open(path, encoding="utf-8") as file:
                    yield os.path.relpath(path, TOOLS), ast.parse(file.read())


def imported(tree):
    found = {one.name for node in ast.walk(tree) if isinstance(node, ast.Import) for one in node.names}
    return found | {node.module for node in ast.walk(tree) if isinstance(node, ast.ImportFrom)}


def calls(tree, owner, name):
    """Whether a tree speaks of `owner.name`."""
    return any(
        isinstance(node, ast.Attribute)
        and node.attr == name
        and isinstance(node.value, ast.Name)
        and node.value.id == owner
        for node in ast.walk(tree)
    )


class OneRoad(unittest.TestCase):
    def test_no_module_begins_a_process_beside_those_that_are_known(self):
        found = {
            path
            for path, tree in modules()
            if {"subprocess", "multiprocessing", "pty"} & imported(tree)
            or any(
                calls(tree, "os", name)
                for name in ("system", "popen", "fork", "execv", "execvp", "posix_spawn", "posix_spawnp")
            )
        }
        self.assertEqual(found, set(BEGIN))

    def test_no_module_runs_the_program_beside_the_one_function(self):
        found = {path for path, tree in modules() if calls(tree, "program", "run") or calls(tree, "program", "Started")}
        self.assertEqual(found - {"proved.py"}, set(RUN))

    def test_a_run_is_asked_for_more_only_by_those_that_explain_it(self):
        found = {
            path
            for path, tree in modules()
            for node in ast.walk(tree)
            if isinstance(node, ast.Attribute) and node.attr == "ask" and ast.unparse(node.value).endswith("run")
        }
        self.assertEqual(found, {"cautions.py", "explanations.py", "story.py"})

    def test_the_one_function_is_the_way_of_all_others(self):
        trees = dict(modules())
        functions = {node.name: node for node in ast.walk(trees["proved.py"]) if isinstance(node, ast.FunctionDef)}
        for name in ("run", "answer_for"):
            self.assertTrue(
                any(
                    isinstance(node, ast.Attribute) and node.attr == "for_person" for node in ast.walk(functions[name])
                ),
                name,
            )
        for path in (
            "update/update.py", "switches/apply.py", "switches/comparison.py", "switches/conversation.py",
            "switches/adopt.py", "page/page.py", "show.py", "intent/asking.py",
        ):
            self.assertTrue("planner_tools.proved" in imported(trees[path]), path)


if __name__ == "__main__":
    unittest.main()
