"""Each exception of the front end and of the library has a name of its own: whoever reads `except Refused` knows which
one is meant."""
import ast
import builtins
import collections
import os
import unittest

import rows


def classes():
    """The classes of the front end and of the library: where each is defined, its name, and the names of its bases."""
    for folder in ("planner_tools", os.path.join("library", "planner")):
        for at, folders, names in os.walk(os.path.join(rows.ROOT, folder)):
            folders[:] = [name for name in folders if name not in ("tests", "__pycache__")]
            for path in (os.path.join(at, name) for name in names if name.endswith(".py")):
                with open(path, encoding="utf-8") as file:
                    tree = ast.parse(file.read())
                for node in ast.walk(tree):
                    if isinstance(node, ast.ClassDef):
                        yield os.path.relpath(path, rows.ROOT), node.name, [
                            base.id for base in node.bases if isinstance(base, ast.Name)
                        ]


def exceptions():
    """Where each exception is defined, by its name."""
    known = list(classes())
    bases = {name: of for _, name, of in known}

    def is_exception(name):
        built_in = getattr(builtins, name, None)
        return (
            isinstance(built_in, type)
            and issubclass(built_in, BaseException)
            or any(map(is_exception, bases.get(name, [])))
        )

    found = collections.defaultdict(list)
    for path, name, of in known:
        if any(map(is_exception, of)):
            found[name].append(path)
    return found


class Exceptions(unittest.TestCase):
    def test_each_name_is_that_of_one_exception(self):
        found = exceptions()
        self.assertLessEqual({"Stop", "Hangup", "NoProgram", "CannotRun"}, set(found))
        self.assertEqual({}, {name: paths for name, paths in found.items() if len(paths) > 1})


if __name__ == "__main__":
    unittest.main()
