"""Tests of `planner install` and of the Debian package, which is unpacked into an empty folder and run from there.
PLANNER names the program."""
import os
import pathlib
import re
import shutil
import subprocess
import sys
import tempfile
import unittest

ROOT = pathlib.Path(__file__).resolve().parents[3]
sys.path[:0] = [str(ROOT), str(ROOT / "planner_tools" / "tests")]

import test_shipped  # noqa: E402
from planner_tools import manual, program, shipped, words  # noqa: E402
from planner_tools.install import completions, toolchain  # noqa: E402
from planner_tools.version import VERSION  # noqa: E402

LONGEST = 120


def run(*given, **more):
    return subprocess.run(
        [str(one) for one in given], capture_output=True, text=True, timeout=LONGEST, check=False, **more
    )


def away():
    """An environment that knows nothing of the checkout and of PLANNER."""
    return {"PATH": "/usr/bin:/bin", "LANG": "C.UTF-8", "HOME": "/nonexistent"}


class Installed(unittest.TestCase):
    """What an installation and the unpacked package have in common: `self.prefix` is where they are."""

    def check_files(self, prefix):
        self.assertEqual([], [path for path in prefix.rglob("*") if "tests" in path.parts or path.suffix == ".pyc"])
        self.assertEqual(os.readlink(prefix / "bin" / "planner"), "../lib/planner/planner")
        self.assertEqual(
            run(prefix / "bin" / "planner", "--version", env=away()).stdout.split()[:2], ["planner", VERSION]
        )
        pages = {path.name for path in (prefix / "share" / "man" / "man1").iterdir()}
        self.assertEqual(pages, {"planner.1.gz"} | {f"planner-{command.name}.1.gz" for command in words.COMMANDS})
        for place in (
            "share/bash-completion/completions/planner", "share/fish/vendor_completions.d/planner.fish",
            "share/doc/planner/examples/square/plan.json", "share/doc/planner/docs/FORMATS.md",
            "share/doc/planner/README.md", "lib/planner/planner_tools/page/main.js",
        ):
            self.assertTrue((prefix / place).is_file(), place)

    def check_runs(self, prefix, folder):
        """The first commands of the README, from an empty folder, without the checkout."""
        square = prefix / "share" / "doc" / "planner" / "examples" / "square"
        planner = prefix / "bin" / "planner"
        for block in first_commands():
            for line in block:
                line = line.replace("/usr/share/doc/planner", str(prefix / "share" / "doc" / "planner"))
                done = run("sh", "-c", line, cwd=folder, env={**away(), "PATH": f"{prefix / 'bin'}:{away()['PATH']}"})
                # a note may be said, as of classes that no demand covers
                said = [
                    it
                    for it in done.stderr.splitlines()
                    if it.startswith("planner: ") and not it.startswith("planner: note: ")
                ]
                self.assertEqual((done.returncode, said), (0, []), line)
        plan = run(
            planner, "plan", *[square / f"{name}.json" for name in ("topology", "old", "new", "policy")], env=away()
        )
        self.assertEqual((plan.returncode, plan.stdout), (0, (square / "plan.json").read_text()))
        self.assertEqual(
            run(planner, "sample", "64", env=away()).stdout,
            "sample 64: ordered, 252 rounds, 384 classes, 501 numberings, 632 picks, accepted\n",
        )
        page = run(
            planner, "page", *[square / f"{name}.json" for name in ("topology", "old", "new", "policy", "plan")],
            env=away(),
        )
        self.assertEqual((page.returncode, page.stdout[:15]), (0, "<!DOCTYPE html>"), page.stderr)
        rounds = run(planner, "to-ofctl", square / "plan.json", folder / "rounds", env=away())
        self.assertEqual((rounds.returncode, len(list((folder / "rounds").iterdir()))), (0, 2), rounds.stderr)
        again = run(planner, "install", folder / "elsewhere", env=away())
        self.assertEqual((again.returncode, (folder / "elsewhere").exists()), (1, False))


def first_commands():
    """The commands of the README's first block of them that names an installed planner, a list for each block."""
    text = (ROOT / "README.md").read_text(encoding="utf-8")
    return [
        [line for line in block.splitlines() if line.strip()]
        for block in re.findall(r"<!-- from the package -->\n```\n(.*?)```", text, re.S)
    ]


class Install(Installed):
    def setUp(self):
        self.folder = pathlib.Path(tempfile.mkdtemp(prefix="planner-install-"))
        self.addCleanup(shutil.rmtree, self.folder)

    def test_under_a_prefix(self):
        prefix = self.folder / "here"
        for _ in range(2):           # the second time it takes the place of the first
            done = run(
                sys.executable, "-B", ROOT / "planner", "install", prefix, env={**os.environ, "PLANNER": program.path()}
            )
            self.assertEqual((done.returncode, done.stdout), (0, ""), done.stderr)
        self.assertIn(toolchain.origin(program.path()), done.stderr)
        self.check_files(prefix)
        self.check_runs(prefix, self.folder)

    def test_where_nothing_may_be_written(self):
        (self.folder / "file").write_text("")
        done = run(
            sys.executable, "-B", ROOT / "planner", "install", self.folder / "file",
            env={**os.environ, "PLANNER": program.path()},
        )
        self.assertEqual(done.returncode, 7)
        self.assertIn("Next: name a prefix", done.stderr)

    @unittest.skipUnless(shutil.which("dpkg-deb"), "no dpkg-deb on this machine")
    def test_the_package_in_an_empty_folder(self):
        done = run(
            sys.executable, "-B", ROOT / "tools" / "debian.py", self.folder,
            env={**os.environ, "PLANNER": program.path()},
        )
        self.assertEqual(done.returncode, 0, done.stderr)
        package = pathlib.Path(done.stdout.strip())
        self.assertEqual(package.name.split("_")[:2], ["planner", VERSION])
        said = run("dpkg-deb", "--field", package).stdout
        self.assertIn(f"Version: {VERSION}\n", said)
        self.assertIn(toolchain.origin(program.path()), " ".join(said.split()))
        self.assertIn(f"python3 (>= {toolchain.python()})", said)
        empty = self.folder / "empty"
        run("dpkg-deb", "-x", package, empty)
        self.check_files(empty / "usr")
        self.check_runs(empty / "usr", self.folder)
        self.assertTrue(
            (empty / "usr/lib/python3/dist-packages/planner/__init__.py")
            .resolve()
            .is_relative_to(empty.resolve() / "usr/lib/planner/library")
        )
        if shutil.which("lintian"):
            self.assertEqual(
                [],
                [line for line in run("lintian", "--allow-root", package).stdout.splitlines() if line.startswith("E:")],
            )

    def checkout(self):
        """A checkout with the front end of this one, whose dist/ has the program of these tests, and which nothing
        could build."""
        root = self.folder / "checkout"
        for name in ("planner_tools", "library", "tools", "docs", "examples"):
            shutil.copytree(ROOT / name, root / name, ignore=shutil.ignore_patterns("tests", "__pycache__"))
        for name in ("planner", "README.md", "CHANGELOG.md", "SECURITY.md", "LICENSE"):
            shutil.copy2(ROOT / name, root / name)
        test_shipped.fill(root)
        shutil.copyfile(program.path(), root / shipped.PROGRAM)
        test_shipped.tell(root)
        return root

    def test_from_dist_nothing_is_built(self):
        done = run(sys.executable, "-B", self.checkout() / "planner", "install", self.folder / "here", env=away())
        self.assertEqual((done.returncode, done.stdout), (0, ""), done.stderr)
        self.assertIn(
            (
                "The program is that of the repository's folder dist/: the toolchain one logic 1 built it from the"
                " sources of this version"
            ),
            done.stderr,
        )
        self.assertTrue(done.stderr.endswith("\n") and done.stderr.count("\n") == 1, done.stderr)
        self.check_files(self.folder / "here")

    @unittest.skipUnless(shutil.which("dpkg-deb"), "no dpkg-deb on this machine")
    def test_the_package_of_dist_needs_no_toolchain(self):
        done = run(sys.executable, "-B", self.checkout() / "tools" / "debian.py", self.folder, env=away())
        self.assertEqual((done.returncode, done.stderr), (0, ""))
        self.assertIn(
            "the toolchain one logic 1 built it from the sources",
            " ".join(run("dpkg-deb", "--field", done.stdout.strip()).stdout.split()),
        )
        run("dpkg-deb", "-x", done.stdout.strip(), self.folder / "empty")
        self.check_files(self.folder / "empty" / "usr")
        self.check_runs(self.folder / "empty" / "usr", self.folder)

    def test_what_the_readme_links_to_is_there(self):
        done = run(
            sys.executable, "-B", ROOT / "planner", "install", self.folder,
            env={**os.environ, "PLANNER": program.path()},
        )
        self.assertEqual(done.returncode, 0, done.stderr)
        documents = self.folder / "share" / "doc" / "planner"
        links = re.findall(r"\]\(([^)#]+)", (documents / "README.md").read_text())
        self.assertLess(15, len(links))
        self.assertEqual(
            [], [link for link in links if not re.match(r"\w+:", link) and not (documents / link).exists()]
        )

    @unittest.skipUnless(shutil.which("man"), "no man on this machine")
    def test_manual_pages_are_set_without_a_warning(self):
        done = run(
            sys.executable, "-B", ROOT / "planner", "install", self.folder,
            env={**os.environ, "PLANNER": program.path()},
        )
        for page in sorted((self.folder / "share" / "man" / "man1").iterdir()):
            said = run(
                "man", "--warnings", "-E", "UTF-8", "-l", "-Tutf8", "-Z", page, env={**os.environ, "MANWIDTH": "80"}
            )
            self.assertEqual((said.returncode, said.stderr), (0, ""), page.name)
        self.assertEqual(done.returncode, 0)


class Completions(unittest.TestCase):
    def test_each_names_every_command(self):
        for text in (completions.zsh(), completions.fish()):
            for command in words.COMMANDS:
                self.assertIn(f"'{command.name}", text)

    def test_each_knows_every_option_of_every_command(self):
        """The options of the front end's commands are those that their own help names, and those of all commands that
        `planner --help` names."""
        from planner_tools.main import MODULES
        everywhere = {flag.split()[0] for flag, _ in words.OPTIONS}
        texts = {"bash": manual.completion(), "zsh": completions.zsh(), "fish": completions.fish()}
        for command in MODULES:
            help_text = run(sys.executable, "-B", ROOT / "planner", command, "--help").stdout
            options = set(
                re.findall(r"(?m)^  (?:-\w+(?: [A-Z]+)?, )?(--[a-z][a-z-]*)", help_text.partition("options:")[2])
            ) - {"--help"}
            options |= set(
                re.findall(
                    r"(?<![\w-])--[a-z][a-z-]*",
                    help_text.partition("options:")[0].partition("usage:")[2].partition("\n\n")[0],
                )
            ) - {"--help"}
            self.assertEqual(
                options - everywhere, {flag.split()[0] for flag, _ in words.OWN_OPTIONS.get(command, [])}, command
            )
        for command, options in words.OWN_OPTIONS.items():
            for flag in (one.split()[0] for one, _ in options):
                self.assertRegex(texts["bash"], rf'(?m)^ *{command}\) options="[^"]*{flag}[ "]')
                self.assertRegex(texts["zsh"], rf"(?m)^ *{command}\) compadd -- .*{flag}( |$)")
                self.assertRegex(texts["fish"], rf"(?m)__fish_seen_subcommand_from {command}' -l {flag[2:]} ")
        for flag in ("-o", "--strict", "--quiet", "--json", "--help"):
            for shell in ("bash", "zsh"):
                self.assertRegex(texts[shell], rf"[ \"]{flag}[ \"\n]", shell)
            self.assertRegex(texts["fish"], rf"-[lo] {flag.lstrip('-')} -d", flag)

    @unittest.skipUnless(shutil.which("zsh"), "no zsh on this machine")
    def test_zsh_reads_it(self):
        self.assertEqual(run("zsh", "-n", "-c", completions.zsh()).stderr, "")

    @unittest.skipUnless(shutil.which("fish"), "no fish on this machine")
    def test_fish_offers_commands_and_files(self):
        with tempfile.TemporaryDirectory() as folder:
            pathlib.Path(folder, "planner.fish").write_text(completions.fish())
            pathlib.Path(folder, "zebra.json").write_text("")

            def offered(line):
                return run("fish", "--no-config", "-c", f"source planner.fish; complete -C '{line}'", cwd=folder).stdout

            self.assertRegex(offered("planner chec"), r"^check\t")
            self.assertEqual(offered("planner check zeb").split(), ["zebra.json"])
            self.assertEqual(offered("planner sample zeb"), "")


if __name__ == "__main__":
    unittest.main()
