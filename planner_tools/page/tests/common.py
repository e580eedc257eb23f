"""What the tests share: the program, pages, and one browser for all of them."""
import atexit
import os
import shutil
import subprocess
import sys
import tempfile
import unittest

import browser
import networks

FRONT_END = os.path.join(networks.ROOT, "planner")
NO_BROWSER = "no browser on this machine: the tests that open pages in one are left out"
SECONDS = 300


def planner():
    """Returns the path of the program."""
    path = os.environ.get("PLANNER")
    if not path:
        raise AssertionError("the variable PLANNER must have the path of the built program")
    return os.path.abspath(path)


class Pages(unittest.TestCase):
    """Tests that make pages, in a folder of their own."""

    @classmethod
    def setUpClass(cls):
        planner()

    def setUp(self):
        self.folder = tempfile.mkdtemp(prefix="view-tests-")
        self.addCleanup(shutil.rmtree, self.folder, ignore_errors=True)

    def files(self, update):
        """Writes the files of an update, and returns their paths."""
        return [networks.write(self.folder, f"{name}.json", value) for name, value in zip(networks.FILES, update)]

    def ask(self, *words):
        """Returns the status and the text with which the program answers."""
        done = subprocess.run([planner(), *words], stdout=subprocess.PIPE, text=True, timeout=SECONDS, check=False)
        return done.returncode, done.stdout

    def plan(self, files):
        """Writes the plan that the program makes, and returns its path."""
        status, text = self.ask("plan", *files)
        self.assertEqual(0, status, text)
        return networks.write(self.folder, "plan.json", text)

    def page(self, *words, status=0):
        """Writes a page, and returns its path and what the script wrote to its error stream."""
        done = subprocess.run(
            [sys.executable, "-B", FRONT_END, "page", *words], capture_output=True, timeout=SECONDS, check=False
        )
        self.assertEqual(status, done.returncode, done.stderr.decode())
        path = os.path.join(self.folder, "update.html")
        with open(path, "wb") as file:
            file.write(done.stdout)
        return path, done.stderr.decode()


class PagesInBrowser(Pages):
    """Tests that open pages in a browser, which all of them share."""

    shared = None

    @classmethod
    def setUpClass(cls):
        super().setUpClass()
        if browser.program() is None:
            print(NO_BROWSER, file=sys.stderr)
            raise unittest.SkipTest(NO_BROWSER)
        if PagesInBrowser.shared is None:
            PagesInBrowser.shared = browser.Browser(browser.program())
            atexit.register(PagesInBrowser.shared.close)

    @property
    def tab(self):
        return PagesInBrowser.shared

    def open(self, *words, hash=""):
        path, _ = self.page(*words)
        self.tab.open(path, hash)
        return path

    def tearDown(self):
        """No page says anything on its console, and none asks for anything but itself."""
        if sys.exc_info()[0] is None:
            self.assertEqual([], self.tab.console)
            self.assertEqual(
                [],
                [url for url in self.tab.requests if not url.endswith("/update.html") and "/update.html#" not in url],
            )

    def text(self, selector):
        """Returns the texts of the elements that a selector names."""
        return self.tab.value(f"[...document.querySelectorAll({selector!r})].map((it) => it.textContent)")

    def seen(self, selector):
        """Returns one text as a reader sees it: nothing of what is hidden."""
        return self.tab.value(f"document.querySelector({selector!r}).innerText")

    def go(self, position, **chosen):
        """Moves the slider, and chooses a class or a switch."""
        self.tab.value(
            "(() => { const slider = document.getElementById('slider'); slider.value = %d; slider.dispatchEvent(new"
            " Event('input')); })()" % position
        )
        if "packets" in chosen:
            number = self.tab.value(
                "[...document.querySelectorAll('#class option')].find((it) => it.textContent === %r).value"
                % chosen["packets"]
            )
            self.tab.value(
                "(() => { const list = document.getElementById('class'); list.value = %r; list.dispatchEvent(new"
                " Event('change')); })()" % number
            )
