"""A headless Chromium that tests talk to over a pipe, by the DevTools protocol."""
import json
import os
import select
import shutil
import signal
import subprocess
import tempfile
import time

NAMES = ("chromium", "chromium-browser", "google-chrome", "google-chrome-stable")
# How long an answer may take.
SECONDS = 300


def program():
    """Returns the path of a browser, or None where the machine has none."""
    return next((path for path in map(shutil.which, NAMES) if path), None)


class Fault(Exception):
    """The browser didn't answer, or a page's script failed."""


class Browser:
    """One browser with one page. What the page writes to its console, what fails in it and what it asks of the network
    is kept."""

    def __init__(self, path):
        self.folder = tempfile.mkdtemp(prefix="view-tests-")
        there, to_browser = os.pipe()
        from_browser, back = os.pipe()
        self.write_end, self.read_end, self.rest, self.count = to_browser, from_browser, b"", 0
        self.console, self.requests, self.loaded, self.is_lost = [], [], set(), False

        def connect():
            # 3 and 4 are where the browser reads and writes; the two ends may stand there in the wrong order.
            one, other = os.dup(there), os.dup(back)
            os.dup2(one, 3)
            os.dup2(other, 4)

        self.process = subprocess.Popen(
            [
                path, "--headless=new", "--no-sandbox", "--disable-gpu", "--disable-dev-shm-usage",
                "--remote-debugging-pipe", "--no-first-run", "--disable-background-networking",
                "--disable-renderer-backgrounding", "--disable-backgrounding-occluded-windows", "--no-zygote",
                "--in-process-gpu", "--disable-extensions", f"--user-data-dir={self.folder}", "--window-size=1280,800",
                "about:blank",
            ],
            preexec_fn=connect, pass_fds=(3, 4), start_new_session=True, stdin=subprocess.DEVNULL,
            stdout=subprocess.DEVNULL, stderr=subprocess.DEVNULL,
        )
        os.close(there)
        os.close(back)
        try:
            self.session = None
            target = self.ask("Target.createTarget", url="about:blank")["targetId"]
            self.session = self.ask("Target.attachToTarget", targetId=target, flatten=True)["sessionId"]
            for domain in ("Page", "Runtime", "Log", "Network"):
                self.ask(f"{domain}.enable")
            self.ask("Page.setLifecycleEventsEnabled", enabled=True)
            self.ask("Emulation.setDeviceMetricsOverride", width=1280, height=800, deviceScaleFactor=1, mobile=False)
        except BaseException:
            self.close()
            raise

    def close(self):
        try:
            os.killpg(self.process.pid, signal.SIGKILL)
        except ProcessLookupError:
            pass
        self.process.wait()
        os.close(self.write_end)
        os.close(self.read_end)
        shutil.rmtree(self.folder, ignore_errors=True)

    def receive(self, until):
        """Returns the next message."""
        while b"\0" not in self.rest:
            if not select.select([self.read_end], [], [], max(0.0, until - time.monotonic()))[0]:
                # What it answers later would be taken for the answer to another question: so it is given up.
                self.is_lost = True
                raise Fault("the browser doesn't answer")
            part = os.read(self.read_end, 1 << 20)
            if not part:
                raise Fault("the browser is gone")
            self.rest += part
        one, _, self.rest = self.rest.partition(b"\0")
        message = json.loads(one)
        self.keep(message)
        return message

    def keep(self, message):
        what, given = message.get("method"), message.get("params", {})
        if what == "Runtime.exceptionThrown":
            self.console.append(
                given["exceptionDetails"].get("exception", {}).get("description", given["exceptionDetails"]["text"])
            )
        elif what == "Runtime.consoleAPICalled":
            self.console.append(" ".join(str(it.get("value")) for it in given["args"]))
        elif what == "Log.entryAdded":
            self.console.append(given["entry"]["text"])
        elif what == "Page.lifecycleEvent" and given["name"] == "load":
            self.loaded.add(given["loaderId"])
        elif what == "Network.requestWillBeSent":
            self.requests.append(given["request"]["url"])

    def ask(self, method, **given):
        if self.is_lost:
            raise Fault("the browser didn't answer before")
        until = time.monotonic() + SECONDS
        self.count += 1
        message = {"id": self.count, "method": method, "params": given}
        if self.session:
            message["sessionId"] = self.session
        data = json.dumps(message).encode() + b"\0"
        while data:
            data = data[os.write(self.write_end, data):]
        while True:
            answer = self.receive(until)
            if answer.get("id") == self.count:
                if "error" in answer:
                    raise Fault(f"{method}: {answer['error']}")
                return answer["result"]

    def open(self, path, words=""):
        """Opens a file of the disk, and waits until its page stands. Pages are opened by way of an empty one, so that
        words alone open them anew."""
        self.go("about:blank")
        self.console, self.requests = [], []
        self.go(f"file://{path}{words}")

    def go(self, url):
        loader = self.ask("Page.navigate", url=url)["loaderId"]
        until = time.monotonic() + SECONDS
        while loader not in self.loaded:
            self.receive(until)

    def value(self, script):
        """Returns the value of an expression in the page."""
        answer = self.ask("Runtime.evaluate", expression=script, returnByValue=True)
        if "exceptionDetails" in answer:
            raise Fault(
                answer["exceptionDetails"].get("exception", {}).get("description", answer["exceptionDetails"]["text"])
            )
        return answer["result"].get("value")
