"""Chromium and Firefox, headless, driven by WebDriver BiDi, in a profile of their own."""

import asyncio
import base64
import json
import os
import re
import signal
import subprocess
import time
import urllib.request
from pathlib import Path

from pdbtest.report import Trouble
from pdbtest.tools import tool

SECONDS = 30  # for one command, or until something is shown: the machine may be busy
POLL = 0.05
WORKERS = ("DedicatedWorker", "DOM Worker")  # the names of their threads in Chromium and in Firefox


class Bidi:
    """A connection of WebDriver BiDi: commands with their results, and the events that came meanwhile."""

    def __init__(self, url):
        self.loop = asyncio.new_event_loop()
        self.socket = self.wait(self.connected(url))
        self.asked, self.events = 0, []

    async def connected(self, url):
        import websockets  # of Debian's python3, which may lack it

        return await websockets.connect(url, max_size=None, ping_interval=None)

    def wait(self, coroutine):
        return self.loop.run_until_complete(asyncio.wait_for(coroutine, SECONDS))

    def call(self, method, **params):
        """The result of a command."""
        self.asked += 1
        self.wait(self.socket.send(json.dumps({"id": self.asked, "method": method, "params": params})))
        while True:
            message = json.loads(self.wait(self.socket.recv()))
            if message.get("id") == self.asked:
                break
            self.events.append(message)
        if message["type"] == "error":
            raise Trouble(f"{method}: {message['error']}: {message['message']}")
        return message["result"]

    def close(self):
        self.wait(self.socket.close())
        self.loop.close()


def value_of(remote):
    """A value of the page, as Python has it."""
    kind, value = remote["type"], remote.get("value")
    if kind == "array":
        return [value_of(it) for it in value]
    if kind == "object":
        return {name: value_of(it) for name, it in value}
    return None if kind in ("null", "undefined") else value


class Browser:
    """A browser with one page.

    `schemes` are the color schemes that it can have, `file_control` is what its accessibility tree calls a control that
    chooses a file, and `runs_in_workers` says whether it runs the test's code in a worker.
    """

    def __init__(self, room):
        self.room = room / self.name
        self.room.mkdir()
        self.processes = []
        try:
            self.bidi = Bidi(self.start())
            self.begin()
            self.bidi.call("session.subscribe", events=["network.beforeRequestSent", "log.entryAdded"])
            self.context = self.page()
        except BaseException:
            self.end()
            raise

    def launch(self, words, said):
        """Starts a program, in a group of its own, and returns what it says of itself."""
        log = self.room / f"log-{len(self.processes)}"
        with open(log, "wb") as out:
            how = {"stdin": subprocess.DEVNULL, "stdout": out, "stderr": out, "start_new_session": True}
            env = {**os.environ, "HOME": str(self.room), "MOZ_HEADLESS": "1"}
            self.processes.append(subprocess.Popen(list(map(str, words)), env=env, **how))
        return until(lambda: re.search(said, log.read_text(errors="replace")), f"{words[0]} did not start: {log}")[1]

    def begin(self):
        """Begins a session where starting did not."""

    def page(self):
        """The page that is driven."""
        return self.bidi.call("browsingContext.getTree")["contexts"][0]["context"]

    def go(self, url):
        self.bidi.call("browsingContext.navigate", context=self.context, url=url, wait="complete")

    def run(self, code, *words):
        """What a function gives in the page, whose body is given; `words` are its arguments, texts and numbers."""
        arguments = [{"type": "number" if isinstance(it, int) else "string", "value": it} for it in words]
        result = self.bidi.call(
            "script.callFunction", functionDeclaration=f"async (...words) => {{ {code} }}", arguments=arguments,
            target={"context": self.context}, awaitPromise=True,
        )  # fmt: skip
        if result["type"] != "success":
            raise Trouble(f"{self.name}: {code}: {result['exceptionDetails']['text']}")
        return value_of(result["result"])

    def run_in_worker(self, code):
        """The value of an expression in the worker of the page."""
        realm = next(it["realm"] for it in self.bidi.call("script.getRealms")["realms"] if it["type"] == "dedicated-worker")
        return value_of(self.bidi.call("script.evaluate", expression=code, target={"realm": realm}, awaitPromise=True)["result"])

    def until(self, code, *words):
        """Waits until an expression is true in the page, and returns its value."""
        return until(lambda: self.run(f"return {code}", *words), lambda: f"{self.name}: not in time: {code} {words} {self.text()[:400]}")

    def text(self):
        return self.run("return document.body.innerText")

    def node(self, selector):
        """A reference to the first element of a selector."""
        found = self.bidi.call("browsingContext.locateNodes", context=self.context, locator={"type": "css", "value": selector})["nodes"]
        if not found:
            raise Trouble(f"{self.name}: no {selector}")
        return {"sharedId": found[0]["sharedId"]}

    def choose_files(self, selector, *files):
        self.bidi.call("input.setFiles", context=self.context, element=self.node(selector), files=list(map(str, files)))

    def press(self, *keys):
        """Presses keys one after another."""
        actions = [{"type": kind, "value": key} for key in keys for kind in ("keyDown", "keyUp")]
        self.bidi.call("input.performActions", context=self.context, actions=[{"type": "key", "id": "keys", "actions": actions}])

    def resize(self, width, height):
        self.bidi.call("browsingContext.setViewport", context=self.context, viewport={"width": width, "height": height})

    def picture(self, file):
        """Writes a picture of what is visible."""
        file.write_bytes(base64.b64decode(self.bidi.call("browsingContext.captureScreenshot", context=self.context)["data"]))

    def requests(self):
        """The addresses of all requests so far, from the browser's log, with their methods."""
        self.bidi.call("session.status")
        sent = [it["params"]["request"] for it in self.bidi.events if it.get("method") == "network.beforeRequestSent"]
        return [(it["method"], it["url"]) for it in sent]

    def complaints(self):
        """What the browser's console has of warnings and errors."""
        self.bidi.call("session.status")
        logged = [it["params"] for it in self.bidi.events if it.get("method") == "log.entryAdded"]
        return [it["text"] for it in logged if it["level"] in ("error", "warn")]

    def worker_seconds(self):
        """How long the threads of workers have had a processor, which other work on the machine doesn't prolong much."""
        sessions, ticks = {process.pid for process in self.processes}, 0
        for task in Path("/proc").glob("[0-9]*/task/[0-9]*/stat"):
            try:
                name, _, rest = task.read_text(errors="replace").partition("(")[2].rpartition(")")
            except OSError:
                continue  # it has ended
            fields = rest.split()
            if int(fields[3]) in sessions and name.startswith(WORKERS):
                ticks += int(fields[11]) + int(fields[12])
        return ticks / os.sysconf("SC_CLK_TCK")

    def close(self):
        try:
            self.bidi.close()
        finally:
            self.end()

    def end(self):
        """Ends its processes, which are in groups of their own."""
        for process in self.processes:
            os.killpg(process.pid, signal.SIGKILL)
            process.wait()


class Chromium(Browser):
    name = "chromium"
    needs = ["chromium", "chromedriver"]
    schemes = ["light", "dark"]
    file_control = "{label}"
    runs_in_workers = True

    def start(self):
        port = self.launch([tool("chromedriver"), "--port=0"], r"started successfully on port (\d+)")
        arguments = ["--headless=new", "--no-sandbox", "--disable-dev-shm-usage", f"--user-data-dir={self.room}/profile"]
        options = {"binary": tool("chromium"), "args": arguments}
        wanted = {"capabilities": {"alwaysMatch": {"webSocketUrl": True, "goog:chromeOptions": options}}}
        self.driver = f"http://127.0.0.1:{port}/session"
        session = self.ask("", wanted)
        self.driver += f"/{session['sessionId']}"
        return session["capabilities"]["webSocketUrl"]

    def ask(self, path, about):
        """What chromedriver answers."""
        request = urllib.request.Request(self.driver + path, json.dumps(about).encode(), {"Content-Type": "application/json"})
        with urllib.request.urlopen(request, timeout=SECONDS) as answer:
            return json.load(answer)["value"]

    def prefer(self, scheme):
        """Has pages in a dark or a light scheme."""
        features = [{"name": "prefers-color-scheme", "value": scheme}]
        self.ask("/goog/cdp/execute", {"cmd": "Emulation.setEmulatedMedia", "params": {"features": features}})


    def accessible(self, role, name):
        """Whether the accessibility tree has an element of a role and a name."""
        nodes = self.ask("/goog/cdp/execute", {"cmd": "Accessibility.getFullAXTree", "params": {}})["nodes"]
        return any((it["role"]["value"], it["name"]["value"]) == (role, name) for it in nodes if not it["ignored"] and "name" in it)


class Firefox(Browser):
    """Firefox, in a dark scheme from the start, since BiDi can't change that."""

    name = "firefox"
    needs = ["firefox-esr"]
    schemes = ["dark"]
    file_control = "{label} Browse… {file}"
    runs_in_workers = False
    PREFERENCES = {
        "layout.css.prefers-color-scheme.content-override": 0,
        "app.normandy.enabled": False,
        "browser.shell.checkDefaultBrowser": False,
        "datareporting.policy.dataSubmissionEnabled": False,
    }

    def start(self):
        profile = self.room / "profile"
        profile.mkdir()
        lines = (f"user_pref({json.dumps(name)}, {json.dumps(value)});\n" for name, value in self.PREFERENCES.items())
        (profile / "user.js").write_text("".join(lines))
        words = [tool("firefox-esr"), "--headless", "--no-remote", "--profile", profile, "--remote-debugging-port=0", "about:blank"]
        return self.launch(words, r"WebDriver BiDi listening on (ws://\S+)") + "/session"

    def begin(self):
        self.bidi.call("session.new", capabilities={})

    def page(self):
        """Another page than the first one, which lacks the focus."""
        return self.bidi.call("browsingContext.create", type="tab")["context"]

    def prefer(self, scheme):
        """It has the one of its start."""

    def accessible(self, role, name):
        """Whether the accessibility tree has an element of a role and a name."""
        locator = {"type": "accessibility", "value": {"role": role, "name": name}}
        return bool(self.bidi.call("browsingContext.locateNodes", context=self.context, locator=locator)["nodes"])


def until(found, trouble):
    """Waits until a function gives something, and returns that."""
    deadline = time.monotonic() + SECONDS
    while time.monotonic() < deadline:
        if it := found():
            return it
        time.sleep(POLL)
    raise Trouble(trouble() if callable(trouble) else trouble)
