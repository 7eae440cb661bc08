"""A real browser, for tests of pages: Chromium without a window, spoken to over a pipe by its DevTools protocol."""
import json
import os
import shutil
import subprocess
import tempfile
import unittest

CHROMIUM = shutil.which("chromium") or shutil.which("chromium-browser")
needs_browser = unittest.skipUnless(CHROMIUM, "chromium is not here, so pages are not tried in a browser")
WORDS = [
    "--headless=new",
    "--no-sandbox",
    "--disable-gpu",
    "--disable-dev-shm-usage",
    "--no-first-run",
    "--disable-extensions",
    "--remote-debugging-pipe",
]
# Where Chromium's developer tools have the accessibility checker axe, as a text within a file of theirs, and a small
# file that stands beside it.
AXE_HOLDER = "devtools://devtools/bundled/third_party/lighthouse/lighthouse-dt-bundle.js"
BESIDE_IT = "devtools://devtools/bundled/devtools_compatibility.js"
FIND_AXE = r"""fetch("%s").then((it) => it.text()).then(
(it) => (it.match(/`\/\*! axe v(?:[^`\\]|\\[\s\S])*`/) || [""])[0], () => "")""" % AXE_HOLDER
RUN_AXE = """axe.run({resultTypes: ["violations"]}).then((it) => it.violations.flatMap(
(one) => one.nodes.map((node) => one.id + ": " + node.html.slice(0, 200))))"""


class Browser:
    """A running browser. Used in a `with`, or closed by `close`."""

    def __init__(self):
        self.room = tempfile.TemporaryDirectory(prefix="shq-browser-")
        read_by_it, self.to_it = os.pipe()
        self.from_it, written_by_it = os.pipe()
        # the browser reads what it is told from the descriptor 3, and answers on 4
        told = f'exec "$@" 3<&{read_by_it} 4>&{written_by_it}'
        command = ["sh", "-c", told, "sh", CHROMIUM, *WORDS, f"--user-data-dir={self.room.name}", "about:blank"]
        how = {"stdin": subprocess.DEVNULL, "stdout": subprocess.DEVNULL, "stderr": subprocess.DEVNULL}
        self.process = subprocess.Popen(command, pass_fds=(read_by_it, written_by_it), **how)
        os.close(read_by_it)
        os.close(written_by_it)
        self.answers = os.fdopen(self.from_it, "rb")
        self.left = b""
        self.count = 0
        self.events = []

    def __enter__(self):
        return self

    def __exit__(self, *_):
        self.close()

    def close(self):
        os.close(self.to_it)
        self.process.terminate()
        self.process.wait(timeout=20)
        self.answers.close()
        self.room.cleanup()

    def message(self):
        """The next message that the browser sends."""
        while b"\0" not in self.left:
            piece = self.answers.read1(1 << 16)
            if not piece:
                raise RuntimeError("the browser has ended")
            self.left += piece
        text, _, self.left = self.left.partition(b"\0")
        return json.loads(text)

    def call(self, method, session=None, **words):
        """Calls the browser, and answers with its result. Events that come before it are kept."""
        self.count += 1
        asked = {"id": self.count, "method": method, "params": words}
        if session:
            asked["sessionId"] = session
        os.write(self.to_it, json.dumps(asked).encode("utf-8") + b"\0")
        while True:
            got = self.message()
            if got.get("id") == self.count:
                if "error" in got:
                    raise RuntimeError(f"{method}: {got['error']['message']}")
                return got["result"]
            self.events.append(got)

    def wait_for(self, method, session):
        """Waits until an event has come, and takes it out."""
        while True:
            for at, event in enumerate(self.events):
                if event.get("method") == method and event.get("sessionId") == session:
                    return self.events.pop(at)
            self.events.append(self.message())

    def page(self, path, **how):
        """Opens a file in a tab of its own."""
        return Tab(self, path.as_uri(), **how)

    def axe(self):
        """The source of the accessibility checker axe, or nothing where this browser does not have it."""
        tab = Tab(self, BESIDE_IT)
        quoted = tab.value(FIND_AXE)
        source = tab.value(quoted) if quoted else ""
        tab.close()
        return source


class Tab:
    """A page in a tab, with a window of some size, light or dark, with or without its script."""

    def __init__(self, browser, address, width=1100, height=900, is_dark=False, has_script=True):
        self.browser = browser
        target = browser.call("Target.createTarget", url="about:blank")["targetId"]
        self.target = target
        self.session = browser.call("Target.attachToTarget", targetId=target, flatten=True)["sessionId"]
        for domain in ("Page", "Runtime", "Log", "Network"):
            self.call(f"{domain}.enable")
        size = {"width": width, "height": height, "deviceScaleFactor": 1, "mobile": width < 600}
        self.call("Emulation.setDeviceMetricsOverride", **size)
        scheme = {"name": "prefers-color-scheme", "value": "dark" if is_dark else "light"}
        self.call("Emulation.setEmulatedMedia", features=[scheme])
        if not has_script:
            self.call("Emulation.setScriptExecutionDisabled", value=True)
        self.call("Page.navigate", url=address)
        browser.wait_for("Page.loadEventFired", self.session)

    def call(self, method, **words):
        return self.browser.call(method, self.session, **words)

    def close(self):
        self.browser.call("Target.closeTarget", targetId=self.target)

    def value(self, expression):
        """The value of an expression of JavaScript in the page; a promise is waited for."""
        words = {"returnByValue": True, "awaitPromise": True, "userGesture": True}
        found = self.call("Runtime.evaluate", expression=expression, **words)
        if "exceptionDetails" in found:
            raise RuntimeError(found["exceptionDetails"].get("exception", found["exceptionDetails"]))
        return found["result"].get("value")

    def breaks_by_axe(self, source):
        """What breaks a rule of axe, whose source this is: a line for each, which begins with the name of the rule."""
        self.value(source)
        return self.value(RUN_AXE)

    def type_into(self, query, text):
        """Empties a field, types into it as a person does, and waits a moment."""
        self.value(f"document.querySelector({json.dumps(query)}).focus()")
        self.value(f"document.querySelector({json.dumps(query)}).select()")
        self.call("Input.dispatchKeyEvent", type="keyDown", key="Backspace", code="Backspace", windowsVirtualKeyCode=8)
        if text:
            self.call("Input.insertText", text=text)
        self.value("new Promise((done) => setTimeout(done, 250))")

    def click(self, query):
        """Clicks in the middle of an element, where a person would."""
        place = self.value(
            f"""(() => {{ const it = document.querySelector({json.dumps(query)}); it.scrollIntoView({{block: "center"}});
            const box = it.getClientRects()[0]; return [box.x + box.width / 2, box.y + box.height / 2]; }})()"""
        )
        for kind in ("mousePressed", "mouseReleased"):
            words = {"type": kind, "x": place[0], "y": place[1], "button": "left", "clickCount": 1}
            self.call("Input.dispatchMouseEvent", **words)
        self.value("new Promise((done) => setTimeout(done, 100))")

    def complaints(self):
        """What went wrong in the page until now: errors, and words on its console."""
        kinds = ("Runtime.exceptionThrown", "Runtime.consoleAPICalled", "Log.entryAdded")
        return [it for it in self.browser.events if it.get("sessionId") == self.session and it["method"] in kinds]

    def requests(self):
        """The addresses that the page asked for."""
        sent = [it for it in self.browser.events if it.get("method") == "Network.requestWillBeSent"]
        return [it["params"]["request"]["url"] for it in sent if it.get("sessionId") == self.session]

    def picture(self, path):
        """Writes a picture of the window, to be looked at."""
        import base64

        data = self.call("Page.captureScreenshot", format="png", captureBeyondViewport=True)["data"]
        path.write_bytes(base64.b64decode(data))
