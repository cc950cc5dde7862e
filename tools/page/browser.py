"""Drives Chromium and Firefox without a window, by WebDriver's commands and without other packages.

    with Chromium(folder) as browser:
        browser.open(path)
        browser.value("document.title")

Chromium's commands go to chromedriver (chromium-driver). Firefox takes them itself, by its protocol
Marionette. What a page saves is in the folder.
"""
import base64
import json
import os
import pathlib
import shutil
import signal
import socket
import subprocess
import tempfile
import time
import urllib.request

ELEMENT = "element-6066-11e4-a52e-4f735466cecf"
SECONDS = 120
# An address at which nothing listens, for pages that try to fetch something.
NOWHERE = "http://127.0.0.1:8099/"
# Of a machine without a display, and of root, whose processes Chromium doesn't put into a sandbox.
OPTIONS = [
    "--headless=new",
    "--no-sandbox",
    "--disable-gpu",
    "--disable-background-networking",
    "--hide-scrollbars",
    "--force-color-profile=srgb",
]
KEYS = {"Tab": "\ue004", "Enter": "\ue007", "Space": " ", "PageUp": "\ue00e", "PageDown": "\ue00f", "End": "\ue010",
        "Home": "\ue011",
        "ArrowUp": "\ue013", "ArrowDown": "\ue015"}


def free_port():
    """Returns the number of a TCP port that nobody uses."""
    with socket.socket() as probe:
        probe.bind(("127.0.0.1", 0))
        return probe.getsockname()[1]


class Browser:
    """What both have. `send` passes on a command by its name in WebDriver and in Marionette, with its parameters."""

    def __init__(self, folder):
        self.folder, self.port, self.profile = (
            pathlib.Path(folder).resolve(), free_port(), tempfile.mkdtemp(prefix="page-")
        )
        self.process = subprocess.Popen(
            self.command(), stdout=subprocess.DEVNULL, stderr=subprocess.DEVNULL, start_new_session=True
        )
        try:
            self.begin()
        except BaseException:
            self.__exit__()
            raise

    def __enter__(self):
        return self

    def __exit__(self, *_):
        """Ends the browser, and removes its profile."""
        try:
            os.killpg(self.process.pid, signal.SIGKILL)
        except ProcessLookupError:
            pass
        self.process.wait()
        shutil.rmtree(self.profile, ignore_errors=True)

    def again(self, action):
        """Tries until the browser is up."""
        end = time.monotonic() + 60
        while True:
            try:
                return action()
            except OSError:
                if time.monotonic() > end or self.process.poll() is not None:
                    raise
                time.sleep(0.1)

    def open(self, path, address=""):
        """Opens a page."""
        self.send("url", "WebDriver:Navigate", url="about:blank")
        self.send("url", "WebDriver:Navigate", url=pathlib.Path(path).resolve().as_uri() + address)

    def value(self, expression, *arguments):
        """Returns the value of a JavaScript expression in the page, after its promise if it is one."""
        return self.send(
            "execute/sync", "WebDriver:ExecuteScript", script=f"return ({expression})", args=list(arguments)
        )

    def wait(self, condition, *arguments):
        """Waits until a condition is true in the page."""
        end = time.monotonic() + SECONDS
        while not self.value(condition, *arguments):
            if time.monotonic() > end:
                raise TimeoutError(condition)
            time.sleep(0.02)

    def keys(self, *keys):
        """Presses keys and lets them go."""
        pressed = [{"type": kind, "value": KEYS.get(key, key)} for key in keys for kind in ("keyDown", "keyUp")]
        self.send(
            "actions", "WebDriver:PerformActions", actions=[{"type": "key", "id": "keyboard", "actions": pressed}]
        )

    def click(self, selector):
        """Scrolls to an element and clicks into its middle, as a mouse does."""
        self.to_element(selector, "click", "WebDriver:ElementClick")

    def type(self, selector, text):
        """Types a text into an element, or gives a file of this name to a chooser."""
        self.to_element(selector, "value", "WebDriver:ElementSendKeys", text=str(text))

    def to_element(self, selector, name, marionette, **parameters):
        """Sends a command to an element."""
        found = self.send("element", "WebDriver:FindElement", using="css selector", value=selector)
        self.send(f"element/{found[ELEMENT]}/{name}", marionette, id=found[ELEMENT], **parameters)

    def names(self, selector):
        """Returns the names that a screen reader uses for these elements."""
        found = self.send("elements", "WebDriver:FindElements", using="css selector", value=selector)
        return [self.name(it[ELEMENT]) for it in found]

    def printed(self):
        """Returns the page on paper, as a PDF file."""
        return base64.b64decode(self.send("print", "WebDriver:Print"))


class Chromium(Browser):
    """Chromium, driven by chromedriver."""

    def command(self):
        return [shutil.which("chromedriver") or "chromedriver", f"--port={self.port}"]

    def begin(self):
        options = {
            "args": [*OPTIONS, f"--user-data-dir={self.profile}"], "binary": shutil.which("chromium") or "chromium"
        }
        wanted = {"goog:chromeOptions": options, "goog:loggingPrefs": {"browser": "ALL", "performance": "ALL"}}
        self.at = f"http://127.0.0.1:{self.port}/session"
        begun = self.again(lambda: self.post("", capabilities={"alwaysMatch": wanted}))
        self.at += f"/{begun['sessionId']}"
        self.post("/timeouts", script=1000 * SECONDS, pageLoad=1000 * SECONDS)
        self.call("Browser.setDownloadBehavior", behavior="allow", downloadPath=str(self.folder))
        self.size(1300, 1000)

    def post(self, path, **parameters):
        """Sends parameters to the driver."""
        return self.ask(path, json.dumps(parameters).encode())

    def ask(self, path, data=None):
        """Sends a request to the driver, and returns the value of its response."""
        request = urllib.request.Request(self.at + path, data, {"Content-Type": "application/json"})
        try:
            with urllib.request.urlopen(request, timeout=2 * SECONDS) as answer:
                return json.load(answer)["value"]
        except urllib.error.HTTPError as error:
            raise RuntimeError(json.load(error)["value"]["message"]) from error

    def send(self, name, marionette, **parameters):
        return self.post(f"/{name}", **parameters)

    def call(self, method, **parameters):
        """Calls a method of the browser's own protocol."""
        return self.post("/goog/cdp/execute", cmd=method, params=parameters)

    def size(self, width, height):
        """Sets how large the page's window is."""
        self.call("Emulation.setDeviceMetricsOverride", width=width, height=height, deviceScaleFactor=1, mobile=False)

    def media(self, name="", scheme=""):
        """Sets the medium of the page, such as "print", and the scheme that its reader prefers, such as "dark"."""
        features = [{"name": "prefers-color-scheme", "value": scheme}] if scheme else []
        self.call("Emulation.setEmulatedMedia", media=name, features=features)

    def log(self, kind):
        """Returns new entries of a log."""
        return self.post("/se/log", type=kind)

    def faults(self):
        """Returns the errors and warnings of pages since the last call."""
        return [it["message"] for it in self.log("browser") if it["level"] in ("SEVERE", "WARNING")]

    def fetched(self):
        """Returns the addresses that pages fetched since the last call, except files and those that
        they made themselves.
        """
        events = [json.loads(it["message"])["message"] for it in self.log("performance")]
        blocked = {it["params"]["requestId"] for it in events if it["params"].get("blockedReason") == "csp"}
        requests = [
            it["params"]
            for it in events
            if it["method"] == "Network.requestWillBeSent" and it["params"]["requestId"] not in blocked
        ]
        return [
            url
            for it in requests
            if not (url := it["request"]["url"]).startswith(("file:", "blob:", "about:", "data:", "chrome:"))
        ]

    def name(self, element):
        """Returns the name that a screen reader uses for an element."""
        return self.ask(f"/element/{element}/computedlabel")

    def inside(self, expression):
        """Evaluates an expression among the page's own constants."""
        self.value(expression)

    def drag(self, kind, *paths):
        """Drags files over the page ("dragover"), or drops them there ("drop")."""
        files = {"items": [], "files": [str(pathlib.Path(it).resolve()) for it in paths], "dragOperationsMask": 1}
        for event in {"dragover": ["dragEnter", "dragOver"], "drop": ["drop"]}[kind]:
            self.call("Input.dispatchDragEvent", type=event, x=300, y=300, data=files)

    def picture(self):
        """Returns a picture of the page, as a PNG file."""
        return base64.b64decode(self.call("Page.captureScreenshot", format="png", captureBeyondViewport=True)["data"])


class Firefox(Browser):
    """Firefox, driven by its own protocol."""

    # Scripts of the browser itself. The first one notes what pages fetch, and their errors and warnings.
    WATCH = """
      window.fetched = [];
      window.faults = [];
      const fetching = ({ URI, loadInfo }) => { if (!loadInfo.triggeringPrincipal.isSystemPrincipal) window.fetched.push(URI.spec); };
      const told = (it) => { if (/javascript|Security|CORS/.test(it.category) && !/chrome/.test(it.category)) window.faults.push(it.errorMessage); };
      Services.obs.addObserver({ observe: (it) => fetching(it.QueryInterface(Ci.nsIHttpChannel)) }, "http-on-opening-request");
      Services.console.registerListener({ observe: (it) => { if (it instanceof Ci.nsIScriptError) told(it); } });
    """
    SIZE = """
      Object.assign(gBrowser.selectedBrowser.style, { flex: "none", minWidth: "0", width: `${arguments[0]}px`, height: `${arguments[1]}px` });
    """
    MEDIA = """
      Object.assign(gBrowser.selectedBrowser.browsingContext, { mediumOverride: arguments[0], prefersColorSchemeOverride: arguments[1] || "none" });
    """
    INSIDE = """
      const { addDebuggerToGlobal } = ChromeUtils.importESModule("resource://gre/modules/jsdebugger.sys.mjs");
      addDebuggerToGlobal(globalThis);
      new Debugger().addDebuggee(window).executeInGlobal(arguments[0]);
    """
    # The page gets the event of a drag, with the files of a chooser that is made for it.
    CHOOSER = (
        """document.body.append(Object.assign(document.createElement("input"), """
        """{ type: "file", id: "dragged", multiple: true }))"""
    )
    DRAG = """((kind) => {
      const chooser = document.getElementById("dragged"), dataTransfer = new DataTransfer();
      for (const file of chooser.files) dataTransfer.items.add(file);
      chooser.remove();
      const event = new DragEvent(kind, { dataTransfer, bubbles: true, cancelable: true });
      return document.elementFromPoint(300, 300).dispatchEvent(event);
    })(arguments[0])"""

    def command(self):
        wanted = {"marionette.port": self.port, "browser.download.dir": str(self.folder),
                  "browser.download.folderList": 2,
                  "browser.helperApps.neverAsk.saveToDisk": "application/octet-stream",
                  "browser.download.alwaysOpenPanel": False,
                  "browser.shell.checkDefaultBrowser": False,
                  "datareporting.policy.dataSubmissionEnabled": False}  # fmt: skip
        lines = "".join(f"user_pref({json.dumps(name)}, {json.dumps(value)});\n" for name, value in wanted.items())
        pathlib.Path(self.profile, "user.js").write_text(lines)
        words = ["--headless", "--marionette", "--remote-allow-system-access", "--profile", self.profile]
        return [shutil.which("firefox-esr") or shutil.which("firefox") or "firefox-esr", *words]

    def begin(self):
        self.count, self.socket = (
            0, self.again(lambda: socket.create_connection(("127.0.0.1", self.port), timeout=2 * SECONDS))
        )
        self.received = self.socket.makefile("rb")
        self.message()
        self.send("", "WebDriver:NewSession", capabilities={})
        self.send("", "WebDriver:SetTimeouts", script=1000 * SECONDS, pageLoad=1000 * SECONDS)
        self.send("", "WebDriver:SetWindowRect", width=1300, height=1000)
        self.own(self.WATCH)

    def message(self):
        """Returns the next message of Firefox."""
        size = b""
        while (sign := self.received.read(1)) != b":":
            size += sign
        return json.loads(self.received.read(int(size)))

    def send(self, name, marionette, **parameters):
        self.count += 1
        data = json.dumps([0, self.count, marionette, parameters]).encode()
        self.socket.sendall(b"%d:%b" % (len(data), data))
        _, _, error, result = self.message()
        if error:
            raise RuntimeError(error["message"])
        return result.get("value") if isinstance(result, dict) and set(result) == {"value"} else result

    def own(self, script, *arguments):
        """Runs a script of the browser's own window."""
        self.send("", "Marionette:SetContext", value="chrome")
        try:
            return self.send("", "WebDriver:ExecuteScript", script=script, args=list(arguments))
        finally:
            self.send("", "Marionette:SetContext", value="content")

    def size(self, width, height):
        """Sets how large the page's window is."""
        self.own(self.SIZE, width, height)
        self.wait("innerWidth === arguments[0] && innerHeight === arguments[1]", width, height)

    def media(self, name="", scheme=""):
        """Sets the medium of the page, such as "print", and the scheme that its reader prefers, such as "dark"."""
        self.own(self.MEDIA, name, scheme)

    def faults(self):
        """Returns the errors and warnings of pages since the last call."""
        return self.own("return window.faults.splice(0)")

    def fetched(self):
        """Returns the addresses that pages fetched since the last call, except files and those that
        they made themselves.
        """
        return self.own("return window.fetched.splice(0)")

    def name(self, element):
        return self.send("", "WebDriver:GetComputedLabel", id=element)

    def inside(self, expression):
        """Evaluates an expression among the page's own constants."""
        self.send("", "WebDriver:ExecuteScript", script=self.INSIDE, args=[expression], sandbox="system")

    def drag(self, kind, *paths):
        """Drags files over the page ("dragover"), or drops them there ("drop")."""
        self.value(self.CHOOSER)
        self.type("#dragged", "\n".join(str(pathlib.Path(it).resolve()) for it in paths))
        if self.value(self.DRAG, kind):
            raise RuntimeError("the page leaves the files to the browser, which opens them")

    def picture(self):
        return base64.b64decode(self.send("", "WebDriver:TakeScreenshot", full=True))
