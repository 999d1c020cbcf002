"""A headless browser with one page, its input and its output: Chromium, driven over its debugging port (the Chrome
DevTools Protocol), and Firefox, driven over its own (WebDriver BiDi)."""
import base64
import contextlib
import json
import os
import re
import shutil
import socket
import subprocess
import tempfile
import time
import urllib.request

from harness.parts import Skipped
from harness.server import HOST
from harness.web_client import TEXT, frame

CHROMIUM, FIREFOX = ("chromium", "chromium-browser", "google-chrome"), ("firefox-esr", "firefox")
INSTALL = "apt-get install --no-install-recommends chromium firefox-esr fonts-dejavu-core"
FLAGS = ["--headless=new", "--no-sandbox", "--disable-gpu", "--no-first-run", "--remote-debugging-port=0"]
SECONDS, PIECE = 30, 65_536
# Settings that keep a Firefox from waiting for its vendor's servers, which may be out of reach.
QUIET = {
    "app.normandy.enabled": False, "messaging-system.rsexperimentloader.enabled": False, "app.update.auto": False,
    "datareporting.policy.dataSubmissionEnabled": False, "services.settings.server": "data:,#remote-settings-dummy/v1",
    "network.captive-portal-service.enabled": False, "network.connectivity-service.enabled": False,
    "browser.shell.checkDefaultBrowser": False, "browser.startup.homepage_override.mstone": "ignore",
    "extensions.update.enabled": False, "extensions.getAddons.cache.enabled": False,
}
# The keys that WebDriver names by a character of its own.
KEYS = {"Enter": "\ue007", "Tab": "\ue004", "Escape": "\ue00c", "ArrowUp": "\ue013", "ArrowDown": "\ue015"}


def path_of(names):
    """Returns the browser's path. Without one, the parts that need it are skipped."""
    for name in names:
        if path := shutil.which(name):
            return path
    raise Skipped(f"there is no {names[0]} here: {INSTALL}")


class Socket:
    """The client's side of the web socket for the browser's commands, each a JSON text."""

    def __init__(self, url):
        host, port, path = re.fullmatch(r"ws://([^:/]+):(\d+)(/.*)", url).groups()
        self.socket = socket.create_connection((host, int(port)), timeout=SECONDS)
        key = base64.b64encode(os.urandom(16)).decode()
        fields = [f"GET {path} HTTP/1.1", f"Host: {host}:{port}", "Upgrade: websocket", "Connection: Upgrade"]
        fields += ["Sec-WebSocket-Version: 13", f"Sec-WebSocket-Key: {key}", "", ""]
        self.socket.sendall("\r\n".join(fields).encode())
        self.kept = b""
        while b"\r\n\r\n" not in self.kept:
            self.receive()
        self.kept = self.kept.partition(b"\r\n\r\n")[2]

    def receive(self):
        some = self.socket.recv(PIECE)
        if not some:
            raise ConnectionError("the browser has ended")
        self.kept += some

    def take(self, count):
        while len(self.kept) < count:
            self.receive()
        some, self.kept = self.kept[:count], self.kept[count:]
        return some

    def send(self, value):
        self.socket.sendall(frame(TEXT, json.dumps(value).encode()))

    def next(self):
        """Returns the next complete text."""
        text, is_final = b"", False
        while not is_final:
            first, length = self.take(2)
            if length >= 126:
                length = int.from_bytes(self.take(2 if length == 126 else 8), "big")
            text, is_final = text + self.take(length), bool(first & 0x80)
        return json.loads(text)


class Page:
    """The operations on the page in either browser. `said` collects the messages of its console and its log."""

    name, flags = "", []

    def __init__(self, names, folder):
        self.number, self.said = 0, []
        self.profile = tempfile.TemporaryDirectory(prefix=f"{self.name}-", ignore_cleanup_errors=True)
        self.prepare(folder)
        command = [path_of(names), *self.flags_for(self.profile.name)]
        self.process = subprocess.Popen(command, stdout=subprocess.DEVNULL, stderr=subprocess.DEVNULL)
        try:
            self.begin(folder)
        except BaseException:
            self.end()
            raise

    def waits_for(self, expression, seconds=SECONDS):
        """Returns whether an expression becomes true in the page."""
        end = time.monotonic() + seconds
        while time.monotonic() < end:
            if self.value(expression):
                return True
            time.sleep(0.1)
        return False

    def __enter__(self):
        return self

    def __exit__(self, *_):
        self.end()

    def end(self):
        self.process.terminate()
        with contextlib.suppress(subprocess.TimeoutExpired):
            self.process.wait(timeout=10)
        if self.process.poll() is None:
            self.process.kill()
            self.process.wait()
        self.profile.cleanup()


class Browser(Page):
    """A Chromium with one page."""

    name = "chromium"

    def __init__(self, folder):
        super().__init__(CHROMIUM, folder)

    def prepare(self, folder):
        pass

    def flags_for(self, profile):
        return [*FLAGS, f"--user-data-dir={profile}", "about:blank"]

    def begin(self, folder):
        self.socket = Socket(self.page_url())
        for domain in ("Runtime", "Log", "Page"):
            self.call(f"{domain}.enable")
        self.call("Browser.setDownloadBehavior", behavior="allow", downloadPath=folder)

    def page_url(self):
        """Returns the address for the page's commands, once the browser writes it to its profile."""
        end = time.monotonic() + SECONDS
        while time.monotonic() < end:
            with contextlib.suppress(OSError, ValueError, StopIteration):
                with open(f"{self.profile.name}/DevToolsActivePort") as file:
                    port = int(file.readline())
                with urllib.request.urlopen(f"http://{HOST}:{port}/json", timeout=SECONDS) as answer:
                    pages = json.load(answer)
                return next(page["webSocketDebuggerUrl"] for page in pages if page["type"] == "page")
            time.sleep(0.1)
        raise TimeoutError("the browser does not begin")

    def call(self, method, **parameters):
        """Sends the browser a command, and returns the result."""
        self.number += 1
        self.socket.send({"id": self.number, "method": method, "params": parameters})
        while True:
            told = self.socket.next()
            if told.get("id") == self.number:
                if "error" in told:
                    raise ValueError(f"{method}: {told['error']}")
                return told["result"]
            is_told = told.get("method") in ("Runtime.exceptionThrown", "Runtime.consoleAPICalled", "Log.entryAdded")
            if is_told and told["params"].get("entry", {}).get("level") not in ("info", "verbose"):
                self.said.append(json.dumps(told["params"])[:500])

    def value(self, expression):
        """Returns the value of a JavaScript expression in the page; it waits for a promise."""
        told = self.call("Runtime.evaluate", expression=expression, returnByValue=True, awaitPromise=True)
        if "exceptionDetails" in told:
            raise ValueError(f"{expression}: {told['exceptionDetails']}")
        return told["result"].get("value")

    def open(self, url):
        self.call("Page.navigate", url=url)
        return self.waits_for("document.readyState === 'complete'")

    def press(self, key, code, text=None):
        """Presses and releases a key."""
        named = {"key": key, "code": key, "windowsVirtualKeyCode": code}
        self.call("Input.dispatchKeyEvent", type="keyDown", **named, **({"text": text} if text else {}))
        self.call("Input.dispatchKeyEvent", type="keyUp", **named)

    def type(self, text):
        """Types a text at the focus, and a return."""
        self.call("Input.insertText", text=text)
        self.press("Enter", 13, "\r")

    def drag(self, begin, end):
        """Presses the mouse's button at one place, and releases it at another."""
        for kind, (x, y), buttons in (("Pressed", begin, 1), ("Moved", end, 1), ("Released", end, 0)):
            how = {"type": f"mouse{kind}", "x": x, "y": y, "button": "left", "buttons": buttons, "clickCount": 1}
            self.call("Input.dispatchMouseEvent", **how)

    def resize(self, width, height, is_phone):
        size = {"width": width, "height": height, "deviceScaleFactor": 1 + is_phone, "mobile": is_phone}
        self.call("Emulation.setDeviceMetricsOverride", **size)

    def shoot(self, path):
        """Takes a picture of the visible page."""
        with open(path, "wb") as file:
            file.write(base64.b64decode(self.call("Page.captureScreenshot", format="png")["data"]))

    def tree(self):
        """Returns the accessibility tree of the page: a list of (role, name, properties)."""
        self.call("Accessibility.enable")
        nodes = self.call("Accessibility.getFullAXTree")["nodes"]
        worth = lambda value: (value or {}).get("value")
        return [
            (worth(node.get("role")), worth(node.get("name")) or "",
             {each["name"]: worth(each["value"]) for each in node.get("properties", [])})
            for node in nodes
            if not node.get("ignored")
        ]


class Firefox(Page):
    """A Firefox with one page."""

    name = "firefox"

    def __init__(self, folder):
        super().__init__(FIREFOX, folder)

    def prepare(self, folder):
        """Makes it save files into the folder without asking, and call no other servers."""
        wanted = {"browser.download.folderList": 2, "browser.download.dir": folder, **QUIET}
        lines = [f"user_pref({json.dumps(name)}, {json.dumps(value)});\n" for name, value in wanted.items()]
        with open(f"{self.profile.name}/user.js", "w") as file:
            file.writelines(lines)

    def flags_for(self, profile):
        return ["--headless", "--no-remote", "--profile", profile, "--remote-debugging-port", "0", "about:blank"]

    def begin(self, folder):
        self.socket = Socket(f"ws://{HOST}:{self.port()}/session")
        self.socket.socket.settimeout(4 * SECONDS)
        self.call("session.new", capabilities={})
        self.context = self.call("browsingContext.getTree")["contexts"][0]["context"]
        self.call("session.subscribe", events=["log.entryAdded"])

    def port(self):
        """Returns the port for commands, once the browser writes it to its profile. It does not answer earlier
        calls."""
        end = time.monotonic() + 2 * SECONDS
        while time.monotonic() < end:
            time.sleep(1)
            with contextlib.suppress(OSError, ValueError, KeyError):
                with open(f"{self.profile.name}/WebDriverBiDiServer.json") as file:
                    return json.load(file)["ws_port"]
        raise TimeoutError("the browser does not begin")

    def call(self, method, **parameters):
        """Sends the browser a command, and returns the result."""
        self.number += 1
        self.socket.send({"id": self.number, "method": method, "params": parameters})
        while True:
            told = self.socket.next()
            if told.get("id") == self.number:
                if told.get("type") == "error":
                    raise ValueError(f"{method}: {told['message']}")
                return told["result"]
            if told.get("method") == "log.entryAdded" and told["params"].get("level") in ("warn", "error"):
                self.said.append(str(told["params"].get("text"))[:500])

    def value(self, expression):
        """Returns the value of a JavaScript expression in the page, by its text as JSON; it waits for a promise."""
        told = self.call("script.evaluate", target={"context": self.context}, awaitPromise=True,
                         expression=f"(async () => JSON.stringify(await ({expression})))()")
        if told["type"] == "exception":
            raise ValueError(f"{expression}: {told['exceptionDetails']['text']}")
        text = told["result"].get("value")
        return None if text is None else json.loads(text)

    def open(self, url):
        self.call("browsingContext.navigate", context=self.context, url=url, wait="complete")
        return True

    def keys(self, *keys):
        """Presses keys, one after the other."""
        steps = [{"type": kind, "value": key} for key in keys for kind in ("keyDown", "keyUp")]
        self.call("input.performActions", context=self.context,
                  actions=[{"type": "key", "id": "keyboard", "actions": steps}])

    def press(self, key, code, text=None):
        """Presses and releases a key."""
        self.keys(KEYS.get(key, key))

    def type(self, text):
        """Types a text at the focus, and a return."""
        self.keys(*text, KEYS["Enter"])

    def drag(self, begin, end):
        """Presses the mouse's button at one place, and releases it at another."""
        move = [{"type": "pointerMove", "x": round(x), "y": round(y)} for x, y in (begin, end)]
        steps = [move[0], {"type": "pointerDown", "button": 0}, move[1], {"type": "pointerUp", "button": 0}]
        self.call("input.performActions", context=self.context,
                  actions=[{"type": "pointer", "id": "mouse", "actions": steps}])

    def resize(self, width, height, is_phone):
        self.call("browsingContext.setViewport", context=self.context, viewport={"width": width, "height": height})

    def shoot(self, path):
        """Takes a picture of the visible page."""
        with open(path, "wb") as file:
            file.write(base64.b64decode(self.call("browsingContext.captureScreenshot", context=self.context)["data"]))
