"""Drives browsers: Chromium and WebKitGTK's MiniBrowser by WebDriver (W3C), as `chromedriver` and `WebKitWebDriver` speak it, and Firefox by Marionette, whose
commands are the same ones by other names. The standard library alone."""
import atexit
import base64
import contextlib
import http.client
import json
import os
import re
import shutil
import signal
import socket
import subprocess
import tempfile
import time
import urllib.error
import urllib.request

ELEMENT = "element-6066-11e4-a52e-4f735466cecf"
KEYS = {"Enter": "\ue007", "Escape": "\ue00c", "Tab": "\ue004", "Left": "\ue012", "Right": "\ue014", "Up": "\ue013", "Down": "\ue015", "Home": "\ue011", "End": "\ue010", "F8": "\ue038", "F9": "\ue039", "Shift": "\ue008", "Control": "\ue009"}


# What a driver says where its browser, or the page in it, has ended by itself.
ENDS = ("invalid session id", "disconnected", "not reachable", "tab crashed", "page crash", "web view not found")
# The most seconds of a script, of a page's loading, and of a browser's start.
MOST_SECONDS = 300


class Failed(Exception):
    """What the driver says where it cannot do what it is told."""


class Gone(Failed):
    """The browser has ended by itself."""


def free_port():
    with contextlib.closing(socket.socket()) as probe:
        probe.bind(("127.0.0.1", 0))
        return probe.getsockname()[1]


class Browser:
    """A browser with a profile of its own, by the WebDriver that is started beside it."""

    # What it is called, and the commands that it takes, each with the package that has it.
    name, commands = "", {}

    @classmethod
    def missing(cls):
        """Returns how what its tests need is had, where it is not there, or nothing."""
        wanted = [package for command, package in cls.commands.items() if not shutil.which(command)]
        return f"apt-get install {' '.join(wanted)}" if wanted else None

    def __init__(self, width=1280, height=800, scale=1):
        self.room = tempfile.mkdtemp(prefix="agcws-browser-")
        self.port, self.started = free_port(), []
        atexit.register(self.close)
        self.session, self.has_ended = None, False
        try:
            self.begin(width, height, scale)
            self.ask("POST", "/timeouts", {"script": MOST_SECONDS * 1000, "pageLoad": MOST_SECONDS * 1000})
            self.size(width, height, scale)
        except BaseException:
            self.close()
            raise

    def start(self, *words, out=subprocess.DEVNULL, **environment):
        """Starts a program, in whose folders nothing is left."""
        home = {"HOME": self.room, "XDG_CONFIG_HOME": self.room, "XDG_CACHE_HOME": self.room, "XDG_DATA_HOME": self.room}
        ran = subprocess.Popen(words, env={**os.environ, **home, **environment}, stdin=subprocess.DEVNULL, stdout=out, stderr=subprocess.DEVNULL, start_new_session=True)
        self.started.append(ran)
        return ran

    def begin(self, width, height, scale):
        raise NotImplementedError

    def begin_by(self, wanted):
        """Begins a session of the driver that was started last, once it answers."""
        until = time.monotonic() + MOST_SECONDS
        while True:
            try:
                self.session = self.ask("POST", "/session", {"capabilities": {"alwaysMatch": wanted}})["sessionId"]
                return
            except Gone:
                if self.started[-1].poll() is not None or time.monotonic() > until:
                    raise
                time.sleep(0.05)

    def ask(self, method, path, body=None):
        where = f"http://127.0.0.1:{self.port}" + (f"/session/{self.session}" if self.session else "") + path
        asked = urllib.request.Request(where, method=method, data=None if method != "POST" else json.dumps(body or {}).encode(), headers={"Content-Type": "application/json"})
        try:
            with urllib.request.urlopen(asked, timeout=2 * MOST_SECONDS) as told:
                return json.load(told)["value"]
        except urllib.error.HTTPError as refused:
            told = json.load(refused)["value"]
            raise self.failed(f"{told.get('error')}: {told.get('message', '')}") from None
        except (OSError, http.client.HTTPException) as failed:
            self.has_ended |= self.session is not None
            raise Gone(f"the driver does not answer: {failed}") from None

    def failed(self, why):
        self.has_ended |= any(it in why for it in ENDS)
        return (Gone if self.has_ended else Failed)(why.split("\n")[0])

    def open(self, url):
        self.ask("POST", "/url", {"url": url})

    def script(self, text, *given):
        """What a script of the page answers; where it answers a promise, what that comes to. A node of the page is answered as true: it may be gone before it is named."""
        wrapped = "const done = arguments[arguments.length - 1]; (async (...arguments_) => { " + text.replace("arguments[", "arguments_[") + " })(...arguments).then(it => done({it: it instanceof Node || it}), failed => done({failed: String(failed && failed.stack || failed)}));"
        told = self.ask("POST", "/execute/async", {"script": wrapped, "args": list(given)})
        if "failed" in told:
            raise Failed(told["failed"])
        return told.get("it")

    def wait(self, text, seconds=120, what=None):
        """Waits until a script of the page answers something, and returns that."""
        until = time.monotonic() + seconds
        while True:
            told = self.script(text)
            if told:
                return told
            if time.monotonic() > until:
                raise Failed(f"not within {seconds} s: {what or text}")
            time.sleep(0.03)

    def find(self, selector):
        return self.ask("POST", "/element", {"using": "css selector", "value": selector})[ELEMENT]

    def found(self, selector, method, path, body=None):
        """Asks of what stands there now: a page draws a thing anew at any time, and a browser shows it a while later."""
        until = time.monotonic() + 10
        while True:
            try:
                return self.ask(method, f"/element/{self.find(selector)}/{path}", body)
            except Failed as failed:
                is_hidden = "not interactable" in str(failed) and time.monotonic() < until
                if not is_hidden and "stale element" not in str(failed):
                    raise
                time.sleep(0.03)

    def click(self, selector):
        self.found(selector, "POST", "click")

    def text(self, selector):
        return self.found(selector, "GET", "text")

    def type(self, selector, text):
        self.found(selector, "POST", "value", {"text": text})

    def keys(self, *names, held=()):
        """Keys of the keyboard, wherever that is."""
        down = [{"type": "keyDown", "value": KEYS.get(it, it)} for it in held]
        up = [{"type": "keyUp", "value": KEYS.get(it, it)} for it in held]
        pressed = [one for it in names for one in ({"type": "keyDown", "value": KEYS.get(it, it)}, {"type": "keyUp", "value": KEYS.get(it, it)})]
        self.ask("POST", "/actions", {"actions": [{"type": "key", "id": "keyboard", "actions": [*down, *pressed, *up]}]})

    def pointer(self, *actions, button=0):
        """Moves of the mouse: (x, y), "down", "up"."""
        made = [{"type": "pointerMove", "x": it[0], "y": it[1], "duration": 30, "origin": "viewport"} if isinstance(it, tuple) else {"type": f"pointer{it.capitalize()}", "button": button} for it in actions]
        self.ask("POST", "/actions", {"actions": [{"type": "pointer", "id": "mouse", "parameters": {"pointerType": "mouse"}, "actions": made}]})

    def tabs(self):
        return self.ask("GET", "/window/handles")

    def go(self, tab):
        self.ask("POST", "/window", {"handle": tab})

    def new_tab(self):
        self.go(self.ask("POST", "/window/new", {"type": "tab"})["handle"])

    def size(self, width, height, scale=1):
        """Gives what a page has to draw on this size, as near as its window can have it."""
        given = self.ask("POST", "/window/rect", {"width": width, "height": height})
        has = self.script("return [innerWidth, innerHeight]")
        if has != [width, height]:
            self.ask("POST", "/window/rect", {"width": given["width"] + width - has[0], "height": given["height"] + height - has[1]})

    def picture(self, path):
        data = base64.b64decode(self.ask("GET", "/screenshot"))
        with open(path, "wb") as file:
            file.write(data)

    def said(self):
        """What the browser has written to its console, but what is of no weight, where that can be had."""
        return []

    def close(self):
        with contextlib.suppress(Failed, OSError):
            if self.session:
                self.ask("DELETE", "")
        # (with all that they have started)
        for it in reversed(self.started):
            with contextlib.suppress(ProcessLookupError):
                os.killpg(it.pid, signal.SIGKILL)
            it.wait()
        atexit.unregister(self.close)
        shutil.rmtree(self.room, ignore_errors=True)


class Chromium(Browser):
    """Headless Chromium."""

    name, commands = "Chromium", {"chromium": "chromium", "chromedriver": "chromium-driver"}

    def begin(self, width, height, scale):
        words = ["--headless=new", "--no-sandbox", "--disable-gpu", "--disable-dev-shm-usage", "--disable-background-networking", "--hide-scrollbars", "--no-first-run", f"--window-size={width},{height}", f"--force-device-scale-factor={scale}", f"--user-data-dir={self.room}/profile"]
        self.start("chromedriver", f"--port={self.port}")
        self.begin_by({"browserName": "chrome", "goog:chromeOptions": {"args": words, "binary": shutil.which("chromium"), "prefs": {"download.default_directory": self.room}}, "goog:loggingPrefs": {"browser": "ALL"}})

    def chrome(self, command, **given):
        return self.ask("POST", "/goog/cdp/execute", {"cmd": command, "params": given})

    def size(self, width, height, scale=1, mobile=False):
        self.chrome("Emulation.setDeviceMetricsOverride", width=width, height=height, deviceScaleFactor=scale, mobile=mobile)

    def media(self, **features):
        self.chrome("Emulation.setEmulatedMedia", media="", features=[{"name": name.replace("_", "-"), "value": value} for name, value in features.items()])

    def said(self):
        return [it["message"] for it in self.ask("POST", "/se/log", {"type": "browser"}) if it["level"] in ("SEVERE", "WARNING")]


# What Firefox does of itself besides, and is not wanted to do in a test.
PREFERENCES = {
    "app.update.disabledForTesting": True, "browser.newtabpage.enabled": False, "browser.shell.checkDefaultBrowser": False, "browser.startup.homepage_override.mstone": "ignore", "browser.startup.page": 0, "datareporting.policy.dataSubmissionEnabled": False,
    "dom.disable_beforeunload": True, "extensions.update.enabled": False, "network.captive-portal-service.enabled": False, "network.connectivity-service.enabled": False, "security.sandbox.content.level": 0, "services.settings.server": "data:,#remote-settings-dummy/v1", "toolkit.telemetry.enabled": False,
}
# What Marionette calls the commands of a WebDriver: a method and a path, and the name.
MARIONETTE = [
    ("POST /timeouts", "SetTimeouts"), ("POST /url", "Navigate"), ("POST /refresh", "Refresh"), ("POST /execute/async", "ExecuteAsyncScript"), ("POST /element", "FindElement"), ("POST /element/(?P<id>[^/]+)/click", "ElementClick"), ("GET /element/(?P<id>[^/]+)/text", "GetElementText"),
    ("POST /element/(?P<id>[^/]+)/value", "ElementSendKeys"), ("POST /actions", "PerformActions"), ("GET /window/handles", "GetWindowHandles"), ("POST /window", "SwitchToWindow"), ("POST /window/new", "NewWindow"), ("DELETE /window", "CloseWindow"), ("POST /window/rect", "SetWindowRect"),
    ("GET /screenshot", "TakeScreenshot"), ("DELETE ", "DeleteSession"),
]


class Firefox(Browser):
    """Headless Firefox, which speaks Marionette: messages as JSON, each after its length."""

    name, commands = "Firefox", {"firefox-esr": "firefox-esr"}

    def begin(self, width, height, scale):
        profile = f"{self.room}/profile"
        os.mkdir(profile)
        with open(f"{profile}/user.js", "w", encoding="utf-8") as file:
            file.writelines(f"user_pref({json.dumps(name)}, {json.dumps(value)});\n" for name, value in {**PREFERENCES, "marionette.port": self.port}.items())
        self.start("firefox-esr", "--headless", "--no-remote", "--marionette", "--profile", profile, "about:blank", MOZ_HEADLESS="1", MOZ_HEADLESS_WIDTH=str(width), MOZ_HEADLESS_HEIGHT=str(height))
        until = time.monotonic() + MOST_SECONDS
        while True:
            try:
                self.line = socket.create_connection(("127.0.0.1", self.port), timeout=2 * MOST_SECONDS)
                break
            except OSError as failed:
                if self.started[-1].poll() is not None or time.monotonic() > until:
                    raise Gone(f"Firefox does not answer: {failed}") from None
                time.sleep(0.05)
        self.heard, self.count = self.line.makefile("rb"), 0
        self.take()
        self.session = self.send("WebDriver:NewSession", {"capabilities": {"alwaysMatch": {}}})["sessionId"]

    def take(self):
        """Returns the next message."""
        size = b""
        while (sign := self.heard.read(1)) != b":":
            if not sign:
                raise EOFError("Firefox has ended")
            size += sign
        return json.loads(self.heard.read(int(size)))

    def send(self, command, given):
        self.count += 1
        text = json.dumps([0, self.count, command, given]).encode()
        try:
            self.line.sendall(b"%d:%b" % (len(text), text))
            while True:
                kind, number, refused, told = self.take()
                if (kind, number) == (1, self.count):
                    break
        except (OSError, EOFError, ValueError) as failed:
            self.has_ended = True
            raise Gone(f"Firefox does not answer: {failed}") from None
        if refused:
            raise self.failed(f"{refused['error']}: {refused['message']}")
        return told

    def ask(self, method, path, body=None):
        command, found = next((command, found) for form, command in MARIONETTE if (found := re.fullmatch(form, f"{method} {path}")))
        told = self.send(f"WebDriver:{command}", {**(body or {}), **found.groupdict()})
        return told["value"] if isinstance(told, dict) and set(told) == {"value"} else told


MINI_BROWSERS = [f"/usr/lib/{triple}-linux-gnu/{it}/MiniBrowser" for triple in ("x86_64", "aarch64") for it in ("webkit2gtk-4.1", "webkit2gtk-4.0", "webkitgtk-6.0")]


class WebKit(Browser):
    """WebKitGTK's MiniBrowser, on a screen of its own that nobody sees."""

    name, commands = "WebKit", {"WebKitWebDriver": "webkit2gtk-driver", "Xvfb": "xvfb"}

    @classmethod
    def missing(cls):
        return super().missing() or (None if any(map(os.path.exists, MINI_BROWSERS)) else "apt-get install webkit2gtk-driver")

    # (its driver leaves out what is cut off at the end of a row)
    def text(self, selector):
        return self.script("return document.querySelector(arguments[0]).innerText.trim()", selector)

    def begin(self, width, height, scale):
        screen = self.start("Xvfb", "-displayfd", "1", "-screen", "0", "2600x1500x24", "-nolisten", "tcp", out=subprocess.PIPE)
        display = f":{int(screen.stdout.readline() or -1)}"
        how = {"DISPLAY": display, "GDK_BACKEND": "x11", "WEBKIT_DISABLE_COMPOSITING_MODE": "1", "WEBKIT_DISABLE_SANDBOX_THIS_IS_DANGEROUS": "1", "LIBGL_ALWAYS_SOFTWARE": "1", "NO_AT_BRIDGE": "1"}
        self.start("WebKitWebDriver", f"--port={self.port}", **how)
        browser = next(it for it in MINI_BROWSERS if os.path.exists(it))
        self.begin_by({"browserName": "MiniBrowser", "webkitgtk:browserOptions": {"binary": browser, "args": ["--automation", f"--geometry={width}x{height}"]}})


BROWSERS = {it.name: it for it in (Chromium, Firefox, WebKit)}


def url_of(path):
    return f"file://{os.path.realpath(path)}"
