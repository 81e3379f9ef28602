"""Drives Debian's browsers without a screen, by the standard library alone: Chromium by its debugging pipe, Firefox by Marionette.

Both have the same calls: `go`, `run` (an expression whose value, or promised value, comes back), `choose` (a file for an input),
`mouse`, `hover`, `wheel`, `fingers`, `swipe`, `type`, `size`, `picture` and `close`.
"""
import base64
import json
import os
import shutil
import socket
import subprocess
import tempfile
import time

SECONDS = 300
WIDTH, HEIGHT = 1000, 900


class Failed(Exception):
    """What a browser answers to a call that went wrong."""


class Chromium:
    name, needs = "chromium", "apt-get install chromium"

    def __init__(self, dark=False, forced=False):
        self.folder = tempfile.mkdtemp()
        self.number, self.loaded = 0, False
        down, self.to = os.pipe()
        self.back, up = os.pipe()
        words = [self.name, "--headless=new", "--remote-debugging-pipe", f"--user-data-dir={self.folder}", "--no-first-run"]
        words += ["--disable-gpu", "--no-sandbox", "--disable-dev-shm-usage", f"--window-size={WIDTH},{HEIGHT}", "about:blank"]
        script = f'exec "$@" 3<&{down} 4>&{up}'
        self.process = subprocess.Popen(
            ["bash", "-c", script, "bash", *words], pass_fds=[down, up], stdout=subprocess.DEVNULL, stderr=subprocess.DEVNULL
        )
        os.close(down)
        os.close(up)
        self.rest, self.session = b"", None
        page = next(one for one in self.call("Target.getTargets")["targetInfos"] if one["type"] == "page")
        self.session = self.call("Target.attachToTarget", targetId=page["targetId"], flatten=True)["sessionId"]
        self.call("Page.enable")
        self.size(WIDTH, HEIGHT)
        media = {"prefers-color-scheme": "dark" if dark else "light", "forced-colors": "active" if forced else "none"}
        self.call("Emulation.setEmulatedMedia", features=[{"name": name, "value": value} for name, value in media.items()])

    def size(self, width, height):
        self.call("Emulation.setDeviceMetricsOverride", width=width, height=height, deviceScaleFactor=1, mobile=False)

    def call(self, method, **params):
        self.number += 1
        message = {"id": self.number, "method": method, "params": params}
        if self.session:
            message["sessionId"] = self.session
        os.write(self.to, json.dumps(message).encode() + b"\0")
        answer = self.message()
        while answer.get("id") != self.number:
            self.loaded |= answer.get("method") == "Page.loadEventFired"
            answer = self.message()
        if "error" in answer:
            raise Failed(f"{method}: {answer['error']['message']}")
        return answer["result"]

    def message(self):
        while b"\0" not in self.rest:
            got = os.read(self.back, 1 << 20)
            if not got:
                raise Failed("chromium has ended")
            self.rest += got
        one, _, self.rest = self.rest.partition(b"\0")
        return json.loads(one)

    def go(self, url):
        self.loaded = False
        self.call("Page.navigate", url=url)
        while not self.loaded:
            self.loaded = self.message().get("method") == "Page.loadEventFired"

    def run(self, expression):
        wish = {"expression": expression, "awaitPromise": True, "returnByValue": True}
        answer = self.call("Runtime.evaluate", **wish)
        if "exceptionDetails" in answer:
            raise Failed(json.dumps(answer["exceptionDetails"])[:500])
        return answer["result"].get("value")

    def choose(self, selector, path):
        root = self.call("DOM.getDocument")["root"]["nodeId"]
        node = self.call("DOM.querySelector", nodeId=root, selector=selector)["nodeId"]
        self.call("DOM.setFileInputFiles", nodeId=node, files=[path])

    def mouse(self, places):
        """Presses at the first place, moves over the others, and releases at the last."""
        kinds = ["mousePressed"] + ["mouseMoved"] * (len(places) - 1) + ["mouseReleased"]
        for kind, (x, y) in zip(kinds, [*places, places[-1]]):
            self.call("Input.dispatchMouseEvent", type=kind, x=x, y=y, button="left", buttons=int(kind != "mouseReleased"), clickCount=1)

    def hover(self, x, y):
        self.call("Input.dispatchMouseEvent", type="mouseMoved", x=x, y=y)

    def wheel(self, x, y, turn):
        self.call("Input.dispatchMouseEvent", type="mouseWheel", x=x, y=y, deltaX=0, deltaY=turn)

    def fingers(self, steps):
        """Two fingers at the places of each step, one step after another."""
        kinds = ["touchStart"] + ["touchMove"] * (len(steps) - 1)
        for kind, step in zip(kinds, steps):
            self.call("Input.dispatchTouchEvent", type=kind, touchPoints=[{"x": x, "y": y, "id": i} for i, (x, y) in enumerate(step)])
        self.call("Input.dispatchTouchEvent", type="touchEnd", touchPoints=[])

    def swipe(self, places):
        """One finger over these places, which may scroll the page."""
        self.call("Emulation.setTouchEmulationEnabled", enabled=True, maxTouchPoints=5)
        kinds = ["touchStart"] + ["touchMove"] * (len(places) - 1)
        for kind, (x, y) in zip(kinds, places):
            self.call("Input.dispatchTouchEvent", type=kind, touchPoints=[{"x": x, "y": y, "id": 0}])
        self.call("Input.dispatchTouchEvent", type="touchEnd", touchPoints=[])
        self.call("Emulation.setTouchEmulationEnabled", enabled=False)

    def type(self, key, code=0, shift=False):
        for kind in ("keyDown", "keyUp"):
            text = {"text": key} if len(key) == 1 and kind == "keyDown" else {}
            self.call("Input.dispatchKeyEvent", type=kind, key=key, windowsVirtualKeyCode=code, modifiers=8 * shift, **text)

    def picture(self, path):
        data = self.call("Page.captureScreenshot", format="png")["data"]
        with open(path, "wb") as file:
            file.write(base64.b64decode(data))

    def close(self):
        try:
            self.session = None
            self.call("Browser.close")
            self.process.wait(10)
        except (Failed, OSError, subprocess.TimeoutExpired):
            self.process.kill()
            self.process.wait()
        shutil.rmtree(self.folder, ignore_errors=True)


KEYS = {"Escape": "\ue00c", "ArrowLeft": "\ue012", "ArrowUp": "\ue013", "ArrowRight": "\ue014", "ArrowDown": "\ue015", "Shift": "\ue008"}


class Firefox:
    name, needs = "firefox-esr", "apt-get install firefox-esr"

    def __init__(self, dark=False, forced=False):
        self.folder = tempfile.mkdtemp()
        self.number = 0
        port = free_port()
        prefs = {
            "marionette.port": port,
            "layout.css.prefers-color-scheme.content-override": 0 if dark else 1,
            "ui.systemUsesDarkTheme": int(dark),
            "browser.display.document_color_use": 2 if forced else 0,
            "datareporting.policy.dataSubmissionEnabled": False,
            "browser.shell.checkDefaultBrowser": False,
            "app.update.enabled": False,
        }
        with open(os.path.join(self.folder, "user.js"), "w") as file:
            file.writelines(f"user_pref({json.dumps(name)}, {json.dumps(value)});\n" for name, value in prefs.items())
        words = [self.name, "--headless", "--marionette", "--profile", self.folder, "--no-remote"]
        environment = {**os.environ, "HOME": self.folder, "MOZ_HEADLESS_WIDTH": str(WIDTH), "MOZ_HEADLESS_HEIGHT": str(HEIGHT)}
        self.process = subprocess.Popen(words, stdout=subprocess.DEVNULL, stderr=subprocess.DEVNULL, env=environment)
        self.socket = connected(port)
        self.rest = b""
        self.message()
        self.call("WebDriver:NewSession", capabilities={"alwaysMatch": {"unhandledPromptBehavior": "dismiss"}})
        self.call("WebDriver:SetTimeouts", script=1000 * SECONDS, pageLoad=1000 * SECONDS)
        self.size(WIDTH, HEIGHT)

    def size(self, width, height):
        """The inner size: what the window has round it is added."""
        self.call("WebDriver:SetWindowRect", width=width, height=height)
        inner = self.run("[innerWidth, innerHeight]")
        self.call("WebDriver:SetWindowRect", width=2 * width - inner[0], height=2 * height - inner[1])

    def call(self, method, **params):
        self.number += 1
        data = json.dumps([0, self.number, method, params]).encode()
        self.socket.sendall(str(len(data)).encode() + b":" + data)
        _, _, error, result = self.message()
        if error:
            raise Failed(f"{method}: {error['message']}")
        return result

    def message(self):
        while b":" not in self.rest:
            self.more()
        length, _, self.rest = self.rest.partition(b":")
        while len(self.rest) < int(length):
            self.more()
        one, self.rest = self.rest[: int(length)], self.rest[int(length) :]
        return json.loads(one)

    def more(self):
        got = self.socket.recv(1 << 20)
        if not got:
            raise Failed("firefox has ended")
        self.rest += got

    def go(self, url):
        self.call("WebDriver:Navigate", url=url)

    def run(self, expression):
        script = f"const done = arguments[0]; (async () => ({expression}))().then((value) => done([value]), (error) => done(String(error)))"
        answer = self.call("WebDriver:ExecuteAsyncScript", script=script, args=[], sandbox=None)["value"]
        if isinstance(answer, str):
            raise Failed(answer)
        return answer[0]

    def element(self, selector):
        return next(iter(self.call("WebDriver:FindElement", using="css selector", value=selector)["value"].values()))

    def choose(self, selector, path):
        self.call("WebDriver:ElementSendKeys", id=self.element(selector), text=path)

    def mouse(self, places):
        moves = [{"type": "pointerMove", "x": int(x), "y": int(y), "duration": 0} for x, y in places]
        actions = [moves[0], {"type": "pointerDown", "button": 0}, *moves[1:], {"type": "pointerUp", "button": 0}]
        pointer = {"type": "pointer", "id": "mouse", "parameters": {"pointerType": "mouse"}, "actions": actions}
        self.act(pointer)

    def hover(self, x, y):
        move = {"type": "pointerMove", "x": int(x), "y": int(y), "duration": 0}
        self.call("WebDriver:PerformActions", actions=[{"type": "pointer", "id": "mouse", "parameters": {"pointerType": "mouse"}, "actions": [move]}])

    def act(self, *sources):
        self.call("WebDriver:PerformActions", actions=list(sources))
        self.call("WebDriver:ReleaseActions")

    def wheel(self, x, y, turn):
        scroll = {"type": "scroll", "x": int(x), "y": int(y), "deltaX": 0, "deltaY": turn, "duration": 0}
        self.act({"type": "wheel", "id": "wheel", "actions": [scroll]})

    def fingers(self, steps):
        """Two fingers at the places of each step, one step after another."""
        self.act(*(self.finger(i, [step[i] for step in steps]) for i in range(2)))

    def swipe(self, places):
        """One finger over these places. Marionette tells the page alone of it, and doesn't scroll."""
        moves = [{"type": "pointerMove", "x": int(x), "y": int(y), "duration": 0} for x, y in places]
        actions = [moves[0], {"type": "pointerDown", "button": 0}, *moves[1:], {"type": "pointerUp", "button": 0}]
        self.act({"type": "pointer", "id": "finger0", "parameters": {"pointerType": "touch"}, "actions": actions})

    def finger(self, number, places):
        """One of them acts at a time: Firefox tells pages the first alone of two that act at once."""
        moves = [{"type": "pointerMove", "x": int(x), "y": int(y), "duration": 0} for x, y in places]
        own = [{"type": "pointerDown", "button": 0}, *moves[1:], {"type": "pointerUp", "button": 0}]
        pause = {"type": "pause", "duration": 0}
        turns = [one for act in own for one in ([act, pause] if number == 0 else [pause, act])]
        return {"type": "pointer", "id": f"finger{number}", "parameters": {"pointerType": "touch"}, "actions": [moves[0], *turns]}

    def type(self, key, code=0, shift=False):
        keys = [KEYS["Shift"]] * shift + [KEYS.get(key, key)]
        actions = [{"type": "keyDown", "value": one} for one in keys] + [{"type": "keyUp", "value": one} for one in reversed(keys)]
        self.act({"type": "key", "id": "keys", "actions": actions})

    def picture(self, path):
        data = self.call("WebDriver:TakeScreenshot", full=False)["value"]
        with open(path, "wb") as file:
            file.write(base64.b64decode(data))

    def close(self):
        try:
            self.call("Marionette:Quit", flags=["eForceQuit"])
            self.process.wait(10)
        except (Failed, OSError, subprocess.TimeoutExpired):
            self.process.kill()
            self.process.wait()
        self.socket.close()
        shutil.rmtree(self.folder, ignore_errors=True)


def free_port():
    with socket.socket() as one:
        one.bind(("127.0.0.1", 0))
        return one.getsockname()[1]


def connected(port):
    """A browser takes a while until it listens."""
    last = None
    for _ in range(10 * SECONDS):
        try:
            one = socket.create_connection(("127.0.0.1", port), SECONDS)
            one.settimeout(SECONDS)
            return one
        except OSError as error:
            last = error
            time.sleep(0.1)
    raise Failed(f"firefox doesn't listen: {last}")


BROWSERS = [Chromium, Firefox]
