"""A browser that is driven by the W3C WebDriver protocol, with the standard library alone: Chromium, by its driver."""
import base64
import json
import os
import shutil
import socket
import subprocess
import time
import urllib.error
import urllib.request

from running import Failed

ELEMENT = "element-6066-11e4-a52e-4f735466cecf"
KEYS = {
    "Enter": "\ue007", "Escape": "\ue00c", "Delete": "\ue017", "Left": "\ue012", "Up": "\ue013", "Right": "\ue014", "Down": "\ue015", "Tab": "\ue004",
    "Shift": "\ue008", "Control": "\ue009",
}
OPTIONS = ["--headless=new", "--no-sandbox", "--disable-gpu", "--disable-dev-shm-usage", "--window-size=1400,1000", "--hide-scrollbars"]
# The seconds after which something has failed; a machine that is busy with proofs takes its time.
PATIENCE = 120


class NoBrowser(Exception):
    """There is no Chromium, or no driver of it."""


def free_port():
    with socket.socket() as it:
        it.bind(("127.0.0.1", 0))
        return it.getsockname()[1]


class Browser:
    def __init__(self, shots):
        driver = shutil.which("chromedriver")
        browser = next(filter(None, map(shutil.which, ("chromium", "chromium-browser", "google-chrome"))), None)
        if not driver or not browser:
            raise NoBrowser("there is no chromium with chromedriver in PATH (Debian: apt-get install chromium chromium-driver)")
        self.shots, port = shots, free_port()
        self.driver = subprocess.Popen([driver, f"--port={port}"], stdout=subprocess.DEVNULL, stderr=subprocess.DEVNULL, start_new_session=True)
        self.top = f"http://127.0.0.1:{port}"
        options = {"binary": browser, "args": OPTIONS}
        asked = {"browserName": "chrome", "goog:chromeOptions": options, "goog:loggingPrefs": {"browser": "ALL"}}
        until(lambda: self.is_up(), "the driver answers")
        self.session = self.ask("POST", "/session", {"capabilities": {"alwaysMatch": asked}})["sessionId"]

    def is_up(self):
        try:
            return self.ask("GET", "/status")["ready"]
        except OSError:
            return False

    def ask(self, method, path, body=None):
        data = None if body is None else json.dumps(body).encode()
        request = urllib.request.Request(self.top + path, data, {"Content-Type": "application/json"}, method=method)
        try:
            with urllib.request.urlopen(request, timeout=120) as it:
                return json.loads(it.read())["value"]
        except urllib.error.HTTPError as why:
            raise Failed(json.loads(why.read())["value"]["message"].splitlines()[0]) from None

    def do(self, path, body=None, method="POST"):
        return self.ask(method, f"/session/{self.session}/{path}", body if method == "POST" else None)

    def end(self):
        try:
            self.ask("DELETE", f"/session/{self.session}")
        except OSError:
            pass
        finally:
            self.driver.terminate()
            self.driver.wait()

    def go(self, url):
        self.do("url", {"url": url})

    def script(self, code, *words):
        return self.do("execute/sync", {"script": code, "args": list(words)})

    def cdp(self, name, **fields):
        return self.do("goog/cdp/execute", {"cmd": name, "params": fields})

    def find(self, css):
        return self.do("element", {"using": "css selector", "value": css})[ELEMENT]

    def text(self, css):
        return self.script("return document.querySelector(arguments[0]).innerText", css)

    def click(self, css):
        self.do(f"element/{self.find(css)}/click", {})

    def type(self, css, text, clears=True):
        it = self.find(css)
        if clears:
            self.do(f"element/{it}/clear", {})
        self.do(f"element/{it}/value", {"text": text})

    def keys(self, *keys):
        """Presses keys one after the other, to what has the focus; a tuple is keys that are held together."""
        made = []
        for key in keys:
            held = [KEYS.get(it, it) for it in (key if isinstance(key, tuple) else (key,))]
            made += [{"type": "keyDown", "value": it} for it in held] + [{"type": "keyUp", "value": it} for it in reversed(held)]
        self.do("actions", {"actions": [{"type": "key", "id": "keys", "actions": made}]})

    def drag(self, start, end, kind="mouse"):
        """Presses at one place of the window, goes to another one, and lets go."""
        at = lambda place, duration: {"type": "pointerMove", "duration": duration, "x": round(place[0]), "y": round(place[1])}
        middle = [(one + other) / 2 for one, other in zip(start, end)]
        moves = [at(start, 0), {"type": "pointerDown", "button": 0}, at(middle, 60), at(end, 60), {"type": "pointerUp", "button": 0}]
        self.do("actions", {"actions": [{"type": "pointer", "id": kind, "parameters": {"pointerType": kind}, "actions": moves}]})

    def press(self, place):
        self.drag(place, place)

    def wheel(self, place, amount):
        turned = {"type": "scroll", "x": round(place[0]), "y": round(place[1]), "deltaX": 0, "deltaY": amount}
        self.do("actions", {"actions": [{"type": "wheel", "id": "wheel", "actions": [turned]}]})

    def shot(self, name):
        with open(os.path.join(self.shots, f"{name}.png"), "wb") as it:
            it.write(base64.b64decode(self.do("screenshot", method="GET")))

    def wait(self, code, what, seconds=PATIENCE):
        """Waits until an expression of the page holds, and returns its value."""
        return until(lambda: self.script(f"return {code}"), what, seconds)

    def errors(self):
        """Returns what the console has had of errors and warnings since this was last asked."""
        return [it["message"] for it in self.do("se/log", {"type": "browser"}) if it["level"] in ("SEVERE", "WARNING")]


def until(holds, what, seconds=PATIENCE):
    end = time.monotonic() + seconds
    while not (found := holds()):
        if time.monotonic() > end:
            raise Failed(f"not within {seconds} s: {what}")
        time.sleep(0.05)
    return found
