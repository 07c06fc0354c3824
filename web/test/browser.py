"""Drives headless Chromium through its driver, with Python's own library alone."""

import base64
import json
import shutil
import socket
import subprocess
import time
import urllib.error
import urllib.request

CHROMIUM = shutil.which("chromium") or shutil.which("chromium-browser") or shutil.which("google-chrome")
DRIVER = shutil.which("chromedriver")
ELEMENT = "element-6066-11e4-a52e-4f735466cecf"


def free_port():
    with socket.socket() as it:
        it.bind(("127.0.0.1", 0))
        return it.getsockname()[1]


class Browser:
    """A browser with one window. `downloads` is the folder of what a page saves."""

    def __init__(self, downloads, width=1100, height=1400, dark=False, words=()):
        port = free_port()
        self.driver = subprocess.Popen([DRIVER, f"--port={port}", "--silent"], stdout=subprocess.DEVNULL, stderr=subprocess.DEVNULL)
        self.base = f"http://127.0.0.1:{port}"
        self.opener = urllib.request.build_opener(urllib.request.ProxyHandler({}))
        for _ in range(100):
            try:
                self.opener.open(self.base + "/status", timeout=2)
                break
            except OSError:
                time.sleep(0.1)
        options = {
            "binary": CHROMIUM,
            "args": ["--headless=new", "--no-sandbox", "--disable-gpu", "--disable-dev-shm-usage", "--hide-scrollbars", f"--window-size={width},{height}",
                     *(["--blink-settings=preferredColorScheme=0", "--force-dark-mode"] if dark else []), *words],
            "prefs": {"download.default_directory": downloads, "download.prompt_for_download": False},
        }
        asked = {"browserName": "chrome", "goog:chromeOptions": options, "goog:loggingPrefs": {"performance": "ALL", "browser": "ALL"}}
        made = self.call("POST", "/session", {"capabilities": {"alwaysMatch": asked}})
        self.base += "/session/" + made["sessionId"]
        self.version = made["capabilities"]["browserVersion"]
        self.call("POST", "/timeouts", {"script": 120000})

    def call(self, method, path, body=None):
        asked = urllib.request.Request(self.base + path, method=method, data=None if body is None else json.dumps(body).encode(), headers={"Content-Type": "application/json"})
        try:
            with self.opener.open(asked, timeout=180) as answer:
                return json.loads(answer.read())["value"]
        except urllib.error.HTTPError as error:
            raise RuntimeError(error.read().decode()[:600]) from None

    def go(self, url):
        self.call("POST", "/url", {"url": url})

    def run(self, script, *given):
        return self.call("POST", "/execute/sync", {"script": script, "args": list(given)})

    def run_async(self, script, *given):
        return self.call("POST", "/execute/async", {"script": script, "args": list(given)})

    def wait(self, script, *given, seconds=30):
        until = time.time() + seconds
        while time.time() < until:
            found = self.run(script, *given)
            if found:
                return found
            time.sleep(0.02)
        raise RuntimeError("it did not come: " + script)

    def element(self, id):
        return self.call("POST", "/element", {"using": "css selector", "value": "#" + id})[ELEMENT]

    def keys(self, id, text):
        """Types into an element, or names a file for one that takes files."""
        self.call("POST", f"/element/{self.element(id)}/value", {"text": text})

    def fill(self, id, text):
        self.run("document.getElementById(arguments[0]).value = arguments[1]", id, text)

    def click(self, id):
        self.call("POST", f"/element/{self.element(id)}/click", {})

    def text(self, id):
        return self.run("return document.getElementById(arguments[0]).textContent", id)

    def logs(self, kind):
        return self.call("POST", "/se/log", {"type": kind})

    def picture(self, path):
        with open(path, "wb") as file:
            file.write(base64.b64decode(self.call("GET", "/screenshot")))

    def close(self):
        try:
            self.call("DELETE", "")
        except (RuntimeError, OSError):
            pass
        self.driver.terminate()
        self.driver.wait()
