"""Drives Chromium through chromedriver, which speaks JSON over HTTP (the WebDriver of W3C); needs no library."""
import base64
import json
import shutil
import subprocess
import time
import urllib.error
import urllib.request

ELEMENT = "element-6066-11e4-a52e-4f735466cecf"  # the key under which WebDriver names an element
BROWSER = shutil.which("chromium") or shutil.which("chromium-browser") or shutil.which("google-chrome")
DRIVER = shutil.which("chromedriver")
MISSING = None if BROWSER and DRIVER else "there is no Chromium with chromedriver: apt install chromium chromium-driver"


class Chromium:
    """A window without a screen, of this size, that saves what is downloaded in a folder."""

    def __init__(self, folder, width=1320, height=900, is_dark=False):
        self.driver = subprocess.Popen([DRIVER, "--port=0"], stdout=subprocess.PIPE, stderr=subprocess.DEVNULL, text=True)
        try:
            self.base = f"http://127.0.0.1:{self.port()}"
            words = ["--headless=new", "--no-sandbox", "--hide-scrollbars", "--disable-gpu", f"--window-size={width},{height}"]
            prefs = {"download.default_directory": str(folder), "profile.default_content_setting_values.automatic_downloads": 1}
            wanted = {
                "browserName": "chrome",
                "goog:chromeOptions": {"binary": BROWSER, "args": words, "prefs": prefs},
                "goog:loggingPrefs": {"browser": "ALL"},
            }
            self.base += "/session/" + self.session({"capabilities": {"alwaysMatch": wanted}})
            screen = {"width": width, "height": height, "deviceScaleFactor": 1, "mobile": False}
            self.devtools("Emulation.setDeviceMetricsOverride", **screen)
            scheme = {"name": "prefers-color-scheme", "value": "dark" if is_dark else "light"}
            self.devtools("Emulation.setEmulatedMedia", features=[scheme])
        except BaseException:
            self.driver.kill()
            raise

    def session(self, wanted):
        """A new session. On a busy machine Chromium may begin too late for its driver, and is asked again."""
        for is_last in (False, False, True):
            try:
                return self.ask("POST", "/session", wanted)["sessionId"]
            except OSError as fault:
                if is_last or "session not created" not in str(fault):
                    raise

    def port(self):
        for line in self.driver.stdout:
            if "started successfully on port" in line:
                return line.split("port ")[1].strip(" .\n")
        raise OSError("chromedriver doesn't start")

    def ask(self, method, path, body=None):
        data = None if body is None else json.dumps(body).encode()
        request = urllib.request.Request(self.base + path, data, {"Content-Type": "application/json"}, method=method)
        try:
            with urllib.request.urlopen(request, timeout=600) as answer:
                return json.load(answer)["value"]
        except urllib.error.HTTPError as error:
            raise OSError(json.load(error)["value"]["message"]) from None

    def devtools(self, command, **words):
        return self.ask("POST", "/goog/cdp/execute", {"cmd": command, "params": words})

    def open(self, address):
        self.ask("POST", "/url", {"url": address})

    def call(self, script, *words):
        """What a script of the page returns."""
        return self.ask("POST", "/execute/sync", {"script": script, "args": list(words)})

    def type_into(self, name, text):
        """Types into the element with this id; a field of files takes their paths."""
        element = self.ask("POST", "/element", {"using": "css selector", "value": f"#{name}"})[ELEMENT]
        self.ask("POST", f"/element/{element}/value", {"text": text})

    def act(self, kind, name, actions, **more):
        self.ask("POST", "/actions", {"actions": [{"type": kind, "id": name, "actions": actions, **more}]})

    def press(self, *keys):
        self.act("key", "keys", [{"type": kind, "value": key} for key in keys for kind in ("keyDown", "keyUp")])

    def picture(self, file):
        time.sleep(0.3)
        file.write_bytes(base64.b64decode(self.ask("GET", "/screenshot")))

    def errors(self):
        lines = self.ask("POST", "/se/log", {"type": "browser"})
        return [line["message"] for line in lines if line["level"] == "SEVERE"]

    def close(self):
        try:
            self.ask("DELETE", "")
        finally:
            self.driver.terminate()
            self.driver.wait()
            self.driver.stdout.close()
