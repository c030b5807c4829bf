"""Drives Firefox through Marionette, which speaks JSON over a socket; needs no library."""
import base64
import json
import shutil
import socket
import subprocess
import tempfile
import time
from pathlib import Path

BROWSER = shutil.which("firefox-esr") or shutil.which("firefox")
MISSING = None if BROWSER else "there is no Firefox: apt install firefox-esr"
ELEMENT = "element-6066-11e4-a52e-4f735466cecf"  # the key under which WebDriver names an element


def free_port():
    with socket.socket() as one:
        one.bind(("127.0.0.1", 0))
        return one.getsockname()[1]


class Firefox:
    """A window without a screen, of this size."""

    def __init__(self, folder, width=1320, height=900):
        self.profile, port = Path(tempfile.mkdtemp(prefix="firefox_", dir=folder)), free_port()
        prefs = {"marionette.port": port, "browser.shell.checkDefaultBrowser": False, "datareporting.policy.dataSubmissionEnabled": False,
                 "app.update.enabled": False, "toolkit.telemetry.enabled": False, "browser.startup.page": 0}
        lines = [f"user_pref({json.dumps(name)}, {json.dumps(value)});\n" for name, value in prefs.items()]
        (self.profile / "user.js").write_text("".join(lines), encoding="ascii")
        words = [BROWSER, "--headless", "--marionette", "--no-remote", "--profile", str(self.profile), "--width", str(width), "--height", str(height)]
        self.browser = subprocess.Popen(words, stdout=subprocess.DEVNULL, stderr=subprocess.DEVNULL)
        self.count, self.rest = 0, b""
        try:
            self.socket = self.connected(port)
            self.message()
            self.ask("WebDriver:NewSession", {"capabilities": {"alwaysMatch": {}}})
            self.ask("WebDriver:SetWindowRect", {"width": width, "height": height})
        except BaseException:
            self.browser.kill()
            raise

    def connected(self, port):
        end = time.time() + 120
        while time.time() < end:
            try:
                return socket.create_connection(("127.0.0.1", port), timeout=180)
            except OSError:
                time.sleep(0.2)
        raise OSError("Firefox doesn't start")

    def message(self):
        """The next message: its length in decimal, a colon, JSON."""
        while b":" not in self.rest:
            self.rest += self.received()
        length, _, self.rest = self.rest.partition(b":")
        while len(self.rest) < int(length):
            self.rest += self.received()
        body, self.rest = self.rest[:int(length)], self.rest[int(length):]
        return json.loads(body)

    def received(self):
        data = self.socket.recv(65536)
        if not data:
            raise OSError("Firefox has gone")
        return data

    def ask(self, command, words):
        self.count += 1
        body = json.dumps([0, self.count, command, words]).encode()
        self.socket.sendall(b"%d:%s" % (len(body), body))
        _, _, error, answer = self.message()
        if error:
            raise OSError(error["message"])
        return answer.get("value") if isinstance(answer, dict) and set(answer) == {"value"} else answer

    def open(self, address):
        self.ask("WebDriver:Navigate", {"url": address})

    def call(self, script, *words):
        """What a script over the document returns; it sees no names of the page's scripts."""
        return self.ask("WebDriver:ExecuteScript", {"script": script, "args": list(words)})

    def type_into(self, name, text):
        element = self.ask("WebDriver:FindElement", {"using": "css selector", "value": f"#{name}"})[ELEMENT]
        self.ask("WebDriver:ElementSendKeys", {"id": element, "text": text})

    def press(self, *keys):
        steps = [{"type": kind, "value": key} for key in keys for kind in ("keyDown", "keyUp")]
        self.ask("WebDriver:PerformActions", {"actions": [{"type": "key", "id": "keys", "actions": steps}]})

    def picture(self, file):
        file.write_bytes(base64.b64decode(self.ask("WebDriver:TakeScreenshot", {"full": False})))

    def errors(self):
        return []  # Marionette has no call for them

    def close(self):
        try:
            self.ask("Marionette:Quit", {"flags": ["eForceQuit"]})
        except OSError:
            pass
        self.socket.close()
        self.browser.terminate()
        self.browser.wait()
