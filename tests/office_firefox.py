"""A window of headless Firefox, driven by the protocol that Firefox itself speaks (Marionette), for which it needs no further program."""
import json
import os
import shutil
import socket
import subprocess
from pathlib import Path

from driving import PATIENCE
from page_driving import wait_until
from ports import free_port

FIREFOX = shutil.which("firefox-esr") or shutil.which("firefox")
# what the address names is sent without a question, and nothing is asked of elsewhere
CHOICES = {
    "network.auth.confirmAuth.enabled": False, "intl.accept_languages": "en-GB,en", "browser.shell.checkDefaultBrowser": False,
    "datareporting.policy.dataSubmissionEnabled": False, "app.update.enabled": False,
}
# clicks the button of this text, once it may be pressed; says whether it did
PRESSES = """const one = [...document.querySelectorAll('main button')].find(one => one.checkVisibility() && one.ariaDisabled !== 'true'
  && one.textContent === arguments[0]);
one?.click();
return !!one"""


class Firefox:
    """The window, with a profile in this folder."""

    def __init__(self, folder):
        self.port, self.asked = free_port(), 0
        os.makedirs(folder)
        chosen = {**CHOICES, "marionette.port": self.port}.items()
        lines = [f"user_pref({json.dumps(name)}, {json.dumps(value)});\n" for name, value in chosen]
        Path(folder, "user.js").write_text("".join(lines), encoding="utf-8")
        self.process = subprocess.Popen(
            [FIREFOX, "--headless", "--marionette", "--no-remote", "--profile", folder], stdin=subprocess.DEVNULL,
            stdout=subprocess.DEVNULL, stderr=subprocess.DEVNULL, env={**os.environ, "HOME": folder},
        )
        self.line = wait_until(self.connected, "Firefox")
        self.answers = self.line.makefile("rb")
        self.answer()
        self.ask("WebDriver:NewSession", {"acceptInsecureCerts": True})

    def connected(self):
        try:
            return socket.create_connection(("127.0.0.1", self.port), PATIENCE)
        except OSError:
            return None

    def answer(self):
        """The next message: its length, a colon, and JSON."""
        length = b""
        while (byte := self.answers.read(1)).isdigit():
            length += byte
        return json.loads(self.answers.read(int(length)))

    def ask(self, name, words):
        self.asked += 1
        text = json.dumps([0, self.asked, name, words]).encode()
        self.line.sendall(b"%d:%s" % (len(text), text))
        _, _, wrong, result = self.answer()
        if wrong:
            raise AssertionError(f"Firefox, {name}: {wrong}")
        return result

    def open(self, url):
        self.ask("WebDriver:Navigate", {"url": url})

    def script(self, text, *words):
        return self.ask("WebDriver:ExecuteScript", {"script": text, "args": words})["value"]

    def shows(self, text, css="body"):
        found = lambda: self.script("return document.querySelector(arguments[0])?.innerText || ''", css)
        wait_until(lambda: text in found(), lambda: f"{text!r} in {css} of Firefox; it is {found()!r}")

    def press(self, name):
        wait_until(lambda: self.script(PRESSES, name), f"a button {name!r} in Firefox")

    def gives(self, css, value):
        """Gives a whole value to a field."""
        self.script("""const one = document.querySelector(arguments[0]);
          one.value = arguments[1];
          one.dispatchEvent(new Event('change', {bubbles: true}));""", css, value)

    def end(self):
        self.line.close()
        self.process.terminate()
        self.process.wait()
