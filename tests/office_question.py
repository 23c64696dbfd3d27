"""The question for a name and a password. Chromium asks it in a window of its own, which its driver does not reach. So it is answered
by Chromium's own protocol, which is spoken to one window beside the driver."""
import json
import socket
import threading
from collections import deque

from driving import PATIENCE
from page_driving import wait_until

UPGRADE = "\r\n".join((
    "GET /devtools/page/{window} HTTP/1.1", "Host: {address}", "Connection: Upgrade", "Upgrade: websocket", "Sec-WebSocket-Version: 13",
    "Sec-WebSocket-Key: AAAAAAAAAAAAAAAAAAAAAA==", "", "",
))


class Questions:
    """The questions that are asked in this window from now on. Each stands until it is cancelled or answered."""

    def __init__(self, browser):
        address = browser.driver.capabilities["goog:chromeOptions"]["debuggerAddress"]
        host, port = address.split(":")
        self.line = socket.create_connection((host, int(port)), PATIENCE)
        self.line.sendall(UPGRADE.format(window=browser.driver.current_window_handle, address=address).encode())
        self.said, self.asked = self.line.makefile("rb"), deque()
        while self.said.readline().strip():
            pass
        self.line.settimeout(None)
        self.send("Fetch.enable", handleAuthRequests=True)
        threading.Thread(target=self.listen, daemon=True).start()

    def send(self, method, **words):
        """Sends a command: a text in one frame, masked by zeros."""
        text = json.dumps({"id": 1, "method": method, "params": words}).encode()
        length = bytes([128 + len(text)]) if len(text) < 126 else b"\xfe" + len(text).to_bytes(2, "big")
        self.line.sendall(b"\x81" + length + bytes(4) + text)

    def messages(self):
        """What the browser says: each message is a text in one frame."""
        while head := self.said.read(2):
            length = head[1] if head[1] < 126 else int.from_bytes(self.said.read(2 if head[1] == 126 else 8), "big")
            yield json.loads(self.said.read(length))

    def listen(self):
        """Lets each request of the window go on, and keeps its questions."""
        for message in self.messages():
            if message.get("method") == "Fetch.requestPaused":
                self.send("Fetch.continueRequest", requestId=message["params"]["requestId"])
            elif message.get("method") == "Fetch.authRequired":
                self.asked.append(message["params"]["requestId"])

    def click_on(self, css):
        """Clicks what leads to a question of a whole page, for which the driver would wait, and so for the answer."""
        self.send("Runtime.evaluate", expression=f"document.querySelector({json.dumps(css)}).click()")

    def comes(self):
        """The next question, which is then to be cancelled or answered."""
        return wait_until(lambda: self.asked and self.asked.popleft(), "a question for a name and a password")

    def cancel(self, question):
        self.send("Fetch.continueWithAuth", requestId=question, authChallengeResponse={"response": "CancelAuth"})

    def answer(self, question, user, password):
        answer = {"response": "ProvideCredentials", "username": user, "password": password}
        self.send("Fetch.continueWithAuth", requestId=question, authChallengeResponse=answer)

    def __enter__(self):
        return self

    def __exit__(self, *_):
        self.line.shutdown(socket.SHUT_RDWR)
        self.line.close()
