"""Own journeys over HTTP, as a plain server in Python gives them: a thread and an open database for each connection, one statement for
each page, over a desk's file. What ./bench compares GET /mine with.

serve_mine.py FILE PORT    says `ready` once it listens, and serves until it is ended
"""
import json
import sqlite3
import sys
from http.server import BaseHTTPRequestHandler, ThreadingHTTPServer

OWN = "SELECT id, pos, phase, target FROM journey WHERE agent = ?1 AND id > 0 ORDER BY id LIMIT 100"
STATES = ("run", "back", "ended", "undone")


def shown(row):
    """A journey, as a page shows it."""
    number, pos, phase, target = row
    brief = {"journey": number, "pos": pos, "state": STATES[phase]}
    return {**brief, "target": target} if STATES[phase] == "back" else brief


class Server(ThreadingHTTPServer):
    daemon_threads = True
    request_queue_size = 300


class Handler(BaseHTTPRequestHandler):
    """One connection."""

    protocol_version = "HTTP/1.1"
    disable_nagle_algorithm = True

    def setup(self):
        super().setup()
        self.database = sqlite3.connect(sys.argv[1])

    def do_GET(self):
        rows = self.database.execute(OWN, (self.headers["Desk-Agent"],))
        body = json.dumps({"mine": [shown(row) for row in rows]}, separators=(",", ":")).encode()
        head = f"HTTP/1.1 200 OK\r\nContent-Length: {len(body)}\r\nContent-Type: application/json\r\n\r\n"
        self.wfile.write(head.encode() + body)

    def log_message(self, *_):
        pass


server = Server(("127.0.0.1", int(sys.argv[2])), Handler)
print("ready", flush=True)
server.serve_forever()
