"""A proxy between a browser and desks: it may lose a page, hold a request, answer in the desk's place, serve the desk below a folder,
or spoil the page."""
import base64
import hashlib
import http.client
import http.server
import json
import re
import threading
import urllib.parse
from typing import NamedTuple

SECONDS = 60
HERE = ("127.0.0.1", "localhost")
# what a proxy does not pass on
OWN = ("proxy-connection", "connection")


class Request(NamedTuple):
    """A request of a browser, as a proxy gets it."""

    method: str
    where: object
    fields: list
    body: bytes

    def field(self, name):
        return next((value for known, value in self.fields if known.lower() == name), None)


def page_of(status, reason, fields, text):
    """The bytes of a page."""
    head = [f"HTTP/1.1 {status} {reason}", f"Content-Length: {len(text)}", *(f"{name}: {value}" for name, value in fields)]
    return "\r\n".join([*head, "", ""]).encode() + text


def html_page(status, text="<!doctype html><title>Login</title><h1>Sign in</h1>", fields=()):
    """The bytes of a page that is no page of a desk, as proxies and login services have them."""
    return page_of(status, "Elsewhere", [("Content-Type", "text/html"), *fields], text.encode())


def json_page(status, value):
    """The bytes of a page of a desk."""
    return page_of(status, "Instead", [("Content-Type", "application/json")], json.dumps(value).encode())


def answer_to(request):
    """What the desk answers: status, reason, fields and text; None where it is not reached."""
    line = http.client.HTTPConnection("127.0.0.1", request.where.port or 80, timeout=SECONDS)
    try:
        line.putrequest(request.method, request.where.path or "/", skip_host=True, skip_accept_encoding=True)
        for name, value in request.fields:
            if name.lower() not in OWN:
                line.putheader(name, value)
        line.endheaders(request.body)
        page = line.getresponse()
        fields = [(name, value) for name, value in page.getheaders() if name.lower() not in (*OWN, "content-length")]
        return page.status, page.reason, fields, page.read()
    except (OSError, http.client.HTTPException):
        return None
    finally:
        line.close()


def hashes_in(page):
    """The hashes of a page's style and script, as its policy names them."""
    parts = re.findall(rb"<(?:style|script)>(.*?)</(?:style|script)>", page, re.DOTALL)
    return [base64.b64encode(hashlib.sha256(part).digest()).decode() for part in parts]


def spoiled(fields, page, old, new):
    """The fields and the page with the new text in the place of the old one, under a policy that allows it."""
    if page.count(old.encode()) != 1:
        raise SystemExit(f"the page has this {page.count(old.encode())} times: {old}")
    changed = page.replace(old.encode(), new.encode())
    for was, now in zip(hashes_in(page), hashes_in(changed)):
        fields = [(name, value.replace(was, now)) for name, value in fields]
    return fields, changed


class Gets:
    """The way to the desk for GETs, which can be closed: `with` it a GET is under way there."""

    def __init__(self):
        self.changed, self.is_open, self.under_way = threading.Condition(), True, 0

    def __enter__(self):
        with self.changed:
            self.changed.wait_for(lambda: self.is_open, SECONDS)
            self.under_way += 1

    def __exit__(self, *_):
        with self.changed:
            self.under_way -= 1
            self.changed.notify_all()

    def hold(self):
        """Lets no more pass, and waits until none is under way."""
        with self.changed:
            self.is_open = False
            self.changed.wait_for(lambda: self.under_way == 0, SECONDS)

    def release(self):
        with self.changed:
            self.is_open = True
            self.changed.notify_all()


class Handler(http.server.BaseHTTPRequestHandler):
    """A connection of a browser, which ends where a request gets no page, and where it is for elsewhere."""

    protocol_version = "HTTP/1.1"

    def passes(self):
        where, body = urllib.parse.urlsplit(self.path), self.rfile.read(int(self.headers.get("Content-Length") or 0))
        page = self.server.comes(Request(self.command, where, self.headers.items(), body)) if where.hostname in HERE else None
        self.close_connection = not page
        if page:
            self.wfile.write(page)

    do_GET = do_HEAD = do_POST = do_OPTIONS = passes

    def log_message(self, *_):
        pass


class Network(http.server.ThreadingHTTPServer):
    """`mode` says what becomes of POSTs: each is passed on; or its page is lost once it was carried out; or it is held until it
    is let go, and then lost. `instead` is the status and the page that the next POST gets in the place of the desk's. `gets` holds
    GETs back, where that is asked for. `front` is called with each request, and may return the bytes of a page in the desk's place;
    `before` is called once, before the next POST is passed on. The desk is served below `folder`, where that is given, and is told
    that `signed_in` asks, whoever a request names. With `spoil`, an old and a new text, the desk's page is spoiled."""

    request_queue_size = 64

    def __init__(self, spoil=None):
        super().__init__(("127.0.0.1", 0), Handler)
        self.mode, self.posts, self.paths, self.instead = "pass", [], [], None
        self.front, self.before, self.folder, self.signed_in = None, None, "", ""
        self.spoil, self.let_go, self.gets, self.port = spoil, threading.Event(), Gets(), self.server_address[1]
        threading.Thread(target=self.serve_forever, daemon=True).start()

    def handle_error(self, *_):
        """A browser that has gone away is no fault."""

    def comes(self, request):
        """A request comes: the bytes of its page; nothing where the connection ends instead."""
        path = request.where.path
        self.paths.append((request.method, path, request.field("host")))
        if self.front and (page := self.front(request)):
            return page
        if not path.startswith(self.folder + "/"):
            return html_page(404)
        path = path[len(self.folder):]
        request = request._replace(where=request.where._replace(path=path))
        if self.signed_in:
            others = [field for field in request.fields if field[0].lower() != "desk-agent"]
            request = request._replace(fields=[*others, ("Desk-Agent", self.signed_in)])
        if request.method != "POST":
            if path == "/":
                return self.passed_on(request)
            with self.gets:
                return self.passed_on(request)
        mode, instead = self.mode, self.instead
        self.posts.append((path, request.field("desk-agent"), request.field("desk-key"), request.body))
        if mode == "hold":
            self.let_go.wait(SECONDS)
            return None
        if instead:
            self.instead = None
            return json_page(*instead)
        before, self.before = self.before, None
        if before:
            before()
        page = self.passed_on(request)
        return None if mode == "lose" else page

    def passed_on(self, request):
        """The bytes of the desk's page; None where it is not reached."""
        found = answer_to(request)
        if not found:
            return None
        status, reason, fields, text = found
        if self.spoil and request.where.path == "/":
            fields, text = spoiled(fields, text, *self.spoil)
        return page_of(status, reason, fields, text)

    def end(self):
        self.shutdown()
        self.server_close()
        self.let_go.set()
        self.gets.release()
