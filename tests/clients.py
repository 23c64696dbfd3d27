"""Bookings by clients and proxies as Debian has them, each with the settings of docs/CLIENTS_BY_LANGUAGE.md and docs/PROXIES.md: a
journey is begun and its step done, each twice under its key, and then read. Directly, and through each proxy. Prints what went wrong;
a client or proxy that is absent is named in the last line. More than 200 lines: each client has each of its ways."""
import contextlib
import csv
import http.client
import json
import os
import shutil
import signal
import socket
import sqlite3
import subprocess
import sys
import uuid
from pathlib import Path

from driving import PLAN, Desk, asked, parts_of, request, same, waits_for, wrong
from ports import accepts, free_port
from proxies import begins, for_apache

HERE = Path(__file__).parent / "clients"
# a Python that has requests, where one has
PYTHON = next((it for it in ("python3", "/usr/bin/python3") if not os.system(f"{it} -c 'import requests' 2>/dev/null")), "false")
ROWS = b"kind,supplier,product,night,places\nflight,AL,A1,2030-06-01,1000\n"
# what is to succeed where a client is here, what compiles it, and its command
CLIENTS = {
    "curl": ("curl --version", "", f"bash {HERE}/booking.bash"),
    "python": ("python3 --version", "", f"python3 {HERE}/booking.py"),
    "requests": (f"{PYTHON} --version", "", f"{PYTHON} {HERE}/booking.py"),
    "node": ("node --version", "", f"node {HERE}/booking.mjs"),
    "php": ("php -r 'exit(extension_loaded(\"curl\") ? 0 : 1);'", "", f"php {HERE}/booking.php"),
    "ruby": ("ruby --version", "", f"ruby {HERE}/booking.rb"),
    "java": ("javac --version", f"javac -d java {HERE}/Booking.java", "java -cp java Booking"),
    "go": ("go version", f"GOCACHE=$PWD/go.cache go build -o booking {HERE}/booking.go", "./booking"),
}
# the ways of docs/CLIENTS.md that the desk reads as it comes
PLAIN = """curl curl, python http.client, python urllib, requests requests, node fetch, node http, php curl, php streams, ruby net-http,
java java, java url, go go"""
# bodies in chunks, of which nginx makes a length
CHUNKED = """curl curl-chunks, python http.client-file, python urllib-file, requests requests-generator, node fetch-stream, node http-write,
ruby net-http-stream, java java-stream, go go-file"""
# the further ways that the desk reads with --wide alone
WIDE = """curl curl-bare, curl curl-1.0, curl curl-expect, node http-continue, php curl-post, php streams-bare, php streams-1.0,
java java-expect, java url-bare, go go-expect"""
# nginx over HTTP/1.1, the same over connections that are kept open, as it comes over HTTP/1.0, and with chunks passed on as they come
POOL = 'proxy_http_version 1.1; proxy_set_header Connection "";'
NGINX = {
    "nginx": ("127.0.0.1:{0}", "proxy_http_version 1.1;"), "nginx-pool": ("desk", POOL), "nginx-as-it-is": ("127.0.0.1:{0}", ""),
    "nginx-unbuffered": ("desk", f"{POOL} proxy_request_buffering off;"),
}
HAPROXY = """global
 stats socket {folder}/socket
defaults
 mode http
 timeout connect 5s
 timeout client 60s
 timeout server 60s
 timeout check 20s
frontend agencies
 bind 127.0.0.1:{at}
 default_backend desk
backend desk
 http-reuse always
 {check}
 server desk 127.0.0.1:{port} maxconn 32 check inter 200ms
"""


def nginx(folder, port, origins):
    """The configuration of an nginx with a server for each of these ways."""
    servers = [f"server {{ listen 127.0.0.1:{at}; location / {{ proxy_pass http://{NGINX[way][0].format(port)}; {NGINX[way][1]} }} }}"
               for way, at in origins.items()]
    files = [f"{way}_temp_path {folder}/{way};" for way in ("client_body", "proxy", "fastcgi", "uwsgi", "scgi")]
    head = f"daemon off; pid {folder}/nginx.pid; {'user root;' if os.getuid() == 0 else ''}\nevents {{}} http {{ access_log off;"
    return "\n".join([head, f"upstream desk {{ server 127.0.0.1:{port}; keepalive 8; }}", *files, *servers, "}\n"])


class Trial:
    """A desk with these words and places for each booking, and the proxies that are here: nginx in these ways, and HAProxy with these lines
    for its checks. `with` it they are ended, and each booking was done once."""

    commands, absent, all, used = {}, [], 0, []

    def __init__(self, name, ways, check, *words):
        self.name, self.is_wide, self.bookings, self.origins, self.proxies = name, bool(words), 0, {}, []
        self.desk = Desk(f"{name}.db", *words)
        page = asked(self.desk.port, request("POST", "/batches/june", "june", ROWS))
        same("the file", (200, b'{"batch":"june","rows":1}'), parts_of(page)[::2])
        caddy = f"{{\nadmin off\nauto_https off\n}}\nhttp://127.0.0.1:{{at}} {{\nreverse_proxy 127.0.0.1:{self.desk.port}\n}}\n"
        self.starts("nginx", "nginx", ways, lambda folder, at: nginx(folder, self.desk.port, self.origins))
        self.starts("HAProxy", "haproxy", ["haproxy"],
                    lambda folder, at: HAPROXY.format(folder=folder, at=at, check="\n ".join(check), port=self.desk.port))
        self.starts("Apache", "apache2", ["apache"], lambda folder, at: for_apache(
            folder, at, ("mpm_event", "authz_core", "proxy", "proxy_http"), f"ProxyPass / http://127.0.0.1:{self.desk.port}/"))
        self.starts("Caddy", "caddy", ["caddy"], lambda folder, at: caddy.replace("{at}", str(at)))
        Trial.used += [way for way in ("directly", *self.origins) if way not in Trial.used]

    def starts(self, name, command, ways, text):
        """Begins a proxy, where it is here, with a port for each of its ways, and waits until it accepts connections."""
        if not shutil.which(command):
            return Trial.absent.append(name) if name not in Trial.absent else None
        folder = os.path.abspath(f"{self.name}-{command}")
        os.mkdir(folder)
        self.origins.update((way, free_port()) for way in ways)
        at = self.origins[ways[-1]]
        with open(f"{folder}/said", "wb") as said:
            self.proxies.append(begins(command, folder, text(folder, at), said))
        if not waits_for(lambda: accepts(at) or self.proxies[-1].poll() is not None, 10) or self.proxies[-1].poll() is not None:
            same(f"{name} begins", "", Path(folder, "said").read_text(errors="replace")[-600:])
        return None

    def __enter__(self):
        return self

    def __exit__(self, *_):
        for proxy in self.proxies:
            proxy.terminate()
        for proxy in self.proxies:
            proxy.wait()
        self.desk.process.send_signal(signal.SIGTERM)
        ended = self.desk.end()
        same(f"{self.name}: what the desk told", (f"ready {self.desk.port}\n", ""), (ended.out, ended.err))
        with contextlib.closing(sqlite3.connect(f"{self.name}.db")) as file:
            found = file.execute("SELECT journeys, events, (SELECT free FROM stock) FROM meta").fetchone()
        same(f"{self.name}: journeys, events and places", (self.bookings, 2 * self.bookings + 1, 1000 - self.bookings), found)
        Trial.all += self.bookings

    def key(self):
        """A key; with --wide a UUID in its usual form."""
        return str(uuid.uuid4()) if self.is_wide else uuid.uuid4().hex

    def book(self, ways, *throughs):
        """Each client that is here books in each of its ways, through each of these that are here."""
        for client, way in (row.split() for row in ways.split(",")):
            for through in throughs:
                # Caddy sends 100 Continue, and passes on that of the desk; at the second one java.net.http waits without end
                if client in Trial.commands and through in ("directly", *self.origins) and (way, through) != ("java-expect", "caddy"):
                    self.booking(client, way, through)

    def booking(self, client, way, through):
        """A client books in this way, directly or through a proxy."""
        number = json.loads(parts_of(asked(self.desk.port, b"GET /health HTTP/1.1\r\nHost: d\r\n\r\n"))[2])["journeys"] + 1
        begin, step = f"POST /journeys {self.key()} {PLAN.decode()}\n", f"POST /journeys/{number}/step {self.key()} \n"
        begun = f'200 {{"journey":{number}}}\n'
        stepped = f'200 {{"item":"T1.1","journey":{number},"pos":1,"state":"ended"}}\n'
        shown = f'200 {{"history":["T1.1"],"journey":{number},"pos":1,"state":"ended"}}\n'
        told = subprocess.run(
            ["timeout", "60", *Trial.commands[client].split(), way, f"http://127.0.0.1:{self.origins.get(through, self.desk.port)}"],
            input=f"{begin * 2}{step * 2}GET /journeys/{number}\n", stdout=subprocess.PIPE, stderr=subprocess.STDOUT, text=True, check=False)
        same(f"{client}, {way}, {through}", begun * 2 + stepped * 2 + shown, told.stdout[:600])
        self.bookings += 1

    def shown(self, method, path, *expected, **fields):
        """What is asked for with these fields, directly and through each proxy, gets a page without a body, with these among its lines, and
        none that lets another origin in."""
        for through in ("directly", *self.origins):
            line = http.client.HTTPConnection("127.0.0.1", self.origins.get(through, self.desk.port), timeout=20)
            line.request(method, path, headers={"Desk-Agent": "ann", "Origin": "http://other.example", **fields})
            page = line.getresponse()
            told = [f"{name}: {value}".lower() for name, value in page.getheaders()]
            found = [it for it in told if it.startswith(("allow", "cache-control", "vary", "access-control"))]
            same(f"{method}, {through}", (*expected, b""), (f"{page.status} {page.reason}".lower(), *sorted(found), page.read()))
            line.close()

    def is_well(self):
        """HAProxy, where it is here, takes the desk for well. While a check runs, it shows a star before the last result, and no code."""
        if "haproxy" not in self.origins:
            return
        found = {}

        def is_told():
            with socket.socket(socket.AF_UNIX) as stream:
                stream.connect(f"{self.name}-haproxy/socket")
                stream.sendall(b"show stat\n")
                found.update(next(row for row in csv.DictReader(stream.makefile()) if row["svname"] == "desk"))
            return not found["check_status"].startswith("*")
        waits_for(is_told, 10)
        same("HAProxy's check", ("UP", "L7OK", "200"), (found["status"], found["check_status"], found["check_code"]))


def main():
    for name, (probe, compiles, command) in CLIENTS.items():
        if subprocess.run(probe, shell=True, capture_output=True, check=False).returncode:
            Trial.absent.append(name)
            continue
        subprocess.run(compiles, shell=True, check=True)
        Trial.commands[name] = command
    check = ["option httpchk", "http-check send meth GET uri /health ver HTTP/1.1 hdr Host desk hdr Connection close"]
    with Trial("plain", ["nginx", "nginx-pool"], check) as trial:
        trial.book(PLAIN, "directly", *trial.origins)
        trial.book(CHUNKED, "nginx", "nginx-pool")
        trial.is_well()
    with Trial("wide", ["nginx-as-it-is", "nginx-unbuffered"], ["option httpchk HEAD /health"], "--wide") as trial:
        trial.book(PLAIN, "directly", "nginx-as-it-is")
        trial.book(f"{CHUNKED}, {WIDE}", "directly", *trial.origins)
        trial.book("curl curl-proxy", "directly")
        trial.shown("HEAD", "/unfinished", "200 ok", "cache-control: no-store", "vary: desk-agent")
        trial.shown("OPTIONS", "/journeys", "204 no content", "allow: options, post", "cache-control: no-store", "vary: desk-agent", **{
            "Access-Control-Request-Method": "POST", "Access-Control-Request-Headers": "desk-agent"})
        trial.is_well()
    skipped = ", ".join(Trial.absent) or "none"
    print(f"clients.sh: {Trial.all} bookings by {', '.join(Trial.commands)}; {', '.join(Trial.used)}; skipped: {skipped}", file=sys.stderr)
    sys.exit("\n".join(wrong) or 0)


main()
