"""A booking by Python: WAY ORIGIN, with its requests on standard input, a line each: METHOD PATH, and of a POST KEY BODY. Prints the
status and the body of each answer.
"""
import http.client
import io
import sys
import urllib.request
from urllib.parse import urlsplit

WAY, ORIGIN = sys.argv[1:]


def by_http_client():
    """One connection, which is kept open."""
    connection = http.client.HTTPConnection(urlsplit(ORIGIN).netloc, timeout=20)

    def ask(method, path, fields, body):
        connection.request(method, path, body, fields)
        answer = connection.getresponse()
        return answer.status, answer.read().decode()

    return ask


def by_urllib():
    """A connection for each request."""

    def ask(method, path, fields, body):
        request = urllib.request.Request(ORIGIN + path, body, fields, method=method)
        with urllib.request.urlopen(request, timeout=20) as answer:
            return answer.status, answer.read().decode()

    return ask


def by_requests():
    """A session, which keeps its connections open."""
    import requests

    session = requests.Session()
    session.trust_env = False

    def ask(method, path, fields, body):
        answer = session.request(method, ORIGIN + path, headers=fields, data=body, timeout=20)
        return answer.status_code, answer.text

    return ask


# by whom, and what a body is handed over as: a file and a generator have no length, so they come in chunks
WAYS = {
    "http.client": (by_http_client, bytes),
    "http.client-file": (by_http_client, io.BytesIO),
    "urllib": (by_urllib, bytes),
    "urllib-file": (by_urllib, io.BytesIO),
    "requests": (by_requests, bytes),
    "requests-generator": (by_requests, lambda body: (bytes([byte]) for byte in body)),
}


client, body_as = WAYS[WAY]
ask = client()
for line in sys.stdin:
    method, path, *post = line.rstrip("\n").split(" ")
    fields, text = {"Desk-Agent": "ann"}, None
    if post:
        fields.update({"Desk-Key": post[0], "Content-Type": "application/json"})
        text = body_as(post[1].encode())
    print(*ask(method, path, fields, text))
