"""The messages that tests/messages.py sends, with the pages that they get with --wide and without: one for each way in which a body is
framed, for each page of a refusal, and for what smuggling needs. message_tests has the others of each kind, and clients.sh drives the
clients and proxies that send them. Journey 1 was begun by ann under k1, with this plan, and its step was taken under s1, which
found no place; journey 2 was begun under a UUID. bob has no journey.
"""
from driving import PLAN

UUID = b"7d444840-9dc0-11d1-b245-5ffdce74fad2"
CACHE = b"Cache-Control: no-store\r\nVary: Desk-Agent\r\n"
GO_ON = b"HTTP/1.1 100 Continue\r\n\r\n"


def request(line, *fields, body=b""):
    return b"\r\n".join([line, *fields, b"", b""]) + body


def chunks(*pieces, size=b"%x\r\n", end=b"0\r\n\r\n"):
    """A body in these chunks."""
    return b"".join(size % len(piece) + piece + b"\r\n" for piece in pieces) + end


def page(status, body, *lines, kind=b"application/json"):
    """A page as it is with --wide, but for its date."""
    content = [b"Content-Length: %d" % len(body), b"Content-Type: " + kind] if kind else []
    return b"HTTP/1.1 " + status + b"\r\n" + CACHE + b"\r\n".join([*content, *lines, b"", b""]) + body


def head_of(text):
    return text.partition(b"\r\n\r\n")[0] + b"\r\n\r\n"


def closing(text):
    """The same page as the last one of its connection."""
    return text.replace(b"\r\n\r\n", b"\r\nConnection: close\r\n\r\n", 1)


def plainly(text):
    """The same page without --wide."""
    return text.replace(CACHE, b"")


def refused(status, number, name, *lines):
    return page(status, b'{"name":"%s","refused":%d}' % (name, number), *lines)


BEGUN, BEGUN_2 = page(b"200 OK", b'{"journey":1}'), page(b"200 OK", b'{"journey":2}')
STEPPED = page(b"200 OK", b'{"item":"B0r","journey":1,"pos":0,"state":"undone"}')
UNFINISHED = page(b"200 OK", b'{"unfinished":[]}')
STOCK = page(b"200 OK", b"kind     supplier product  night       allot   held   free\ncells 0\n", kind=b"text/plain")
NO_AGENT, NO_KEY = refused(b"400 Bad Request", 2, b"NoAgent"), refused(b"400 Bad Request", 3, b"NoKey")
BAD_BODY, UNKNOWN = refused(b"400 Bad Request", 4, b"BadBody"), refused(b"404 Not Found", 7, b"UnknownPath")
BAD_HEAD = closing(refused(b"400 Bad Request", 1, b"BadHead"))
LONG_HEAD = closing(refused(b"431 Request Header Fields Too Large", 1, b"BadHead"))
OTHER_CODING = closing(refused(b"501 Not Implemented", 1, b"BadHead"))
OTHER_VERSION = closing(refused(b"505 HTTP Version Not Supported", 1, b"BadHead"))
TOO_LARGE = closing(refused(b"413 Content Too Large", 15, b"TooLarge"))
NO_LENGTH = closing(refused(b"411 Length Required", 19, b"NoLength"))
# what ends a connection by its head alone, whatever follows
BY_THE_HEAD = {it for page in (BAD_HEAD, LONG_HEAD, OTHER_CODING, OTHER_VERSION, TOO_LARGE, NO_LENGTH) for it in (page, plainly(page), head_of(plainly(page)))}


def not_allowed(methods):
    return refused(b"405 Method Not Allowed", 8, b"WrongMethod", b"Allow: " + methods)


def allowed(methods):
    return page(b"204 No Content", b"", b"Allow: " + methods, kind=None)


HOST, ANN, BOB = b"Host: 127.0.0.1:8080", b"Desk-Agent: ann", b"Desk-Agent: bob"
K1, S1, SIZE = b"Desk-Key: k1", b"Desk-Key: s1", b"Content-Length: %d" % len(PLAN)
CHUNKED, EXPECT = b"Transfer-Encoding: chunked", b"Expect: 100-continue"
BEGIN, STEP = b"POST /journeys HTTP/1.1", b"POST /journeys/1/step HTTP/1.1"
GET = request(b"GET /unfinished HTTP/1.1", HOST, BOB)
# a begin under a key that no other has: it may not be found in the body of another message
HIDDEN = request(BEGIN, b"Host: d", ANN, b"Desk-Key: smuggled", SIZE, body=PLAN)
# what the messages below stand on
SETUP = [
    (request(BEGIN, HOST, ANN, K1, SIZE, body=PLAN), BEGUN), (request(STEP, HOST, ANN, S1, b"Content-Length: 0"), STEPPED),
    (request(BEGIN, HOST, ANN, b"Desk-Key: " + UUID.replace(b"-", b""), SIZE, body=PLAN), BEGUN_2),
]

# the message, its page with --wide, and the one without, where it is another one
MESSAGES = {
    "curl, a body": (request(BEGIN, HOST, b"User-Agent: curl/7.88.1", b"Accept: */*", ANN, K1, SIZE,
                             b"Content-Type: application/x-www-form-urlencoded", body=PLAN), BEGUN),
    "curl -X POST": (request(STEP, HOST, b"User-Agent: curl/7.88.1", b"Accept: */*", ANN, S1), STEPPED, NO_LENGTH),
    "a UUID with hyphens": (request(BEGIN, HOST, ANN, b"Desk-Key: " + UUID, SIZE, body=PLAN), BEGUN_2, NO_KEY),
    "nginx as it comes": (request(b"POST /journeys HTTP/1.0", b"Host: desk", b"Connection: close", SIZE, b"User-Agent: curl/7.88.1",
                                  b"Accept: */*", ANN, K1, body=PLAN), closing(BEGUN), BAD_HEAD),
    "HAProxy's check by HEAD": (request(b"HEAD /stock HTTP/1.0", ANN), head_of(closing(STOCK)), head_of(BAD_HEAD)),
    "HAProxy, Caddy, Apache: chunks passed on": (
        request(BEGIN, b"host: desk", b"desk-agent: ann", b"desk-key: k1", b"x-forwarded-for: 192.0.2.7", b"via: 1.1 desk",
                b"transfer-encoding: chunked", body=chunks(PLAN[:100], PLAN[100:], size=b"%06x\r\n")), BEGUN, BAD_HEAD),
    "chunks with trailers": (request(BEGIN, HOST, ANN, K1, CHUNKED, body=chunks(
        PLAN, end=b"0\r\nDesk-Agent: bob\r\nDesk-Key: k2\r\nContent-Length: 3\r\n\r\n")), BEGUN, BAD_HEAD),
    "HEAD": (request(b"HEAD /stock HTTP/1.1", HOST, ANN), head_of(STOCK), head_of(not_allowed(b"GET"))),
    "OPTIONS of the desk": (request(b"OPTIONS * HTTP/1.1", HOST), allowed(b"GET, HEAD, OPTIONS, POST"), UNKNOWN),
    "a preflight": (request(b"OPTIONS /journeys HTTP/1.1", HOST, b"Origin: http://other.example",
                            b"Access-Control-Request-Method: POST", b"Access-Control-Request-Headers: desk-agent,desk-key"),
                    allowed(b"OPTIONS, POST"), not_allowed(b"POST")),
    "another method": (request(b"DELETE /stock HTTP/1.1", HOST, ANN), not_allowed(b"GET, HEAD, OPTIONS"), not_allowed(b"GET")),
    "bare LF, after empty lines": (b"\r\n\n\r\n" + GET.replace(b"\r\n", b"\n"), UNFINISHED),
    "a body that is no text": (request(BEGIN, HOST, ANN, b"Desk-Key: x2", b"Content-Length: 4", body=b"\xff\0\xc3\x28"), BAD_BODY),
    "a request in a body by its length": (request(b"POST /journeys/7/step HTTP/1.1", HOST, ANN, b"Desk-Key: x3", b"Content-Length: %d" % len(HIDDEN),
                                                  body=HIDDEN), BAD_BODY),
    "a request in a chunk": (request(b"POST /journeys/7/step HTTP/1.1", HOST, ANN, b"Desk-Key: x3", CHUNKED,
                                     body=chunks(b"0\r\n\r\n" + HIDDEN, size=b"%X;x=\"0\"\r\n")), BAD_BODY, BAD_HEAD),
    "a request after the last one": (request(STEP, HOST, ANN, S1, b"Content-Length: 0", b"Connection: close"), closing(STEPPED)),
    # what is not read: one for each page, and what smuggling needs
    "a length, then chunks": (request(BEGIN, HOST, ANN, K1, b"Content-Length: 4", CHUNKED), BAD_HEAD),
    "two hosts": (request(b"GET /unfinished HTTP/1.1", HOST, HOST, BOB), BAD_HEAD),
    "gzip, then chunks": (request(BEGIN, HOST, ANN, K1, b"Transfer-Encoding: gzip, chunked"), OTHER_CODING, BAD_HEAD),
    "HTTP/2.0": (b"PRI * HTTP/2.0\r\n\r\n", OTHER_VERSION, BAD_HEAD),
    "33 fields": (GET[:-2] + b"A: b\r\n" * 31 + b"\r\n", LONG_HEAD, BAD_HEAD),
    "a large length, and Expect": (request(BEGIN, HOST, ANN, K1, b"Content-Length: 262145", EXPECT), TOO_LARGE),
}
# the head asks for 100 Continue, and a body comes
ASKING = {
    "curl -T -": (request(BEGIN, HOST, b"User-Agent: curl/7.88.1", b"Accept: */*", CHUNKED, ANN, K1, EXPECT, body=chunks(PLAN)), BEGUN, BAD_HEAD),
    "java.net.http, asked for it": (request(BEGIN, SIZE, b"Expect: 100-Continue", HOST, b"User-Agent: Java-http-client/17.0.15", ANN,
                                            K1, body=PLAN), BEGUN),
}
# chunks that are none, of which the desk may be certain before all came; and what begins no method, which ends the connection
NO_CHUNKS = {"a size line with LF alone": b"2\n{}", "a chunk longer than its size": b"1\r\n{}", "a request as a trailer": b"0\r\nGET / HTTP/1.1\r\n\r\n"}
NO_METHOD = {"a TLS hello": bytes.fromhex("16030102000100fc0303") + b"\x5a" * 60, "a blank after an empty line": b"\r\n " + GET}


def parts_of(message, shown):
    """A message with its page, and what follows it: a good request, or one that may not be found."""
    if shown in BY_THE_HEAD:
        head = head_of(message)
        return [(head, shown), (message[len(head) :] + HIDDEN, b"")]
    return [(message, shown), (HIDDEN, b"") if b"\r\nConnection: close\r\n" in shown else (GET, UNFINISHED)]


def rows_of(is_wide):
    """All messages, each with what follows it: parts with the page that is certain once the part is whole."""
    rows = {name: parts_of(it[0], it[1] if is_wide else plainly(it[-1])) for name, it in (MESSAGES | ASKING).items()}
    if is_wide:
        head = request(BEGIN, HOST, ANN, K1, CHUNKED)
        rows |= {name: [(head, b""), (text, BAD_HEAD), (b"\r\n\r\n" + HIDDEN, b"")] for name, text in NO_CHUNKS.items()}
        rows |= {name: [(text, b""), (b"\r\n\r\n" + HIDDEN, b"")] for name, text in NO_METHOD.items()}
    return rows


def long_rows(is_wide):
    """Rows that are too long to be cut everywhere."""
    longer, heads = LONG_HEAD if is_wide else plainly(BAD_HEAD), [GET[:-2] + b"A: " + b"a" * (size - len(GET) - 5) + b"\r\n\r\n" for size in (8192, 8193)]
    return {"a head of 8,192 bytes": parts_of(heads[0], UNFINISHED), "a head of 8,193 bytes": parts_of(heads[1], longer),
            "8,192 bytes without an empty line": [(b"A" * 8192, longer)], "8,191 bytes": [(b"A" * 8191, b"")]}


def large_rows(is_wide):
    """Rows that are sent whole alone."""
    sized = request(BEGIN, HOST, ANN, b"Desk-Key: x4", b"Content-Length: 6000000", body=b"x" * 6000000)
    full = request(BEGIN, HOST, ANN, b"Desk-Key: x4", CHUNKED, body=chunks(*[b"x" * 4096] * 64, end=b""))
    return {"a body of 6 MB": [(sized, TOO_LARGE)], "the largest body in chunks": [(full + b"0\r\n\r\n", BAD_BODY if is_wide else BAD_HEAD)],
            "one byte more": [(full + b"1\r\nx", TOO_LARGE if is_wide else BAD_HEAD)]}
