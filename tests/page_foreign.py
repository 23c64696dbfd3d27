"""Pages that are not the desk's own: they reach nothing of it, and the page loads nothing from elsewhere. And a browser that is
connected to the desk itself."""
import http.server
import json
import threading
import time

from driving import Client, is_whole, request, sockets_of
from page_driving import Browser, wait_until
from page_scenes import same


class Foreign(http.server.BaseHTTPRequestHandler):
    """A page of another origin, which tries what it can."""

    def do_GET(self):
        port = self.path.strip("/")
        body = f"""<!doctype html><title>foreign</title>
<iframe src="http://127.0.0.1:{port}/" name="framed"></iframe><iframe name="sink"></iframe>
<form method="post" target="sink" action="http://127.0.0.1:{port}/journeys/1/step"></form><script>
const desk = "http://127.0.0.1:{port}", fields = {{"Desk-Agent": "ann", "Desk-Key": "foreign"}}, done = {{}};
const tries = {{
  stock: () => fetch(desk + "/stock", {{headers: fields}}),
  step: () => fetch(desk + "/journeys/1/step", {{method: "POST", headers: fields, body: ""}}),
  page: () => fetch(desk + "/"),
  plain: () => fetch(desk + "/journeys/1/step", {{method: "POST", mode: "no-cors", body: ""}}),
}};
window.framed = () => {{ try {{ return frames.framed.document.title }} catch {{ return "not reached" }} }};
(async () => {{
  for (const [name, go] of Object.entries(tries)) {{
    done[name] = await go().then(page => page.type === "opaque" ? "unseen" : page.text(), () => "not reached");
  }}
  document.forms[0].submit();
  setTimeout(() => window.done = done, 1000);
}})();
</script>""".encode()
        self.send_response(200)
        self.send_header("Content-Type", "text/html")
        self.send_header("Content-Length", str(len(body)))
        self.end_headers()
        self.wfile.write(body)

    def log_message(self, *_):
        pass


def foreign_pages(scene):
    """A page of another origin, and this page under a name that is bent to its address, reach nothing."""
    desk = scene.desk
    scene.begins(steps=1)
    scene.browser.end()
    server = http.server.ThreadingHTTPServer(("127.0.0.1", 0), Foreign)
    threading.Thread(target=server.serve_forever, daemon=True).start()
    bent = "--host-resolver-rules=MAP bent.example 127.0.0.1"
    scene.browser = browser = Browser(f"{scene.folder}/foreign", words=[bent])
    try:
        browser.open(f"http://127.0.0.1:{server.server_address[1]}/{desk.port}")
        done = wait_until(lambda: browser.script("return window.done"), "what the foreign page tried")
        expected = {"stock": "not reached", "step": "not reached", "page": "not reached", "plain": "unseen"}
        same("what it reached", expected, done)
        same("the page in a frame", "not reached", browser.script("return window.framed()"))
        browser.driver.switch_to.frame("framed")
        framed = browser.script("return document.querySelectorAll('#agent, main').length")
        same("the page does not work in a frame", 0, framed)
        browser.driver.switch_to.default_content()
        same("nothing was done", ["T1.1"], desk.history(1))
    finally:
        server.shutdown()
    browser.open(f"http://bent.example:{desk.port}/")
    same("the bent name", {"name": "BadHead", "refused": 1}, json.loads(browser.script("return document.body.innerText")))
    tried = """const then = arguments[0], headers = {'Desk-Agent': 'ann', 'Desk-Key': 'bent'};
      fetch('/journeys/1/step', {method: 'POST', body: '', headers})
        .then(page => page.text().then(text => then([page.status, text])))"""
    same("what the bent name reaches", [400, '{"name":"BadHead","refused":1}'], browser.driver.execute_async_script(tried))
    same("nothing was done", ["T1.1"], desk.history(1))
    for name in ("127.0.0.1", "localhost"):
        browser.open(f"http://{name}:{desk.port}/")
        browser.one("#agent")
    elsewhere = """const then = arguments[0];
      document.addEventListener('securitypolicyviolation', event => then(event.effectiveDirective));
      fetch('https://example.org/').then(() => then('reached'), () => {});"""
    same("a request to elsewhere is stopped by the policy", "connect-src", browser.driver.execute_async_script(elsewhere))
    added = """const one = document.createElement('script'); one.textContent = 'window.ran = 1';
      document.body.append(one); return window.ran ? 'yes' : 'no'"""
    same("a script that was added runs", "no", browser.script(added))


# asks for the stock so many times at once, and gives each status and body
ASKS = """const [count, done] = arguments;
const ask = () => fetch("/stock", {headers: {"Desk-Agent": "ann"}, cache: "no-store"})
  .then(page => page.text().then(text => page.status + " " + text));
Promise.all(Array.from({length: count}, ask)).then(done, error => done([String(error)]));"""
# opens a connection ahead, for which nothing is asked
AHEAD = """const link = document.createElement("link");
link.rel = "preconnect";
link.href = location.origin;
link.crossOrigin = arguments[0];
document.head.append(link);"""


def at_once(what, call):
    """What a call gives, which comes within 15 seconds: a desk that waited for a silent connection would take longer."""
    begun = time.monotonic()
    found = call()
    same(f"{what}: it comes at once", True, time.monotonic() - begun < 15)
    return found


def silent_ahead(scene):
    """A browser without a proxy opens connections, asks over some of them, and leaves them all silent; one more is silent to the
    end, whatever the browser does with its own. Nobody waits: not the browser, and not another client."""
    scene.browser.end()
    scene.browser = browser = Browser(f"{scene.folder}/ahead")
    browser.open(scene.desk.url("stock"))
    same("a page without an agent", {"name": "NoAgent", "refused": 2}, json.loads(browser.script("return document.body.innerText")))
    silent, other = Client(scene.desk.port), Client(scene.desk.port)
    asks = request("GET", "/stock", host=f"127.0.0.1:{scene.desk.port}")
    connections = lambda: sockets_of(scene.desk.process) - 1
    for count in (12, 1):
        pages = at_once(f"{count} requests", lambda count=count: browser.driver.execute_async_script(ASKS, count))
        same(f"{count} pages", [True] * count, [page.startswith("200 ") and page.rstrip().endswith("cells 43") for page in pages])
        for crossed in ("anonymous", "use-credentials"):
            browser.script(AHEAD, crossed)
        wait_until(lambda: connections() > 4, lambda: f"silent connections beside two of others; there are {connections()}")
        for number in range(20):
            found = at_once(f"another client's request {number}", lambda: other.ask(asks))
            same(f"another client's page {number}", (True, b"HTTP/1.1 200 OK"), (is_whole(found), found.partition(b"\r\n")[0]))
        same("the silent ones stay", True, connections() > 4)
    for client in (silent, other):
        client.close()
