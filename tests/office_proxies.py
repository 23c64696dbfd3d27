"""Proxies before a desk with its page, by the recipes of OFFICE.md for an office, as printed but for ports, files and passwords."""
import base64
import functools
import http.client
import re
import socket
import ssl
import subprocess
import sys
from pathlib import Path

from page_driving import wait_until
from ports import free_port
from proxies import begins, for_apache

TRUSTING = ssl.create_default_context()
TRUSTING.check_hostname, TRUSTING.verify_mode = False, ssl.CERT_NONE
ARE = {"ann": "secret-a", "bob": "secret-b"}
# what only the recipe of a proxy has; its folder; a line of a user of its
MARKS = {"haproxy": "userlist agents", "nginx": "auth_basic_user_file", "apache2": "AuthUserFile", "caddy": "basicauth"}
FOLDERS = {"haproxy": "/etc/haproxy", "nginx": "/etc/nginx", "apache2": "/etc/apache2", "caddy": "/etc/caddy"}
USER = {"haproxy": "  user {0} password {1}\n", "caddy": "    {0} {1}\n"}
# the lines of users in a recipe
USERS = re.compile(r"(  user \S+ password \S+\n)+|(    \w+ \$2a\$\.\.\n)+")
# the modules that Debian's Apache has from the beginning, and those of the recipe
MODULES = (
    "mpm_event", "authn_core", "authn_file", "authz_core", "authz_user", "auth_basic", "alias", "proxy", "proxy_http", "headers", "ssl",
    "socache_shmcb",
)


# the page with the recipes, and its texts
PRINTED = (Path(__file__).resolve().parents[1] / "docs/OFFICE.md").read_text(encoding="utf-8")
BLOCKS = re.findall(r"^```text\n(.*?)^```$", PRINTED, re.MULTILINE | re.DOTALL)


def recipe(mark):
    """The recipe that has this mark, as it is printed."""
    return next(block for block in BLOCKS if mark in block)


def quoted(begin):
    """What the page has in backticks that begins so."""
    return re.search(f"`({re.escape(begin)}[^`]*)`", PRINTED)[1]


def changed(text, *pairs):
    """The text with each of these once replaced, a pattern by a text."""
    for old, new in pairs:
        text, count = re.subn(old, lambda _, new=new: new, text)
        if count != 1:
            raise AssertionError(f"the recipe has {old!r} {count} times")
    return text


def with_names(proxy, folder):
    """The recipe of a proxy that maps the names of users to agents, as it is printed; for HAProxy in a file of the folder."""
    text = recipe(MARKS[proxy])
    if proxy == "haproxy":
        Path(folder, "agents").write_text(quoted("ann.miller@") + "\n", encoding="utf-8")
        return changed(text, (r"set-header Desk-Agent \S+", quoted("set-header Desk-Agent %[http_auth_user,")))
    if proxy == "nginx":
        text = changed(text, (r"proxy_set_header Desk-Agent [^;]+", quoted("proxy_set_header Desk-Agent $agent")))
        return quoted("map $remote_user") + "\n" + text
    if proxy == "apache2":
        lines = quoted("RequestHeader unset Desk-Agent") + "\n" + quoted("RequestHeader set Desk-Agent ann")
        return changed(text, (r"RequestHeader set Desk-Agent .*", lines))
    site = f"  {quoted('map {http.auth.user.id}')}\n    {quoted('ann.miller@')}\n  }}\n  reverse_proxy"
    return changed(text, (r"header_up Desk-Agent .*", quoted("header_up Desk-Agent {agent}")), ("  reverse_proxy", site))


def with_certificates(proxy):
    """The recipe of a proxy that asks for certificates in place of passwords, as it is printed."""
    marks = {"haproxy": "ssl_c_used", "nginx": "ssl_verify_client", "apache2": "SSLVerifyClient", "caddy": "client_auth"}
    text, lines = recipe(MARKS[proxy]), recipe(marks[proxy])
    if proxy == "haproxy":
        text = changed(text, (r"userlist agents\n(  user .*\n)+", ""), (r"  bind .*\n", ""), (r"  http-request auth .*\n", ""),
                       (r"  http-request del-header Authorization\n", ""), (r"  http-request set-header Desk-Agent .*\n", ""))
        return changed(text, (r"frontend office\n", "frontend office\n" + lines))
    if proxy == "nginx":
        before, inside, test = re.fullmatch(r"(map .*?^}\n)(.*?)(^    if .*)", lines, re.MULTILINE | re.DOTALL).groups()
        text = changed(text, (r"  proxy_set_header Desk-Agent .*\n", ""), (r"  proxy_set_header Authorization .*\n", ""),
                       (r"    auth_basic off;\n", ""), (r"  auth_basic desk;\n  auth_basic_user_file .*\n", inside),
                       (r"  location / {\n", "  location / {\n" + test))
        return before + text
    if proxy == "apache2":
        return changed(text, (r"  <Location />\n(    .*\n)+  </Location>\n", lines), (r"  RequestHeader unset Authorization\n", ""),
                       (r"  RequestHeader set Desk-Agent expr=%{REMOTE_USER}\n", ""))
    text = changed(text, (r"  tls .*\n", lines), (r"  @agents .*\n", ""), (r"  basicauth @agents {\n(    .*\n)+  }\n", ""))
    return changed(text, (re.escape("{http.auth.user.id}"), "{agent}"))


def in_folder(proxy):
    """The recipe of a proxy that serves the page in a folder, as it is printed."""
    text = recipe(MARKS[proxy])
    if proxy == "haproxy":
        lines = f"  {quoted('http-request redirect location')}\n  {quoted('http-request replace-path')}\n"
        first = "  http-request set-header Host"
        return changed(text, (first, lines + first), ("path /health", "path /desk/health"))
    if proxy == "nginx":
        text = changed(text, (r"  location / {\n.*\n  }", "  " + quoted("location /desk/ {")))
        return changed(text, (r"location = /health", "location = /desk/health"), (r"proxy_pass http://desk;", "proxy_pass http://desk/health;"))
    if proxy == "apache2":
        lines = f"{quoted('RedirectMatch')}\n  {quoted('ProxyPass /desk/')}"
        return changed(text, (r"ProxyPass .*", lines), ("<Location /health>", "<Location /desk/health>"))
    lines = f"  {quoted('redir /desk')}\n  {quoted('handle_path')}\n"
    return changed(text, ("path /health", "path /desk/health"), ("  reverse_proxy", lines + "  reverse_proxy")) + "}\n"


@functools.cache
def hash_of(is_caddy, password):
    words = ["caddy", "hash-password", "--plaintext"] if is_caddy else ["openssl", "passwd", "-5"]
    return subprocess.run([*words, password], check=True, capture_output=True, text=True).stdout.strip()


class Proxy:
    """A proxy with TLS and passwords before the desk at this port."""

    def __init__(self, folder, name, desk_port):
        self.folder, self.name, self.desk_port, self.port, self.process = folder, name, desk_port, free_port(), None
        self.health, self.certificate, self.text = "/health", None, recipe(MARKS[name])
        self.starts(ARE)

    def starts(self, of):
        """Begins the proxy, for these users with their passwords."""
        line = USER.get(self.name, "{0}:{1}\n")
        users = "".join(line.format(user, hash_of(self.name == "caddy", password)) for user, password in of.items())
        text = self.text.replace("127.0.0.1:8080", f"127.0.0.1:{self.desk_port}").replace(FOLDERS[self.name], self.folder)
        if self.name in USER:
            text = USERS.sub(lambda _: users, text)
        else:
            Path(self.folder, "agents").write_text(users, encoding="utf-8")
        self.process = begins(self.name, self.folder, self.alone(text), sys.stderr)
        wait_until(lambda: self.ask(self.health)[0] == 200, f"{self.name} answers")

    def alone(self, text):
        """The whole configuration of a proxy that has nothing but this recipe, at its port."""
        if self.name == "haproxy":
            return text.replace("bind :443", f"bind 127.0.0.1:{self.port}")
        if self.name == "nginx":
            text = text.replace("listen 443", f"listen 127.0.0.1:{self.port}")
            return f"daemon off; pid {self.folder}/nginx.pid; events {{}} http {{ access_log off;\n{text}}}\n"
        if self.name == "apache2":
            return for_apache(self.folder, self.port, MODULES, text.replace("*:443", f"*:{self.port}"))
        # a client that asks for an address, and for no name, gets this site too, unless certificates are asked for
        name = "office.example" if "client_auth" in text else ""
        own = "{\n  admin off\n  auto_https disable_redirects\n  skip_install_trust\n  default_bind 127.0.0.1\n}\n"
        return own + text.replace("office.example {", f"https://{name}:{self.port} {{")

    def changes(self, of, text=None):
        """Other passwords, or another recipe, by a proxy that is started again."""
        self.end()
        self.text = text or self.text
        self.starts(of)

    def ask(self, path, user="", password="", **fields):
        """The status and the text of a page."""
        if user:
            fields["Authorization"] = "Basic " + base64.b64encode(f"{user}:{password}".encode()).decode()
        trusting = TRUSTING
        if self.certificate:
            trusting = ssl.create_default_context()
            trusting.check_hostname, trusting.verify_mode = False, ssl.CERT_NONE
            trusting.load_cert_chain(self.certificate)
        line = http.client.HTTPSConnection("office.example", self.port, timeout=30, context=trusting)
        try:
            # the name is no machine's: the connection leads here
            line._create_connection = lambda _, *rest: socket.create_connection(("127.0.0.1", self.port), *rest)
            line.request("GET", path, headers=fields)
            page = line.getresponse()
            return page.status, page.read().decode()
        except (OSError, http.client.HTTPException) as why:
            return 0, str(why)
        finally:
            line.close()

    def end(self):
        self.process.terminate()
        self.process.wait()
