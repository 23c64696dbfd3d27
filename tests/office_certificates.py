"""Certificates in place of passwords: an authority, those that it signed, and a browser that has one."""
import functools
import os
import shutil
import subprocess
from pathlib import Path

from office_proxies import ARE, with_certificates
from page_scenes import same

NO_AGENT = '{"name":"NoAgent","refused":2}'
# it puts a certificate where Chromium looks for those of its user (Debian: libnss3-tools, which has certutil too)
HAS_STORE = shutil.which("pk12util")


def runs(*words):
    return subprocess.run(words, check=True, capture_output=True).stdout


def signs(folder, name, by=None):
    """A certificate of this common name, signed by that authority or by itself; the file has its key too."""
    key, request, file = (f"{folder}/{name}.{end}" for end in ("key", "csr", "pem"))
    new = ["openssl", "req", "-newkey", "ec", "-pkeyopt", "ec_paramgen_curve:prime256v1", "-nodes", "-subj", f"/CN={name}", "-keyout", key]
    if by:
        runs(*new, "-out", request)
        made = runs("openssl", "x509", "-req", "-in", request, "-CA", f"{folder}/{by}.pem", "-CAkey", f"{folder}/{by}.key",
                    "-set_serial", "1", "-days", "2")
    else:
        made = runs(*new, "-x509", "-days", "2")
    Path(file).write_bytes(made + Path(key).read_bytes())
    return file


def gives_to_browsers(certificate):
    """Puts a certificate with its key where the browsers of this user look for theirs."""
    store, packed = os.path.join(os.environ["HOME"], ".pki", "nssdb"), certificate + ".p12"
    os.makedirs(store)
    runs("certutil", "-N", "-d", f"sql:{store}", "--empty-password")
    runs("openssl", "pkcs12", "-export", "-in", certificate, "-out", packed, "-passout", "pass:")
    runs("pk12util", "-i", packed, "-d", f"sql:{store}", "-K", "", "-W", "")


@functools.cache
def makes_certificates(folder):
    """The folder with the authority of the agents, and what it signed; in own/ an ann who signed herself. The browsers have bob's."""
    os.makedirs(f"{folder}/certificates/own")
    made = f"{folder}/certificates"
    signs(made, "authority")
    for name in ("ann", "bob", "Nobody Here"):
        signs(made, name, "authority")
    signs(f"{made}/own", "ann")
    if HAS_STORE:
        gives_to_browsers(f"{made}/bob.pem")
    return made


def offers_certificate(port):
    """The choice by which a browser takes its certificate to this port without a question."""
    choice = {f"https://office.example:{port},*": {"setting": {"filters": [{}]}}}
    return {"profile.content_settings.exceptions.auto_select_certificate": choice}


def asks_for_certificates(proxy, folder, browser):
    """A certificate says who asks; without one nothing is had but how much there is. The browser has one of bob's."""
    shutil.copy(f"{folder}/authority.pem", f"{proxy.folder}/agents.pem")
    proxy.health = "/health"
    proxy.changes(ARE, with_certificates(proxy.name))
    bob = {"Desk-Agent": "bob"}
    same("no certificate", (403, 403), (proxy.ask("/agent", **bob)[0], proxy.ask("/")[0]))
    proxy.certificate = f"{folder}/ann.pem"
    same("whose it is", (200, '{"agent":"ann"}'), proxy.ask("/agent", **bob))
    same("meant for another", (400, NO_AGENT), proxy.ask("/mine", **bob, **{"Desk-For": "bob"}))
    proxy.certificate = f"{folder}/Nobody Here.pem"
    same("it names no agent", True, proxy.ask("/agent", **bob)[0] in (400, 403))
    proxy.certificate = f"{folder}/own/ann.pem"
    same("another authority", True, proxy.ask("/agent", **bob)[0] in (0, 400))
    proxy.certificate = None
    if HAS_STORE:
        browser.open(f"https://office.example:{proxy.port}/#/journeys")
        browser.shows("Agent bob", "header")
        browser.shows("all (1)", "#list")
        same("the page asks nobody", ([], []), (browser.all("#agent"), browser.names("header button")))
