"""Proxies in front of a desk, each in a folder of its own and in the foreground, as Debian has them."""
import os
import subprocess
from pathlib import Path

# on Debian the proxies are not on every user's path
os.environ["PATH"] += ":/usr/sbin"


def begins(name, folder, text, said):
    """Runs a proxy by this configuration; what it says goes to this file."""
    conf = Path(folder, f"{name}.conf")
    conf.write_text(text, encoding="utf-8")
    words = {
        "haproxy": ["haproxy", "-f", conf], "nginx": ["nginx", "-p", folder, "-c", conf, "-e", "stderr"],
        "apache2": ["apache2", "-d", folder, "-f", conf, "-DFOREGROUND"],
        "caddy": ["caddy", "run", "--config", conf, "--adapter", "caddyfile"],
    }
    return subprocess.Popen(
        words[name], stdin=subprocess.DEVNULL, stdout=said, stderr=said,
        env={**os.environ, "HOME": folder, "XDG_DATA_HOME": f"{folder}/caddy", "XDG_CONFIG_HOME": f"{folder}/caddy"},
    )


def for_apache(folder, port, modules, text):
    """The whole configuration of an Apache that has these modules and these lines, at its port."""
    head = [f"LoadModule {one}_module /usr/lib/apache2/modules/mod_{one}.so" for one in modules]
    head += ["User nobody", "Group nogroup"] if os.getuid() == 0 else []
    return "\n".join([*head, "ServerName desk", f"ErrorLog {folder}/apache2.log", f"DefaultRuntimeDir {folder}",
                      f"PidFile {folder}/apache2.pid", f"Listen 127.0.0.1:{port}", text, ""])
