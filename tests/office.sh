#!/usr/bin/env bash
# The recipes of OFFICE.md for an office, as printed but for ports, files and passwords: HAProxy, nginx, Apache and Caddy with TLS
# and passwords before a desk with its page, and headless Chromium before them. Two agents book at once in three windows, while a
# backup is made. The desk is killed and started again, and a browser is another agent's meanwhile, in Firefox too. A password is
# withdrawn, its question cancelled, and who is signed out signs in again. Names are mapped to agents, the page is served in a folder,
# and certificates say who asks. A proxy, or what else is absent, is left out, which is said.
#
# A day of an office behind nginx and one behind HAProxy: ten tabs of ten agents, with a backup, a kill and a restart in between. Nothing
# is lost, doubled or stuck, and the ledger is what the tabs were shown. A day takes SECONDS_A_DAY: 300, in the gate 45.
. "$(dirname "${BASH_SOURCE[0]}")/helping.bash"

stands_on openssl
drives_browser
PATH=$PATH:/usr/sbin
proxies=()

# has WHAT COMMAND ..: one of these commands is here; where none is, says that this is left out
has() {
  if command -v "${@:2}" >/dev/null 2>&1; then return; fi
  echo "office.sh: $1 is left out, it is absent" >&2
  return 1
}

for proxy in haproxy nginx apache2 caddy; do
  if has "$proxy" "$proxy"; then proxies+=("$proxy"); fi
done
has Firefox firefox-esr firefox
has "pk12util, which gives Chromium a certificate," pk12util

openssl req -x509 -newkey rsa:2048 -nodes -days 2 -subj /CN=office.example -keyout key -out certificate 2>/dev/null
cat certificate key >desk.pem
# where root starts nginx, another user reads the passwords
chmod 755 "$work"
: "${SECONDS_A_DAY:=$([ -n "${PART:-}" ] && echo 45 || echo 300)}"
finds_nothing_wrong "$python" "$tests/office.py" "$work" "$SECONDS_A_DAY" "${proxies[@]}"
[ -z "$in_part" ] || echo "a day of $SECONDS_A_DAY seconds$in_part"
finish
