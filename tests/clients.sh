#!/usr/bin/env bash
# Bookings by clients and proxies as Debian has them: clients.py says what each of them is to get.
. "$(dirname "${BASH_SOURCE[0]}")/hostile.bash"

NODE_NO_WARNINGS=1 python3 "$tests/clients.py"
