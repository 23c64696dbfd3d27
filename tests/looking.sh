#!/usr/bin/env bash
# Looking at a desk that serves: the reports at the administrator's socket and those of --at PATH, each as the command prints it of a
# copy of the file; what is refused there; a desk that is asked and sends no whole report; and what a monitor reads.
#
# LEDGERS=200 DESK=.. tests/looking.sh    compares the reports of so many ledgers; 40 without
[ -w /dev/shm ] && in_memory=/dev/shm
. "$(dirname "${BASH_SOURCE[0]}")/helping.bash"

stands_on python3
python3 "$tests/looking.py" || wrong=1
command -v promtool >/dev/null || echo "looking.sh: what a monitor reads was looked at without promtool, which is absent" >&2
finish
