#!/usr/bin/env bash
# Power cuts, and what they leave: power_cuts.py says what has to come of it. With the syncs left out of the record many of the disks
# are wrong, so the trial finds what it looks for.
#
# DISKS=30000 DESK=.. tests/power_cuts.sh    tries about so many disks; EACH=N: after each N-th call alone; SEED=N: others
. "$(dirname "${BASH_SOURCE[0]}")/hostile.bash"

compiles calls
python3 "$tests/power_cuts.py" calls.so "${DISKS:-2000}" "${SEED:-1987}"
