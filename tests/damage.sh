#!/usr/bin/env bash
# Damaged files: damage.py says what has to come of them. How often the program showed wrong rows without a fault is printed, and not
# judged: docs/TESTING_FAILURES.md has the figures.
#
# DAMAGES=all DESK=.. tests/damage.sh    each byte, each pair of pages, each length; a number: so many of each sort
. "$(dirname "${BASH_SOURCE[0]}")/hostile.bash"

PATIENCE=${PATIENCE:-20} python3 "$tests/damage.py" "${DAMAGES:-150}" "${SEED:-1987}"
