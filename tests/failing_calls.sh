#!/usr/bin/env bash
# Failing calls of the program on its files and streams: failing_calls.py says what has to come of them.
#
# EACH=1 DESK=.. tests/failing_calls.sh    each call, and not each fifth alone; MORE=N: N second failures after each first one;
#                                          SEED=N: other chances
. "$(dirname "${BASH_SOURCE[0]}")/hostile.bash"

compiles calls
python3 "$tests/failing_calls.py" calls.so "${MORE:-1}" "${EACH:-5}" "${SEED:-1987}"
