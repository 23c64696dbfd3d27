#!/usr/bin/env bash
# Many clients of one desk at once: live.py says what each of them is to see.
. "$(dirname "${BASH_SOURCE[0]}")/helping.bash"

python3 "$tests/live.py"
