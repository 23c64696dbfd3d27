#!/usr/bin/env bash
# Who waits at a terminal while lines or an allotment file come in slowly is shown how many lines were read; nobody else is.
. "$(dirname "${BASH_SOURCE[0]}")/helping.bash"

python3 "$tests/waiting.py"
