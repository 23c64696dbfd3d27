#!/usr/bin/env bash
# The largest plans, allotments, files, inputs and connections through the program, and reports and pages of a megabyte.
[ -w /dev/shm ] && in_memory=/dev/shm
. "$(dirname "${BASH_SOURCE[0]}")/helping.bash"

python3 "$tests/sizes.py"
