#!/usr/bin/env bash
# Out of memory in the tests of the crates: each of their allocations is refused in turn. memory_of_crates.py says what has to come of it.
[ -w /dev/shm ] && in_memory=/dev/shm
. "$(dirname "${BASH_SOURCE[0]}")/helping.bash"

compiles refuse
python3 -B "$tests/memory_of_crates.py"
