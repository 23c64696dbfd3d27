#!/usr/bin/env bash
# Out of memory in runs of the program: memory_of_runs.py says what has to come of it.
#
# EACH=1 DESK=.. tests/memory_of_runs.sh    each allocation, and not each 25th alone; SEED=N: other chances, in place of
#                                           those of the day
. "$(dirname "${BASH_SOURCE[0]}")/hostile.bash"

compiles refuse calls
python3 "$tests/memory_of_runs.py" refuse.so calls.so "${EACH:-25}" "${SEED:-$(($(date +%s) / 86400))}" || wrong=1

# finds HOW: files or ends that are spoiled so are found wrong
finds() {
  SPOIL=$1 python3 "$tests/memory_of_runs.py" refuse.so calls.so 700 1 recover >out 2>err
  same "spoiled, $1: the status" 1 $?
  same "spoiled, $1: what is found" yes "$(grep -q '^memory_of_runs.py: recover, allocation' err && echo yes)"
}
finds event
finds fault
finish
