#!/usr/bin/env bash
# Wrong bodies of `act`, which are switches of the tests of fault_tests: these tests find each of them, and pass with the
# desk's own body. Two more, of the program, are found by trial.sh, which compiles a program with them.
#
#   a commit whose failure is answered by Ok   found where the log fails
#   an allocation after the commit             found where that allocation is refused, after each of twelve commands
#
# Each run with a switch has one beside it whose word is as long and names none: it allocates the same, but for that.
#
# MEMORY_TESTS=FOLDER: takes the program of the tests, fault_tests_tests, from there, and not from where ./check leaves it
# TESTED="CRATE ..":   does nothing where fault_tests is not among these, whose tests the gate has built
if [[ -n "${TESTED+set}" && " $TESTED " != *" fault_tests "* ]]; then
  echo "spoiled.sh: left out until its turn: the tests of fault_tests are not built" >&2
  exit 0
fi
[ -w /dev/shm ] && in_memory=/dev/shm
. "$(dirname "${BASH_SOURCE[0]}")/helping.bash"

compiles refuse
program=${MEMORY_TESTS:-$tests/../crates/fault_tests/out}/fault_tests_tests
if [ ! -x "$program" ]; then
  same "the tests of fault_tests, which ./check leaves" built absent
  finish
  exit
fi

# runs SPOIL TEST [REFUSE]: one run of the test with this body; sets status and told
runs() {
  if [ -n "${3:-}" ]; then
    told=$(SPOIL=$1 REFUSE=$3 LD_PRELOAD=./refuse.so "$program" "$2" 2>&1)
  else
    told=$(SPOIL=$1 "$program" "$2" 2>&1)
  fi
  status=$?
}

# passes WHAT: the test passed
passes() { same "$1" "0: test result: ok" "$status: ${told##*$'\n'}"; }

# is_found WHAT CHECK: the test was stopped by this check
is_found() {
  same "$1: the status" 134 "$status"
  same "$1: what stopped the test" "$2" "$(grep -m 1 -oF -- "$2" <<<"$told")"
}

# Where the database fails and not the log, no command of these rows fails, so there is nothing to answer wrongly.
for row in batches save_points six_steps the_last_room two_journeys; do
  runs answers-failed-commit "tests::commands_stopped::${row}_while_the_log_fails"
  is_found "a commit whose failure is answered by Ok, $row" "the old state, or that with the whole event"
done
runs answers-nothing-wrong tests::commands_stopped::the_last_room_while_the_log_fails
passes "the desk's own body, where the log fails"

moves=tests::memory::a_move_that_is_out_of_memory_changes_nothing
runs allocates-after-commit "$moves" sizes
passes "an allocation after each commit, of which none is refused"
mv sizes spoiled
runs allocates-nothing-more "$moves" sizes
passes "the desk's own body, no allocation refused"

# refuses N: allocation N is refused to the wrong body, which is found there, and to the desk's own, which passes
refuses() {
  rm -f refused
  runs allocates-nothing-more "$moves" "$1"
  passes "the desk's own body, allocation $1"
  same "the desk's own body: allocation $1" refused "$([ -e refused ] && echo refused)"
  runs allocates-after-commit "$moves" "$1"
  is_found "an allocation after the commit, allocation $1" "out of memory changes nothing"
}

# the places of the allocations that only the wrong body makes, one after each of twelve commands
mapfile -t places < <(diff spoiled sizes | sed -n 's/^\([0-9]*\)d.*/\1/p')
same "how many allocations only the wrong body makes" 12 "${#places[@]}"
for place in "${places[@]}"; do refuses "$place"; done
finish
