#!/usr/bin/env bash
# The simulation of tests/soak.py: a fixed seed and that of the day, and nothing is wrong; and files that are spoiled on
# purpose between two lives, which it has to find: kept replies that are gone, an event that is lost after a kill, a place
# that is sold twice; these also where it looks at the answers alone. And files of which nothing is synced.
#
# COUNT=N SEED=N DESK=.. tests/soak.sh    so many commands of this seed, where the gate takes 2,000
. "$(dirname "${BASH_SOURCE[0]}")/helping.bash"
. "$tests/hostile.bash"
skips_trial

# soaks SEED COUNT WORD ..: runs the simulation
soaks() { python3 "$tests/soak.py" "$@"; }

# count_of WORD: the number before this word of the summary, or after it
count_of() { grep -o "$1 [0-9]*" said | head -n 1 | grep -o '[0-9]*$'; }

soaks 1990 "${COUNT:-2000}" >said || wrong=$((wrong + 1))
cat said
for what in kills faults "given again" refused "power cuts"; do
  same "it met $what" yes "$([ "$(count_of "$what")" -ge 5 ] && echo yes)"
done
soaks "${SEED:-$(date +%Y%m%d)}" "${COUNT:-200}" || wrong=$((wrong + 1))

# finds HOW WORD ..: the simulation finds a file that is spoiled so, with one of four seeds: with another one nothing that
# comes later may touch what was spoiled
finds() {
  local seed status
  for seed in 1987 1988 1989 1990; do
    soaks "$seed" 400 --spoil "$@" >found 2>err
    status=$?
    [ "$status" -eq 0 ] || break
  done
  same "spoiled, $*: the status" 1 "$status"
  same "spoiled, $*: what was found" "wrong 1" "$(tail -n 1 found)"
}
for how in forget-reply lose-event sell-twice; do
  finds "$how"
  finds "$how" --blind
done
finds no-syncs
finish
