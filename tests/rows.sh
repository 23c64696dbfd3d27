#!/usr/bin/env bash
# Worked rows, of which all values were written by hand: lines, reports, files and requests, through the program (tests/rows.txt).
# Rows of lines are run over HTTP too. Then some answers of the table are spoiled, and each of these has to be found wrong.
. "$(dirname "${BASH_SOURCE[0]}")/hostile.bash"

python3 "$tests/rows.py" "$tests/rows.txt" || wrong=1

# finds ROW SED: with its text changed so, this row is found wrong
finds() {
  sed "$2" "$tests/rows.txt" >spoiled.txt
  same "$2: changed" yes "$(cmp -s spoiled.txt "$tests/rows.txt" || echo yes)"
  python3 "$tests/rows.py" spoiled.txt "$1" >out 2>err
  same "$2: the status" 1 $?
  same "$2: what is found" yes "$(grep -q "^rows.py: $1" err && echo yes)"
}
finds "one seat" 's/^step 1 => journey 1 T1.1 ended 1$/step 1 => journey 1 T1.1 run 1/'
finds "one seat" 's/     10      1      9$/     10      0     10/'
finds "recovered to the start" 's/^| recovered 3$/| recovered 4/'
finds "recovery of two steps of three" 's/^recovers 3$/recovers 4/'
finds "recovery back to the first mark, and on" 's/B1s C2.1 T2.1 T3.1 T4.1/B1s C2.1 T2.1 T3.1/'
finds "a turn gives back its own places" 's/=> 10|7$/=> 10|10/'
finds "the last event" 's/^begin \(.*\) => refused 16 Limit$/begin \1 => journey 2 begun/'
finds "a file that comes twice" 's/FROM meta => 1$/FROM meta => 2/'
finds "a file that comes twice" 's/ => loaded b1 2$/ => loaded b1 1/'
finds "another agent's journey" 's/404 32/200 32/'
finds "the stock of a new file" 's/=> 200 67 /=> 200 66 /'
finds "nothing to migrate" 's/^fault 26 File$/fault 21 Store/'
finish
