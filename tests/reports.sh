#!/usr/bin/env bash
# The reports of a file as it is, each in its formats: no journey is taken on, and a file that is absent is not made. The layout
# of each report, what a filter shows, and which words are refused, is proved, and tried by the crates' tests (report_tests,
# line_tests); here each report and each filter is printed once by the program.
# More than 200 lines: most lines are what the reports print.
. "$(dirname "${BASH_SOURCE[0]}")/helping.bash"

# shows: the blocks of standard input: "$ " and the words of a call, the lines that it prints, and where it does not end with 0, "! "
# with the status and the line on standard error. Lines of records end with CR LF.
shows() {
  local line words="" expected="" end="0:"
  while IFS= read -r line; do
    case $line in
      '$ '*)
        shown "$words" "$expected" "$end"
        words=${line#\$ } expected="" end="0:"
        ;;
      '! '*) end=${line#! } ;;
      *) expected+=$line$'\n' ;;
    esac
  done
  shown "$words" "$expected" "$end"
}

# shown WORDS PRINTED STATUS:FAULT: the program, called by these words, prints this and ends so
shown() {
  local printed=$2
  [[ $1 != *csv* ]] || printed=${2//$'\n'/$'\r\n'}
  [ -z "$1" ] || tells "$1" "${3%%:*}" "${printed%$'\n'}" "${3#*:}" $1 </dev/null
}

# three journeys by turns: one has ended, one is left where a save-point was taken, one is on its way back
a1=F/AL/A1/2030-06-01
room=R/INN/DBL/2030-06-02
answers "by turns" "set a $a1 10\nset b $room 5\nbegin $a1/1/1!0\nbegin $a1/1/1;$room/1/1!0\nbegin $a1/1/1;$room/1/1!0
step 1\nstep 2\nstep 3\nsave 2\nabort 3 0\n" "loaded a 1
loaded b 1
journey 1 begun
journey 2 begun
journey 3 begun
journey 1 T1.1 ended 1
journey 2 T1.1 run 1
journey 3 T1.1 run 1
journey 2 S1 run 1
journey 3 B0a back 1 to 0"
before=$(rows 'SELECT events FROM meta')
shows <<ROWS
$ stock trips.db --format text
kind     supplier product  night       allot   held   free
flight   AL       A1       2030-06-01     10      3      7
room     INN      DBL      2030-06-02      5      0      5
cells 2
$ stock trips.db --format json
{"allot":10,"free":7,"held":3,"kind":"flight","night":"2030-06-01","product":"A1","supplier":"AL"}
{"allot":5,"free":5,"held":0,"kind":"room","night":"2030-06-02","product":"DBL","supplier":"INN"}
$ stock --format=csv trips.db
kind,supplier,product,night,allot,held,free
flight,AL,A1,2030-06-01,10,3,7
room,INN,DBL,2030-06-02,5,0,5
$ summary trips.db
kind     supplier product  month   nights    allot     held     free
flight   AL       A1       2030-06      1       10        3        7
room     INN      DBL      2030-06      1        5        0        5
months 2
$ summary trips.db --kind flight --format json
{"allot":10,"free":7,"held":3,"kind":"flight","month":"2030-06","nights":1,"product":"A1","supplier":"AL"}
$ summary --format=csv trips.db --from 2030-06-02
kind,supplier,product,month,nights,allot,held,free
room,INN,DBL,2030-06,1,5,0,5
$ stock trips.db --calendar
. none held  1 to 9 tenths held  # all held  - none allotted  blank no night
                                             1         2         3
kind     supplier product  month    1234567890123456789012345678901
flight   AL       A1       2030-06 |3                              |
room     INN      DBL      2030-06 | .                             |
months 2
$ stock --kind cover --format text trips.db --calendar
. none held  1 to 9 tenths held  # all held  - none allotted  blank no night
                                             1         2         3
kind     supplier product  month    1234567890123456789012345678901
months 0
$ unfinished trips.db
           2 desk             run 1
           3 desk             back 1 to 0
unfinished 2
$ unfinished trips.db --format json --state back
{"agent":"desk","journey":3,"pos":1,"state":"back","target":0}
$ unfinished trips.db --format csv
journey,agent,state,pos,target
2,desk,run,1,
3,desk,back,1,0
$ unfinished trips.db --agent ann
unfinished 0
$ journeys trips.db
           1 desk             ended 1
           2 desk             run 1
           3 desk             back 1 to 0
journeys 3
$ journeys trips.db --state ended --format json
{"agent":"desk","journey":1,"pos":1,"state":"ended"}
$ journeys trips.db --state run --agent desk --format csv
journey,agent,state,pos,target
2,desk,run,1,
$ history trips.db 3
journey 3 agent desk
plan $a1/1/1;$room/1/1!0
items T1.1 B0a
state back 1 to 0
$ history trips.db 2 --format json
{"agent":"desk","journey":2,"plan":"$a1/1/1;$room/1/1!0"}
{"item":"T1.1","journey":2}
{"item":"S1","journey":2}
{"journey":2,"pos":1,"state":"run"}
$ history trips.db 3 --format csv
journey,item
3,T1.1
3,B0a
$ why trips.db 2
journey 2 agent desk
state run 1
next T2.1 $room/1/1
night 2030-06-02 free 5
step T2.1
$ why trips.db 3 --format json
{"agent":"desk","journey":3,"pos":1,"state":"back","target":0}
{"journey":3,"next":"C1.1","want":"$a1/1/1"}
{"free":7,"journey":3,"night":"2030-06-01"}
{"journey":3,"step":"C1.1"}
$ why --format=csv trips.db 1
journey,agent,state,pos,target,next,want,night,free,step
1,desk,ended,1,,,,,,none
$ holders trips.db $a1
     journey   step option places
           1      1      1      1
           2      1      1      1
           3      1      1      1
holders 3
$ holders trips.db $room --format json
$ holders --format csv trips.db $a1
journey,step,option,places
1,1,1,1
2,1,1,1
3,1,1,1
$ holders trips.db
night      kind     supplier product       journey agent            state  places
2030-06-01 flight   AL       A1                  1 desk             ended       1
2030-06-01 flight   AL       A1                  2 desk             run         1
2030-06-01 flight   AL       A1                  3 desk             back        1
holders 3
$ holders trips.db --supplier AL --to 2030-06-01 --format csv
night,kind,supplier,product,journey,agent,state,places
2030-06-01,flight,AL,A1,1,desk,ended,1
2030-06-01,flight,AL,A1,2,desk,run,1
2030-06-01,flight,AL,A1,3,desk,back,1
$ holders trips.db --product DBL --format json
$ history trips.db 4 --format json
refused 9 NoJourney
! 1:
$ why trips.db 999999999999
refused 9 NoJourney
! 1:
$ history trips.db 01
refused 4 BadBody
! 1:
$ history absent.db 1000000000000
refused 4 BadBody
! 1:
ROWS

# a part of the cells: those that have each of the values named
for words in "--kind room" "--supplier INN" "--product DBL" "--from 2030-06-02" "--kind room --supplier INN --product DBL --to 2030-06-02"; do
  same "the stock, $words" "cells 1 DBL" "$("$DESK" stock trips.db $words | awk '$3 == "DBL" { found = $3 } END { print $0, found }')"
done

# other tools read of a report what the text says
if command -v python3 >/dev/null; then
  same "the free places, as JSON" "7 5" "$("$DESK" stock trips.db --format json | python3 -c 'import json, sys
print(*(json.loads(line)["free"] for line in sys.stdin))')"
  same "the free places, as CSV" "7 5" "$("$DESK" stock trips.db --format csv | python3 -c 'import csv, sys
print(*(row["free"] for row in csv.DictReader(sys.stdin)))')"
fi

# a night that no calendar has, written by hand: what comes before it is printed; one before all nights, where each cell is asked for
cp trips.db bad.db
sqlite3 bad.db 'UPDATE stock SET night = 1099511627776 WHERE kind = 1'
cp trips.db odd.db
sqlite3 odd.db "INSERT INTO stock VALUES(0, 'AL', 'A1', -1, 1, 1)"
: >empty.db
shows <<'ROWS'
$ stock bad.db
kind     supplier product  night       allot   held   free
flight   AL       A1       2030-06-01     10      3      7
! 1:fault 18 Store
$ stock bad.db --format json
{"allot":10,"free":7,"held":3,"kind":"flight","night":"2030-06-01","product":"A1","supplier":"AL"}
! 1:fault 18 Store
$ summary bad.db --kind flight
kind     supplier product  month   nights    allot     held     free
! 1:fault 18 Store
$ unfinished bad.db
           2 desk             run 1
           3 desk             back 1 to 0
unfinished 2
$ stock odd.db --kind flight
kind     supplier product  night       allot   held   free
flight   AL       A1       2030-06-01     10      3      7
cells 1
$ stock empty.db
kind     supplier product  night       allot   held   free
cells 0
$ stock empty.db --format json
$ unfinished empty.db --format csv
journey,agent,state,pos,target
$ journeys empty.db
journeys 0
$ history empty.db 1
refused 9 NoJourney
! 1:
ROWS
same "a night below 0 in the whole stock" "1:fault 18 Store" "$("$DESK" stock odd.db 2>&1 >/dev/null | sed 's/^/1:/')"

# files that are none, and reports that cannot be written: no file is made
mkdir folder
head -c 5000 /dev/zero | tr '\0' x >text.db
for report in stock summary unfinished journeys "history 1" "why 1" "holders $a1" holders "stock --calendar" "stock --format=json" "unfinished --format=csv"; do
  read -r word rest <<<"$report"
  for file in absent.db folder text.db; do
    fault="fault 21 Store"
    [ "$file" != absent.db ] || fault="fault 26 File"
    shown "$word $file $rest" "" "1:$fault"
  done
  "$DESK" "$word" trips.db $rest >/dev/full 2>err
  same "$report on a full disk" "1:fault 25 Write" "$?:$(cat err)"
done
same "none is made" "" "$(ls absent.db 2>/dev/null)"
sqlite3 old.db 'CREATE TABLE meta(one INTEGER PRIMARY KEY CHECK(one = 1), version INTEGER NOT NULL,
  events INTEGER NOT NULL, journeys INTEGER NOT NULL) STRICT; INSERT INTO meta VALUES(1, 9, 0, 0)'
shown "stock old.db" "refused 20 UnknownSchema 9" "1:"
same "nothing was committed" "$before" "$(rows 'SELECT events FROM meta')"
same "the file is sound" "ok" "$(rows 'PRAGMA integrity_check')"
finish
