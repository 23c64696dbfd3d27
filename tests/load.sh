#!/usr/bin/env bash
# Allotment files as they come: of the most bytes and more, of another program, through standard input, and none. What is loaded, and
# which rows and batches are refused, is looked at by rows.sh.
. "$(dirname "${BASH_SOURCE[0]}")/helping.bash"

header=kind,supplier,product,night,places

both="$header\nflight,AL,A1,2030-06-01,10\nroom,INN,DBL,2030-06-01,4\n"
one=flight,AL,A1,2030-06-01,1

# the most bytes, and one more: a row fits as its last field is read, and is too long as a whole
fill() {
  printf '%s\n%s' "$header" "$one"
  head -c "$1" /dev/zero | tr '\0' '\n'
}
fill $((262144 - ${#header} - 1 - ${#one})) >places.csv
same "262144 bytes" "loaded b4 1" "$("$DESK" load trips.db places.csv --batch b4)"
fill $((262145 - ${#header} - 1 - ${#one})) >places.csv
same "262145 bytes" "refused 6 BadCsv 0 size" "$("$DESK" load trips.db places.csv --batch b5)"
fill 600000 >places.csv
same "many bytes" "refused 6 BadCsv 0 size" "$("$DESK" load trips.db places.csv --batch b5)"

# a file that sqlite3 writes, with its own line ends, and the report cut by awk beside the rows
sqlite3 -csv -header :memory: "SELECT 'cover' AS kind, 'INS' AS supplier, 'X' AS product, '2030-07-01' AS night, 7 AS places
  UNION ALL SELECT 'transfer', 'BUS', 'X', '2030-07-02', 100000 UNION ALL SELECT 'room', 'INN', 'DBL', '2030-06-01', 3" >made.csv
same "a file of sqlite3" "loaded b6 3" "$("$DESK" load trips.db made.csv --batch b6)"
cp trips.db copy.db
same "the report and the rows" "$(sqlite3 -separator ' ' copy.db "SELECT CASE kind WHEN 0 THEN 'flight' WHEN 1 THEN 'room'
  WHEN 2 THEN 'transfer' ELSE 'cover' END, supplier, product, date('1970-01-01', '+' || night || ' days'), allot,
  allot - free, free FROM stock ORDER BY kind, supplier, product, night")" \
  "$("$DESK" stock trips.db | awk 'NR > 1 && NF == 7 { print $1, $2, $3, $4, $5, $6, $7 }')"

tells "an absent allotment file" 1 "" "fault 26 File" load trips.db absent.csv --batch b7
mkdir folder
tells "a folder for an allotment file" 1 "" "fault 26 File" load trips.db folder --batch b7
tells "an absent allotment file and a bad name" 1 "" "fault 26 File" load trips.db absent.csv --batch B6
tells "an absent allotment file and a new database" 1 "" "fault 26 File" load new.db absent.csv --batch b7
same "the new database is made" "0|0" "$(sqlite3 new.db 'SELECT events, journeys FROM meta')"
tells "a folder for a database" 1 "" "fault 21 Store" load folder absent.csv --batch b7

# standard input, where the allotment file is `-`
same "standard input" "loaded b8 1" "$(printf '%b' "$header\nroom,SEA,DBL,2030-08-01,3\n" | "$DESK" load trips.db - --batch b8)"
same "its row" "SEA|3" "$(rows "SELECT supplier, free FROM stock WHERE supplier = 'SEA'")"
same "standard input, in pieces" "loaded b9 1" \
  "$( (
    printf '%b' "$header\n"
    sleep 0.2
    echo "cover,SEA,X,2030-08-01,3"
  ) | "$DESK" load trips.db - --batch b9)"
same "a bad row of standard input" "refused 6 BadCsv 1 kind" \
  "$(printf '%b' "$header\nbus,SEA,X,2030-08-01,3\n" | "$DESK" load trips.db - --batch c1)"
same "an empty standard input" "refused 6 BadCsv 0 header" "$("$DESK" load trips.db - --batch c1 </dev/null)"
same "many bytes of standard input" "refused 6 BadCsv 0 size" "$(fill 600000 | "$DESK" load trips.db - --batch c1)"
printf '%b' "$both" >-
same "a file of that name" "loaded c2 2" "$("$DESK" load trips.db ./- --batch c2 </dev/null)"
tells "a standard input that cannot be read" 1 "" "fault 24 Read" load trips.db - --batch c3 <folder
same "a standard input that is not read" "left" "$(echo left | {
  "$DESK" load trips.db ./- --batch c2 >/dev/null
  cat
})"

# recovery comes first, and its commits stand where the load is refused
answers "a journey" "begin F/AL/A1/2030-06-01/1/1;T/BUS/X/2030-06-01/1/1!0\nstep 1\n" "journey 1 begun
journey 1 T1.1 run 1"
printf '%b' "$both" >places.csv
same "a refused load" "refused 4 BadBody" "$("$DESK" load trips.db places.csv --batch B1)"
same "the journey is undone" "3" "$(rows 'SELECT phase FROM journey WHERE id = 1')"
same "the file is sound" "ok" "$(rows 'PRAGMA integrity_check')"
finish
