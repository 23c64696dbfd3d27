#!/usr/bin/env bash
# A file that another program holds is told by name and left as it is, and once it is free it is answered for again.
. "$(dirname "${BASH_SOURCE[0]}")/helping.bash"

line="begin F/AL/A1/2030-06-01/1/1!0"
answers "a new file" "$line\n" "journey 1 begun"

# both_files: what the file and its log hold
both_files() { cat trips.db trips.db-wal | cksum; }

# held WHAT STATEMENTS: while sqlite3 holds the file by these statements, the program does not open it
held() {
  local holder said before
  mkfifo ask said
  sqlite3 trips.db <ask >said &
  holder=$!
  exec 3>ask 4<said
  printf "%s; SELECT 'held';\n" "$2" >&3
  while read -r said <&4 && [ "$said" != held ]; do :; done
  same "$1: sqlite3 holds the file" held "$said"
  before=$(both_files)
  leaves "$1" 1 "" "fault 21 Store" run trips.db <<<"$line"
  same "$1: the file and its log" "$before" "$(both_files)"
  exec 3>&- 4<&-
  wait "$holder"
  rm ask said
}

held "sqlite3 alone" "BEGIN EXCLUSIVE"
answers "free again" "$line\n" "journey 2 begun"
held "sqlite3 writes" "BEGIN IMMEDIATE"
held "sqlite3 reads" "BEGIN; SELECT count(*) FROM journey"
answers "free after a reader" "$line\n" "journey 3 begun"

# the program itself holds its file, against itself and against others, and goes on
opens_desk
asks "the first program" "$line" "journey 4 begun"
before=$(both_files)
leaves "a second program" 1 "" "fault 21 Store" run trips.db <<<"$line"
same "another reader" "" "$(sqlite3 trips.db 'SELECT count(*) FROM journey' 2>/dev/null)"
same "a second program: the file and its log" "$before" "$(both_files)"
asks "the first program goes on" "$line" "journey 5 begun"
closes_desk
same "the first program: the status" 0 "$?"
same "the first program: standard error" "" "$(cat desk_err)"

# a report holds the file until its last row: no other call opens it, another report neither
{
  echo kind,supplier,product,night,places
  seq -f 'room,INN,D%g,2030-06-01,4' 1 2000
} >many.csv
"$DESK" load many.db many.csv --batch many >/dev/null
mkfifo report
"$DESK" stock many.db >report 2>report_err &
first=$!
exec 4<report
IFS= read -r heading <&4
same "a report has begun" "kind" "${heading%% *}"
for words in "stock many.db" "stock many.db --format csv" "unfinished many.db" "summary many.db" "recover many.db"; do
  tells "beside a report: $words" 1 "" "fault 21 Store" $words
done
same "why" "fault 21 Store
The file is in use. End the program that has it open, or wait for it." "$("$DESK" --explain stock many.db 2>&1)"
same "the report goes on" "cells 2000" "$(tail -n 1 <&4)"
exec 4<&-
wait "$first"
same "the report: the status" "0:" "$?:$(cat report_err)"
same "after the report" "cells 2000" "$("$DESK" stock many.db | tail -n 1)"

answers "free at last" "$line\n" "journey 6 begun"
# six journeys were begun, and all but the last turned back by a later opening
same "meta" "1|2|11|6" "$(rows 'SELECT * FROM meta')"
same "the file is sound" "ok" "$(rows 'PRAGMA integrity_check')"
finish
