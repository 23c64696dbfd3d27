#!/usr/bin/env bash
# Faults that are explained: after --explain, and where standard error is a terminal (waiting.py), a second line says why a fault
# came, and what to do. An opening that recovered events says so. A file that is no database of the desk is left as it was.
. "$(dirname "${BASH_SOURCE[0]}")/helping.bash"
. "$tests/serving.bash"

line="begin F/AL/A1/2030-06-01/1/1!0"

# explains WHAT END WHY WORDS..: this call ends with this line, of a fault or a refusal, and is explained so; without the word
# there is no second line
explains() {
  local what=$1 end=$2 why=$3 out="" err=""
  shift 3
  if [[ $end == fault* ]]; then err=$end; else out=$end; fi
  tells "$what, as ever" 1 "$out" "$err" "$@" </dev/null
  [ -z "$why" ] || err+=${err:+$'\n'}$why
  tells "$what" 1 "$out" "$err" --explain "$@" </dev/null
}

# sums: the names of the files in the folder, and a sum of what they hold
sums() {
  ls -A1
  cat -- * 2>/dev/null | cksum
}

mkdir absent_log && cd absent_log || exit 2
printf 'kind,supplier,product,night,places\nflight,AL,A1,2030-06-01,9\n' >june.csv
sqlite3 other.db "CREATE TABLE other(a); INSERT INTO other VALUES(7)"
sqlite3 walled.db "PRAGMA journal_mode = wal; CREATE TABLE other(a); INSERT INTO other VALUES(7)" >/dev/null
head -c 8192 other.db | tr 'S' 'T' >spoiled.db
printf 'SQLite format 3\0' | cat - <(head -c 9000 /dev/zero | tr '\0' x) >damaged.db
sums >../before 2>../err
for file in june.csv other.db walled.db spoiled.db damaged.db; do
  for words in "run $file" "recover $file" "stock $file" "history $file 1" "migrate $file" "index $file" "load $file june.csv --batch b"; do
    same "$words" "fault 21 Store" "$("$DESK" $words 2>&1 </dev/null)"
    same "$words: the folder and its files" "$(cat ../before)" "$(sums)"
  done
done
why_no_database="The file is no database, and is left as it was. Look at its name."
why_other="The database is another program's, and is left as it was. Look at its name."
why_damaged="The database is damaged, or of a form that cannot be read. Take a backup of it."
explains "an allotment file" "fault 21 Store" "$why_no_database" run june.csv
explains "another program's database" "fault 21 Store" "$why_other" stock other.db
explains "a damaged database" "fault 21 Store" "$why_damaged" recover damaged.db
same "the folder and its files" "$(cat ../before)" "$(sums)"
same "another program still reads its file" 7 "$(sqlite3 other.db 'SELECT a FROM other')"
cd .. || exit 2

# a file of one byte becomes a desk, as an empty one does; one of two does not
printf x >one.db
: >none.db
for name in one.db none.db; do
  same "$name: the answer" "journey 1 begun" "$("$DESK" run "$name" <<<"$line" 2>&1)"
  same "$name: the journey, and a sound file" "1|ok" "$(sqlite3 "$name" 'SELECT count(*), (SELECT * FROM pragma_integrity_check) FROM journey')"
done
printf xy >two.db
explains "a file of two bytes" "fault 21 Store" "$why_no_database" run two.db

mkdir folder
explains "a folder" "fault 21 Store" "This is a folder, or another thing that is no file. Name a file." run folder
explains "a folder that is absent" "fault 21 Store" \
  "The folder of the file is absent. Make it, or look at its name." run absent/x.db
explains "an absent file" "fault 26 File" "The file is absent. Look at its name." stock absent.db
explains "an absent file to migrate" "fault 26 File" "The file is absent. Look at its name." migrate absent.db
explains "a bad number" "refused 4 BadBody" "" history absent.db 01
answers "a new desk" "$line\n" "journey 1 begun"
explains "an absent journey" "refused 9 NoJourney" "" history trips.db 9

# a file that may not be read, where that can be tried
cp trips.db closed.db
chmod 0 closed.db
if [ -r closed.db ]; then
  echo "explained.sh: no file is closed to this user, so that is not tried" >&2
else
  explains "a file that may not be read" "fault 21 Store" \
    "The file or its folder may not be read and written. Ask its owner for that." stock closed.db
fi

# a second hard link of the file, and of a log that a kill left
why_link="The file or its log has a second hard link, as 'ln' and 'cp -l' make. Remove one."
"$DESK" recover linked.db >/dev/null 2>&1
ln linked.db second.db
explains "a second hard link" "fault 21 Store" "$why_link" run linked.db
explains "a report on it" "fault 21 Store" "$why_link" stock second.db
rm second.db
same "the link is gone" "recovered 0" "$("$DESK" --explain recover linked.db 2>&1)"
opens_desk
asks "before a kill" "$line" "journey 2 begun"
{
  kill -9 "$desk"
  closes_desk
} 2>/dev/null
ln trips.db-wal second-wal
explains "a second hard link of the log" "fault 21 Store" "$why_link" run trips.db
rm second-wal

# a name that no batch may have: not what stands in the file
"$DESK" recover trips.db >/dev/null
explains "a bad name of a batch" "refused 4 BadBody" "The name of a batch is 1 to 24 of a-z, 0-9 and '-'." \
  load trips.db absent_log/june.csv --batch "June 2030"

# versions
sqlite3 old.db 'CREATE TABLE meta(one INTEGER PRIMARY KEY CHECK(one = 1), version INTEGER NOT NULL,
  events INTEGER NOT NULL, journeys INTEGER NOT NULL) STRICT; INSERT INTO meta VALUES(1, 1, 0, 0)'
explains "an older version" "refused 20 UnknownSchema 1" \
  "The database is of an older version. Make a copy of it, and run 'desk migrate'." run old.db
sqlite3 old.db 'UPDATE meta SET version = 9'
explains "a later version" "refused 20 UnknownSchema 9" \
  "The database is of an unknown version. Take the program that made it." run old.db

# a file in use
opens_desk
asks "in use" "$line" "journey 3 begun"
explains "a file in use" "fault 21 Store" \
  "The file is in use. End the program that has it open, or wait for it." run trips.db
closes_desk

# recovered events are noted once, before the answers
note="recovered events (see 'desk history')"
tells "a recovery" 0 "journey 4 begun" "$note: 1" --explain run trips.db <<<"$line"
printf '%s\n%s\n' "$line" "$line" | "$DESK" run trips.db >/dev/null
tells "two events" 0 "" "$note: 2" --explain run trips.db </dev/null
tells "no event" 0 "" "" --explain run trips.db </dev/null
"$DESK" run trips.db <<<"$line" >/dev/null
printf 'kind,supplier,product,night,places\nflight,AL,A9,2030-06-01,9\n' >nine.csv
tells "a load" 0 "loaded nine 1" "$note: 1" --explain load trips.db nine.csv --batch nine
"$DESK" run trips.db <<<"$line" >/dev/null
tells "recover says it itself" 0 "recovered 1" "" --explain recover trips.db

# a wrong field of an allotment file: the row, the column and what stands there, and what may stand there
rows='kind,supplier,product,night,places\nflight,AL,A9,2030-06-01,9\n'
wrong() {
  printf '%b' "$rows$2" >wrong.csv
  tells "$1" 1 "refused 6 BadCsv $3" "${4//|/$'\n'}" --explain load trips.db wrong.csv --batch wrong
  tells "$1, as ever" 1 "refused 6 BadCsv $3" "" load trips.db wrong.csv --batch wrong
}
wrong "a wrong night" 'room,INN,DBL,2030-13-01,4\n' "2 night" \
  "row 2, night: 2030-13-01|A night is a date from 2000-01-01 to 2099-12-31, as 2030-06-01."
wrong "a wrong product" 'room,INN,dbl,2030-06-01,4\n' "2 code" \
  "row 2, product: dbl|A supplier or product is 1 to 8 capital letters A to Z and digits."
wrong "control bytes" 'b\033[2Jus,AL,A1,2030-06-01,1\n' "2 kind" \
  "row 2, kind: b?[2Jus|A kind is flight, room, transfer or cover."
wrong "a long field" "flight,AL,A1,2030-06-01,$(printf '%070d' 1)\n" "2 places" \
  "row 2, places: $(printf '%060d' 0)|Places are a number from 0 to 100000, without sign or leading zeros."
wrong "four fields" 'flight,AL,A1,2030-06-01\n' "2 shape" \
  "A row has five fields of text, as flight,AL,A1,2030-06-01,10."
wrong "a cell twice" 'flight,AL,A9,2030-06-01,9\n' "2 twice" \
  "The cell of this row stands in an earlier row. Leave one of them out."

# the full disk: all calls from some one on find no room
compiles calls
full=0
for call in 20 40 60 80 100 120; do
  rm -f new.db* failed
  FAIL=$call THEN=all ERROR=28 LD_PRELOAD=./calls.so "$DESK" --explain run new.db >out 2>err <<<"$line"
  [ "$(sed -n 2p err)" != "The disk is full. Make room on it, and run again." ] || full=$((full + 1))
  same "a full disk, call $call: at most two lines" yes "$([ "$(wc -l <err)" -le 2 ] && echo yes)"
done
same "a full disk is named" yes "$([ "$full" -gt 0 ] && echo yes)"

# sockets that cannot be listened on: the port, the path, another file at the path or beside it
if command -v python3 >/dev/null && command -v curl >/dev/null; then
  why_port="The port is in use. End the program that listens there, or take another port."
  why_either="The port or the path of --house is in use. End the program that listens there."
  why_path="A folder or another file is at the path of --house, or there with .new. Take another."
  mkdir a_folder at.new at.new/kept
  echo kept >a_file
  serves_with --house house
  free=$(free_port)
  explains "a port in use" "fault 27 Net" "$why_port" serve b.db --port "$port"
  explains "a port in use, and a path that is free" "fault 27 Net" "$why_port" serve b.db --port "$port" --house at
  explains "a path in use" "fault 27 Net" "$why_either" serve b.db --port "$free" --house house
  explains "both in use" "fault 27 Net" "$why_either" serve b.db --port "$port" --house house
  for path in a_folder a_file at; do
    explains "at the path: $path" "fault 27 Net" "$why_path" serve b.db --port "$free" --house "$path"
  done
  explains "a folder that is absent" "fault 27 Net" "" serve b.db --port "$free" --house absent/house
  same "what stands at the paths" "a_file a_folder at.new at.new/kept" "$(find a_file a_folder at.new | LC_ALL=C sort | xargs)"
  curl -s -d '' --unix-socket house http://desk/stop >/dev/null
  ends_with "the desk that had the port" 0
else
  echo "explained.sh: there is no python3 or no curl, so no port is tried" >&2
fi

# the word stands before the command only; after it, a line below the usage says so, and the usage is as for any other word
for command in run serve recover load stock summary holders unfinished journeys history why migrate index; do
  "$DESK" "$command" --explain x.db >out 2>err </dev/null
  same "$command --explain: the status" "2:" "$?:$(cat out)"
  same "$command --explain: where it belongs" "The word '--explain' stands before the command: 'desk --explain $command'." \
    "$(tail -n 1 err)"
  "$DESK" "$command" --explained x.db >out 2>other </dev/null
  same "$command --explain: the usage" "$(sed 's/--explained/--explain/g' other)" "$(sed '$d' err)"
done
"$DESK" run trips.db --explain >out 2>err </dev/null
same "the word after the command" "2:" "$?:$(cat out)"
"$DESK" --explain >out 2>err </dev/null
same "the word alone" 2 "$?"
same "the word and the version" "$("$DESK" --version)" "$("$DESK" --explain --version)"

finish
