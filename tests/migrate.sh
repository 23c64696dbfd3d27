#!/usr/bin/env bash
# Files of schema 1, which sqlite3 makes here, are shown as they are, refused where the desk would write, and migrated; then they are
# used, also with the index for own journeys. What else is refused, each kept reply and each recovered journey is tried in
# migration_tests. What a migration leaves that is killed, or whose calls or allocations fail, is looked at by power_cuts.sh,
# failing_calls.sh and memory_of_runs.sh.
[ -w /dev/shm ] && in_memory=/dev/shm
. "$(dirname "${BASH_SOURCE[0]}")/helping.bash"
. "$tests/serving.bash"

# makes_old FILE: a file of schema 1, of a batch and of four journeys with 11 events. The first has ended, the second is going back to
# a save-point, the third was refused at once, and the fourth, which the house began, is running
makes_old() {
  sqlite3 "$1" <<'SQL' || exit 2
BEGIN;
CREATE TABLE meta(one INTEGER PRIMARY KEY CHECK(one = 1), version INTEGER NOT NULL, events INTEGER NOT NULL,
  journeys INTEGER NOT NULL) STRICT;
CREATE TABLE stock(kind INTEGER NOT NULL CHECK(kind BETWEEN 0 AND 3), supplier TEXT NOT NULL, product TEXT NOT NULL,
  night INTEGER NOT NULL, allot INTEGER NOT NULL, free INTEGER NOT NULL CHECK(free >= 0 AND free <= allot),
  PRIMARY KEY(kind, supplier, product, night)) STRICT;
CREATE TABLE batch(name TEXT NOT NULL PRIMARY KEY, num INTEGER NOT NULL UNIQUE, content BLOB NOT NULL) STRICT;
CREATE TABLE journey(id INTEGER PRIMARY KEY, num INTEGER NOT NULL UNIQUE, agent TEXT NOT NULL, steps INTEGER NOT NULL,
  tries INTEGER NOT NULL, pos INTEGER NOT NULL, phase INTEGER NOT NULL CHECK(phase BETWEEN 0 AND 3), target INTEGER NOT NULL,
  used INTEGER NOT NULL) STRICT;
CREATE TABLE step(journey INTEGER NOT NULL REFERENCES journey(id), place INTEGER NOT NULL, opt INTEGER NOT NULL,
  save INTEGER NOT NULL CHECK(save IN (0, 1)), taken INTEGER NOT NULL CHECK(taken IN (0, 1)), kind INTEGER NOT NULL,
  supplier TEXT NOT NULL, product TEXT NOT NULL, night INTEGER NOT NULL, nights INTEGER NOT NULL, places INTEGER NOT NULL,
  PRIMARY KEY(journey, place, opt)) STRICT;
CREATE TABLE entry(num INTEGER PRIMARY KEY, journey INTEGER NOT NULL REFERENCES journey(id),
  item INTEGER NOT NULL CHECK(item BETWEEN 0 AND 2), a INTEGER NOT NULL, b INTEGER NOT NULL) STRICT;
CREATE TABLE answer(agent TEXT NOT NULL, mark TEXT NOT NULL, ask BLOB NOT NULL, reply TEXT NOT NULL, PRIMARY KEY(agent, mark)) STRICT;
INSERT INTO batch VALUES ('all', 1, CAST('F/AL/A1/2030-06-01/10
F/AL/A2/2030-06-01/9
T/BUS/X/2030-06-01/8
' AS BLOB));
INSERT INTO stock VALUES (0, 'AL', 'A1', 22066, 10, 7), (0, 'AL', 'A2', 22066, 9, 7), (2, 'BUS', 'X', 22066, 8, 8);
INSERT INTO journey VALUES (1, 2, 'ann', 1, 0, 1, 2, 0, 0), (2, 4, 'ann', 3, 0, 2, 1, 1, 0), (3, 8, 'bob', 1, 0, 0, 3, 0, 1),
  (4, 10, 'desk', 2, 0, 1, 0, 0, 0);
INSERT INTO step VALUES (1, 1, 1, 0, 1, 0, 'AL', 'A1', 22066, 1, 1),
  (2, 1, 1, 1, 1, 0, 'AL', 'A1', 22066, 1, 1), (2, 2, 1, 0, 1, 0, 'AL', 'A2', 22066, 1, 2), (2, 3, 1, 0, 0, 2, 'BUS', 'X', 22066, 1, 1),
  (3, 1, 1, 0, 0, 1, 'INN', 'A', 22066, 2, 1), (3, 1, 2, 0, 0, 1, 'INN', 'B', 22066, 1, 1),
  (4, 1, 1, 0, 1, 0, 'AL', 'A1', 22066, 1, 1), (4, 2, 1, 0, 0, 2, 'BUS', 'X', 22066, 1, 1);
INSERT INTO entry VALUES (3, 1, 0, 1, 1), (5, 2, 0, 1, 1), (6, 2, 0, 2, 1), (7, 2, 2, 1, 2), (9, 3, 2, 0, 1), (11, 4, 0, 1, 1);
-- what came over HTTP: the target and a line feed
INSERT INTO answer VALUES ('ann', 'k1', CAST('/journeys/1/step
' AS BLOB), 'journey 1 T1.1 ended 1'), ('ann', 'k2', CAST('/journeys/2/abort/1
' AS BLOB), 'journey 2 B1a back 2 to 1'), ('bob', 'k3', CAST('/journeys/3/step
' AS BLOB), 'journey 3 B0r undone 0');
INSERT INTO meta VALUES (1, 1, 11, 4);
COMMIT;
SQL
}

# holds FILE: what its tables hold, whatever the order of rows
holds() { sqlite3 "$1" .dump | sort | cksum; }

# new_of FILE: what the file holds once the statements of migration, as the formats have them, are run over a copy by sqlite3
new_of() {
  cp "$1" plain.db
  sqlite3 plain.db "BEGIN; CREATE TABLE entry2(num INTEGER PRIMARY KEY, journey INTEGER NOT NULL REFERENCES journey(id), item INTEGER NOT NULL CHECK(item BETWEEN 0 AND 3), a INTEGER NOT NULL, b INTEGER NOT NULL) STRICT;
    CREATE TABLE mark(journey INTEGER NOT NULL REFERENCES journey(id), pos INTEGER NOT NULL, PRIMARY KEY(journey, pos)) STRICT;
    INSERT INTO entry2 SELECT * FROM entry; UPDATE meta SET version = 2; COMMIT"
  holds plain.db
}

day=2030-06-01
plan="plan F/AL/A1/$day/1/1*;F/AL/A2/$day/1/2;T/BUS/X/$day/1/1!0"

# is_shown WHAT FILE: the reports show the file of four journeys, and leave it
is_shown() {
  leaves "$1: stock" 0 'kind     supplier product  night       allot   held   free
flight   AL       A1       2030-06-01     10      3      7
flight   AL       A2       2030-06-01      9      2      7
transfer BUS      X        2030-06-01      8      0      8
cells 3' "" stock "$2"
  leaves "$1: unfinished" 0 '           2 ann              back 2 to 1
           4 desk             run 1
unfinished 2' "" unfinished "$2"
  leaves "$1: undone journeys" 0 "           3 bob              undone 0
journeys 1" "" journeys "$2" --state undone
  leaves "$1: a history" 0 "journey 2 agent ann
$plan
items T1.1 T2.1 B1a
state back 2 to 1" "" history "$2" 2
}

# a port that another program listens on, so that a desk that listens before it refuses would fault
coproc listener { exec python3 -c 'import socket, sys
s = socket.socket(); s.bind(("127.0.0.1", 0)); s.listen(); print(s.getsockname()[1], flush=True); sys.stdin.read()'; }
read -r taken <&"${listener[0]}"

printf 'kind,supplier,product,night,places\nflight,AL,A9,2030-06-01,10\n' >some.csv
makes_old old.db
is_shown "an old file" old.db
for words in "run old.db" "recover old.db" "load old.db some.csv --batch some" "serve old.db --port $taken --connections 1"; do
  leaves "an old file: $words" 1 "refused 20 UnknownSchema 1" "" $words </dev/null
done
expected=$(new_of old.db)
cp old.db trips.db
tells "an old file" 0 "migrated 1 to 2 events 11" "" migrate trips.db
same "what the new file holds" "$expected" "$(holds trips.db)"
same "the new file is sound" "ok" "$(rows 'PRAGMA integrity_check')"
same "what it refers to" "" "$(rows 'PRAGMA foreign_key_check')"
is_shown "a new file" trips.db
leaves "a new file" 1 "refused 23 AlreadyNew" "" migrate trips.db

# what is no file of schema 1
tells "an absent file" 1 "" "fault 26 File" migrate absent.db
same "none is made" "" "$(ls absent.db* 2>/dev/null)"
: >empty.db
tells "a file without a byte" 1 "refused 20 UnknownSchema 0" "" migrate empty.db
same "a file without a byte gets no table" "0" "$(sqlite3 empty.db 'SELECT count(*) FROM sqlite_schema')"
cp old.db other.db
sqlite3 other.db "UPDATE meta SET version = 3"
leaves "version 3" 1 "refused 20 UnknownSchema 3" "" migrate other.db
"$DESK" migrate >out 2>err
same "no file: the status, and standard output" "2:" "$?:$(cat out)"

# a full output: what was asked is done
"$DESK" migrate old.db >/dev/full 2>err
same "a full disk: the status" "1 fault 25 Write" "$? $(cat err)"
leaves "after a full disk" 1 "refused 23 AlreadyNew" "" migrate old.db

# the new file is recovered; a journey goes to its target and on, a new one takes a save-point, and a kept key gives its reply
tells "recovery" 0 "recovered 5" "" recover trips.db
tells "recovery once more" 0 "recovered 0" "" recover trips.db
tells "a journey that was going back" 0 "journey 2 agent ann
$plan
items T1.1 T2.1 B1a C2.1 T2.1 T3.1
state ended 3" "" history trips.db 2
answers "a new journey" "begin F/AL/A1/$day/1/1;F/AL/A2/$day/1/1;T/BUS/X/$day/1/1!0
step 5\nsave 5\nstep 5\nabort 5 1\nstep 5\nstep 5\nstep 5\n" "journey 5 begun
journey 5 T1.1 run 1
journey 5 S1 run 1
journey 5 T2.1 run 2
journey 5 B1a back 2 to 1
journey 5 C2.1 run 1
journey 5 T2.1 run 2
journey 5 T3.1 ended 3"
same "its items" "0|1|1 3|1|0 0|2|1 2|1|2 1|2|1 0|2|1 0|3|1" "$(rows "SELECT item, a, b FROM entry2 WHERE journey = 5 ORDER BY num")"
same "nothing more is written to the old items" "6" "$(rows "SELECT count(*) FROM entry")"
serves 2
page "a kept step" 200 '{"item":"T1.1","journey":1,"pos":1,"state":"ended"}' -d '' -H 'Desk-Agent: ann' -H "Desk-Key: k1" \
  "http://127.0.0.1:$port/journeys/1/step"
page "its key for something else" 409 '{"name":"KeyReused","refused":14}' -d '' -H 'Desk-Agent: ann' -H "Desk-Key: k1" \
  "http://127.0.0.1:$port/journeys/1/abort/0"
ends_well "the desk"
same "the file is sound" "ok" "$(rows 'PRAGMA integrity_check')"

# The index for own journeys. A file without it, or with another one beside it, is used in the same way, and `index` adds it once.
made="CREATE INDEX journey_agent ON journey(agent, id)"
own_indexes() { rows "SELECT sql FROM sqlite_schema WHERE type = 'index' AND sql IS NOT NULL"; }

# ends_next WHAT NUMBER: one more journey of this number is made
ends_next() {
  answers "$1: one more journey" "begin F/AL/A1/$day/1/1!0\nstep $2\n" "journey $2 begun
journey $2 T1.1 ended 1"
}

tells "the index of an absent file" 1 "" "fault 26 File" index absent.db
tells "the index of a file without tables" 1 "refused 20 UnknownSchema 0" "" index empty.db
rm -f trips.db trips.db-*
answers "a new desk" "set a F/AL/A1/$day 5\n" "loaded a 1"
same "the index of a new desk" "$made" "$(own_indexes)"
ends_next "with it" 1
tells "the index is there" 0 "already indexed journeys 1" "" index trips.db
rows "DROP INDEX journey_agent"
ends_next "without it" 2
tells "the index is added" 0 "indexed journeys 2" "" index trips.db
same "the index that was added" "$made" "$(own_indexes)"
ends_next "with the index that was added" 3
rows "CREATE INDEX item_journey ON entry2(journey, num)"
ends_next "with an index on the items too" 4
same "the items" "3|1 5|2 7|3 9|4" "$(rows 'SELECT num, journey FROM entry2 ORDER BY num')"
same "the file with indexes is sound" "ok" "$(rows 'PRAGMA integrity_check')"

finish
