# What ./bench measures with the built program over files. Each measure prints plain lines; times are the
# processor's, in microseconds, so that other work on the machine disturbs them little. Over HTTP a client waits,
# so there those of the clock stand beside them.
bench=$top/crates/bench/out/bench
desk=${DESK:-$top/crates/desk/out/desk}

say() { printf 'bench: %s\n' "$*" >&2; }

# works_in_memory: goes to a folder of its own, on a file system without a disk where there is one
works_in_memory() {
  local base=/dev/shm
  if [ ! -w "$base" ]; then
    base=${TMPDIR:-/tmp}
    say "there is no /dev/shm: the times have those of a disk in them"
  fi
  work=$(mktemp -d "$base/desk-bench.XXXXXX") && trap 'rm -rf "$work"' EXIT && cd "$work" || exit 2
  # the program is built if needed
  if [ -z "${DESK:-}" ]; then
    "$top/build" >&2 || exit 126
  fi
}

# opens FILE: the desk runs over FILE as process $pid, told lines by asks; its answers go to the file answers
opens() {
  mkfifo line
  "$desk" run "$1" <line >answers &
  pid=$!
  exec 3>line
  rm line
}

# asks COUNT: the open desk answers so many lines, which stand on standard input
asks() {
  local all=$(($(wc -l <answers) + $1))
  cat >&3
  while [ "$(wc -l <answers)" -lt "$all" ]; do
    kill -0 "$pid" 2>/dev/null || break
    sleep 0.01
  done
  # until it waits for the next line
  sleep 0.05
}

closes() {
  exec 3>&-
  wait "$pid"
}

# spent: the processor's nanoseconds that the open desk took so far
spent() { cut -d ' ' -f 1 "/proc/$pid/schedstat"; }

# times NAME COUNT: the same as asks, and prints how long a line took
times() {
  local before
  before=$(spent)
  asks "$2"
  awk -v name="$1" -v count="$2" -v time="$(($(spent) - before))" \
    'BEGIN { printf "%s %d %.1f\n", name, count, time / 1000 / count }'
}

# repeated COUNT LINE; numbered WORD FIRST LAST [REST]
repeated() { yes "$2" | head -n "$1"; }
numbered() { seq -f "$1 %.0f${4:-}" "$2" "$3"; }

# night AT: the night that is so many after 2030-06-01, in the same month
night() { printf '2030-06-%02d' $((1 + $1)); }

# refused_none: no answer so far is a refusal
refused_none() {
  if grep -m 1 '^refused' answers >&2; then
    say "the desk refused a line that it has to take"
    return 1
  fi
}

# goes NIGHTS OPTION COUNT FIRST: so many journeys begin, from this number on, and go through one step and
# back, since their second step does not fit
goes() {
  local last=$(($4 + $3 - 1))
  repeated "$3" "begin $2;F/NO/NONE/2030-06-01/1/1!0" | times "begin-$1" "$3"
  numbered step "$4" "$last" | times "T-$1" "$3"
  numbered step "$4" "$last" | times "B-$1" "$3"
  numbered step "$4" "$last" | times "C-$1" "$3"
}

# goes_all COUNT: the journeys of `rows moves COUNT`, in the file moves.db
goes_all() {
  local at
  opens moves.db
  {
    echo "set flight-1 F/AL/A1/$(night 0) 100000"
    for ((at = 0; at < 30; at++)); do echo "set room-$((at + 1)) R/HOT/DBL/$(night "$at") 100000"; done
  } | asks 31
  goes 1 F/AL/A1/2030-06-01/1/1 "$1" 1
  goes 30 R/HOT/DBL/2030-06-01/30/1 "$1" $(($1 + 1))
  refused_none || return 1
  closes
}

# shortest FILE: of each name the line with the shortest time
shortest() {
  awk '!($1 in time) { names[++n] = $1 }
    !($1 in time) || $3 < time[$1] { time[$1] = $3; line[$1] = $0 }
    END { for (i = 1; i <= n; i++) print line[names[i]] }' "$1"
}

# has_c MEASURE NAME: the C program of this name is compiled, or it is said why the measure is skipped
has_c() {
  if ! command -v cc >/dev/null 2>&1; then
    say "$1: skipped, there is no C compiler"
    return 1
  fi
  if ! cc -O2 -o "$top/crates/bench/out/$2" "$top/crates/bench/$2.c" -lsqlite3 2>/dev/null; then
    say "$1: skipped, there is no libsqlite3 to compile with (Debian: libsqlite3-dev)"
    return 1
  fi
}

# same_rows FILE OTHER: both files have the same tables and rows, where sqlite3 is there to say so
same_rows() {
  command -v sqlite3 >/dev/null 2>&1 || return 0
  if ! cmp -s <(sqlite3 "$1" .dump) <(sqlite3 "$2" .dump); then
    say "$1 and $2 have other rows, so their times say nothing"
    return 1
  fi
}

# The commit of each kind of event, beside the same row changes by libsqlite3, and beside these with the same
# reads.
measure_commits() (
  has_c commits rows || exit 0
  rows=$top/crates/bench/out/rows
  works_in_memory
  # many short rounds, of which the shortest time of each kind counts
  count=500
  for ((round = 0; round < 12; round++)); do
    rm -f ./*.db*
    "$rows" plain.db moves "$count" >>plain || exit 1
    goes_all "$count" >>ours || exit 1
    "$rows" reading.db moves "$count" reading >>reading || exit 1
    same_rows moves.db plain.db || exit 1
    "$rows" plain-loads.db loads 2 >>plain || exit 1
    "$desk" run loads.db </dev/null || exit 1
    "$bench" load loads.db 2 >>ours || exit 1
    "$rows" reading-loads.db loads 2 reading >>reading || exit 1
    same_rows loads.db plain-loads.db || exit 1
  done
  echo "event desk libsqlite3 ratio at-most reading-too ratio"
  paste -d ' ' <(shortest ours | cut -d ' ' -f 1,3) <(shortest plain | cut -d ' ' -f 3) \
    <(shortest reading | cut -d ' ' -f 3) |
    awk 'BEGIN { most["begin-1"] = most["T-1"] = most["C-1"] = "2.0"; most["T-30"] = most["C-30"] = "1.7"
        most["load-2000"] = "5.0" }
      { printf "%s %.1f %.1f %.2f %s %.1f %.2f\n", $1, $2, $3, $2 / $3,
          $1 in most ? most[$1] : "-", $4, $2 / $4 }'
  shortest ours | awk '$1 == "load-2000" { printf "batch-2000 %.1f - - - - -\n", $4 }'
)

# ends COUNT FIRST: so many journeys of one step begin, from this number on, and end
ends() {
  repeated "$1" "begin F/AL/A1/2030-06-01/1/1!0"
  numbered step "$2" $(($2 + $1 - 1))
}

# makes_grown FILE EVENTS: a file with so many events, with all journeys ended
makes_grown() {
  opens "$1"
  echo "set flight-1 F/AL/A1/2030-06-01 100000" | asks 1
  ends $(($2 / 2)) 1 | asks "$2"
  refused_none
}

# What an agent waits for behind 10^5 events, or as many as EVENTS names, beside the same behind 10^3; and an opening.
measure_growth() (
  find_python || exit 0
  works_in_memory
  "$python" "$top/crates/bench/growth.py" "$desk" "${EVENTS:-100000}"
)

# synced FILE COUNT: how often a run that commits so many events syncs
synced() {
  repeated "$2" "begin F/AL/A1/2030-06-01/1/1!0" |
    strace -f -o trace -e trace=fdatasync,fsync "$desk" run "$1" >answers
  grep -cE '(fdatasync|fsync)\(' trace
}

# How often a commit syncs.
measure_syncs() (
  if ! command -v strace >/dev/null 2>&1; then
    say "syncs: skipped, there is no strace"
    exit 0
  fi
  works_in_memory
  few=$(synced few.db 10)
  many=$(synced many.db 210)
  echo "syncs commits a-commit"
  awk -v syncs=$((many - few)) 'BEGIN { printf "%d 200 %.2f\n", syncs, syncs / 200 }'
)

# peak FILE: the most memory that the desk has taken once it has answered one line over FILE, in kB
peak() {
  opens "$1"
  echo "begin F/AL/A1/2030-06-01/1/1!0" | asks 1
  awk '/^VmHWM/ { print $2 }' "/proc/$pid/status"
  closes
}

# Memory of a run over a file of 10^5 events, or as many as EVENTS names.
measure_memory() (
  works_in_memory
  events=${EVENTS:-100000}
  makes_grown grown.db "$events" || exit 1
  closes
  few=$(peak few.db)
  many=$(peak grown.db)
  echo "events new-file-kB file-kB kB-an-event at-most"
  awk -v events="$events" -v few="$few" -v many="$many" \
    'BEGIN { printf "%d %d %d %.3f 0.2\n", events, few, many, (many - few) / events }'
)

# has_recover: the program has the subcommand
has_recover() {
  "$desk" recover 2>&1 </dev/null | grep -q 'desk recover .*FILE'
}

# stands_at_one FILE COUNT: so many journeys of two steps, each behind its first; the desk stays open
stands_at_one() {
  opens "$1"
  echo "set flight-1 F/AL/A1/2030-06-01 100000" | asks 1
  {
    repeated "$2" "begin F/AL/A1/2030-06-01/1/1;F/NO/NONE/2030-06-01/1/1!0"
    numbered step 1 "$2"
  } | asks $((2 * $2))
  refused_none
}

# recovers FILE: the processor's milliseconds of a recovery, and what it prints
recovers() {
  local TIMEFORMAT='%3U %3S'
  { time "$desk" recover "$1" >recovered; } 2>&1 | awk '{ print ($1 + $2) * 1000 }'
}

# Commits a second of a recovery of 2,000 journeys behind their first step, beside the same turns and
# compensations by lines.
measure_recovery() (
  if ! has_recover; then
    say "recovery: skipped, the program has no subcommand 'recover'"
    exit 0
  fi
  works_in_memory
  count=2000
  stands_at_one recovered.db "$count" && closes || exit 1
  all=$(recovers recovered.db)
  told=$(<recovered)
  told=${told#recovered }
  opening=$(recovers recovered.db)
  stands_at_one plain.db "$count" || exit 1
  { numbered abort 1 "$count" " 0" && numbered step 1 "$count"; } | times plain $((2 * count)) >plain
  refused_none && closes || exit 1
  echo "recovery told commits/s plain-commits/s ratio at-least"
  awk -v told="$told" -v time=$((all - opening)) -v count=$((2 * count)) \
    '{ plain = 1e6 / $3; ours = count * 1000 / time
      printf "%d %s %.0f %.0f %.2f 0.9\n", count, told, ours, plain, ours / plain }' plain
)

# makes_ended FILE COUNT: a file with so many journeys of three steps, each of which ended before the next began
makes_ended() {
  local flight=F/AL/A1/2030-06-01/1/1
  opens "$1"
  echo "set flight-1 F/AL/A1/2030-06-01 100000" | asks 1
  seq "$2" | awk -v plan="$flight;$flight;$flight!0" \
    '{ print "begin " plan; for (step = 1; step <= 3; step++) print "step " $1 }' | asks $((4 * $2))
  refused_none
  closes
}

# The history of a journey among 10^5 events, beside that of one among 10^2, both asked without the opening: of the
# first journey, which ended early, and of the one begun last.
measure_history() (
  works_in_memory
  makes_ended few.db 25 && makes_ended many.db 25000 || exit 1
  echo "history at-100-events at-100000-events ratio at-most"
  for journey in "first 1 1" "last 25 25000"; do
    read -r name few many <<<"$journey"
    paste -d ' ' <("$bench" history few.db "$few") <("$bench" history many.db "$many") |
      awk -v name="$name" '{ printf "%s %.1f %.1f %.2f 5.0\n", name, $4, $8, $8 / $4 }'
  done
)

# took WORDS: the processor's milliseconds of this command, the least of five runs; its output goes to the file out. Where
# prepare is set, it runs before each
took() {
  local TIMEFORMAT='%3U %3S' run
  for run in 1 2 3 4 5; do
    ${prepare:-:}
    { time "$@" >out; } 2>&1
  done | awk '{ spent = ($1 + $2) * 1000 } NR == 1 || spent < least { least = spent } END { print least }'
}

# peak_of_report FILE LINES: the most memory, in kB, that the stock report of FILE has taken after so many lines, while it
# waits for its reader
peak_of_report() {
  mkfifo report
  "$desk" stock "$1" >report &
  pid=$!
  exec 4<report
  rm report
  head -n "$2" <&4 >lines
  sleep 0.2
  awk '/^VmHWM/ { print $2 }' "/proc/$pid/status"
  cat <&4 >/dev/null
  exec 4<&-
  wait "$pid"
}

# The stock report of 10^5 cells, beside sqlite3's own dump of the table, and its memory.
measure_stock() (
  if ! command -v sqlite3 >/dev/null 2>&1; then
    say "stock: skipped, there is no sqlite3"
    exit 0
  fi
  works_in_memory
  "$desk" run cells.db </dev/null || exit 1
  "$bench" load cells.db 50 >loaded || exit 1
  ours=$(took "$desk" stock cells.db)
  told=$(tail -n 1 out)
  # a journey that is absent: the file is opened, and closed again
  opening=$(took "$desk" history cells.db 1)
  plain=$(took sqlite3 cells.db '.dump stock')
  echo "stock report-ms of-it-opening-ms dump-ms ratio without-opening at-most"
  awk -v told="$told" -v ours="$ours" -v opening="$opening" -v plain="$plain" \
    'BEGIN { sub("cells ", "", told)
             printf "%d %.0f %.0f %.0f %.2f %.2f 3.0\n", told, ours, opening, plain, ours / plain, (ours - opening) / plain }'
  # a part of the cells: a product of 250 nights, and a supplier who has none, of each kind
  product=$(took "$desk" stock cells.db --kind flight --supplier LOAD --product P0025)
  few=$(tail -n 1 out)
  nobody=$(took "$desk" stock cells.db --supplier NOBODY)
  none=$(tail -n 1 out)
  echo "stock shown report-ms of-it-opening-ms over-the-whole-without-opening at-most"
  awk -v few="$few" -v none="$none" -v product="$product" -v nobody="$nobody" -v ours="$ours" -v opening="$opening" \
    'BEGIN { sub("cells ", "", few); sub("cells ", "", none)
             printf "a-product %d %.0f %.0f %.3f 0.1\n", few, product, opening, (product - opening) / (ours - opening)
             printf "a-supplier %d %.0f %.0f %.3f 0.1\n", none, nobody, opening, (nobody - opening) / (ours - opening) }'
  "$desk" run few.db </dev/null
  "$bench" load few.db 1 >loaded || exit 1
  few=$(peak_of_report few.db 500)
  many=$(peak_of_report cells.db 90000)
  echo "stock few-kB many-kB more-kB at-most"
  awk -v few="$few" -v many="$many" 'BEGIN { printf "100000 %d %d %d 20000\n", few, many, many - few }'
  count_stock
)

# has_migrate: the program has the subcommand
has_migrate() {
  "$desk" migrate 2>&1 </dev/null | grep -q 'desk migrate .*FILE'
}

# makes_old FILE COUNT: a file of schema 1 with so many journeys of three steps, all of which have ended
makes_old() {
  makes_ended "$1" "$2" || return 1
  sqlite3 "$1" "INSERT INTO entry SELECT * FROM entry2; DROP TABLE entry2; DROP TABLE mark; DROP INDEX journey_agent; UPDATE meta SET version = 1; VACUUM"
}

# plain_migration FILE: the statements of a migration by sqlite3, with the journal, the syncs and the tests of references that
# the desk has
plain_migration() {
  sqlite3 "$1" "PRAGMA journal_mode = WAL; PRAGMA synchronous = FULL; PRAGMA foreign_keys = ON; BEGIN;
    CREATE TABLE entry2(num INTEGER PRIMARY KEY, journey INTEGER NOT NULL REFERENCES journey(id), item INTEGER NOT NULL CHECK(item BETWEEN 0 AND 3), a INTEGER NOT NULL, b INTEGER NOT NULL) STRICT;
    CREATE TABLE mark(journey INTEGER NOT NULL REFERENCES journey(id), pos INTEGER NOT NULL, PRIMARY KEY(journey, pos)) STRICT;
    INSERT INTO entry2 SELECT num, journey, item, a, b FROM entry ORDER BY num;
    UPDATE meta SET version = 2; COMMIT"
}

# copies_old: the file that is migrated next
copies_old() {
  rm -f trips.db trips.db-*
  cp old.db trips.db
}

# peak_of WORDS: the most memory, in kB, that the desk, called by these words, has taken when it answers; it waits there, since
# the pipe to its reader is full
peak_of() {
  mkfifo answer
  exec 4<>answer
  rm answer
  head -c 65536 /dev/zero >&4
  "$desk" "$@" >&4 &
  pid=$!
  until [ "$(sleep 0.2 && spent)" = "$(sleep 0.2 && spent)" ]; do :; done
  awk '/^VmHWM/ { print $2 }' "/proc/$pid/status"
  exec 4<&-
  kill "$pid" 2>/dev/null
  wait "$pid" 2>/dev/null
}

# The migration of some 10^5 items, beside the same statements by sqlite3, both without the opening, and its memory.
measure_migrate() (
  if ! command -v sqlite3 >/dev/null 2>&1; then
    say "migrate: skipped, there is no sqlite3"
    exit 0
  fi
  works_in_memory
  if ! has_migrate; then
    say "migrate: skipped, the program has no subcommand 'migrate'"
    exit 0
  fi
  makes_old old.db 33333 || exit 1
  prepare=copies_old
  ours=$(took "$desk" migrate trips.db)
  told=$(<out)
  # a journey that is absent: the file is opened, and closed again
  opening=$(took "$desk" history trips.db 999999)
  plain=$(took plain_migration trips.db)
  plain_opening=$(took sqlite3 trips.db 'PRAGMA journal_mode = WAL; SELECT version FROM meta')
  cp trips.db new.db
  plain_migration new.db >out
  copies_old
  "$desk" migrate trips.db >out && same_rows trips.db new.db || exit 1
  echo "migrate events all-ms of-it-opening-ms sqlite3-ms of-it-opening-ms without-openings at-most"
  awk -v told="$told" -v ours="$ours" -v opening="$opening" -v plain="$plain" -v plain_opening="$plain_opening" \
    'BEGIN { sub("migrated 1 to 2 events ", "", told)
             printf "items-99999 %d %.0f %.0f %.0f %.0f %.2f 3.0\n", told, ours, opening, plain, plain_opening,
               (ours - opening) / (plain - plain_opening) }'
  copies_old
  few=$(peak_of history trips.db 999999)
  many=$(peak_of migrate trips.db)
  [ -n "$few" ] && [ -n "$many" ] || exit 1
  echo "migrate opening-kB kB more-kB at-most"
  awk -v few="$few" -v many="$many" 'BEGIN { printf "items-99999 %d %d %d 20000\n", few, many, many - few }'
)

# What serves on the port that is given, each over a file of its own: the desk; the desk with --wide; the same row changes by
# libsqlite3; these with the same reads
desk_at() { exec "$desk" serve desk.db --port "$1" --connections 1; }
wide_at() { exec "$desk" serve wide.db --port "$1" --connections 1 --wide; }
rows_at() { exec "$top/crates/bench/out/http" rows.db "$1"; }
reading_at() { exec "$top/crates/bench/out/http" reading.db "$1" reading; }

# serves SERVER: it serves on $port as process $pid; another port is tried where one is in use
serves() {
  local try
  for try in 1 2 3 4 5; do
    port=$((20000 + RANDOM % 10000))
    : >told
    "$1" "$port" >told 2>server-errors &
    pid=$!
    while kill -0 "$pid" 2>/dev/null && [ ! -s told ]; do sleep 0.01; done
    [ -s told ] && return 0
    wait "$pid"
  done
  say "$1 does not serve"
  cat server-errors >&2
  return 1
}

# asked_by CLIENT SERVER WORD ..: what this client prints of a server, which ends with the client's connections
asked_by() {
  serves "$2" || return 1
  if ! "$top/crates/bench/out/$1" "$port" "$pid" "${@:3}"; then
    kill "$pid" 2>/dev/null
    cat server-errors >&2
    return 1
  fi
  wait "$pid"
}

# asked SERVER: how long its requests take; its last pages go to the file SERVER.pages
asked() { asked_by ask "$1" "$1.pages"; }

# same_pages SERVER OTHER: both answered by the same bytes
same_pages() {
  if ! cmp -s "$1.pages" "$2.pages"; then
    say "$1 and $2 have other pages, so their times say nothing"
    return 1
  fi
}

# asked_all: each server in turn, over new files; the times go to the files ours, wide, plain and with-reads
asked_all() {
  rm -f ./*.db*
  echo "set flight-1 F/AL/A1/2030-06-01 100000" | "$desk" run desk.db >answers || return 1
  refused_none && cp desk.db wide.db || return 1
  asked desk_at >>ours && asked wide_at >>wide && asked rows_at >>plain && asked reading_at >>with-reads || return 1
  same_pages desk_at rows_at && same_pages desk_at reading_at && same_rows desk.db rows.db && same_rows desk.db wide.db
}

# The tables of the measure below. Each line of the file `all` has a name, the desk's time, that of the same row
# changes, and that of these with the same reads.
table_of_requests() {
  echo "request desk libsqlite3 ratio at-most reading-too ratio"
  awk 'BEGIN { most["get"] = most["step"] = "2.0" }
    { printf "%s %.1f %.1f %.2f %s %.1f %.2f\n", $1, $2, $3, $2 / $3, $1 in most ? most[$1] : "-", $4, $2 / $4 }' all
}

table_of_bytewise() {
  echo "bytewise-over-whole desk libsqlite3 at-most"
  awk 'function told(whole, bytewise, most) {
      printf "%s %.2f %.2f %s\n", whole, desk[bytewise] / desk[whole], plain[bytewise] / plain[whole], most
    }
    { desk[$1] = $2; plain[$1] = $3 }
    END {
      told("get", "get-bytewise", "3.0"); told("get-processor", "get-bytewise-processor", "-")
      told("step", "step-bytewise", "-"); told("step-processor", "step-bytewise-processor", "-")
    }' all
}

table_of_heads() {
  echo "a-byte-of-a-head at-2048 at-4096 at-8192 ratio at-most"
  awk 'function told(name, time, most,   few, many) {
      few = time["head-2048"] / 2048
      many = time["head-8192"] / 8192
      printf "%s %.3f %.3f %.3f %.2f %s\n", name, few, time["head-4096"] / 4096, many, many / few, most
    }
    { desk[$1] = $2; plain[$1] = $3 }
    END { told("desk", desk, "1.3"); told("libsqlite3", plain, "-") }' all
}

# each line of the file `wider` has a name, the desk's time, and that with --wide
table_of_wide() {
  echo "with-wide desk wide ratio at-most"
  awk '{ printf "%s %.1f %.1f %.2f %s\n", $1, $2, $3, $3 / $2, $1 == "get" || $1 == "step" ? "1.10" : "-" }' wider
}

# Requests over HTTP, beside a plain loop that makes the same row changes by libsqlite3, and beside this with the
# same reads; requests that come byte by byte, beside those that come whole; what a byte of a head takes as the head grows; and all
# of these with --wide.
measure_http() (
  has_c http http && has_c http ask || exit 0
  works_in_memory
  for ((round = 0; round < 10; round++)); do asked_all || exit 1; done
  paste -d ' ' <(shortest ours | cut -d ' ' -f 1,3) <(shortest plain | cut -d ' ' -f 3) \
    <(shortest with-reads | cut -d ' ' -f 3) >all
  paste -d ' ' <(shortest ours | cut -d ' ' -f 1,3) <(shortest wide | cut -d ' ' -f 3) >wider
  table_of_requests
  table_of_bytewise
  table_of_heads
  table_of_wide
)

# A day of agencies: how long agents wait in their busiest hour, and what one desk carries at most. Syncs count here, so the
# file is on a disk.
measure_day() (
  command -v python3 >/dev/null || { say "python3 is absent, so day is skipped"; exit 0; }
  work=$(mktemp -d "${TMPDIR:-/tmp}/desk-day.XXXXXX") && trap 'rm -rf "$work"' EXIT && cd "$work" || exit 2
  if [ -z "${DESK:-}" ]; then "$top/build" >&2 || exit 126; fi
  python3 "$top/crates/bench/day.py" "$desk" 120
)
