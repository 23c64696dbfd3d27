# What ./bench counts in instructions of the processor. A count hardly varies from run to run, whatever else the machine does.
# Valgrind's callgrind counts those of the program itself, without the system's. A program is run twice, with and without the
# work in question, so that its start, the opening of the file and its end are not counted.

# callgrind, which leaves its counts in the file counts. It counts an instruction that fills or copies many bytes once for each
# byte, so the C library is asked to fill and copy without such instructions.
callgrind=(env GLIBC_TUNABLES=glibc.cpu.hwcaps=-ERMS,-FSRM valgrind -q --tool=callgrind --callgrind-out-file=counts)

# has_callgrind MEASURE: there is valgrind's callgrind, or it is said why the measure is skipped
has_callgrind() {
  if ! command -v valgrind >/dev/null 2>&1; then
    say "$1: the counts of instructions are skipped, there is no valgrind"
    return 1
  fi
}

# total: the instructions that callgrind counted in this folder
total() { awk '/^(summary|totals):/ { total = $2 } END { print total }' counts; }

# counted WORD ..: how many instructions a command executes; its output goes to the file out
counted() {
  if ! "${callgrind[@]}" "$@" >out 2>errors; then
    cat errors >&2
    return 1
  fi
  total
}

# in_folder NAME COMMAND ..: runs a command in a new folder of this name, and its output goes to NAME.table
in_folder() {
  mkdir "$1" && (cd "$1" && "${@:2}") >"$1.table"
}

# new_copy FILE OF: a new copy of a database that is not open
new_copy() {
  rm -f "$1" "$1"-*
  cp "$2" "$1"
}

# events_as FORM WORD ..: the events of events.awk in this form, with these variables; a word without `=` is its input
events_as() {
  local options=(-v "form=$1") files=() word
  for word in "${@:2}"; do
    case $word in *=*) options+=(-v "$word") ;; *) files+=("$word") ;; esac
  done
  awk "${options[@]}" -f "$top/crates/bench/events.awk" "${files[@]}"
}

# has_nights FILE NIGHTS: makes a file with the nights that the journeys of events.awk take
has_nights() {
  local at
  if [ "$2" -eq 1 ]; then
    echo "set flight-1 F/AL/A1/$(night 0) 100000"
  else
    for ((at = 0; at < $2; at++)); do echo "set room-$((at + 1)) R/HOT/DBL/$(night "$at") 100000"; done
  fi | "$desk" run "$1" >answers && refused_none
}

# what serves on the port that is given, counted by callgrind, over the file trips.db
counted_at() { exec "${callgrind[@]}" "$desk" serve trips.db --port "$1" --connections "$connections"; }

# count_lines WORD ..: the instructions of the desk for these events as lines, over a copy of the file base.db
count_lines() {
  new_copy trips.db base.db
  events_as lines "$@" >lines
  counted "$desk" run trips.db <lines && ! grep -m 1 '^refused' out >&2
}

# count_requests WORD ..: the same as requests, which have a key
count_requests() {
  local connections=1
  new_copy trips.db base.db
  events_as requests "$@" >requests
  serves counted_at && "$top/crates/bench/out/send" "$port" <requests && wait "$pid" && total
}

# count_statements WORD ..: the instructions of the same statements by the library alone, over a copy of the file base.db that
# is named store.db. What it takes to read them is counted too, by a run that executes none, and taken off.
count_statements() {
  local all
  new_copy store.db base.db
  events_as statements "$@" >statements
  sed -e 's/\x1e\(execute\|query\)\x1f/\x1eskip\x1f/g' statements >skipped
  all=$(counted "$bench" statements store.db <statements) || return 1
  new_copy skipped.db base.db
  echo $((all - $(counted "$bench" statements skipped.db <skipped)))
}

# a line for the work that the second of two runs did and the first did not: its name; how many instructions the desk, and the
# library alone, took for each of so many
tell_work() { awk -v name="$1" -v count="$2" -v desk="$3" -v store="$4" 'BEGIN { print name, desk / count, store / count }'; }

# count_desk KEYED WORD ..: the instructions of the desk for these events, by lines or with a key
count_desk() { if [ "$1" -eq 1 ]; then count_requests "${@:2}"; else count_lines "${@:2}"; fi; }

# count_events NIGHTS KEYED: the instructions of each kind of event, over so many nights, by lines or with a key
count_events() {
  local nights=$1 keyed=$2 count=50 kinds names=(none begin T B C) desk_count store_count desk_before=0 store_before=0 words
  has_nights base.db "$nights" || return 1
  for kinds in 0 1 2 3 4; do
    words=("nights=$nights" "count=$count" "kinds=$kinds" "keyed=$keyed")
    desk_count=$(count_desk "$keyed" "${words[@]}") && store_count=$(count_statements "${words[@]}") || return 1
    [ "$kinds" -eq 0 ] ||
      tell_work "${names[kinds]}-$nights$([ "$keyed" -eq 0 ] || echo -keyed)" "$count" $((desk_count - desk_before)) \
        $((store_count - store_before))
    desk_before=$desk_count store_before=$store_count
  done
  same_rows trips.db store.db
}

# count_turns KEYED: the instructions of a turn that is asked for, by lines or with a key
count_turns() {
  local keyed=$1 count=50 words desk_count store_count desk_more store_more
  words=(nights=1 "count=$count" "keyed=$keyed" asked=1)
  has_nights base.db 1 || return 1
  desk_count=$(count_desk "$keyed" "${words[@]}" kinds=2) && desk_more=$(count_desk "$keyed" "${words[@]}" kinds=3) &&
    store_count=$(count_statements "${words[@]}" kinds=2) && store_more=$(count_statements "${words[@]}" kinds=3) &&
    tell_work "asked-1$([ "$keyed" -eq 0 ] || echo -keyed)" "$count" $((desk_more - desk_count)) $((store_more - store_count)) &&
    same_rows trips.db store.db
}

# count_gets GET: the instructions of this GET, while three journeys of two items each are under way, with 2,001 cells
count_gets() {
  local gets=25 words=(nights=1 count=3 kinds=3 keyed=1 "get=$1") desk_count store_count desk_more store_more
  "$desk" run base.db </dev/null && "$bench" load base.db 1 >loaded && has_nights base.db 1 || return 1
  desk_count=$(count_requests "${words[@]}" gets=0) && desk_more=$(count_requests "${words[@]}" "gets=$gets") &&
    store_count=$(count_statements "${words[@]}" gets=0) && store_more=$(count_statements "${words[@]}" "gets=$gets") &&
    tell_work "GET-$1" "$gets" $((desk_more - desk_count)) $((store_more - store_count))
}

# The instructions of each kind of event and of each GET, beside those of the same statements by the library alone.
measure_store() (
  has_callgrind store && has_c store send || exit 0
  works_in_memory
  if ! texts_are_the_desks; then exit 1; fi
  local table name words tables=(events-1-0 events-30-0 events-1-1 events-30-1 turns-0 turns-1 gets-journey gets-unfinished gets-stock)
  for table in "${tables[@]}"; do
    IFS=- read -r name words <<<"$table"
    in_folder "$table" "count_$name" ${words/-/ } &
  done
  wait
  echo "work desk-kilo-instructions library-alone ratio at-most"
  for table in "${tables[@]}"; do
    [ -s "$table.table" ] || exit 1
    awk '{ printf "%s %.1f %.1f %.2f %s\n", $1, $2 / 1000, $3 / 1000, $2 / $3, /^GET/ ? "1.30" : "1.10" }' "$table.table"
  done
)

# texts_are_the_desks: each statement of events.awk is one of the desk's, but those that begin and end a transaction
texts_are_the_desks() {
  local text
  while IFS= read -r -d $'\x1e' text; do
    text=${text#*$'\x1f'}
    case $text in BEGIN | COMMIT) continue ;; esac
    if ! grep -rqF "\"$text\"" "$top"/crates/{desk_sql,sql_loads}/src; then
      say "the desk has no such statement any more: $text"
      return 1
    fi
  done < <(events_as statements nights=1)
}

# count_plan STEPS OPTIONS: the instructions of T, B and C where the plan has so many steps, each of so many options
count_plan() {
  local steps=$1 options=$2 count=20 kinds before=0 now counts=() plan
  plan=$(awk -v steps="$steps" -v options="$options" 'BEGIN {
      for (step = 1; step <= steps; step++)
        for (option = 1; option <= options; option++)
          plan = plan (option > 1 ? "|" : step > 1 ? ";" : "") (step == 1 ? "F/AL/A1" : "F/NO/NONE") "/2030-06-01/1/1"
      print plan "!0" }')
  has_nights base.db 1 || return 1
  for kinds in 1 2 3 4; do
    new_copy trips.db base.db
    {
      repeated "$count" "begin $plan"
      for ((kind = 2; kind <= kinds; kind++)); do numbered step 1 "$count"; done
    } >lines
    now=$(counted "$desk" run trips.db <lines) || return 1
    [ "$kinds" -eq 1 ] || counts+=($(((now - before) / count / 1000)))
    before=$now
  done
  if ! tail -n 1 out | grep -q ' C1.1 undone 0$'; then
    say "a journey did not go the way that is counted"
    return 1
  fi
  echo "$steps-steps-of-$options ${counts[*]}"
}

# How T, B and C grow with the plan, in thousands of instructions.
measure_plans() (
  has_callgrind plans || exit 0
  works_in_memory
  for plan in 2-1 6-2 12-4 24-8; do in_folder "$plan" count_plan "${plan%-*}" "${plan#*-}" & done
  wait
  echo "plan T B C"
  cat 2-1.table 6-2.table 12-4.table 24-8.table
)

# csv_file PLACES: an allotment file with the rows of the batches of rows.c
csv_file() {
  echo kind,supplier,product,night,places
  awk -v places="$1" 'function is_leap(year) { return year % 4 == 0 && (year % 100 != 0 || year % 400 == 0) }
    BEGIN {
      split("31 28 31 30 31 30 31 31 30 31 30 31", days, " ")
      for (product = 0; product < 8; product++) {
        year = 2030; month = 6; day = 1
        for (night = 0; night < 250; night++) {
          printf "flight,LOAD,P%d000,%04d-%02d-%02d,%d\n", product, year, month, day, places
          if (++day > days[month] + (month == 2 && is_leap(year))) { day = 1; month++ }
          if (month > 12) { month = 1; year++ }
        }
      }
    }'
}

# count_desk_load NUMBER CSV: two counts of instructions to load a file into loads.db as the batch of this number, from 0: of the
# desk, and of the same statements by the library alone, both without the opening
count_desk_load() {
  local opening all alone
  new_copy base.db loads.db
  new_copy opened.db loads.db
  alone=$(count_statements "load=load-$1" "before=$1" "$2") && opening=$(counted "$desk" run opened.db </dev/null) &&
    all=$(counted "$desk" load loads.db "$2" --batch "load-$1") && same_rows loads.db store.db &&
    echo $((all - opening)) "$alone"
}

# count_rows_load WORD: the instructions of a further load by rows.c: `loads` of new rows, `known` of known ones
count_rows_load() {
  local first
  rm -f rows.db*
  first=$(counted "$top/crates/bench/out/rows" rows.db "$1" 1) || return 1
  rm -f rows.db*
  echo $(($(counted "$top/crates/bench/out/rows" rows.db "$1" 2) - first))
}

# count_python_load CSV ..: the instructions of load.py for the last of these files
count_python_load() {
  local before
  rm -f script.db*
  before=$(counted "$python" "$top/crates/bench/load.py" script.db desk.db "${@:1:$#-1}") || return 1
  rm -f script.db*
  echo $(($(counted "$python" "$top/crates/bench/load.py" script.db desk.db "$@") - before))
}

# find_python: sets python to a program that has sqlite3, if there is one
find_python() {
  python=$(python3 -c 'import sqlite3, sys; print(sys.executable)' 2>/dev/null)
  if [ -z "$python" ]; then
    say "load: no Python with sqlite3 is found, so the script's counts are missing"
    return 1
  fi
}

# The load of a file with 2,000 rows, whose cells are new, or known with other places, in instructions: by the desk, which
# reads the file; the same statements by the library alone; by rows.c, which has the rows; by a script in Python, which reads
# the file.
measure_load() (
  has_callgrind load && has_c load rows || exit 0
  works_in_memory
  csv_file 100000 >new.csv
  csv_file 99999 >known.csv
  "$desk" run loads.db </dev/null && cp loads.db desk.db || exit 1
  new=$(count_desk_load 0 new.csv) && known=$(count_desk_load 1 known.csv) || exit 1
  plain_new=$(count_rows_load loads) && plain_known=$(count_rows_load known) || exit 1
  script_new=- script_known=-
  if find_python; then
    script_new=$(count_python_load new.csv) && script_known=$(count_python_load new.csv known.csv) || exit 1
    same_rows loads.db script.db || exit 1
  fi
  echo "load-2000 desk-mega-instructions library-alone ratio libsqlite3 ratio at-most script ratio at-most"
  for line in "new $new $plain_new 3.00 $script_new 1.00" "known $known $plain_known 2.50 $script_known -"; do
    awk '{ printf "%s %.1f %.1f %.2f %.1f %.2f %s %s %s %s\n", $1, $2 / 1e6, $3 / 1e6, $2 / $3, $4 / 1e6, $2 / $4, $5,
             $6 == "-" ? "-" : sprintf("%.1f", $6 / 1e6), $6 == "-" ? "-" : sprintf("%.2f", $2 / $6), $7 }' <<<"$line"
  done
)

# The stock report of 20,000 cells, beside sqlite3's own dump of the table, both without the opening, in instructions.
count_stock() (
  has_callgrind stock || exit 0
  "$desk" run counted.db </dev/null && "$bench" load counted.db 10 >loaded || exit 1
  ours=$(counted "$desk" stock counted.db) || exit 1
  opening=$(counted "$desk" run counted.db </dev/null) || exit 1
  plain=$(counted sqlite3 counted.db '.dump stock') && plain_opening=$(counted sqlite3 counted.db 'SELECT version FROM meta') || exit 1
  echo "stock report-mega-instructions dump ratio at-most"
  awk -v ours=$((ours - opening)) -v plain=$((plain - plain_opening)) \
    'BEGIN { printf "20000 %.1f %.1f %.2f 1.20\n", ours / 1e6, plain / 1e6, ours / plain }'
)
