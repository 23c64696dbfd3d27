# Many clients at once over HTTP: `desk serve` beside serve_many.c, both over a new file in memory.

# What serves $connections connections over the file many.db, on the port that is given. Where counting is set, under callgrind.
counting=()
desk_for_many() { exec "${counting[@]}" "$desk" serve many.db --port "$1" --connections "$connections"; }
rows_for_many() { exec "${counting[@]}" "$top/crates/bench/out/serve_many" many.db "$1" "$connections"; }

# asked_by_many SERVER CLIENTS SILENT ROUNDS JOURNEYS STEPS: what ask_many prints of a server over a new file
asked_by_many() {
  local connections=$(($2 + $3))
  rm -f many.db*
  if [ "$1" = desk_for_many ]; then
    echo "set flight-1 F/AL/A1/2030-06-01 100000" | "$desk" run many.db >answers && refused_none || return 1
  fi
  asked_by ask_many "$1" "${@:2}"
}

# rows_of FILE: the rows of a file, but not in which order the clients' steps came
rows_of() {
  sqlite3 "$1" 'SELECT * FROM meta; SELECT * FROM stock; SELECT name, num, hex(content) FROM batch; SELECT * FROM journey;
    SELECT * FROM step; SELECT * FROM mark; SELECT journey, item, a, b FROM entry2 ORDER BY journey, num;
    SELECT agent, mark, hex(ask), reply FROM answer ORDER BY agent, mark'
}

# same_rows_of_many FOLDER OTHER: both servers wrote the same rows, where sqlite3 is there to say so
same_rows_of_many() {
  command -v sqlite3 >/dev/null 2>&1 || return 0
  if ! cmp -s <(rows_of "$1/many.db") <(rows_of "$2/many.db"); then
    say "the servers of many clients have other rows, so their times say nothing"
    return 1
  fi
}

# time_many CLIENTS SILENT ROUNDS JOURNEYS STEPS: a line with the microseconds that passed for a step, and those of the server's
# processor, of the desk and of serve_many.c; of several runs the shortest
time_many() {
  local run server
  mkdir -p desk_for_many rows_for_many
  rm -f desk_for_many.times rows_for_many.times
  for ((run = 0; run < 3; run++)); do
    for server in desk_for_many rows_for_many; do
      (cd "$server" && asked_by_many "$server" "$@") >>"$server.times" || return 1
    done
    same_rows_of_many desk_for_many rows_for_many || return 1
  done
  for server in desk_for_many rows_for_many; do
    awk 'NR == 1 || $2 < passed { passed = $2 } NR == 1 || $3 < took { took = $3 } END { print passed, took }' "$server.times"
  done | paste -d ' ' - -
}

# count_many SERVER CLIENTS SILENT JOURNEYS STEPS: how many thousand instructions a server executes for a step
count_many() {
  local counting=("${callgrind[@]}") without with
  asked_by_many "$1" "$2" "$3" 1 "$4" 0 >out && without=$(total) &&
    asked_by_many "$1" "$2" "$3" 1 "$4" "$5" >out && with=$(total) || return 1
  awk -v more=$((with - without)) -v steps=$(($2 * $5)) 'BEGIN { printf "%.1f\n", more / steps / 1000 }'
}

# counts_of_many: a line for each number of clients, and of silent connections: the counts of the desk and of serve_many.c
counts_of_many() {
  local clients silent journeys steps server
  while read -r clients silent journeys steps; do
    for server in desk_for_many rows_for_many; do
      in_folder "$server-$clients-$silent" count_many "$server" "$clients" "$silent" "$journeys" "$steps" &
    done
  done <<<"$1"
  wait
  while read -r clients silent journeys steps; do
    echo "$clients $silent $(cat "desk_for_many-$clients-$silent.table" "rows_for_many-$clients-$silent.table" | paste -d ' ' - -)"
  done <<<"$1"
}

# table_of_many HEAD MOST: the table of lines with the number of clients and of silent connections, and figures of the desk and of
# serve_many.c, whose ratio is to be at most so much; the last line compares the two with one client
table_of_many() {
  echo "steps-of-clients silent $1 libsqlite3 ratio at-most"
  awk -v most="$2" '{ printf "%d %d %.1f %.1f %.2f %s\n", $1, $2, $3, $4, $3 / $4, $2 ? "-" : most
         if ($1 == 1) { desk[$2] = $3; rows[$2] = $4 } }
       END { printf "silent-200-over-none - %.2f %.2f - 1.10\n", desk[200] / desk[0], rows[200] / rows[0] }'
}

# Steps with keys over many connections at once, beside a loop by epoll in C that makes the same row changes by libsqlite3;
# and a step while 200 further connections are silent, beside one where there are none.
measure_many() (
  has_c http serve_many && has_c http ask_many || exit 0
  works_in_memory
  if has_callgrind http; then
    counts_of_many "$(printf '%s\n' '1 0 4 96' '10 0 1 24' '100 0 1 4' '1 200 4 96')" >counted || exit 1
    table_of_many desk-kilo-instructions - <counted
  fi
  while read -r clients silent rounds journeys steps; do
    echo "$clients $silent $(time_many "$clients" "$silent" "$rounds" "$journeys" "$steps")"
  done <<<"$(printf '%s\n' '1 0 20 4 96' '10 0 10 1 24' '100 0 5 1 24' '1 200 20 4 96')" >times
  [ "$(wc -w <times)" -eq 24 ] || exit 1
  awk '{ print $1, $2, $3, $5 }' times | table_of_many desk-µs 2.00
  awk '{ print $1, $2, $4, $6 }' times | table_of_many desk-processor-µs -
)

# Requests of an agent beside reports of 10^5 cells at the administrator's socket: the longest wait, in the median of nine reports, and
# the most that it is to be; the middle wait, that of the same request alone, the time of a report, and how many bytes it has.
measure_beside() (
  command -v python3 >/dev/null || {
    say "python3 is absent, so http beside a report is skipped"
    exit 0
  }
  works_in_memory
  "$desk" run cells.db </dev/null && "$bench" load cells.db 50 >loaded || exit 1
  echo "beside-a-report-of-10^5-cells longest-ms at-most middle-ms alone-ms report-ms bytes"
  read -r longest others <<<"$(python3 "$top/crates/bench/beside.py" "$desk" cells.db 9)"
  echo "unfinished $longest 50 $others"
)

# the desk as it serves until it is stopped, over the file many.db
desk_for_long() { exec "$desk" serve many.db --port "$1"; }

# memory_after ROUNDS: the memory of a desk, in kB, that was asked by ten clients, 1,000 requests a round, over a new file: how
# much it holds at the end, and the most that it held
memory_after() {
  rm -f many.db*
  echo "set flight-1 F/AL/A1/2030-06-01 100000" | "$desk" run many.db >answers && refused_none || return 1
  serves desk_for_long && "$top/crates/bench/out/ask_many" "$port" "$pid" 10 0 "$1" 4 96 >out || return 1
  awk '/^VmHWM/ { most = $2 } /^VmRSS/ { print $2, most }' most= "/proc/$pid/status"
  kill "$pid"
  wait "$pid" 2>/dev/null
  return 0
}

# What a serving desk holds in memory after a day of 100,000 requests, beside what it holds after 1,000.
measure_serving() (
  has_c serving ask_many || exit 0
  works_in_memory
  few=$(memory_after 1) && many=$(memory_after 100) || exit 1
  echo "serving kB-at-1000-requests kB-at-100000-requests ratio bytes-a-request"
  awk -v few="${few% *}" -v many="${many% *}" \
    'BEGIN { printf "memory %d %d %.2f %.1f\n", few, many, many / few, (many - few) * 1024 / 99000 }'
)
