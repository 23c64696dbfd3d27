# What the indexes beside those of the keys cost each event and each opening, and what GETs gain: the desk's instructions over copies of
# one file, in which 1,000 journeys of 100 agents have ended, made one of three kinds by sqlite3.

# the kinds of files, each with the statement that makes one of a new desk's file
index_kinds='none|DROP INDEX journey_agent
journey(agent,id)|SELECT 1
journey(agent,id),entry2(journey,num)|CREATE INDEX item_journey ON entry2(journey, num)'

# ended_requests JOURNEYS AGENTS: the requests by which so many journeys of two steps begin and end, those of so many agents in turn
ended_requests() {
  awk -v journeys="$1" -v agents="$2" '
    function ask(id, target, body) {
      printf "POST /journeys%s HTTP/1.1\r\nHost: 127.0.0.1\r\nDesk-Agent: a%d\r\nDesk-Key: k%d\r\nContent-Length: %d\r\n\r\n%s\036",
        target, id % agents, ++keys, length(body), body
    }
    BEGIN {
      step = "{\"options\":[{\"count\":1,\"first\":\"2030-06-01\",\"kind\":\"flight\",\"nights\":1,\"product\":\"A1\"," \
        "\"supplier\":\"AL\"}],\"save\":false}"
      for (id = 1; id <= journeys; id++) {
        ask(id, "", "{\"steps\":[" step "," step "],\"tries\":0}")
        ask(id, "/" id "/step", "")
        ask(id, "/" id "/step", "")
      }
    }'
}

# what serves on the port that is given, over the file base.db
base_at() { exec "$desk" serve base.db --port "$1" --connections 1; }

# makes_base AGENTS: makes the file base.db, in which 1,000 journeys of so many agents have ended
makes_base() {
  echo "set flight-1 F/AL/A1/2030-06-01 100000" | "$desk" run base.db >answers && refused_none && serves base_at &&
    ended_requests 1000 "$1" | "$top/crates/bench/out/send" "$port" && wait "$pid" || return 1
  [ "$("$desk" history base.db 1000 | tail -n 1)" = "state ended 2" ] || { say "the journeys have not ended"; return 1; }
}

# count_get AGENT TARGET: the instructions of a GET by this agent, of which one more was answered before
count_get() {
  local gets=25 connections=1 times sent counts=()
  for times in 1 $((gets + 1)); do
    new_copy trips.db base.db
    for ((sent = 0; sent < times; sent++)); do
      printf 'GET %s HTTP/1.1\r\nHost: 127.0.0.1\r\nDesk-Agent: %s\r\n\r\n\036' "$2" "$1"
    done >requests
    serves counted_at && "$top/crates/bench/out/send" "$port" <requests && wait "$pid" && counts+=("$(total)") || return 1
  done
  echo $(((counts[1] - counts[0]) / gets))
}

# count_indexed STATEMENT: of the file base.db, once this statement was executed in it: the instructions of an opening; of begin, T, B
# and C of 50 further journeys; of GET /mine of an agent with ten journeys, and of one with none; of GET of the fifth journey
count_indexed() {
  local count=50 kind last before now plan="F/AL/A1/2030-06-01/1/1;F/NO/NONE/2030-06-01/1/1!0"
  new_copy base.db ../base.db && sqlite3 base.db "$1" >answers && "$desk" run new.db </dev/null || return 1
  new_copy trips.db base.db
  before=$(counted "$desk" run trips.db </dev/null) && now=$(counted "$desk" run new.db </dev/null) || return 1
  echo $((before - now))
  for last in 1 2 3 4; do
    new_copy trips.db base.db
    {
      repeated "$count" "begin $plan"
      for ((kind = 2; kind <= last; kind++)); do numbered step 1001 $((1000 + count)); done
    } >lines
    now=$(counted "$desk" run trips.db <lines) || return 1
    echo $(((now - before) / count))
    before=$now
  done
  tail -n 1 out | grep -q ' C1.1 undone 0$' || { say "a journey did not go the way that is counted"; return 1; }
  count_get a1 /mine && count_get nobody /mine && count_get a5 /journeys/5
}

# The desk over a file with the index that a new desk has, without it, and with one on the items too.
measure_index() (
  has_callgrind index && has_c index send || exit 0
  command -v sqlite3 >/dev/null || { say "index: skipped, there is no sqlite3"; exit 0; }
  works_in_memory
  makes_base 100 || exit 1
  number=0
  while IFS='|' read -r name statement; do
    number=$((number + 1))
    in_folder "$number" count_indexed "$statement" &
  done <<<"$index_kinds"
  wait
  echo "indexes opening begin T B C mine-of-ten mine-of-none ended-journey (kilo-instructions, and over those without)"
  number=0
  while IFS='|' read -r name statement; do
    number=$((number + 1))
    [ "$(wc -l <"$number.table")" -eq 8 ] || exit 1
    paste "$number.table" 1.table | awk -v name="$name" '{ line = line sprintf(" %.1f %.2f", $1 / 1000, $1 / $2) } END { print name line }'
  done <<<"$index_kinds"
)
