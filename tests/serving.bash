# What the scripts share that drive the desk over HTTP. The desk serves trips.db.

# a plan of one flight, as the body of a request
flight='{"count":1,"first":"2030-06-01","kind":"flight","nights":1,"product":"A1","supplier":"AL"}'
plan='{"steps":[{"options":['$flight'],"save":false}],"tries":0}'

# a port that is free now; another try is made where it is not free any more
free_port() { python3 "$tests/ports.py"; }

# serves_with [WORD ..]: the desk serves with these words, as process $desk, on $port; what it tells goes to told and desk_err.
# Without a desk the script ends
serves_with() {
  local tries
  for tries in 1 2 3; do
    port=$(free_port)
    : >told
    "$DESK" serve trips.db --port "$port" "$@" >told 2>desk_err &
    desk=$!
    while kill -0 "$desk" 2>/dev/null && [ ! -s told ]; do sleep 0.01; done
    [ -s told ] && return 0
    wait "$desk"
  done
  echo "$(basename "$0"): no desk" >&2
  exit 1
}

# serves CONNECTIONS [WORD ..]: the same, for so many connections
serves() { serves_with --connections "$@"; }

# ends_with WHAT STATUS: the desk ends by itself, with this status
ends_with() {
  wait "$desk" 2>/dev/null
  same "$1: the status" "$2" $?
}

# ends_well WHAT: it told that it is ready, and nothing else, and ends with 0
ends_well() {
  ends_with "$1" 0
  same "$1: what it told" "ready $port" "$(cat told)"
  same "$1: standard error" "" "$(cat desk_err)"
}

# page WHAT STATUS BODY CURL-WORDS ..: the desk answers this request by a page with this status and body
page() {
  local what=$1 expected=$2 body=$3 status
  shift 3
  status=$(curl -s -o got -w '%{http_code}' --max-time 20 "$@")
  same "$what: the status" "$expected" "$status"
  same "$what: the page" "$body" "$(cat got)"
}
