# Own journeys for many clients at once: GET /mine of `desk serve`, beside a threaded server in Python (serve_mine.py) over a copy of the
# same file, in which an agent has 100 of 1,000 journeys.

mine_of_desk() { exec "$desk" serve base.db --port "$1" --connections "$connections"; }
mine_of_python() { exec "$python" "$top/crates/bench/serve_mine.py" copy.db "$1"; }

# asks_mine SERVER CLIENTS GETS: the microseconds of a page where so many clients ask so often, and the page's body
asks_mine() {
  local connections=$2 told status
  serves "$1" || return 1
  told=$("$top/crates/bench/out/ask_gets" "$port" "$2" "$3" /mine a1)
  status=$?
  kill "$pid" 2>/dev/null
  wait "$pid" 2>/dev/null
  echo "$told"
  return "$status"
}

# The most pages a second, of three runs each.
measure_mine() (
  has_c mine send && has_c mine ask_gets && find_python || exit 0
  works_in_memory
  makes_base 10 && cp base.db copy.db || exit 1
  echo "mine-of-100 clients desk-pages-a-second python-threads ratio"
  for clients in 1 10 100 250; do
    rm -f desk.times python.times
    for run in 1 2 3; do
      asks_mine mine_of_desk "$clients" $((2000 / clients)) >>desk.times &&
        asks_mine mine_of_python "$clients" $((2000 / clients)) >>python.times || exit 1
    done
    if ! cmp -s <(cut -d ' ' -f 2- desk.times) <(cut -d ' ' -f 2- python.times); then
      say "mine: the two servers have other pages, so their times say nothing"
      exit 1
    fi
    paste -d ' ' <(cut -d ' ' -f 1 desk.times | sort -n | head -n 1) <(cut -d ' ' -f 1 python.times | sort -n | head -n 1) |
      awk -v clients="$clients" '{ printf "mine %d %.0f %.0f %.2f\n", clients, 1e6 / $1, 1e6 / $2, $2 / $1 }'
  done
)
