#!/usr/bin/env bash
# What libraries, proxies and browsers send, what is no request, and what would smuggle one, at a desk with --wide and at one without,
# over sockets: whole, byte by byte and cut at each length. With --wide a kill, with the request sent again in another form; a stop at
# the house's door; and the hosts of a desk with a page.
#
# EACH=1 DESK=.. tests/messages.sh    each length, and not each fifth alone
. "$(dirname "${BASH_SOURCE[0]}")/helping.bash"
. "$tests/hostile.bash"
. "$tests/serving.bash"

told=$(python3 "$tests/messages.py" "${EACH:-5}") || wrong=1
echo "$told"
for name in wide plain; do
  same "$name: what acted, each once, and nothing else" "7|8|8|ok" \
    "$(sqlite3 "$name.db" 'SELECT journeys, events, (SELECT count(*) FROM answer) FROM meta; PRAGMA integrity_check' | paste -sd '|')"
done

key=7d444840-9dc0-11d1-b245-5ffdce74fad2
serves_with --wide
for host in 127.0.0.2 '[::1]'; do
  curl -s -o got --max-time 5 "http://$host:$port/health"
  same "no connection but at 127.0.0.1: $host" 7 $?
done
page "a begin in chunks" 200 '{"journey":1}' -H 'Desk-Agent: ann' -H "Desk-Key: $key" -H 'Transfer-Encoding: chunked' \
  --data-binary "$plan" "http://127.0.0.1:$port/journeys"
ends_by KILL "$desk"
serves_with --wide --house "$work/desk.sock"
page "the same by its length, after a kill" 200 '{"journey":1}' -H 'Desk-Agent: ann' -H "Desk-Key: ${key//-/}" \
  --data-binary "$plan" "http://127.0.0.1:$port/journeys"
page "the same over HTTP/1.0" 200 '{"journey":1}' --http1.0 -H 'Desk-Agent: ann' -H "Desk-Key: $key" \
  --data-binary "$plan" "http://127.0.0.1:$port/journeys"
at_house=(--unix-socket "$work/desk.sock")
same "the house's journeys, by HEAD" "200 0" \
  "$(curl -s -I -o head -w '%{http_code} %{size_download}' --max-time 20 "${at_house[@]}" http://desk/unfinished)"
page "the house's methods" 204 "" "${at_house[@]}" -D head -X OPTIONS http://desk/stop
same "those of a stop" "Allow: OPTIONS, POST" "$(tr -d '\r' <head | grep '^Allow')"
same "the methods of a stop for which GET asks" "405 Allow: OPTIONS, POST" \
  "$(curl -s -D - -o /dev/null --max-time 20 "${at_house[@]}" http://desk/stop | tr -d '\r' | sed -n 's/^HTTP[^ ]* \([0-9]*\).*/\1/p; /^Allow/p' | paste -sd ' ')"
same "those for which HEAD asks, without a body" "405 0" \
  "$(curl -s -I -o head -w '%{http_code} %{size_download}' --max-time 20 "${at_house[@]}" http://desk/stop)"
for path in metrics reports/stock 'reports/holders?--kind&room'; do
  page "the methods of $path" 204 "" "${at_house[@]}" -D head -X OPTIONS "http://desk/$path"
  same "those of $path" "Allow: GET, HEAD, OPTIONS" "$(tr -d '\r' <head | grep '^Allow')"
  page "a POST to $path" 405 '{"name":"WrongMethod","refused":8}' "${at_house[@]}" -D head -X POST "http://desk/$path"
  same "the methods that it names" "Allow: GET, HEAD, OPTIONS" "$(tr -d '\r' <head | grep '^Allow')"
done
page "the methods of a monitor's path at the port" 404 '{"name":"UnknownPath","refused":7}' -H 'Desk-Agent: ann' -X OPTIONS \
  "http://127.0.0.1:$port/metrics"
page "a stop at the port" 404 '{"name":"UnknownPath","refused":7}' -H 'Desk-Agent: ann' -H 'Desk-Key: k2' -X POST \
  "http://127.0.0.1:$port/stop"
page "a stop without a length" 200 '{"state":"stopping"}' "${at_house[@]}" -X POST http://desk/stop
ends_well "with --wide"
same "the begin acted once" "1" "$(rows 'SELECT journeys FROM meta')"

# with --page another host is refused, whatever it asks for
serves_with --wide --page
for method in GET HEAD POST OPTIONS DELETE; do
  asks=(-X "$method")
  [ "$method" != HEAD ] || asks=(-I)
  for path in / /stock /journeys; do
    same "$method $path of another host" "400 close" "$(curl -s -D - -o /dev/null --max-time 20 "${asks[@]}" \
      -H 'Host: other.example' "http://127.0.0.1:$port$path" | tr -d '\r' |
      sed -n 's/^HTTP[^ ]* \([0-9]*\).*/\1/p; s/^Connection: //p' | paste -sd ' ')"
  done
done
# of a target in absolute form its own host counts
for hosts in "200 127.0.0.1:$port other.example" "400 other.example 127.0.0.1:$port"; do
  read -r code target host <<<"$hosts"
  same "a target at $target under the host $host" "$code" "$(curl -s -o /dev/null -w '%{http_code}' --max-time 20 \
    --request-target "http://$target/stock" -H "Host: $host" -H 'Desk-Agent: ann' "http://127.0.0.1:$port/")"
done
page "the methods of the page" 204 "" -D head -X OPTIONS "http://127.0.0.1:$port/"
same "its methods" "Allow: GET, HEAD, OPTIONS" "$(tr -d '\r' <head | grep '^Allow')"
page "a POST to the page" 405 '{"name":"WrongMethod","refused":8}' -D head -X POST "http://127.0.0.1:$port/"
same "its methods again" "Allow: GET, HEAD, OPTIONS" "$(tr -d '\r' <head | grep '^Allow')"
same "the page by HEAD" "200 0" \
  "$(curl -s -I -o head -w '%{http_code} %{size_download}' --max-time 20 "http://127.0.0.1:$port/")"
ends_by TERM "$desk"
finish
