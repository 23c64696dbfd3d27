#!/usr/bin/env bash
# The page for browsers: what is served is web/desk.html without its comments, with a policy for its own style and script alone;
# requests under hosts that are this machine with the port, and under others; and nothing of this without --page. Own journeys,
# and how much the desk has, over both doors.
. "$(dirname "${BASH_SOURCE[0]}")/helping.bash"
. "$tests/serving.bash"
shown=$work/shown
python3 "$top/scripts/page.py" --served >"$shown"

# allowed TAG: the hash of what stands in the one element of this tag, as a policy has it
allowed() {
  python3 - "$shown" "$1" <<'END'
import base64, hashlib, re, sys
[inside] = re.findall("<{0}>(.*?)</{0}>".format(sys.argv[2]).encode(), open(sys.argv[1], 'rb').read(), re.S)
print(f"'sha256-{base64.b64encode(hashlib.sha256(inside).digest()).decode()}'")
END
}

# field NAME: the value of this field of the last page
field() { tr -d '\r' <head | sed -n "s/^$1: //p"; }

same "the source of the page" "" "$(python3 "$top/scripts/page.py" --check 2>&1)"
bad_head='{"name":"BadHead","refused":1}'
unknown='{"name":"UnknownPath","refused":7}'
policy="default-src 'none'; script-src $(allowed script); style-src $(allowed style); connect-src 'self'"
policy="$policy; frame-ancestors 'none'; base-uri 'none'; form-action 'none'"

serves 17 --page
desk_at=http://127.0.0.1:$port
page "the page" 200 "$(cat "$shown")" -D head "$desk_at/"
cmp -s got "$shown" || same "the bytes of the page" "those of scripts/page.py --served" "others"
same "its type" "text/html; charset=utf-8" "$(field Content-Type)"
same "its length" "$(wc -c <"$shown")" "$(field Content-Length)"
same "its policy" "$policy" "$(field Content-Security-Policy)"
page "another method" 405 '{"name":"WrongMethod","refused":8}' -D head -d '' "$desk_at/"
same "the method that it has" "GET" "$(field Allow)"
for host in 127.0.0.1 localhost '[::1]'; do
  page "the page of $host" 200 "$(cat "$shown")" -H "Host: $host:$port" "$desk_at/"
  page "unfinished journeys of $host" 200 '{"unfinished":[]}' -H "Host: $host:$port" -H 'Desk-Agent: ann' "$desk_at/unfinished"
  page "$host without the port" 400 "$bad_head" -D head -H "Host: $host" -H 'Desk-Agent: ann' "$desk_at/unfinished"
  same "$host without the port: the end" "close" "$(field Connection)"
done
page "a name that was made to lead here" 400 "$bad_head" -H "Host: evil.example:$port" -H 'Desk-Agent: ann' "$desk_at/unfinished"
page "a page of another origin asks first" 405 '{"name":"WrongMethod","refused":8}' -D head -X OPTIONS -H 'Origin: http://evil.example' \
  -H 'Access-Control-Request-Method: GET' -H 'Access-Control-Request-Headers: desk-agent' "$desk_at/mine"
same "what it is allowed" "" "$(tr -d '\r' <head | grep -i '^access-control')"
page "how much a new desk has" 200 '{"events":0,"journeys":0,"unfinished":0}' "$desk_at/health"
page "who asks" 200 '{"agent":"ann"}' -H 'Desk-Agent: ann' "$desk_at/agent"
page "meant for who asks" 200 '{"mine":[]}' -H 'Desk-Agent: ann' -H 'Desk-For: ann' "$desk_at/mine"
page "meant for another" 400 '{"name":"NoAgent","refused":2}' -H 'Desk-Agent: ann' -H 'Desk-For: bob' "$desk_at/mine"
ends_well "with a page"

# the house has begun journey 1, which an opening undoes; ann begins journey 2, and the house journey 3
answers "the house" 'begin F/AL/A1/2030-06-01/1/1!0\n' 'journey 1 begun'
serves 15 --page --house "$work/desk.sock"
desk_at=http://127.0.0.1:$port
at_house=(--unix-socket "$work/desk.sock")
page "a begin by ann" 200 '{"journey":2}' -H 'Desk-Agent: ann' -H 'Desk-Key: k1' --data-binary "$plan" "$desk_at/journeys"
page "a begin by the house" 200 '{"journey":3}' "${at_house[@]}" --data-binary "$plan" http://desk/journeys
page "ann's journeys" 200 '{"mine":[{"journey":2,"pos":0,"state":"run"}]}' -H 'Desk-Agent: ann' "$desk_at/mine"
page "the house's journeys, the undone one too" 200 \
  '{"mine":[{"agent":"desk","journey":1,"pos":0,"state":"undone"},{"agent":"desk","journey":3,"pos":0,"state":"run"}]}' \
  "${at_house[@]}" http://desk/mine
page "those above the first" 200 '{"mine":[{"agent":"desk","journey":3,"pos":0,"state":"run"}]}' "${at_house[@]}" http://desk/mine/1
page "how much there is" 200 '{"events":4,"journeys":3,"unfinished":2}' "$desk_at/health"
page "the same at the house's door" 200 '{"events":4,"journeys":3,"unfinished":2}' "${at_house[@]}" http://desk/health
page "who asks at the house's door" 200 '{"agent":"desk"}' "${at_house[@]}" http://desk/agent
page "the page at the house's door" 404 "$unknown" "${at_house[@]}" http://desk/
page "the page again" 200 "$(cat "$shown")" "$desk_at/"
page "a stop at the port" 404 "$unknown" -H 'Desk-Agent: ann' -H 'Desk-Key: k2' -d '' "$desk_at/stop"
page "what the house sees" 200 \
  '{"unfinished":[{"agent":"ann","journey":2,"pos":0,"state":"run"},{"agent":"desk","journey":3,"pos":0,"state":"run"}]}' \
  "${at_house[@]}" http://desk/unfinished
page "the house turns back ann's journey" 200 '{"item":"B0a","journey":2,"pos":0,"state":"undone"}' "${at_house[@]}" -d '' \
  http://desk/journeys/2/abort/0
page "an agent's stop at the house's door" 404 "$unknown" "${at_house[@]}" -H 'Desk-Agent: ann' -H 'Desk-Key: k2' -d '' http://desk/stop
page "a stop" 200 '{"state":"stopping"}' "${at_house[@]}" -d '' http://desk/stop
ends_well "with a page and the house's door"
same "what the stop leaves" "" "$(ls "$work"/desk.sock* 2>/dev/null)"

serves 2
page "no page" 404 "$unknown" -H 'Desk-Agent: ann' "http://127.0.0.1:$port/"
page "a request under another host" 200 '{"unfinished":[]}' -H 'Host: evil.example' -H 'Desk-Agent: bob' "http://127.0.0.1:$port/unfinished"
ends_well "without a page"
finish
