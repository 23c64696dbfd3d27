#!/usr/bin/env bash
# A booking by curl: WAY ORIGIN, with its requests on standard input, a line each: METHOD PATH, and of a POST KEY BODY. Prints the
# status and the body of each answer.
way=$1 origin=$2
while read -r method path key body; do
  words=()
  case $way in
    curl-proxy) words=(--noproxy '' --proxy "$origin") ;;
    curl-1.0) words=(--http1.0) ;;
    curl-expect) words=(-H 'Expect: 100-continue' --expect100-timeout 60) ;;
  esac
  [ "$method" = GET ] || words+=(-H "Desk-Key: $key")
  case $method:$way:$body in
    GET:*) ;;
    POST:curl-bare:) words+=(-X POST) ;;
    POST:curl-chunks:*) words+=(-X POST -T -) ;;
    *) words+=(--data-binary "$body") ;;
  esac
  printf '%s' "$body" | curl -s -o body -w '%{http_code} ' --noproxy '*' --max-time 20 -H 'Desk-Agent: ann' "${words[@]}" "$origin$path"
  cat body
  echo
done
