#!/usr/bin/env bash
# A desk that was not recovered answers no lines and no requests: a program that hands one to run_lines or serve does not
# compile.
. "$(dirname "${BASH_SOURCE[0]}")/helping.bash"

top=$(dirname "$tests")
cp "$top/crates.txt" "$top/HANDLES" .
mkdir crates
(cd "$top/crates" && tar -cf - --exclude=out .) | tar -xf - -C crates

# is_refused FILE TEXT CHANGED: the program that ./check has just built does not compile, where this text in this file is
# changed so that a desk is handed over that was not recovered
is_refused() {
  local said text
  same "$1: the text is there" yes "$(grep -qF "$2" "$1" && echo yes)"
  cp "$1" kept
  text=$(<kept)
  printf '%s\n' "${text//"$2"/"$3"}" >"$1"
  said=$(cd crates/desk && rt try 2>&1 </dev/null)
  same "$1: what the compiler says" 'error[mismatched-types]: expected `&mut Ready<_>`' \
    "$(grep -o 'error\[[a-z-]*\]: expected `&mut Ready<_>`' <<<"$said" | head -n 1)"
  cp kept "$1"
}

is_refused crates/desk_jobs/src/running.rt 'run_lines(alloc, reader, out, &mut desk)' \
  'run_lines(alloc, reader, out, &mut desk.into_inner())'
is_refused crates/program_jobs/src/serving.rt 'serve_to_end(alloc, &mut guests, &mut desk)' \
  'serve_to_end(alloc, &mut guests, &mut desk.into_inner())'
finish
