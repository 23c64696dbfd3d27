#!/usr/bin/env bash
# Tries another value of a limit: changes its one line of code and its one definition in a copy of the repository, and
# proves there every crate that the program stands on. Nothing here changes.
#
# scripts/limit.bash most_steps 30
#
# It says which two lines it changed. The texts of tests, examples and docs keep the old value, and the bodies that must be
# refused are not tried. It takes as long as ./build; after ./build --keep only what the limit touches is proved again.
set -u
top=$(cd "$(dirname "${BASH_SOURCE[0]}")/.." && pwd)
copy=$top/out/limit

say() { printf 'limit: %s\n' "$*"; }

fail() {
  say "$*" >&2
  exit 1
}

# replace WHAT PATTERN FILE ..: puts the value where the one line that has this pattern has its last number
replace() {
  local found
  found=$(grep -nE "$2" "${@:3}" | cut -d: -f1,2)
  [ "$(grep -c . <<<"$found")" -eq 1 ] || fail "no $1, or more than one"
  sed -i -E "${found#*:}s/[0-9][0-9_]*([^0-9]*)\$/$value\1/" "${found%:*}"
  say "$found: $(sed -n "${found#*:}p" "${found%:*}")"
}

[[ $#:${1-}:${2-} =~ ^2:[a-z_]+:[0-9]+$ ]] || {
  echo "usage: scripts/limit.bash NAME VALUE" >&2
  exit 2
}
name=$1 value=$2
trap 'rm -rf "$copy"' EXIT
trap 'exit 130' INT
trap 'exit 143' TERM
# what rt has kept of each crate goes along
rm -rf "$copy"
mkdir -p "$copy/.git" && cp -a --reflink=auto "$top"/{build,crates,crates.txt,docs,HANDLES,scripts} "$copy" && cd "$copy" || exit 2
replace "limit is defined as $name" "^$name = [0-9]+\$" crates/*/specs/Limits.antt
replace "constant is ${name^^}" "const ${name^^}: [a-z0-9]+ = [0-9_]+;\$" crates/*/src/limits.rt
./build || fail "not every crate is proved with $name = $value"
say "every crate that the program stands on is proved with $name = $value"
