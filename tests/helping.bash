# What the scripts here share. Each works in a folder of its own, which is gone at its end; in_memory, if it is set before,
# is the file system in memory that has this folder.
set -u
: "${DESK:?the program to drive}"
export PYTHONDONTWRITEBYTECODE=1

# in_part: what the last line of a script ends with, which the gate calls with PART=K/N (parts.py): nothing where it does all
in_part=${PART:+, part ${PART/\// of }}

tests=$(cd "$(dirname "${BASH_SOURCE[0]}")" && pwd)
top=$(dirname "$tests")
work=$(mktemp -d ${in_memory:+-p "$in_memory"})
trap 'rm -rf "$work"' EXIT
cd "$work" || exit 2
wrong=0

# skips WHY: the script ends, and says that it was skipped
skips() {
  echo "$(basename "$0"): skipped, $1" >&2
  exit 0
}

# stands_on TOOL ..: the script is skipped where one of these is absent
stands_on() {
  local tool
  for tool in "$@"; do command -v "$tool" >/dev/null || skips "there is no $tool"; done
}

# drives_browser: the script is skipped without headless Chromium and a Python that drives it, which is set to python
drives_browser() {
  . "$top/scripts/needs.bash"
  has_browser || skips "there is no Chromium, or no Python that drives it"
  export HOME=$work
}

# skips_trial: the script is skipped over a trial program
skips_trial() { [[ $DESK != */out/trial/* ]] || skips "a trial program is too slow"; }

# same WHAT EXPECTED FOUND
same() {
  if [ "$2" != "$3" ]; then
    printf '%s: %s\n  expected: %s\n  found:    %s\n' "$(basename "$0")" "$1" "$2" "$3" >&2
    wrong=$((wrong + 1))
  fi
}

# comes_to WHAT STATUS ERR COMMAND ..: the command ends so, with this on standard error; what it prints is in the file printed
comes_to() {
  "${@:4}" >"$work/printed" 2>"$work/err"
  same "$1: the status" "$2" $?
  same "$1: standard error" "$3" "$(cat "$work/err")"
}

# tells WHAT STATUS OUT ERR WORD ..: the program, called by these words with this standard input, tells this and ends so
tells() {
  comes_to "$1" "$2" "$4" "$DESK" "${@:5}"
  same "$1: the answer" "$3" "$(cat "$work/printed")"
}

# runs STATUS COMMAND .. [-- TEXT ..]: the command ends with this status; all that it says is in the file said, these texts among it
runs() {
  local expected=$1 command=()
  shift
  while [ $# -gt 0 ] && [ "$1" != -- ]; do
    command+=("$1")
    shift
  done
  "${command[@]}" >"$work/said" 2>&1
  same "${command[*]}: the status" "$expected" $?
  for text in "${@:2}"; do says "${command[*]}" "$text"; done
}

# leaves WHAT STATUS OUT ERR WORD FILE [WORD ..]: the same, and the file keeps its bytes
leaves() {
  local before
  before=$(sum "$6")
  tells "$@"
  same "$1: the file" "$before" "$(sum "$6")"
}

# answers WHAT INPUT OUTPUT: the program answers these lines over trips.db, and ends with 0
answers() { tells "$1" 0 "$3" "" run trips.db < <(printf '%b' "$2"); }

sum() { if [ -f "$1" ]; then cksum <"$1"; fi; }

# finds_nothing_wrong COMMAND ..: the command, which prints what went wrong, prints nothing and ends well; what else it says is in err
finds_nothing_wrong() {
  "$@" >out 2>err
  same "the status" 0 "$?"
  same "what went wrong" "" "$(cat out)"
  [ "$wrong" -eq 0 ] || cat err >&2
}

# compiles NAME ..: makes NAME.so of each of these, to be loaded before the C library
compiles() {
  local name
  for name in "$@"; do cc -O1 -shared -fPIC -o "$name.so" "$tests/$name.c" -ldl || exit 1; done
}

# comes SECONDS COMMAND ..: waits until this holds, for so many seconds at most; whether it came to hold
comes() {
  local end=$((SECONDS + $1))
  until "${@:2}"; do
    [ "$SECONDS" -lt "$end" ] || return 1
    sleep 0.01
  done 2>/dev/null
}

# ends_by SIGNAL PROCESS: a process of this script gets this signal, and has ended; the status is its
ends_by() {
  kill -s "$1" "$2"
  wait "$2"
} 2>/dev/null

# says WHAT TEXT: this is in the file said
says() { same "$1: '$2' is said" yes "$(grep -qF -- "$2" "$work/said" && echo yes)"; }

# opens_desk: the program runs over trips.db as process $desk, told lines by asks; what it faults goes to desk_err
opens_desk() {
  mkfifo line reply
  "$DESK" run trips.db <line >reply 2>desk_err &
  desk=$!
  exec 3>line 4<reply
}

# asks WHAT LINE ANSWER: the open desk answers this line so
asks() {
  local answer
  echo "$2" >&3
  read -r answer <&4
  same "$1" "$3" "$answer"
}

# closes_desk: its input ends; the status is the program's
closes_desk() {
  local status
  exec 3>&-
  wait "$desk" 2>/dev/null
  status=$?
  exec 4<&-
  rm line reply
  return "$status"
}

rows() { sqlite3 trips.db "$1" | tr '\n' ' ' | sed 's/ $//'; }

finish() { [ "$wrong" -eq 0 ]; }
