#!/usr/bin/env bash
# ./check proves every crate but those of tests whose turn it is not, tries the mutants that have changed and those whose turn
# it is, runs the scripts beside `rt ci` once the program stands, and fails where anything fails. Over the repository as it is,
# nothing is without a turn for more than 30 landings on two processors. In place of `rt` and of scripts/mutants.py stand
# scripts that note what they are given. More than 200 lines: one repository is landed on, step by step.
. "$(dirname "${BASH_SOURCE[0]}")/helping.bash"
stands_on git
top=$work/repo
mkdir -p "$top/docs" "$top/tests" "$top/scripts" fake
cp -r "$tests/../check" "$top"
cp -r "$tests"/../scripts/{gate,needs.bash,program.bash,trial.bash} "$top/scripts"
cd "$top" || exit 2
export FAKE=$work/fake

# a toolchain, and none of what ./check would install
cat >"$FAKE/rt" <<'RT'
#!/usr/bin/env bash
if [ "$1" = version ]; then cat "$FAKE/version"; exit; fi
if [ "$1" = fmt ]; then
  [ ! -e "$FAKE/slow" ] || { echo >"$FAKE/laid" && sleep 1; }
  [ ! -e src/lib.rt ] || sed -i 's/  */ /g' src/lib.rt
  [ ! -e src/unread.rt ] || { echo "$PWD/src/unread.rt: it does not parse" && exit 1; }
  exit
fi
[ "$1" != doc ] || exec echo "$FAKE/kit/first.md"
if [ "$1" = try ]; then
  mkdir "$TMPDIR/made" && printf tried >"$TMPDIR/made/program" && exec cat "$7"
fi
[ "$1" = ci ] && [ -d .git ] || exit 2
run=$FAKE/${PWD##*/}.
[ "$run" != "$FAKE/gate." ] || run=$FAKE/
echo "${RT_JOBS:-none}" >"${run}jobs"
find . -type f | sort >"${run}files"
sed 's/:.*//' crates.txt >"${run}crates"
while [ -e "$FAKE/hold" ]; do sleep 0.1; done
for name in $(cat "${run}crates"); do
  mkdir -p crates/$name/out
  case $name in
    desk)
      printf 'built' >crates/desk/out/desk
      [ ! -e "$FAKE/second" ] || bash -c 'while [ -e "$FAKE/second" ]; do sleep 0.1; done' rattle --crate-name desk --backend rattle
      ;;
    *_tests) printf 'built' >crates/$name/out/${name}_tests; echo "rt: $name: its tests are proved" ;;
  esac
  echo "rt: $name proved"
done
while [ -e "$FAKE/linger" ]; do sleep 0.1; done
[ ! -e "$FAKE/fails" ]
RT
cat >scripts/mutants.py <<'PY'
import os, sys
print("mutants:", *sys.argv[3:])
with open(os.environ["FAKE"] + "/mutants", "a") as it:
    it.writelines(f"{sys.argv[3]}/{edit}\n" for edit in sys.argv[4:])
sys.exit(os.path.exists(os.environ["FAKE"] + "/accepts"))
PY
printf '#!/bin/sh\nexit %d\n' 0 >"$FAKE/perl"
printf '#!/bin/sh\nexit %d\n' 1 >"$FAKE/apt-get"
for name in sqlite3 cc curl; do ln -s perl "$FAKE/$name"; done
chmod +x "$FAKE"/*
echo "kit 1" >"$FAKE/version"
PATH=$FAKE:$PATH
echo "MemAvailable: 12000000 kB" >"$FAKE/memory"
export RT_JOBS=2 MEMINFO=$FAKE/memory

# crates: low, then mid on low and high on mid, and apart other; each with eight mutants, of which two tell most
printf '# names\nlow:\nmid: low sqlite\nhigh: mid\nother: streams_of_the_kit\ndesk: high other\n' >crates.txt
printf 'low_tests: low\nhigh_tests: high\nbench: desk_of_the_kit\n' >>crates.txt
echo 'Proved with `kit 1`.' >docs/RUNNING.md
printf '# numbers\n7\t2026-01-01\tnothing\n' >docs/landings.tsv
echo out/ >.gitignore
echo "Handles allowed: none." >HANDLES
for name in low mid high other desk low_tests high_tests bench; do
  mkdir -p crates/$name/src
  echo one >crates/$name/src/lib.rt
done
for name in low mid high other desk; do
  mkdir crates/$name/must-fail crates/$name/mutants
  for n in {1..8}; do echo "$n" >"crates/$name/$([ "$n" -gt 2 ] && echo mutants || echo must-fail)/$n.edit"; done
done
# minutes EACH: the table where a crate is proved in half a minute, and its eight mutants take EACH minutes together
minutes() {
  for name in low mid high other desk; do printf '%s\t0.5\t-\t%s\n' $name "$1"; done
  printf 'low_tests\t-\t12\t-\nhigh_tests\t-\t7\t-\nbench\t10\t-\t-\nlong.sh\t4\t3\t-\n'
}
minutes 1 >docs/minutes.tsv
cat >tests/good.sh <<'SH'
[ "$(cat "$DESK")" = built ] && echo "good: ${PART-whole} $TESTED"
SH
cat >tests/lacks.sh <<'SH'
echo "lacks.sh: skipped, there is no tool" >&2
SH
cat >tests/long.sh <<'SH'
echo "long: ${PART-whole}"
[ "$PART" != 3/3 ] || echo "long.sh: left out until its turn" >&2
SH

# commit HOURS: all is committed, as of so many hours ago
commit() {
  git add -A
  GIT_AUTHOR_DATE="$(($(date +%s) - $1 * 3600)) +0000" GIT_COMMITTER_DATE="$(($(date +%s) - $1 * 3600)) +0000" \
    git -c user.name=desk -c user.email=desk@localhost commit -q --allow-empty -m now
}

# land N BEFORE: the landing of this number has its line
land() { printf '%s\t2026-01-02\t%s\n' "$1" "$2" >>docs/landings.tsv; }

# gate STATUS WORDS .. [-- TEXT ..]: ./check with these words ends so, and says these texts
gate() {
  rm -f "$FAKE"/{mutants,crates,files,jobs}
  runs "$1" ./check "${@:2}"
}

# beside NAME COMMAND ..: the command, while there is a file of this name for the toolchain
beside() {
  touch "$FAKE/$1"
  "${@:2}"
  rm -f "$FAKE/$1"
}

# tried: of each crate how many mutants were tried
tried() { cut -d/ -f1 "$FAKE/mutants" 2>/dev/null | sort | uniq -c | awk '{ printf "%s%s %d", (NR > 1 ? ", " : ""), $2, $1 }'; }

# proved: the crates that rt was given
proved() { tr '\n' ' ' <"$FAKE/crates" | sed 's/ $//'; }

same "a crate with two rows of minutes" "" "$(grep -v '^#' "$tests/../docs/minutes.tsv" | cut -f1 | sort | uniq -d)"

git init -q .
commit 30
landed=$(git rev-parse --short=8 HEAD)
land 8 "$landed"
commit 1

# nothing has changed: all crates but those of tests, and by turns some of these and some mutants
gate 0 -- "landing 8, compared with $landed: sources changed in no crate" "a round of mutants takes 30 landings" \
  "left out until their turn:" "long: 2/3" "good: whole" "2 passed, 0 failed, 1 skipped"
same "the checks side by side, which rt would not run in so little memory" 2 "$(cat "$FAKE/jobs")"
same "the crates of the program are proved" "low mid high other desk" "$(proved | sed 's/ [a-z]*_tests//g; s/ bench//')"
same "no mutant stands in the copy" "" "$(grep '\.edit$' "$FAKE/files")"
find . -type f ! -path './*/out/*' ! -path './out/*' ! -path './.git/*' ! -name '*.edit' ! -name '*.pyc' | sort >"$work/files"
left=$(sed -n 's/.*left out until their turn: //p' "$work/said" | tr -d ',' | tr ' ' '\n' | grep -E '^(bench|[a-z]+_tests)$')
same "each other file stands in the copy" "" "$(grep -vFf <(sed 's,.*,crates/&/,' <<<"${left:-none}") "$work/files" | diff - "$FAKE/files")"
same "nothing of the run is left" "gate.lock" "$(ls out)"

# the next landing takes the next part
land 9 "$landed"
gate 0 -- "landing 9, compared with $landed" "scripts left out until their turn: long.sh" "1 passed, 0 failed, 1 skipped"
commit 1

beside accepts gate 1 --all
gate 0 --all -- "long: whole"
same "all that there are" "desk 8, high 8, low 8, mid 8, other 8" "$(tried)"
same "every crate" "low mid high other desk low_tests high_tests bench" "$(proved)"
echo changed >crates/high/mutants/8.edit
gate 0 --all -- "mutants: 40 rejected"
same "a whole run goes on: what has changed since" "high 8" "$(tried)"
git checkout -q crates
rm -r out/tried
minutes 24 >docs/minutes.tsv
gate 0 --all -- "mutants: 40 rejected"
same "mutants that would take 24 minutes are tried in two parts" 2 "$(grep -c '4 mutants of high' "$work/said")"
rm -r out/tried
git checkout -q docs

# what has changed comes first
echo two >crates/mid/src/lib.rt
gate 0 -- "sources changed in mid"
same "a file that is not committed: the crate, and those above it" "desk 8, high 8, mid 8" "$(tried | tr ',' '\n' | grep -E 'mid|high|desk' | sed 's/^ //' | paste -sd, | sed 's/,/, /g')"
same "its tests" yes "$(proved | grep -q high_tests && echo yes)"
commit 1
gate 0 -- "sources changed in mid"
gate 0 --since HEAD -- "sources changed in no crate"
gate 0 --since HEAD~1 -- "sources changed in mid"

echo "one  two" >crates/low/src/lib.rt
gate 1 -- "rt fmt lays out crates/low/src/lib.rt differently"
same "a source that is not laid out: nothing is tried" absent "$([ -e "$FAKE/crates" ] || echo absent)"
git checkout -q crates/low

# the layout of all crates, also of those whose turn it is not, and alone
gate 0 --layout
same "the layout" "check: the sources of 8 crates are laid out as rt fmt does it" "$(cat "$work/said")"
for name in low_tests high_tests bench; do
  echo "one  two" >crates/$name/src/lib.rt
  for words in "" --layout; do
    gate 1 ${words:+"$words"}
    same "./check $words: what is not laid out" "crates/$name/src/lib.rt" "$(sed -n 's/^check: rt fmt lays out \(.*\) differently$/\1/p' "$work/said")"
  done
  same "the layout stays as it is" "one  two" "$(cat crates/$name/src/lib.rt)"
  git checkout -q crates
done
echo "two" >crates/high/src/unread.rt
gate 1 --layout -- "check: rt fmt fails in crates/high: crates/high/src/unread.rt: it does not parse"
rm crates/high/src/unread.rt

# changed CRATES: what was changed since the last commit changes these crates; then it is as before
changed() {
  gate 0 --since HEAD -- "sources changed in $1"
  git reset -q --hard
  git clean -q -d -f crates
  echo "kit 1" >"$FAKE/version"
}
mkdir crates/other/proofs
echo new >crates/other/proofs/New.antt
changed other # a new file
git rm -q -f crates/high/src/lib.rt
changed high # a file that is gone
sed -i 's/^high:.*/high: mid low/' crates.txt
changed high # a crate that stands on another
echo "kit 2" >"$FAKE/version"
changed "low mid high other desk low_tests high_tests bench" # another toolchain

# choose LANES SINCE: which mutants a landing tries that has no turn of any, where each takes so long that there is room for few
choose() {
  python3 -B - "$1" "$2" <<'PY'
import sys
sys.path.insert(0, "scripts/gate")
from choice import of_landing
from tables import Tables
from turns import mutant_turns
tables, lanes = Tables("."), int(sys.argv[1])
choice = of_landing(tables, lanes, mutant_turns(tables, lanes).index([]) + 1, sys.argv[2])
for name, found in choice.mutants.items():
    print(name, len(found), "changed" if "crates/other/must-fail/2.edit" in found else "")
PY
}
# a processor has four minutes for what has changed, of which a crate takes 0.8 before its first mutant
minutes 24 >docs/minutes.tsv
echo changed >crates/other/must-fail/2.edit
echo three >crates/low/src/lib.rt
same "a changed mutant, which takes three minutes, and nothing else" "other 1 changed" "$(choose 1 HEAD)"
minutes 4 >docs/minutes.tsv
same "a changed crate comes before those above it" "low 8;mid 2;other 1 changed" "$(choose 2 HEAD | sed 's/ $//' | sort | paste -sd ';')"
git checkout -q crates docs

# a landing without a line counts as the next one
sed -i '/2026-01-02/d' docs/landings.tsv
land 9 "$landed"
commit 20
gate 0 -- "has no line for this landing" "landing 10, compared with $(git rev-parse --short=8 HEAD)"
gate 0 --landing -- "landing 10 stands in docs/landings.tsv now"
same "the line" "$(printf '10\t%s\t%s' "$(date +%F)" "$(git rev-parse --short=8 HEAD)")" "$(tail -n 1 docs/landings.tsv)"
gate 0 --landing -- "landing 10 stands in docs/landings.tsv"
same "a line is added once" 1 "$(grep -c '^10' docs/landings.tsv)"
commit 1

# a line that names a commit which history lacks: every crate counts as changed
sed -i '/2026-01-02/d' docs/landings.tsv
land 11 0123abcd
gate 0 -- "landing 11, compared with 0123abcd: sources changed in low mid high other desk low_tests high_tests bench"
git checkout -q docs

# scripts run beside rt once the program stands, the longest first; each of these two waits for the other
waits='touch "$FAKE/$(basename "$0")"; for _ in {1..100}; do [ ! -e "$FAKE/${OTHER[$(basename "$0")]}" ] || exit 0; sleep 0.1; done; exit 1'
printf 'declare -A OTHER=([left.sh]=right.sh [right.sh]=left.sh)\n%s\n' "$waits" | tee tests/left.sh >tests/right.sh
RT_JOBS=3 gate 0 -- "4 passed, 0 failed, 1 skipped"
rm tests/left.sh tests/right.sh
echo 'rm "$FAKE/hold"' >tests/parts.sh # one that drives no program does not wait for it
beside hold gate 0 -- "3 passed, 0 failed, 1 skipped"
rm tests/parts.sh
echo 'rm "$FAKE/linger"' >tests/ends.sh
beside linger gate 0 -- "3 passed, 0 failed, 1 skipped"
echo 'rm "$FAKE/second"' >tests/ends.sh # the program stands while the second compiler runs
beside second gate 0 -- "3 passed, 0 failed, 1 skipped"
rm tests/ends.sh

# ends_gate WHAT FILE [WORD ..]: a gate that is ended once this file has something leaves nothing
mkdir "$work/rooms"
ends_gate() {
  local check
  rm -f "$2"
  TMPDIR=$work/rooms ./check "${@:3}" >"$work/said" 2>&1 &
  check=$!
  comes 20 test -s "$2"
  ends_by TERM "$check"
  same "$1: the status" 143 $?
  same "$1: what is left" "gate.lock" "$(ls out && ls "$work/rooms")"
}
beside slow ends_gate "a look at the layout that is ended" "$FAKE/laid" --layout
beside hold ends_gate "a gate that is ended" "$FAKE/crates"
echo 'echo $$ >"$FAKE/script"; sleep 100' >tests/good.sh
ends_gate "a gate that is ended amid scripts" "$FAKE/script"
same "a gate that is ended amid scripts: the script" gone "$(kill -0 "$(cat "$FAKE/script")" 2>/dev/null || echo gone)"
git checkout -q tests

# a signal that comes while a process begins ends the run afterwards
python3 -B - >begins 2>&1 <<'PY'
import signal, sys
sys.path.insert(0, "scripts/gate")
from alone import ends_by_signals, undisturbed
ends_by_signals()
with undisturbed():
    signal.raise_signal(signal.SIGTERM)
    print("begun")
print("not ended")
PY
same "a signal while a process begins" "143 begun" "$? $(cat begins)"
rm begins

# where memory allows as many checks, rt shares the processors among them by itself
echo "MemAvailable: 17000000 kB" >"$FAKE/memory"
gate 0
same "the checks side by side, which rt would run" none "$(cat "$FAKE/jobs")"
echo "MemAvailable: 12000000 kB" >"$FAKE/memory"

# a machine that takes twice what the table has for a small crate: everything is reckoned to take twice as long
mkdir -p crates/failing_streams/src "$FAKE/kit/bin"
echo 'failing_streams:' >>crates.txt
printf 'failing_streams\t0.01\t-\t-\n' >>docs/minutes.tsv
printf '#!%s\nimport time\nwhile time.process_time() < 1.2: pass\nprint("\\nlogic=proved")\n' "$(command -v python3)" >"$FAKE/kit/bin/rattle"
chmod +x "$FAKE/kit/bin/rattle"
gate 0 -- "a minute of the table takes 2."
git checkout -q crates.txt docs
rm -r crates/failing_streams

# what fails
gate 2 --since nowhere
gate 2 --most
gate 2 --since
beside fails gate 1
echo changed >crates/low/must-fail/1.edit
beside accepts gate 1 -- "mutants: 0 rejected, FAILED:"
git checkout -q crates
echo 'exit 1' >tests/bad.sh
gate 1 -- "check: tests/bad.sh FAILED" "2 passed, 1 failed, 1 skipped"
rm tests/bad.sh

# the core is proved by a run of its own, whose checks share the processors
echo 'saga_core: low' >>crates.txt
mkdir -p crates/saga_core/src
gate 0
same "the crates of the core" "low saga_core none" "$(cat "$FAKE"/gate.first.{crates,jobs} | paste -sd ' ')"
same "the crates of all, one job each" "low mid high other desk saga_core 2" "$(proved | sed 's/ [a-z]*_tests//g; s/ bench//') $(cat "$FAKE/jobs")"

# a first look: the core with its tests, and the short scripts over a trial program
echo '[ "$(cat "$DESK")" = tried ]' >tests/good.sh
left="7 crates, 40 mutants, 1 scripts"
gate 0 --quick -- "proved, with their tests: low saga_core; tried: 0 mutants" \
  "run over a trial program, compiled without proofs: good.sh lacks.sh" "left out: $left" "1 passed, 0 failed, 1 skipped"
same "a first look: the last line" "check: proved, with their tests: low saga_core. Only run, over a program without proofs: 1 scripts. Left out: $left. \
./check is the gate" "$(tail -n 1 "$work/said")"
same "a first look: what was proved" "low saga_core" "$(proved)"
beside fails gate 1 --quick -- "check: NOT proved: what rt says above. Only run"
git checkout -q crates.txt tests

# the repository as it is: on one to eight processors everything has its turn, on two within 30 landings
python3 -B - "$tests/.." >turns 2>&1 <<'PY'
import sys
sys.path.insert(0, sys.argv[1] + "/scripts/gate")
from edits import edits_of, texts_of
from tables import Tables
from turns import landing_of, mutant_turns, mutants_in, part_of_script, share_of, test_turns
tables = Tables(sys.argv[1])
every = sorted(path for found in tables.mutants.values() for path in found)
for name, found in tables.mutants.items():
    names = [path.rsplit("/", 1)[1] for path in found]
    if len({*names}) < len(names):
        print(f"{name}: two mutants of one name:", *{it for it in names if names.count(it) > 1})
    crate = tables.top / "crates" / name
    print("".join(f"{name}: {it.name} cannot be applied, or changes nothing\n" for it in edits_of(crate, []) if not texts_of(it, crate)), end="")
for lanes in range(1, 9):
    shares, parts = mutant_turns(tables, lanes), {part_of_script(3, number) for number in (7, 8, 9)}
    if parts != {1, 2, 3}:
        print("three landings in a row do not take the three parts of a script:", *parts)
    tried = sorted(path for share in shares for part in share for path in mutants_in(tables, part))
    if tried != every:
        print(f"on {lanes} processors mutants have no turn, or two:", *({*every} ^ {*tried}))
    turns = test_turns(tables, lanes)
    if sorted(name for share in turns for name in share) != sorted(tables.by_turns()):
        print(f"on {lanes} processors crates of tests have no turn, or two")
    for number in (1, 30, 31, 1000):
        late = [it for share in shares for it in share if it not in share_of(shares, landing_of(shares, it, number))]
        if late:
            print(f"on {lanes} processors, from landing {number} on, the turn that is said is not the one that is taken:", *late)
    if lanes >= 2 and max(len(shares), len(turns)) > 30:
        print(f"on {lanes} processors a round takes {len(shares)} and {len(turns)} landings")
PY
same "turns of the repository" "" "$(cat turns)"
same "mutants of the repository are found" yes "$([ "$(find "$tests"/../crates -name '*.edit' | wc -l)" -gt 1000 ] && echo yes)"
finish
