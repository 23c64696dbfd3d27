#!/usr/bin/env bash
# ./build proves each crate once those below it are proved, side by side, can be stopped, and says what is kept; ./desk then runs the
# program. Each command at the top may be called through a link. In place of rt and python3 stand scripts.
. "$(dirname "${BASH_SOURCE[0]}")/helping.bash"
top=$work/repo
export FAKE=$work/fake
python=$(command -v python3)
mkdir -p "$FAKE" "$top/docs"
cp -r "$tests"/../{build,check,bench,soak,desk,scripts} "$top"
cp "$tests/../docs/minutes.tsv" "$top/docs"
cd "$top" || exit 2

# 'rt lib' takes a moment, and fails where a library below is absent; what it keeps is good for the next call. While meet
# stands, left and right end only once both have begun, or ten seconds have passed.
cat >"$FAKE/rt" <<'RT'
#!/usr/bin/env bash
name=$(basename "$PWD")
case $1 in
  version) echo "kit 1"; exit ;;
  lib | run) ;;
  *) exit 2 ;;
esac
for below in $(sed -n "s/^$name:\(.*\)/\1/p" ../../crates.txt); do
  [ "$below" = sqlite ] || [ -e "../$below/out/rlib/stamp" ] || { echo "no library $below"; exit 1; }
done
[ "$name" != bench ] || exit 0
grep -q wrong src/lib.rt && { echo "src/lib.rt:1:1: error: wrong"; exit 1; }
echo "begins $name$([ -d out/incremental ] && echo ' again')" >>"$FAKE/log"
mkdir -p out/incremental
echo kept >out/incremental/work
echo "so far: 1 of 2 functions checked; the verdict comes last"
while [ -e "$FAKE/hold" ] || [ -e "$FAKE/hold.$name" ]; do sleep 0.1; done
if [ -e "$FAKE/meet" ] && [[ $name =~ ^(left|right)$ ]]; then
  for _ in {1..100}; do
    [ "$(grep -c '^begins \(left\|right\)' "$FAKE/log")" -lt 2 ] || break
    sleep 0.1
  done
fi
sleep 0.3
echo "ends $name" >>"$FAKE/log"
mkdir -p out/rlib
echo "$name" >out/rlib/stamp
[ "$1" = lib ] && exit
printf '#!/bin/sh\necho proved "$@"\n' >out/desk
chmod +x out/desk
exit 2
RT
printf '#!/bin/sh\necho 2\n' >"$FAKE/nproc"
printf 'MemAvailable: 20000000 kB\n' >"$FAKE/memory"
export MEMINFO=$FAKE/memory
cat >"$FAKE/python3" <<PY
#!/bin/sh
case \$* in */building.py*) exec "$python" "\$@" ;; esac
echo "python3 \$*"
PY
chmod +x "$FAKE"/*
PATH=$FAKE:$PATH

printf '# names\nlow:\nleft: low sqlite\nright: low\ndesk: left right\naside: low\n' >crates.txt
touch HANDLES
for name in low left right desk aside; do
  mkdir -p crates/$name/src
  echo one >crates/$name/src/lib.rt
done

# builds STATUS WORDS .. [-- TEXT ..]: ./build with these words ends so, and says these texts
builds() {
  : >"$FAKE/log"
  runs "$1" ./build "${@:2}"
}

# order: what the fake rt noted, side by side in the order of names
order() { tr '\n' ' ' <"$FAKE/log"; }

# until_begun NAME: waits until this crate is being proved
until_begun() { comes 20 grep -q "^begins $1" "$FAKE/log" || same "after 20 seconds $1 is being proved" yes ""; }

# begins_build: ./build begins, as process $build, and is held in its first crate
begins_build() {
  touch "$FAKE/hold"
  : >"$FAKE/log"
  ./build >"$work/said" 2>&1 &
  build=$!
  until_begun low
}

mkdir -p crates/desk/out/trial
touch crates/desk/out/trial/lock crates/desk/out/trial/desk-0
touch "$FAKE/meet"
builds 0 -- "this toolchain is 'kit 1', and docs/RUNNING.md names the one by which all was proved" \
  "proving 4 crates, 2 side by side" "crate 4 of 4" "the program is crates/desk/out/desk"
echo 'kit 1' >docs/RUNNING.md
rm "$FAKE/meet"
case $(order) in
  "begins low ends low begins left begins right ends "*" begins desk ends desk ") ;;
  "begins low ends low begins right begins left ends "*" begins desk ends desk ") ;;
  *) same "the order" "low, then left and right side by side, then desk" "$(order)" ;;
esac
same "what is kept" "desk" "$(find crates -path '*/out/*' -type f -printf '%f\n')"
same "the program" "proved run x.db" "$(./desk run x.db 2>"$work/err")"
same "the program: standard error" "" "$(cat "$work/err")"

# each command of the repository finds its own folder from wherever it is called, also through a link to a link
mkdir "$work/away"
ln -s ../repo/desk "$work/away/booking"
ln -s away/booking "$work/desk"
same "from another folder" "proved run x.db" "$(cd "$work/away" && ../repo/desk run x.db 2>&1)"
same "through a link" "proved run x.db" "$(cd "$work/away" && ./booking run x.db 2>&1)"
same "through a link to a link, on the PATH" "proved run x.db" "$(cd / && PATH=$work:$PATH && desk run x.db 2>&1)"
builds 0
same "nothing is built twice" "" "$(order)"

# linked NAME STATUS LAST WORD ..: the command of this name ends so, and this is its last line, by its path and by such a link
linked() {
  local name=$1 status=$2 last=$3 called
  shift 3
  ln -s "../repo/$name" "$work/away/a_$name"
  ln -s "away/a_$name" "$work/the_$name"
  for called in "$top/$name" "$work/away/a_$name" "$work/the_$name"; do
    (cd / && unset RT_JOBS && "$called" "$@") >"$work/said" 2>&1
    same "${called#"$work/"} $*: the status" "$status" $?
    same "${called#"$work/"} $*" "$last" "$(tail -n 1 "$work/said")"
    same "${called#"$work/"} $*: files that it lacks" "" "$(grep -i "no such file\|not found" "$work/said")"
  done
}

mkdir -p crates/bench
cp "$tests"/../crates/bench/*.bash crates/bench
linked build 0 "build: the program is crates/desk/out/desk, $(du -shc crates/desk/out/desk | tail -n 1 | cut -f 1), and no source is newer"
linked check 0 "python3 -B scripts/gate 0 --turns" --turns
linked soak 0 "python3 $top/tests/soak.py --help" --help
linked bench 2 "bench: no such measure: nothing" nothing
rm -r crates/bench

# the crate on which the longest chain waits begins first: two minutes each, but for `first` and what the table has; and as many
# checks side by side as memory holds
mkdir -p "$work/chain/docs"
printf 'first:\nsecond:\nover: second sqlite\nlast: first over\nnext: first\ndesk: last next\n' >"$work/chain/crates.txt"
printf '# names\ncrate\tproof\ttests\tmutants\nfirst\t1.5\t-\t-\nnext\t-\t-\t-\n' >"$work/chain/docs/minutes.tsv"
for memory in 8:1 20:2; do
  printf 'MemAvailable: %s000000 kB\n' "${memory%:*}" >"$FAKE/memory"
  same "which crates begin first, and how many in ${memory%:*} GB" "second over first last next desk, ${memory#*:}" \
    "$(PYTHONPATH=scripts/gate "$python" -B -c 'import building; it = building.Build(building.Tables("'"$work/chain"'"), building.lanes_now())
print(*it.waiting, end=f", {it.lanes}")')"
done

# a build that is stopped goes on with what was kept
touch crates/low/src/lib.rt
begins_build
./build >"$work/second" 2>&1
same "a second call: the status" 1 $?
same "a second call" "build: another ./build runs here" "$(cat "$work/second")"
touch "$FAKE/hold.left"
rm "$FAKE/hold"
until_begun left
ends_by TERM "$build"
same "a build that is ended: the status" 143 $?
rm "$FAKE/hold.left"
same "a build that is ended: no room is left" "" "$(find out -mindepth 1 ! -name 'build.*')"
same "what it has proved is kept" "low" "$(cat crates/low/out/rlib/stamp)"
begins_build
ends_by KILL "$build"
rm "$FAKE/hold"
flock -w 20 out/build.lock true # what it has left running holds its lock
builds 0
same "what was kept is used" yes "$([[ $(order) == *"begins low again"*"begins left again"* ]] && echo yes)"
same "a build that went on keeps the program alone" "desk" "$(find crates -path '*/out/*' -type f -printf '%f\n')"

# all is kept for who works on it, and stays
touch crates/low/src/lib.rt
builds 0 --keep -- "rm -r crates/*/out/incremental crates/*/out/rlib"
same "a build that keeps all" 4 "$(find crates -name stamp | wc -l)"
touch crates/low/src/lib.rt
builds 0
same "what was kept before stays" 4 "$(find crates -name stamp | wc -l)"

# a source that is not proved; one that changes meanwhile; one of a crate that the program does not stand on
echo wrong >crates/right/src/lib.rt
builds 1 -- "src/lib.rt:1:1: error: wrong" "right is not proved"
echo one >crates/right/src/lib.rt
begins_build
touch crates/low/src/lib.rt
rm "$FAKE/hold"
wait "$build"
same "a source that changes meanwhile: the status" 1 $?
says "a source that changes meanwhile" "a source has changed meanwhile: run ./build again"
builds 0
touch crates/aside/src/lib.rt
builds 0
same "a crate that the program does not stand on" "" "$(order)"
builds 2 --most
same "what stands at the top" "HANDLES bench build check crates crates.txt desk docs out scripts soak " "$(LC_ALL=C ls -A | tr '\n' ' ')"
finish
