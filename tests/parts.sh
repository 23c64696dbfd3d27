#!/usr/bin/env bash
# The parts of long scripts: with PART=K/N, K from 1 to N, each case is done once, and each part has its share. A part of
# another form is refused.
. "$(dirname "${BASH_SOURCE[0]}")/helping.bash"
export PYTHONPATH=$tests
unset PART TESTED

# all parts of one to six, over two lists of 25 cases and over numbers without end, of which those up to 100 are looked at; and what
# chance gives every part, and what it gives one. Then parts of another form
python3 - >out 2>&1 <<'PY' || same "the parts" "" "$(cat out)"
import collections, contextlib, importlib, io, itertools, os, random, sys
import parts

def same(what, expected, found):
    assert expected == found, f"{what}\n  expected: {expected}\n  found:    {found}"

LISTS = [(name, n) for name in ("one", "two") for n in range(1, 26)]
ALL = sorted(LISTS + [("from", n) for first in (3, 4, 5) for n in range(first, 101, 5)])

def done_by(part):
    """The cases that a part has, and its chances."""
    os.environ["PART"] = part
    importlib.reload(parts)
    deal = parts.Deal()
    cases = deal.mine(LISTS)
    for first in (3, 4, 5):
        cases += [("from", n) for n in itertools.takewhile(lambda n: n <= 100, deal.mine_from(first, 5))]
    same(f"{part}: the last line", f", part {part.replace('/', ' of ')}" if part else "", parts.IN_PART)
    return cases, [one.random() for one in parts.chances(7)]

chances = [done_by("")[1]]
same("without a part", ALL, sorted(done_by("")[0]))
chance = random.Random(7)
same("without a part there is one chance", [chance.random(), chance.random()], chances[0])
for n in range(1, 7):
    found = [done_by(f"{k}/{n}") for k in range(1, n + 1)]
    same(f"the cases of {n} parts", ALL, sorted(case for cases, _ in found for case in cases))
    for cases, _ in found:
        few = sum(name == "one" for name, _ in cases)
        same(f"a part of {n} has {few} of 25 cases", True, 25 // n <= few <= 24 // n + 1)
    chances += [both for _, both in found]
same("every part chooses the same cases", 1, len({one for one, _ in chances}))
same("each part has chances of its own", 21, len({own for _, own in chances}))
for text in ("0/3", "4/3", "x", "1", "1/", "/3", "0/0", "01/3", "1/03", "-1/3", "+1/3", "1/3/5", " 1/3", "1/3 ", "1.0/3", "1/x", "1/1000",
             "1/3\n", "1,3", "1/3;"):
    said, status = io.StringIO(), 0
    with contextlib.redirect_stderr(said):
        try:
            parts.read_part(text)
        except SystemExit as end:
            status = end.code
    same(f"PART={text!r}", (2, f"-: PART={text} is not K/N, with K from 1 to N\n"), (status, said.getvalue()))
PY

# a script that is not dealt out does all in the first part
same "trial.sh in another part" "0: trial.sh: left out until its turn" \
  "$(
    PART=2/4 bash "$tests/trial.sh" 2>err
    echo "$?: $(cat err)"
  )"

# programs of three tests, which allocate five, four and four times, and note what is refused to them; to note it allocates
# nothing. The last test is done again at each byte, by its name
cat >fake.c <<'C'
#include <fcntl.h>
#include <stdio.h>
#include <stdlib.h>
#include <string.h>
#include <unistd.h>
int main(int count, char **words) {
  char line[200];
  if (count > 1 && strcmp(words[1], "--list") == 0)
    return puts("tests::five: test\ntests::four: test\ntests::cut: test") < 0;
  snprintf(line, sizeof line, "%s %s %s\n", strrchr(words[0], '/') + 1, words[1], getenv("REFUSE"));
  if (write(open(getenv("NOTES"), O_CREAT | O_WRONLY | O_APPEND, 0600), line, strlen(line)) < 0)
    return 1;
  for (int n = strcmp(words[1], "tests::five") == 0 ? 5 : 4; n > 0; n--) {
    char *volatile made = malloc(8);
    free(made);
  }
  return write(1, "test result: ok\n", 16) < 0;
}
C
cc -O0 -o fake fake.c || exit 1
mkdir made
for name in one two; do cp fake "made/${name}_tests"; done

# refuses PART TESTED: memory_of_crates.sh over these programs; what it refused goes to notes, and what it said to out and err
refuses() {
  : >notes
  PART=$1 TESTED=$2 CRATES="one two three" NOTES=$work/notes MEMORY_TESTS=$work/made \
    bash "$tests/memory_of_crates.sh" >out 2>err
  status=$?
}
# all_of NAME FIRST LAST: each case of this name
all_of() { seq -f "$1 %.0f" "$2" "$3"; }
for name in one_tests two_tests; do
  all_of "$name tests::five" 1 5
  all_of "$name tests::four" 1 4
  all_of "$name tests::cut" 1 4
done | sort >all
# of the ten cases of each program the last one is the test that is done again at each byte
shares=("" 10 10 6) cuts=("" 4 4 0)
for n in {1..3}; do
  refuses "$n/3" "one two"
  same "part $n: the status and standard error" "0 " "$status $(cat err)"
  same "part $n: what has its turn" "tests with their turn: one two; left out until theirs: three" "$(head -n 1 out)"
  same "part $n: the last line" ", part $n of 3" "$(tail -n 1 out | grep -o ', part.*')"
  same "part $n: its share of 26 allocations" "${shares[n]} ${cuts[n]} " \
    "$(grep -vc none notes) $(grep -v none notes | grep -c cut) $(grep -v none notes | sort | comm -23 - all)"
  grep -v none notes >>together
done
same "all allocations in three parts" "$(cat all)" "$(sort together)"
refuses "" "two three"
same "a crate that should be built: the status" 1 "$status"
same "a crate that should be built: standard error" "memory_of_crates.sh: the tests of three, which ./check leaves" \
  "$(head -n 1 err)"
same "a crate that has its turn: all allocations" "$(grep two all)" "$(grep -v none notes | sort)"
refuses 2/3 four
same "no crate has its turn" "0 tests with their turn: none; left out until theirs: one two three" "$status $(head -n 1 out)"
finish
