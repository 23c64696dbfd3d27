#!/usr/bin/env bash
# scripts/mutants.py finds a mutant that the prover accepts, also one that it rejects only for a function that it calls, in a
# repository of one small crate. It says so of each mutant, tries alone what may share no check, and leaves the sources as they are.
. "$(dirname "${BASH_SOURCE[0]}")/helping.bash"
stands_on rt
crate=crates/small
mkdir -p repo/$crate/{src,specs,must-fail,mutants} repo/{docs,scripts,tests} rooms
cp -r "$tests"/../scripts/{gate,mutants.py} repo/scripts
cd repo || exit 2
export TMPDIR=$work/rooms PYTHONDONTWRITEBYTECODE=1
: >docs/minutes.tsv
echo 'small:' >crates.txt
echo 'Handles allowed: none.' >HANDLES

cat >$crate/src/lib.rt <<'RT'
//! Sums of small numbers.
#![tactic(auto)]

mod faults;
mod sums;

pub use faults::{Fault, TooLarge};
pub use sums::{four_times, least, twice};
RT
cat >$crate/src/faults.rt <<'RT'
//! Why there is no sum.
ghost use Rattle.std.specs.Prelude.{◌≡◌};
ghost use Rattle.small.specs.declared.faults.Fault.TheVariants.{Large};

/// A number is too large.
#[derive(Clone, Copy)]
pub struct TooLarge;

/// Why a call returns no sum.
#[derive(Clone, Copy)]
pub enum Fault {
    Large,
    Unknown,
}

impl From<TooLarge> for Fault {
    ghost from_gives = { λ _ fault. fault ≡ Large };

    fn from(_large: TooLarge) -> Fault {
        Fault::Large
    }
}
RT
cat >$crate/src/sums.rt <<'RT'
//! The sums.
ghost use Rattle.std.specs.Prelude.{◌≡◌, ◌≤◌, ◌+◌, IfOk, IfErr, OnErr};
ghost use Rattle.small.specs.Limits.{most};

use crate::faults::{Fault, TooLarge};

/// Twice a number that is small enough. The prover tells of it at the line of its attribute.
#[tactic(auto)]
pub fn twice(x: u32) -> Result<u32, TooLarge>
    ensures twice { IfOk result (λ sum. sum ≡ x + x) }
    ensures large { OnErr result (most ≤ x) }
{
    if x >= 1000 {
        return Err(TooLarge);
    }
    Ok(x + x)
}

/// Four times a number that is small enough.
pub fn four_times(x: u32) -> Result<u32, Fault>
    ensures four { IfOk result (λ sum. sum ≡ x + x + (x + x)) }
    ensures large { IfErr result (λ fault. fault ≡ Fault.Large) }
{
    let half = twice(x)?;
    let whole = twice(half)?;
    Ok(whole)
}

/// The smaller of two numbers.
pub fn least(a: u32, b: u32) -> u32
    ensures first { result ≤ a }
    ensures second { result ≤ b }
{
    if a < b { a } else { b }
}
RT
echo 'pub mod Limits' >$crate/specs/Lib.antt
cat >$crate/specs/Limits.antt <<'ANTT'
-- How large a number may be.
use Rattle.std.specs.Prelude.{ℕ}

-- the first number that is too large
abbrev pub most : ℕ
most = 1000
ANTT

# mutant FOLDER/NAME FILE OLD NEW: makes one
mutant() { printf 'file: %s\nold: %s\nnew: %s\n' "$2" "$3" "$4" >"$crate/$1.edit"; }

# wrong; the last two change one function
mutant must-fail/names_another_fault src/faults.rt 'Fault::Large' 'Fault::Unknown'
mutant must-fail/returns_the_number src/sums.rt 'Ok(x + x)' 'Ok(x)'
mutant mutants/adds_one src/sums.rt 'Ok(x + x)' 'Ok(x + x + 1)'
# the same as before; this function calls the two that are wrong
mutant must-fail/keeps_the_sum_for_a_moment src/sums.rt '    Ok(whole)' '    let sum = whole; Ok(sum)'
# the same as before
mutant mutants/takes_either_of_equals src/sums.rt 'if a < b {' 'if a <= b {'
# wrong, but not in a body
mutant mutants/has_a_greater_limit specs/Limits.antt 'most = 1000' 'most = 1001'
# changes nothing
mutant mutants/names_no_line src/sums.rt 'Ok(x + y)' 'Ok(y)'

# tries STATUS [EDIT ..]: scripts/mutants.py ends so; what it says goes to said and notes
tries() {
  local expected=$1
  shift
  scripts/mutants.py "$@" >"$work/said" 2>"$work/notes"
  same "mutants.py $*: the status" "$expected" $?
}

# files: the sums of all files, and what is left among the temporary ones
files() {
  find . -type f -print0 | LC_ALL=C sort -z | xargs -0 cksum
  ls "$work/rooms"
}

files >"$work/before"
tries 1 small --results "$work/results"
files >"$work/after"
same "the files are as they were" "$(cat "$work/before")" "$(cat "$work/after")"
same "each mutant, and how it was tried" "\
small keeps_the_sum_for_a_moment.edit NOT REFUSED alone
small names_another_fault.edit refused together
small returns_the_number.edit refused together
small adds_one.edit refused together
small has_a_greater_limit.edit refused alone
small names_no_line.edit BAD MUTANT alone
small takes_either_of_equals.edit NOT REFUSED alone" "$(cut -f1-4 "$work/results" | tr '\t' ' ')"
same "the lines" "\
small/keeps_the_sum_for_a_moment.edit: NOT REFUSED
small/names_another_fault.edit: refused
small/returns_the_number.edit: refused
small/adds_one.edit: refused
small/has_a_greater_limit.edit: refused
small/names_no_line.edit: BAD MUTANT
small/takes_either_of_equals.edit: NOT REFUSED
small: 4 refused, 2 not refused, 1 bad mutant, 0 not tried; 2 checks of many, 4 tried alone" \
  "$(sed 's/^mutants: //; s/, [0-9]* s$//; s,^\(small/[^:]*: [^:]*\): .*,\1,' "$work/said")"
# the one that keeps the sum shares its check with both mutants of what its function calls, and is not rejected there
same "the shared checks" "2 of 4, 1 of 1" "$(sed -n 's/.*small: \([0-9]* of [0-9]*\) rejected.*/\1/p' "$work/notes" | paste -sd, | sed 's/,/, /')"
# `twice` stands in the lines 8 to 17
same "the reason" yes "$(grep -qE 'returns_the_number.edit: refused: .*src/sums.rt:([89]|1[0-7]):' "$work/said" && echo yes)"

# one that is ended while a wrong body stands in its room
scripts/mutants.py small returns_the_number.edit >"$work/said" 2>&1 &
run=$!
wrong_body() { grep -qs 'Ok(x)' "$work"/rooms/*/src/sums.rt; }
comes 120 wrong_body || same "the wrong body stands" yes ""
ends_by TERM "$run"
same "a run that is ended: the status" 143 $?
files >"$work/after"
same "a run that is ended: the files are as they were" "$(cat "$work/before")" "$(cat "$work/after")"
# its own processes take a moment to end on a busy machine
is_gone() { ! pgrep -f -- "--crate-name small" >/dev/null; }
comes 30 is_gone || same "a run that is ended: the prover" gone ""

# what cannot be tried
tries 2
tries 2 small --most
tries 2 large
tries 2 small no_such.edit
sed -i 's/if a < b/if a > b/' $crate/src/sums.rt
tries 2 small returns_the_number.edit
same "a crate that is not proved" yes "$(grep -q 'small is not proved as it stands' "$work/notes" && echo yes)"

# the line of an impl names the proof files of its functions, which have lines of their own, and perhaps one of its own
same "what fails by itself" "small::It::go; small::It small::It::go" "$(
  python3 -B - <<'PY'
import sys
sys.path.insert(0, "scripts")
from mutants import failing
why = "not proved; it stands on `Rattle.small.proofs.It.go.Answers.returns`, which antt refuses"
also = why.replace(", which", ", `Rattle.small.proofs.It.TheImpl.Meets.law`, which")
found = [failing(f"impl small::It: {line}\nfn small::It::go: {why}\nfn small::goes: {why}") for line in (why, also)]
print("; ".join(" ".join(it) for it in found))
PY
)"
finish
