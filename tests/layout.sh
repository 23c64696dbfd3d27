#!/usr/bin/env bash
# The sources of all crates are laid out as `rt fmt` does it. The shell's scripts are laid out as shfmt does it, shellcheck finds nothing
# in them, and pyflakes nothing in those of Python. What is absent of the three is left out. One of more than 200 lines says why. words.py
# counts no more phrases, long sentences and long pages than its limits allow. HEADLINE.md is what headline.py makes of the definitions,
# and the table in docs/TESTING.md of functions without a clause is as scripts/unproved.py counts them.
. "$(dirname "${BASH_SOURCE[0]}")/helping.bash"
cd "$top" || exit 2
mapfile -t shell < <(grep -lE '^#!/usr/bin/env bash' build check desk soak bench .ci/run tools/* tests/*.sh scripts/* 2>/dev/null)
shell+=(scripts/*.bash tests/*.bash tests/clients/*.bash)
python=(scripts/*.py scripts/*/*.py tests/*.py)

# finds_nothing TOOL WORD ..: this tool, with these words, says nothing
finds_nothing() {
  if ! command -v "$1" >/dev/null; then
    echo "layout.sh: left out, there is no $1" >&2
    return
  fi
  same "$1" "" "$("$@" 2>&1 | head -n 40)"
}
said=$(./check --layout 2>&1) || same "./check --layout" "status 0" "status $?: $said"
finds_nothing shfmt -i 2 -ci -l "${shell[@]}"
finds_nothing shellcheck -f gcc "${shell[@]}"
finds_nothing pyflakes3 "${python[@]}"
while read -r file; do
  [ "$(wc -l <"$file")" -le 200 ] || same "$file: why it is so long" yes "$(head -n 40 "$file" | grep -q 'More than 200 lines: ' && echo yes)"
done < <(find check build desk soak bench scripts tests tools -type f ! -name '*.pyc' ! -name rows.txt)

same "HEADLINE.md" "" "$(scripts/headline.py --check 2>&1)"

# words.py finds what it counts
copy=$work/copy
mkdir -p "$copy/docs" "$copy/tests" "$copy/crates/help_texts/src"
cp tests/words.py "$copy/tests"
printf '| %s | %s |\n' one '1, 4' two '4 to 5' >"$copy/docs/DECISIONS.md"
printf '%s. **A title.** %s\n' 1 '*2026-01-01; stands.* A.' 2 'no date' 3 '*2026-01-01; stands.* C.' 4 '*2026-01-01; stands.* D.' >>"$copy/docs/DECISIONS.md"
{
  printf "A wrong body of \`edit\`.\n\n| a | The house's door |\n\n%s.\n" "$(printf 'word %.0s' {1..36})"
  printf '\n%.0s' {1..301}
} >"$copy/docs/PAGE.md"
mkdir -p "$copy/crates/one/src"
printf '/// A seat,\n/// and the wide\n/// way.\nlet seats = "handed out";\n' >"$copy/crates/one/src/lib.rt"
python3 "$copy/tests/words.py" --list >"$work/found"
same "words.py on a comment" "1: 'the wide way'" "$(sed -n 's,^crates/one/src/lib.rt:\(.*\): .*,\1,p' "$work/found")"
same "words.py on two phrases, a sentence and a page" "1: 3: 5: 306 lines" "$(sed -n 's,^docs/PAGE.md:\([0-9 ]*[:a-z]*\).*,\1,p' "$work/found" | xargs)"
same "words.py on decisions" "\
4: not of the form: number, title, date, status
5: under 0 topics
6: under 2 topics
1: a topic names 5, which is no decision" "$(sed -n 's,^docs/DECISIONS.md:,,p' "$work/found")"
same "words.py on the pages" "" "$(python3 tests/words.py >"$work/words" || python3 tests/words.py --list)"
sed 's/^/layout.sh: /' "$work/words" >&2

# unproved counts a function without an `ensures`, and one of a trait apart, and finds a row that says other than that
mkdir -p "$copy/scripts" "$copy/crates/one/src"
cp scripts/weight.py scripts/unproved.py "$copy/scripts"
git init -q "$copy"
echo 'one:' >"$copy/crates.txt"
cat >"$copy/crates/one/src/lib.rt" <<'END'
fn bare(
    it: u8,
) -> u8 {
    it
}

fn proved() -> u8
    ensures { result ≡ 1 }
{
    1
}

impl Drop for One {
    fn drop(self) {
        bare(1);
    }
}
END
printf '| `crates/one/src/lib.rt` | %s | %s |\n' 4 why >"$copy/docs/TESTING.md"
same "unproved on three functions" \
  "5 crates/one/src/lib.rt: bare 5 5 lines of functions without a clause, and 3 of those of traits" \
  "$("$copy/scripts/unproved.py" | xargs)"
same "unproved on a row with another number" "to go: 4 to come: 5" \
  "$("$copy/scripts/unproved.py" --check | sed 's/|.*| \([0-9]\).*/\1/' | xargs)"
printf '| `crates/one/src/lib.rt` | %s | %s |\n' 5 '' >"$copy/docs/TESTING.md"
same "unproved on a row without a reason" "without a reason:" "$("$copy/scripts/unproved.py" --check | sed 's/ |.*//')"
same "unproved on the page" "" "$(scripts/unproved.py --check)"
finish
