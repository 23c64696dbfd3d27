#!/usr/bin/env bash
# Each command in the pages, *.md and docs/*.md, prints what the page prints. docs.py says how blocks of commands are written, and
# which commands are not run here. The README lists each page and each crate.
. "$(dirname "${BASH_SOURCE[0]}")/helping.bash"

stands_on python3 curl
mkdir pages rooms

# refuses_page WHAT WHY TEXT: a page with this text fails, for this reason
refuses_page() {
  printf '%b' "$3" >pages/page.md
  python3 "$tests/docs.py" "$DESK" rooms pages/page.md >out 2>err
  same "$1: the status" 1 $?
  same "$1: the reason" "pages/page.md: $2" "$(head -n 1 err)"
}

# accepts_page WHAT TEXT: a page with this text passes
accepts_page() {
  printf '%b' "$2" >pages/page.md
  same "$1" "1 commands of 1 pages printed what the pages print; 0 were not run, 0 skipped" \
    "$(python3 "$tests/docs.py" "$DESK" rooms pages/page.md 2>&1)"
}

# the script can fail
accepts_page "what is printed" '```console\n$ printf "a\\nb"\na\nb\n```\n'
accepts_page "more lines of a command" '```console\n$ cat <<X\n> a\n> X\na\n```\n'
printf '%b' '```console\n$ echo a >f\n```\n' >pages/one.md
printf '%b' '```console\n$ cat f\na\n$ sudo false\n```\n' >pages/two.md
same "all pages in one folder" "2 commands of 2 pages printed what the pages print; 1 were not run, 0 skipped" \
  "$(python3 "$tests/docs.py" "$DESK" rooms pages/one.md pages/two.md 2>&1)"
printf '%b' '```console no-such-tool\n$ false\n```\n```console printf\n$ echo a\na\n```\n' >pages/page.md
same "a tool that is absent" "1 commands of 1 pages printed what the pages print; 0 were not run, 1 skipped, without no-such-tool" \
  "$(python3 "$tests/docs.py" "$DESK" rooms pages/page.md 2>&1)"
refuses_page "another output" "line 2:" '```console\n$ echo a\nb\n```\n'
refuses_page "no output" "line 2:" '```console\n$ true\nb\n```\n'
refuses_page "more output" "line 2:" '```console\n$ echo a; echo b\na\n```\n'
refuses_page "output on standard error" "line 2:" '```console\n$ echo a >&2\n```\n'
refuses_page "a later output of the background" "line 2:" \
  '```console\n$ (echo a; sleep 0.3; echo b; : >late) &\na\n$ until [ -e late ]; do sleep 0.1; done\n```\n'
refuses_page "a block of no kind" "line 1: a block of no kind that is known: ''" '```\n$ echo a\n```\n'
refuses_page "a block of another kind" "line 1: a block of no kind that is known: 'sh'" '```sh\necho a\n```\n'
refuses_page "two tools" "line 1: a block of no kind that is known: 'console php ruby'" '```console php ruby\n$ true\n```\n'
refuses_page "a command outside" "line 1: a command outside a console block" '```text\n$ echo a\n```\n'
refuses_page "output without a command" "line 2: a console block begins with a command, after '$ '" '```console\na\n```\n'
refuses_page "a block without an end" "line 1: the block has no end" '```console\n$ echo a\na\n'
refuses_page "a file that is named" "line 1: crates/nowhere/src is absent" 'see `crates/nowhere/src`\n'
refuses_page "a link to nowhere" "line 1: a link to nowhere.md, which is absent" 'see [this](nowhere.md)\n'

cd "$top" || exit 2
python3 "$tests/docs.py" "$DESK" "$work/rooms" ./*.md docs/*.md >"$work/out"
same "the pages: the status" 0 $?
sed 's/^/docs.sh: /' "$work/out" >&2
for page in docs/*; do
  same "$page in the list of pages" yes "$(sed -n '/^## Where to go on$/,/^## /p' README.md | grep -qF "]($page)" && echo yes)"
done
while IFS=: read -r crate _; do
  same "$crate in the README" yes "$(grep -qF "\`$crate\`" README.md && echo yes)"
  [[ $crate == *_tests ]] || same "$crate in the map" yes "$(grep -qF "\`$crate\`" docs/ARCHITECTURE.md && echo yes)"
done < <(grep -v '^#' crates.txt)
finish
