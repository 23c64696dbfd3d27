#!/usr/bin/env bash
# What help prints, and where; each of its examples works as it is printed. The man page and the completions say what help
# says. What is installed is removed whole.
# More than 200 lines: each help, completion and file that is installed is looked at once.
. "$(dirname "${BASH_SOURCE[0]}")/helping.bash"
program=$DESK
say() { printf 'help.sh: %s\n' "$*" >&2; }

# help_of [COMMAND]: the whole help of the program, or of a command
help_of() { "$DESK" "$@" --help 2>&1; }

# listed: each command and what it does, one a line, with a tab between the two
listed() { help_of | sed -n '/^Commands:$/,/^$/s/^  \([a-z]*\)  */\1\t/p' | grep -v '^help'; }

# one_line: standard input as one line, with blanks between
one_line() { paste -sd ' '; }

# manual KIND: what the program's man page or completion is made of
manual() { python3 -B "$top/scripts/manual.py" "$DESK" "$1"; }

commands="run serve recover load stock summary holders unfinished journeys history why migrate index"

# helps WHAT WORDS: the program prints a help on standard error, into the file err, and ends with 2
helps() {
  "$DESK" "${@:2}" </dev/null >out 2>err
  same "$1: the status" 2 $?
  same "$1: standard output" "" "$(cat out)"
}

# has WHAT LINE: the help in the file err has this line
has() { same "$1: $2" 1 "$(grep -cxF -- "$2" err)"; }

mkdir empty && cd empty || exit 2
helps "no word"
same "no word: help in short" "A booking desk for travel agencies" "$(sed -n 1p err)"
for words in --help help; do
  helps "$words" $words
  has "$words" "A booking desk for travel agencies"
  for section in Commands: Options: Faults: "Exit status:" Example:; do has "$words" "$section"; done
  for command in $commands; do same "$words: $command" 1 "$(grep -c "^  $command  " err)"; done
done
same "the commands" "$commands" "$(listed | cut -f1 | one_line)"

for command in $commands; do
  helps "$command --help" "$command" --help
  about=$(sed -n 1p err)
  same "$command: what it does, as in the list" "$about" "$(listed | sed -n "s/^$command\t//p")"
  for section in Arguments: Options: "Exit status:" Example:; do has "$command" "$section"; done
  for status in 0 1 2; do same "$command: status $status" 1 "$(grep -c "^  $status  [A-Z]" err)"; done
  has "$command" "  2  Wrong usage, or help, on standard error"
  same "$command: its usage" 1 "$(grep -c "^Usage: desk $command .*<FILE>" err)"
  same "$command: lines of more than 78 characters" "" "$(grep -E '^.{79}' err)"
  mv err whole
  helps "help $command" help "$command"
  same "help $command" "$(cat whole)" "$(cat err)"
  helps "$command -h" "$command" -h
  same "$command -h: what it does" "$about" "$(sed -n 1p err)"
  same "$command -h is shorter" 1 "$(($(wc -l <err) < $(wc -l <whole)))"
done

# the version, which is that of the newest numbered heading of CHANGES.md
newest=$(sed -n 's/^## \([0-9][0-9]*\.[0-9][0-9]*\.[0-9][0-9]*\).*/\1/p' "$top/CHANGES.md" | sed -n 1p)
for words in --version -V "--version run x.db"; do tells "$words" 0 "desk $newest" "" $words </dev/null; done
"$DESK" --version >/dev/full 2>err
same "a version that cannot be written: the status" 1 $?
same "a version that cannot be written" "fault 25 Write" "$(cat err)"
helps "a word that is not UTF-8" run $'a\xffb'
same "a word that is not UTF-8: what is printed" "error: invalid UTF-8 was detected in one or more arguments

For more information, try '--help'." "$(cat err)"

helps "run --help" run --help
while IFS= read -r line; do same "a line of run: $line" 1 "$(grep -c "^  $line  *[A-Z]" err)"; done <<'LINES'
set NAME CELL PLACES
begin PLAN
step ID
abort ID P
save ID
LINES

# the requests that serve names are the routes of the program, and four that it finds without its router
routes() {
  sed -nE '/^static LINES/,/^\];/s/^ *\("(.*)", Verb::([A-Z][a-z]*), .*/\U\2\E \1/p' "$top/crates/http_pages/src/routes.rt" |
    sed -E 's/\{([a-z]*)\}/\U\1/g'
  printf '%s\n' 'GET /' 'GET /reports/COMMAND' 'GET /metrics' 'POST /stop'
}
helps "serve --help" serve --help
same "serve: its requests" "$(routes | LC_ALL=C sort)" \
  "$(sed -n '/^Requests:$/,/^$/s/^  \([A-Z][A-Z]* [^ ]*\) .*/\1/p' err | LC_ALL=C sort)"
same "files that help has made" "err out whole" "$(ls | tr '\n' ' ' | sed 's/ $//')"
cd ..

# each example prints what the help prints below it; those of migrate and index begin with a file of schema 1, which has 7 events: a
# batch, and three journeys of one step
printf '%b' 'set june F/AL/A1/2030-06-01 9\n' 'begin F/AL/A1/2030-06-01/1/1!0\nstep '{1..3}'\n' | "$DESK" run old.db >/dev/null
sqlite3 old.db "INSERT INTO entry SELECT * FROM entry2; DROP TABLE entry2; DROP TABLE mark; DROP INDEX journey_agent; UPDATE meta SET version = 1"
mkdir path rooms && ln -s "$DESK" path/desk
for command in "" $commands; do
  {
    echo '```console'
    case $command in migrate | index) echo '$ cp ../../old.db .' ;; esac
    help_of $command | sed '1,/^Example:$/d; s/^  //'
    echo '```'
  } >page.md
  PATH=$work/path:$PATH python3 "$tests/docs.py" "$DESK" rooms page.md >out 2>&1
  same "the example of ${command:-desk}" "commands of 1 pages printed what the pages print; 0 were not run, 0 skipped" \
    "$(sed 's/^[1-9][0-9]* //' out)"
done

# words_of FILE: its words, with one blank between two
words_of() { tr -s ' \n' '  ' <"$1"; }

manual man >desk.1
if command -v man >/dev/null; then
  LC_ALL=C.UTF-8 MANWIDTH=100 man --warnings --nh --nj -l desk.1 >page 2>said
elif command -v groff >/dev/null; then
  groff -ww -man -Tutf8 -P-cbou -dHY=0 desk.1 >page 2>said
else
  say "neither man nor groff is here: the man page is not rendered"
  : >said
  : >page
fi
same "warnings of the man page" "" "$(cat said)"
if [ -s page ]; then
  same "the title" 1 "$(grep -c '^DESK(1) .*DESK(1)$' page)"
  same "the version in the foot" 1 "$(grep -c "^desk $newest .*DESK(1)$" page)"
  found=$(words_of page)
  for command in "" $commands; do
    while IFS= read -r line; do
      case $line in '' | Usage:* | *:) continue ;; esac
      line=$(tr -s ' ' <<<"$line" | sed 's/^ //')
      case $found in *"$line"*) ;; *) same "the man page on ${command:-desk}" "$line" "absent" ;; esac
    done < <(help_of $command | sed '/^Commands:$/,/^$/d')
  done
fi

# completes WHAT EXPECTED WORD ..: bash completes the last word to these
completes() {
  local what=$1 expected=$2
  shift 2
  same "$what" "$expected" "$(bash --norc -c '. ../desk.bash; COMP_WORDS=("$@"); COMP_CWORD=$(($# - 1)); _desk; echo "${COMPREPLY[*]}"' - "$@" 2>&1)"
}

manual bash >desk.bash
mkdir files && cd files && touch trips.db june.csv || exit 2
same "complete -p desk" "complete -F _desk desk" "$(bash --norc -c '. ../desk.bash; complete -p desk')"
completes "desk s" "serve stock summary" desk s
completes "desk u" "unfinished" desk u
completes "desk h" "holders history help" desk h
completes "desk w" "why" desk w
completes "desk --h" "--help" desk --h
completes "desk --v" "--version" desk --v
completes "desk help r" "run recover" desk help r
completes "desk serve --" "--port --connections --house --page --log --wide --help" desk serve --
completes "desk load --b" "--batch" desk load --b
completes "desk stock --p" "--product" desk stock --p
completes "desk stock --c" "--calendar" desk stock --c
completes "desk stock --x" "" desk stock --x
completes "desk stock --f" "--from --format" desk stock --f
completes "desk why --a" "--at" desk why --a
completes "a kind" "flight room transfer cover" desk stock --kind ""
completes "a state of an unfinished journey" "run back" desk unfinished trips.db --state ""
completes "a state that begins so" "undone" desk journeys trips.db --state u
completes "a supplier" "" desk stock --supplier ""
completes "a format" "text json csv" desk history trips.db 1 --format ""
completes "a format of why" "text json csv" desk why trips.db 1 --format ""
completes "a format that begins so" "json" desk unfinished trips.db --format j
completes "desk run t" "trips.db" desk run t
completes "desk load trips.db j" "june.csv" desk load trips.db j
completes "a port" "" desk serve trips.db --port ""
completes "a socket" "trips.db" desk stock --at t
completes "the socket of a desk that serves" "trips.db" desk serve trips.db --house t
cd ..

manual zsh >_desk
if command -v zsh >/dev/null; then
  # the tables that the completion offers, in place of a menu
  offers='compdef() { :; }; _describe() { print -rl -- ${(P)4}; }; _arguments() { print -rl -- "$@"; }; source ./_desk'
  same "zsh: the commands" "$(listed | sed 's/\t/:/')" "$(zsh -f -c "$offers; words=(desk ''); CURRENT=2; _desk")"
  same "zsh: a port" 1 "$(zsh -f -c "$offers; words=(desk serve ''); CURRENT=3; _desk" | grep -c '^--port\[The port to listen on')"
  same "zsh: a format" 1 "$(zsh -f -c "$offers; words=(desk stock ''); CURRENT=3; _desk" | grep -c '^--format\[.*\]:FORMAT:(text json csv)$')"
  same "zsh: a file" 1 "$(zsh -f -c "$offers; words=(desk run ''); CURRENT=3; _desk" | grep -c '^:FILE .*:_files$')"
else
  say "no zsh is here: its completion is not tried"
fi

manual fish >desk.fish
if command -v fish >/dev/null; then
  same "fish: desk s" "serve stock summary" "$(HOME=$work fish -c 'source desk.fish; complete -C "desk s"' | cut -f1 | sort | one_line)"
  same "fish: desk serve --p" "--page --port" "$(HOME=$work fish -c 'source desk.fish; complete -C "desk serve --p"' | cut -f1 | one_line)"
  same "fish: a format" "csv json text" "$(HOME=$work fish -c 'source desk.fish; complete -C "desk stock --format "' | cut -f1 | sort | one_line)"
else
  say "no fish is here: its completion is not tried"
fi

. "$top/scripts/program.bash"
if [ "$(readlink -f "$DESK")" = "$(readlink -f "$program")" ] && program_is_current; then
  "$top/desk" install below >out 2>err
  same "install: the status" 0 "$?"
  same "what is installed" "bin/desk
bin/desk-backup
lib/systemd/system/desk.service
share/bash-completion/completions/desk
share/desk/folders
share/fish/vendor_completions.d/desk.fish
share/man/man1/desk.1
share/zsh/site-functions/_desk" "$(cd below && find . -type f | sed 's,^\./,,' | LC_ALL=C sort)"
  same "how to remove it" "desk: remove them with: ./desk uninstall $work/below" "$(cat err)"
  same "the program there" "$(sum "$DESK")" "$(sum below/bin/desk)"
  same "the script for backups there" "saved $work/kept.db" \
    "$("$DESK" recover kept >/dev/null && env -u DESK below/bin/desk-backup kept "$work/kept.db" 2>&1)"
  same "the man page there" "$(cat desk.1)" "$(cat below/share/man/man1/desk.1)"
  for line in NoNewPrivileges=yes ProtectSystem=strict StateDirectory=desk; do
    same "the unit: $line" 1 "$(grep -cx "$line" below/lib/systemd/system/desk.service)"
  done
  same "the unit: what it starts" "ExecStart=\"$work/below/bin/desk\" serve %S/desk/trips.db --port 8080 --house %t/desk/house.sock" \
    "$(grep '^ExecStart=' below/lib/systemd/system/desk.service)"
  if command -v systemd-analyze >/dev/null; then
    same "the unit is sound" "" "$(systemd-analyze verify --man=no "$work/below/lib/systemd/system/desk.service" 2>&1 | grep desk.service)"
  fi
  "$top/desk" uninstall below 2>err
  same "uninstall: the status" 0 "$?"
  same "what is left" "" "$(ls -d below 2>/dev/null)"
  mkdir -p below/bin below/share/man && touch below/bin/other
  "$top/desk" install below >/dev/null 2>&1 && "$top/desk" uninstall below
  same "what was there before" "below below/bin below/bin/other below/share below/share/man" "$(find below | LC_ALL=C sort | one_line)"
  "$top/desk" uninstall below 2>/dev/null
  same "nothing is installed" 1 "$?"
else
  say "this is not the program that ./build makes of these sources: nothing is installed"
fi
"$top/desk" install 2>/dev/null
same "no folder to install to" 2 "$?"
finish
