#!/usr/bin/env bash
# Backups, by tools/backup: of a desk at work, at random moments; where the copy fails, takes too long or is ended by a signal;
# of a file that no desk holds; and each thing that is refused. The desk goes on after each, and nothing half made is left. The files
# are of the kinds of shown.py: the two of a desk at work by the seed, that of another user as a new desk makes it.
# More than 200 lines: most lines are a call and what it says.
#
# BACKUPS=200 DESK=.. tests/backup.sh    makes so many backups of a desk at work; SEED=N: at other moments
. "$(dirname "${BASH_SOURCE[0]}")/helping.bash"
. "$tests/hostile.bash"
stands_on perl flock timeout
trap 'umount "$work/full" 2>/dev/null; rm -rf "$work"' EXIT
export DESK
tool=$(dirname "$tests")/tools/backup

# left: the folders that backups have left
left() { find . -name '.desk-backup.*'; }

# backs_up WHAT STATUS SAID WORDS ..: the tool ends with this status, and says so; SAID is a pattern, and standard output
# comes first
backs_up() {
  local what=$1 expected=$2 said=$3 status
  shift 3
  "$tool" "$@" >out 2>err </dev/null
  status=$?
  has_said "$what" "$expected" "$said" "$status"
}

# has_said WHAT STATUS SAID FOUND: a call ended so, with the output in out and err
has_said() {
  local found
  found=$(cat out err)
  same "$1: the status" "$2" "$4"
  # shellcheck disable=SC2053
  [[ $found == $3 ]] || same "$1: what it says" "$3" "$found"
  same "$1: what is left" "" "$(left)"
}

# begins WORDS ..: a call begins, as process $backup, and waits in its copy until goes_on
begins() {
  rm -f copying
  touch hold
  PATH=$work/slow:$PATH env --default-signal=HUP,INT,QUIT "$tool" "$@" >out 2>err </dev/null &
  backup=$!
  comes 10 test -e copying || same "a copy that is slow" begun "$(cat out err)"
}

# ends WHAT STATUS SAID: that call ends so
ends() {
  local status
  rm -f hold
  wait "$backup" 2>/dev/null
  status=$?
  has_said "$1" "$2" "$3" "$status"
}

# is_stopped: the open desk is
is_stopped() { grep -q '^State:.T' "/proc/$desk/status"; }

# makes_file FILE NUMBER: a new file, of the kind of this number
makes_file() {
  tells "a new file" 0 "" "" run "$1" </dev/null
  PYTHONPATH=$tests python3 -c 'import sys, shown; shown.change_indexes(sys.argv[1], shown.kind_of(int(sys.argv[2])))' "$@" ||
    same "the kind of $1" "that of $2" "another"
}

seed=${SEED:-1987}
mkdir slow "a folder"
cat >slow/cp <<END
#!/bin/sh
touch "$work/copying"
tries=0
while [ -e "$work/hold" ] && [ \$tries -lt 600 ]; do
  sleep 0.05
  tries=\$((tries + 1))
done
$(command -v cp) "\$@"
status=\$?
touch "$work/copied"
exit \$status
END
chmod +x slow/cp

# words
for words in "" one "one two three" "--other one two" "--seconds 0 one two" "--seconds 3601 one two" --seconds --help "-one two"; do
  # shellcheck disable=SC2086
  backs_up "the words '$words'" 2 "usage: backup \[--replace\] \[--seconds N\] \[--verbose\] \[--\] FILE TO*" $words
done
backs_up "an empty name" 2 "usage: *" "" b.db

# what is refused
flight=F/AL/A1/2030-06-01
makes_file trips.db "$seed"
answers "a journey" "set s $flight 9\nbegin $flight/1/1;$flight/1/1!0\nstep 1\n" "loaded s 1
journey 1 begun
journey 1 T1.1 run 1"
before=$(sum trips.db)
ln -s trips.db link.db
ln -s nowhere dangling
mkfifo pipe
echo "no database" >text.db
touch old.db new.db-wal
there="is there. Choose another name, or say --replace"
backs_up "no file" 1 "backup: there is no file absent.db" absent.db b.db
backs_up "a folder for a file" 1 "backup: a folder is no regular file" "a folder" b.db
backs_up "no folder" 1 "backup: there is no folder for absent/b.db" trips.db absent/b.db
backs_up "a file for a folder" 1 "backup: there is no folder for text.db/b.db" trips.db text.db/b.db
backs_up "an older backup" 1 "backup: old.db $there" trips.db old.db
backs_up "a link to nowhere" 1 "backup: dangling $there" trips.db dangling
backs_up "another log" 1 "backup: new.db-wal $there" trips.db new.db
backs_up "a pipe" 1 "backup: pipe is no regular file" --replace trips.db pipe
for name in trips.db link.db ./trips.db-wal trips.db-journal trips.db-shm; do
  backs_up "the file itself: $name" 1 "backup: $name is a file of the database itself" --replace trips.db "$name"
done
backs_up "a line feed" 1 "backup: a name may have no line feed" trips.db $'a\nb'
backs_up "a folder that nothing can be made in" 1 "backup: nothing can be made in the folder of /proc/b.db" trips.db /proc/b.db
backs_up "a file that is no database" 1 "backup: the copy cannot be opened by the desk: fault 21 Store" text.db b.db
echo x >trips.db-journal
backs_up "a rollback journal" 1 "backup: the copy cannot be opened by the desk: fault 21 Store" trips.db b.db
rm trips.db-journal
mkdir few alone
cp "$tool" alone
for command in bash basename chmod cmp cp date dirname env find flock grep mkdir mktemp mv realpath rm sleep stat sync tail timeout; do
  ln -s "$(command -v "$command")" few
done
PATH=$work/few env -u DESK alone/backup trips.db b.db >out 2>err
has_said "no program" 127 "backup: the program desk is absent: set DESK to it" $?
PATH=$work/few alone/backup trips.db b.db >out 2>err
has_said "no perl" 127 "backup: no desk holds the file, and without the command perl it cannot be locked against one" $?
same "files that were made" "" "$(ls -d b.db* 2>/dev/null)"

# a file that no desk holds
report=$("$DESK" unfinished trips.db)
same "the journey is unfinished" "           1 desk             run 1
unfinished 1" "$report"
backs_up "a backup" 0 "saved b1.db" trips.db b1.db
same "its mode" 600 "$(stat -c %a b1.db)"
same "the file is as it was" "$before" "$(sum trips.db)"
cp b1.db copy.db
same "what it shows" "$report" "$("$DESK" unfinished copy.db)"
same "what its recovery does" "recovered 2" "$("$DESK" recover copy.db)"
backs_up "a link" 0 "saved a folder/b 2.db" link.db "a folder/b 2.db"
backs_up "a folder" 0 "saved a folder/trips-20[0-9][0-9]-[0-9][0-9]-[0-9][0-9]T[0-9][0-9]-[0-9][0-9]-[0-9][0-9]Z.db" trips.db "a folder/"
cp -- trips.db "-odd name.db"
backs_up "blanks and a dash" 0 "saved -to here.db" -- "-odd name.db" "-to here.db"
same "what it shows" "$report" "$("$DESK" unfinished "./-to here.db")"
cp trips.db b1.db-wal
backs_up "an older backup is replaced" 0 "saved b1.db" --replace trips.db b1.db
same "what stood for its log is gone" "b1.db" "$(ls -d b1.db*)"
backs_up "a link is replaced" 0 "saved dangling" --replace trips.db dangling
same "it is a file now" "regular file" "$(stat -c %F dangling)"
begins trips.db b3.db
same "a desk that comes meanwhile" "fault 21 Store" "$("$DESK" recover trips.db 2>&1)"
ends "a locked file" 0 "saved b3.db"
same "what it shows" "$report" "$("$DESK" unfinished trips.db)"
if command -v sqlite3 >/dev/null; then
  mkfifo ask said
  sqlite3 trips.db <ask >said &
  exec 5>ask 6<said
  echo "BEGIN; SELECT count(*) FROM journey;" >&5
  read -r found <&6
  backs_up "sqlite3 holds the file" 1 "backup: the file is in use by a process that cannot be seen here, or by one that is no desk: *" trips.db b.db
  exec 5>&- 6<&-
  wait $!
fi

# a desk at work
opens_desk
asks "a desk" "begin $flight/1/1;$flight/1/1!0" "journey 2 begun"
backs_up "a desk at work" 0 "saved b4.db"$'\n'"backup: process $desk was stopped for [0-9]*.[0-9][0-9][0-9] seconds" --verbose trips.db b4.db
asks "after it" "step 2" "journey 2 T1.1 run 1"
same "what it shows" "           2 desk             run 0
unfinished 1" "$("$DESK" unfinished b4.db)"
for signal in INT QUIT TERM HUP; do
  begins trips.db b.db
  same "the desk is stopped" yes "$(is_stopped && echo yes)"
  ends_by "$signal" "$backup"
  ended=$?
  has_said "$signal amid the copy" $((128 + $(kill -l "$signal"))) "" "$ended"
  asks "after $signal" "step 0" "refused 4 BadBody"
done
begins trips.db b.db
ends_by KILL "$backup"
asks "after a kill" "step 0" "refused 4 BadBody"
rm -f hold copied
comes 30 test -e copied
rm -rf .desk-backup.*
begins --seconds 4 trips.db b.db
asks "while a copy takes too long" "step 0" "refused 4 BadBody"
wait "$backup"
has_said "a copy that takes too long" 1 "backup: the copy takes more than 4 seconds, and the desk goes on: see --seconds" $?
begins trips.db b.db
kill -CONT "$desk"
ends "a desk that another one continues" 1 "backup: the process that held the file was continued or has ended while it was copied; *"
(
  trap '' XFSZ
  ulimit -f 16
  exec "$tool" trips.db "a folder/b.db" >out 2>err
)
has_said "a file that may not grow" 1 "cp: *: File too large*backup: the copy failed" $?
asks "after a copy that failed" "step 0" "refused 4 BadBody"
mkdir full
if mount -t tmpfs -o size=64k tmpfs full 2>/dev/null; then
  backs_up "a full disk" 1 "cp: *: No space left on device*backup: the copy failed" trips.db full/b.db
  same "what is on it" "" "$(ls -A full)"
  asks "after a full disk" "step 0" "refused 4 BadBody"
  umount full
fi
kill -STOP "$desk"
comes 10 is_stopped
backs_up "a desk that was stopped before" 0 "saved b5.db"$'\n'"backup: process $desk was stopped before; it is continued after this" trips.db b5.db
asks "it is continued" "step 0" "refused 4 BadBody"
backs_up "a backup in use" 1 "backup: trips.db is in use, by process $desk" --replace b5.db trips.db
begins trips.db b.db
ends_by KILL "$desk"
ends "a desk that is killed" 1 "backup: the process that held the file was continued or has ended while it was copied; *"
closes_desk
same "files that were made" "" "$(ls -d b.db* 2>/dev/null)"

# a desk of another user
if [ "$(id -u)" -eq 0 ] && command -v setpriv >/dev/null; then
  other=(setpriv --reuid=65534 --regid=65534 --clear-groups)
  cp "$DESK" "$work/desk"
  mkdir "$work/theirs"
  chmod 711 "$work"
  chmod 777 theirs
  mkfifo -m 666 their_lines
  "${other[@]}" "$work/desk" run theirs/trips.db <their_lines >told 2>&1 &
  desk=$!
  exec 5>their_lines
  echo "begin $flight/1/1!0" >&5
  comes 10 test -s told
  backs_up "another user's desk" 0 "saved b6.db" theirs/trips.db b6.db
  exec 5>&-
  wait "$desk"
  cp "$tool" "$work/backup"
  cp b6.db theirs/mine.db
  chmod 644 theirs/mine.db
  if "${other[@]}" sh -c ': >/dev/null' 2>/dev/null; then
    DESK=$work/desk "${other[@]}" "$work/backup" theirs/mine.db theirs/b.db >out 2>err
    has_said "another user's file" 1 "backup: the file cannot be locked: Permission denied. Run this as root or as its user" $?
  else
    echo "backup.sh: another user cannot write to /dev/null here ($(stat -c %A /dev/null)): another user's file is not tried"
  fi
fi

mkdir work
cd work || exit 2
makes_file trips.db $((seed + 1))
python3 "$tests/backups.py" "$tool" "${BACKUPS:-20}" "$seed" || wrong=1
finish
