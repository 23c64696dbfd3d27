#!/usr/bin/env bash
# An input that cannot be read and an output that cannot be written are told by name; what was done by then stays done.
. "$(dirname "${BASH_SOURCE[0]}")/helping.bash"

line="begin F/AL/A1/2030-06-01/1/1!0"
mkdir folder

from_folder() { "$DESK" run trips.db <folder; }
from_nowhere() { "$DESK" run trips.db <&-; }
to_full() { printf '%s\n%s\n' "$line" "$line" | "$DESK" run trips.db >/dev/full; }
to_nowhere() { printf '%s\n%s\n' "$line" "$line" | "$DESK" run trips.db >&-; }

# the reader goes away after the first answer, and a pipe doesn't hold all that are to come
yes "$line" | head -n 20000 >lines
to_leaver() {
  "$DESK" run trips.db <lines | head -n 1 >first
  return "${PIPESTATUS[0]}"
}

comes_to "a folder as the input" 1 "fault 24 Read" from_folder
comes_to "no input" 1 "fault 24 Read" from_nowhere
same "nothing was begun" "1|2|0|0" "$(rows 'SELECT * FROM meta')"
comes_to "a full output" 1 "fault 25 Write" to_full
answers "the line whose answer was lost is done, and no later one" "$line\n" "journey 2 begun"
comes_to "no output" 1 "fault 25 Write" to_nowhere
answers "the same again" "$line\n" "journey 4 begun"
answers "no line feed at the end" "$line" "journey 5 begun"
comes_to "a reader that goes away" 1 "fault 25 Write" to_leaver
same "a reader that goes away: its answer" "journey 6 begun" "$(cat first)"
same "the file is sound" "ok" "$(rows 'PRAGMA integrity_check')"
finish
