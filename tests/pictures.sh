#!/usr/bin/env bash
# The pictures of the pages are those that were drawn from what the pages say now, each of them well-formed, small and whole in
# itself; and a history is drawn as its items say, or refused. Without Graphviz nothing is drawn, and the pictures are looked at.
. "$(dirname "${BASH_SOURCE[0]}")/helping.bash"

stands_on python3

# ends WHAT STATUS ERR WORD ..: the script of the folder copy, called with these words, ends so, with this on standard error
ends() { comes_to "$1" "$2" "$3" python3 copy/scripts/pictures.py "${@:4}"; }

# is_whole FILE: it is well-formed, has a title and a description, needs nothing else, and is below 24 KB
is_whole() {
  same "$1" "svg, 1 title, 1 desc" "$(
    python3 - "$1" 2>&1 <<'END'
import sys
import xml.etree.ElementTree as tree

top = tree.parse(sys.argv[1]).getroot()
space = "{http://www.w3.org/2000/svg}"
count = {name: len([part for part in top.findall(space + name) if part.text]) for name in ("title", "desc")}
print(f"{top.tag.removeprefix(space)}, {count['title']} title, {count['desc']} desc")
END
  )"
  same "$1: what it needs besides" "" "$(grep -oE '<script|<image|href|@import|@font-face|url\(' "$1")"
  same "$1: below 24 KB" yes "$([ "$(wc -c <"$1")" -lt 24000 ] && echo yes)"
}

mkdir copy
cp -r "$top/README.md" "$top/crates.txt" "$top/docs" "$top/scripts" copy

ends "the pictures as they are" 0 "" --check
for picture in copy/docs/pictures/*.svg; do is_whole "$picture"; done

same "the phases are those of the desk" "$(sed -n '/^pub enum Phase/,/^}/s/^    \([A-Z][a-z]*\).*/\1/p' "$top/crates/commands/src/items.rt" | sort)" \
  "$(grep -oE '^"?[A-Z][a-z]+' copy/docs/pictures/phases.dot | tr -d '"' | sort -u)"

# the script can fail
again="scripts/pictures.py draws the pictures anew"
cp copy/crates.txt was.txt
printf 'one_more: desk\n' >>copy/crates.txt
ends "another crate" 1 "docs/pictures/crates.svg is not what is drawn now; $again" --check
cp was.txt copy/crates.txt
sed -i 's/>saga_core</>saga_cores</' copy/docs/pictures/crates.svg
ends "another word in a picture" 1 "docs/pictures/crates.svg is not what is drawn now; $again" --check
cp "$top/docs/pictures/crates.svg" copy/docs/pictures
rm copy/docs/pictures/phases.svg
ends "a picture is absent" 1 "docs/pictures/phases.svg is absent; $again" --check
cp "$top/docs/pictures/phases.svg" copy/docs/pictures
cp copy/docs/pictures/way.svg copy/docs/pictures/other.svg
ends "a picture too many" 1 "docs/pictures/other.svg is not drawn by anything; $again" --check
rm copy/docs/pictures/other.svg
sed -i 's/^1. \*\*Read the line/1. **Read a line/' copy/docs/ARCHITECTURE.md
ends "another item on the page" 1 \
  "pictures.py: way.dot is not docs/ARCHITECTURE.md in 1. Read a line: recovery; 1. Read the line: recovery" --check
cp "$top/docs/ARCHITECTURE.md" copy/docs
sed -i 's/Run -> Ended/Run -> Undone/' copy/docs/pictures/phases.dot
ends "another arrow" 1 "docs/pictures/phases.svg is not what is drawn now; $again" --check
cp "$top/docs/pictures/phases.dot" copy/docs/pictures
ends "wrong words" 2 "usage: scripts/pictures.py [--check | --history ITEMS]" --history

# histories
ends "a word that is no item" 2 "pictures.py: T0.1 is no item" --history "T1.1 T0.1"
same "a word that is no item: the picture" "" "$(cat printed)"
ends "a step that is left out" 2 "pictures.py: T3.1 cannot come where the journey is at 1" --history "T1.1 T3.1"
ends "a step on the way back" 2 "pictures.py: T3.1 cannot come where the journey goes back at 2" --history "T1.1 T2.1 B0a T3.1"

if ! command -v dot >/dev/null 2>&1; then
  echo "pictures.sh: nothing is drawn, there is no Graphviz" >&2
  finish
  exit
fi
printf 'one_more: desk\n' >>copy/crates.txt
ends "drawn anew" 0 ""
same "what was drawn anew" docs/pictures/crates.svg "$(cat printed)"
ends "the pictures, drawn anew" 0 "" --check
is_whole copy/docs/pictures/crates.svg

# draws WHAT ITEMS WORDS: the picture of these items says these words of them
draws() {
  ends "$1" 0 "" --history "$2"
  is_whole printed
  same "$1: in words" "$3" "$(sed -n 's|^<desc[^>]*>\(.*\)</desc>$|\1|p' printed)"
}

draws "down to a save-point and up by another option" "T1.1 T2.1 S2 T3.1 B2r C3.1 T3.2" \
  "T1.1: up to 1; T2.1: up to 2; S2: a save-point at 2; T3.1: up to 3; B2r: at 3, turned back to 2; C3.1: down to 2; T3.2: \
up to 3."
printed='journey 2 agent desk\nplan F/AL/A1/2030-06-01/1/1!0\nitems B0s\nstate undone 0\n'
draws "what desk history prints" "$(printf '%b' "$printed")" \
  "B0s: at 0, turned back to 0. State: undone 0."
finish
