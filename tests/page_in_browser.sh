#!/usr/bin/env bash
# The page of `desk serve --page` in headless Chromium: journeys by clicks and by keys, requests whose page is lost, two agents who
# want the last place, foreign pages, the rules by which everybody can use it, and views that hold much. Each of some spoiled pages
# is found by a scene. With words, only those scenes.
. "$(dirname "${BASH_SOURCE[0]}")/helping.bash"

drives_browser
finds_nothing_wrong "$python" "$tests/page_in_browser.py" "$@"
[ -z "$in_part" ] || tail -n 1 err
finish
