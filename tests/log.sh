#!/usr/bin/env bash
# The log of a desk that serves: logged.py says what is written when.
. "$(dirname "${BASH_SOURCE[0]}")/helping.bash"

comes_to "the log" 0 "" python3 "$tests/logged.py"
same "what went wrong" "" "$(cat printed)"
finish
