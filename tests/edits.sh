#!/usr/bin/env bash
# The must-fail edits that the gate doesn't try: those of tests/edits/NAME, those of different functions together.
#
#   tests/edits.sh [NAME..]     the crates to try them in; all that have some where none is named
#
# tests/edits_together.py says how. Its status is 0 where the prover refuses all.
exec "$(dirname "$0")/edits_together.py" --beside "$@"
