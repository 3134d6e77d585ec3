#!/usr/bin/env bash
# Measures a program nbdq beside the peers that are installed, and makes docs/performance.json, the tables of docs/PERFORMANCE.md and
# the pictures of docs/img from it.
#
#   bench/all.sh PROGRAM [WORD..]      the words go to measure.py, as --rounds 3
#
# It wants a machine with nothing else to do, and gcc and python3 (Debian's packages of these names). Reckoned from what
# measure.py does, with two peers and 5 rounds, it takes 22 minutes as it is, 16 with `--seconds 0.3`, and 10 with
# `--seconds 0.3 --transports unix`; for each round less some 4, 3 and 2 minutes less. A busy machine takes longer, and so does one whose host takes its processors away
# (`--patience`).
set -eu
top=$(cd "$(dirname "$0")/.." && pwd)
program=$(realpath "$1")
shift
"$top/bench/measure.py" --json "$top/docs/performance.json" "$@" "nbdq=$program"
"$top/bench/report.py" --into "$top/docs/PERFORMANCE.md" "$top/docs/performance.json"
"$top/bench/pictures.py" "$top/docs/performance.json" "$top/docs/img"
"$top/bench/layers.py" "$top/docs/img"
