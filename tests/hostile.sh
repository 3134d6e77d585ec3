#!/usr/bin/env bash
# Misuses a running server as a client can, and says what its neighbours, its memory and its life came to.
#
#   tests/hostile.sh PROGRAM [--long] [TEST..]     PROGRAM: an optimised nbdq, as `rt run` leaves it; TEST: names in hostile.py
#
# It isn't part of `rt ci`, and installs nothing. It wants Python 3, gcc and ss (Debian: python3 gcc iproute2), 8,192
# descriptors, and a machine with nothing beside it. It takes some four minutes, and one more with --long, which waits for
# the end of a handshake that takes too long. It prints a line for each check; the last counts what passed and failed, and
# the status is 0 where nothing failed.
set -eu
here=$(cd "$(dirname "$0")" && pwd)
[ $# -gt 0 ] || { echo "tests/hostile.sh PROGRAM [--long] [TEST..]"; exit 2; }
program=$(realpath -m "$1")
shift
PATH=$PATH:/usr/sbin
for tool in python3 gcc ss; do
  command -v "$tool" >/dev/null || { echo "no $tool: apt-get install python3 gcc iproute2"; exit 2; }
done
[ -x "$program" ] || { echo "no program at $program: (cd crates/nbdq && rt run -- talk < stdin)"; exit 2; }
[ -w /dev/shm ] || { echo "no /dev/shm to make sockets in"; exit 2; }
limit=$(ulimit -H -n)
[ "$limit" = unlimited ] || [ "$limit" -ge 8192 ] || { echo "$limit descriptors: 8192 are needed (ulimit -H -n)"; exit 2; }
exec python3 "$here/hostile.py" "$program" "$@"
