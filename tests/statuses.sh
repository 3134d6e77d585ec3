#!/usr/bin/env bash
# Runs the program for each exit status, and compares the status, standard output and standard error with what docs/FORMATS.md
# says of them ("Statuses").
#
#   tests/statuses.sh [PROGRAM]      PROGRAM is crates/nbdq/out/nbdq where none is named; `rt run` in crates/nbdq makes it
#
# It isn't part of `rt ci`, which runs the program on one script alone, and needs no tool beside a shell's and no root. It prints
# a line for each case; the last counts what passed and failed, and the status is 0 where nothing failed.
set -u
top=$(cd "$(dirname "$0")/.." && pwd)
program=$(realpath -m "${1:-$top/crates/nbdq/out/nbdq}")
[ -x "$program" ] || { echo "no program at $program: (cd $top/crates/nbdq && rt run -- talk < stdin)"; exit 2; }
folder=$(mktemp -d)
trap 'jobs -p | xargs -r kill 2>/dev/null; rm -rf "$folder"' EXIT
cd "$folder" || exit 2
passed=0
failed=0

# tell NAME FAULT: counts a case, and tells what was wrong where something was.
tell() {
  if [ -z "$2" ]; then
    echo "ok      $1"
    passed=$((passed + 1))
  else
    echo "FAILED  $1: $2"
    failed=$((failed + 1))
  fi
}

# is_text FILE TEXT: whether a file has this text, and a newline where there is some. `..` at its end stands for more of any text.
is_text() {
  case $2 in
    "") [ ! -s "$1" ] ;;
    *..) [ "$(head -c $((${#2} - 2)) "$1")" = "${2%..}" ] ;;
    *) [ "$(cat "$1"; echo .)" = "$2
." ] ;;
  esac
}

# case_of STATUS OUTPUT ERRORS NAME COMMAND..: runs a command, whose standard input is the file `input`.
case_of() {
  local status=$1 output=$2 errors=$3 name=$4 came
  shift 4
  "$@" < input > output 2> errors
  came=$?
  if [ "$came" != "$status" ]; then
    tell "$status  $name" "status $came"
  elif ! is_text output "$output"; then
    tell "$status  $name" "output $(head -c 200 output)"
  elif ! is_text errors "$errors"; then
    tell "$status  $name" "errors $(head -c 200 errors)"
  else
    tell "$status  $name" ""
  fi
}

# Commands with another end of a stream.
to_full() { "$@" > /dev/full; }
errors_to_full() { "$@" 2> /dev/full; }
from_folder() { "$@" < "$folder"; }
with_little_memory() { (ulimit -v 131072; "$@"); }
usage_without_errors() { "$program" fly 2> /dev/full; }

cat > disks.toml <<'TOML'
inflight = 7
[[export]]
name = "disk"
size = 4096
reservation = 2
limit = 30
weight = 5
depth = 6
window = 3
TOML
printf 'export a size=4096\n---\n' > script
greeting='4e42444d4147494349484156454f5054
0003
end over'
configured='inflight 7
0 4096 rw r=2 l=30 w=5 depth=6 window=3 disk'

# ---- 0: done
: > input
case_of 0 'nbdq 0.1.0' '' "the version" "$program" --version
cp disks.toml input
case_of 0 "$configured" '' "check" "$program" check
cp script input
case_of 0 "$greeting" '' "talk" "$program" talk
case_of 0 'steps 0' '' "replay" "$program" replay
case_of 0 'steps 0' '' "a standard error that fails changes nothing" errors_to_full "$program" replay

# ---- 1: refused
: > input
case_of 1 'C3 top' '' "a configuration that is refused" "$program" check
printf 'export a size=4096\nfly\n---\n' > input
case_of 1 'line 2 refused' '' "a line that is refused" "$program" talk
printf 'export a size=0\n---\n' > input
case_of 1 'line 1 C5' '' "a value that is refused" "$program" replay
printf 'export a size=4096\n---\n0g\n' > input
case_of 1 'hex refused' '' "hex that is refused" "$program" talk

# ---- 2: the command line
: > input
case_of 2 '' 'error: ..' "no command" "$program"
case_of 2 '' 'A Network Block Device server..' "help" "$program" --help
case_of 2 '' 'error: ..' "a command that is none" "$program" fly
case_of 2 '' 'error: ..' "a number that is refused" "$program" serve --sessions 0
case_of 2 '' '' "a standard error that fails" usage_without_errors
case_of 2 '' 'serve: no listener' "serve without an address" "$program" serve
case_of 2 '' 'serve: bad address' "serve at a name" "$program" serve --tcp localhost:10809
case_of 2 '' 'control: no socket' "control without a path" "$program" control

# ---- 3: memory
head -c 268435456 /dev/zero > input
for command in check talk replay; do
  case_of 3 '' 'no memory' "$command of more than there is memory for" with_little_memory "$program" $command
done

# ---- 4: streams and sockets
cp script input
for command in check talk replay; do
  case_of 4 '' 'read failed' "$command of an input that fails" from_folder "$program" $command
  case_of 4 '' 'write failed' "$command to an output that fails" to_full "$program" $command
done
case_of 4 '' 'write failed' "the version to an output that fails" to_full "$program" --version
cp disks.toml input
case_of 4 '' 'read failed' "serve by an input that fails" from_folder "$program" serve --unix socket
case_of 4 '' 'write failed' "serve to an output that fails" to_full "$program" serve --unix socket
case_of 4 '' 'cannot listen' "serve in no folder" "$program" serve --unix none/socket
case_of 4 '' 'cannot listen' "serve at an empty path" "$program" serve --unix ''
case_of 4 '' 'cannot listen' "a control socket at an empty path" "$program" serve --unix socket --control ''
case_of 4 '' 'control: socket failed' "control without a server" "$program" control --unix none/socket

# ---- a server that is asked for its end, and those who ask
: > said
"$program" serve --unix socket --control asked < disks.toml > said 2> complained &
server=$!
for _ in $(seq 200); do grep -q ready said && break; sleep 0.05; done
printf 'fly\n' > input
case_of 1 'refused unknown command
' '' "a line of control that is refused" "$program" control --unix asked
case_of 4 '' 'write failed' "control to an output that fails" to_full "$program" control --unix asked
case_of 4 '' 'read failed' "control of an input that fails" from_folder "$program" control --unix asked
printf 'stop\n' > input
case_of 0 'stopping
' '' "a line of control" "$program" control --unix asked
wait "$server"
came=$?
if [ "$came" = 0 ] && is_text said 'ready
steps 0' && is_text complained ''; then
  tell "0  serve until it is asked to stop" ""
else
  tell "0  serve until it is asked to stop" "status $came, output $(cat said), errors $(cat complained)"
fi

echo "$passed passed, $failed failed"
[ "$failed" = 0 ]
