#!/usr/bin/env bash
# Installs nbdq into a folder by packaging/install.sh, and tries what lies there: the program, the page of the manual, the
# examples, the completion, and the service as far as systemd judges it without running it.
#
#   tests/packaging.sh [PROGRAM]      PROGRAM is crates/nbdq/out/nbdq where none is named; `rt run` in crates/nbdq makes it
#
# It isn't part of `rt ci`, and needs no root. On Debian its tools are in man-db, systemd, libnbd-bin, strace, util-linux and shellcheck.
# It prints a line for each check; the last counts what passed and failed, and the status is 0 where nothing failed.
set -u
top=$(cd "$(dirname "$0")/.." && pwd)
program=$(realpath -m "${1:-$top/crates/nbdq/out/nbdq}")
for tool in man systemd-analyze nbdcopy nbdinfo strace prlimit shellcheck; do
  command -v "$tool" >/dev/null || { echo "no $tool: apt-get install man-db systemd libnbd-bin strace util-linux shellcheck"; exit 2; }
done
[ -x "$program" ] || { echo "no program at $program: (cd $top/crates/nbdq && rt run -- talk < stdin)"; exit 2; }
folder=$(mktemp -d)
trap 'jobs -p | xargs -r kill 2>/dev/null; rm -rf "$folder"' EXIT
passed=0
failed=0

# check NAME COMMAND..: whether a command ends well, which may be a function of this file.
check() {
  local name=$1
  shift
  if "$@" > "$folder/out" 2>&1; then
    echo "ok      $name"
    passed=$((passed + 1))
  else
    echo "FAILED  $name"
    sed 's/^/        /' "$folder/out" | tail -5 | cut -c1-200
    failed=$((failed + 1))
  fi
}

# quiet COMMAND..: whether a command ends well and prints nothing on standard error.
quiet() {
  "$@" 2>&1 > /dev/null | tee "$folder/quiet" && [ ! -s "$folder/quiet" ] && "$@" > /dev/null 2>&1
}

# wait_for_ready: until the server whose standard output is the file `said` can be reached.
wait_for_ready() {
  local _
  for _ in $(seq 200); do grep -q ready "$folder/said" && break; sleep 0.05; done
}

# ---- what is installed
root=$folder/root
check "it installs" env "DESTDIR=$root" PREFIX=/usr "$top/packaging/install.sh" "$program"
nbdq=$root/usr/bin/nbdq
unit=$root/usr/lib/systemd/system/nbdq.service
page=$root/usr/share/man/man1/nbdq.1
version() { [ "$("$nbdq" --version)" = "$(sed -n 's/^\.TH .*"\(nbdq [0-9.]*\)".*/\1/p' "$page")" ]; }
check "the program says the version that its page has" version
check "the service and the page name the program's place" grep -q /usr/bin/nbdq "$unit"
no_other_place() { ! grep -r /usr/local "$root"; }
check "nothing names /usr/local" no_other_place
check "the page renders without a warning" quiet env LC_ALL=C.UTF-8 man --warnings -l "$page"
options() {
  local option
  for option in $("$nbdq" serve --help 2>&1 | grep -o -- '--[a-z]*'); do
    grep -q -- "${option/--/\\\\-\\\\-}" "$page" || { echo "the page lacks $option"; return 1; }
  done
}
check "the page has each option of serve" options

# ---- the examples
for example in "$root"/usr/share/doc/nbdq/examples/*.toml; do
  name=$(basename "$example")
  check "$name: check accepts it" "$nbdq" check < "$example"
  serves() {
    "$nbdq" serve --unix "$folder/s" < "$example" > "$folder/said" 2> "$folder/errors" &
    local server=$!
    wait_for_ready
    nbdinfo --list "nbd+unix:///?socket=$folder/s"
    local status=$?
    kill $server
    wait $server 2>/dev/null
    rm -f "$folder/s"
    cat "$folder/errors"
    [ $status = 0 ] && [ ! -s "$folder/errors" ]
  }
  check "$name: serve is ready, and finds nothing odd" serves
done

# ---- completion
# completes WORDS..: what the last of these words may become.
completes() {
  bash -c 'source "$1"; shift; COMP_WORDS=("$@"); COMP_CWORD=$(($# - 1)); _nbdq 2>/dev/null; echo "${COMPREPLY[*]}"' \
    bash "$root/usr/share/bash-completion/completions/nbdq" "$@"
}
commands() {
  [ "$(completes nbdq s)" = serve ] && [ "$(completes nbdq '')" = "serve check talk replay control help --help --version" ]
}
check "the completion offers the commands" commands
offered() {
  local option
  for option in $("$nbdq" serve --help 2>&1 | grep -o -- '--[a-z]*'); do
    completes nbdq serve -- | tr ' ' '\n' | grep -qxe "$option" || { echo "it lacks $option"; return 1; }
  done
  [ "$(completes nbdq serve --sessions f)" = forever ] && [ "$(completes nbdq check --)" = --help ]
}
check "the completion offers each option of serve" offered

# ---- the service
# systemd looks for the program where the service names it.
mkdir "$folder/here"
sed "s|=/usr/bin/nbdq|=$nbdq|" "$unit" > "$folder/here/nbdq.service"
check "systemd finds nothing wrong with the service" quiet systemd-analyze verify --man=no "$folder/here/nbdq.service"
check "its exposure is at most 2.0" systemd-analyze security --offline=true --threshold=20 "$unit"
sed -n 's/.*Overall exposure level for /        /p' "$folder/out"

# allowed: the system calls that the service may make, by what systemd says of its sets. A line that begins with ~ takes away.
allowed() {
  { systemd-analyze syscall-filter; sed -n 's/^SystemCallFilter=/FILTER /p' "$unit"; } | awk '
    function mark(word, value,   i) {
      if (word !~ /^@/) may[word] = value
      else for (i = 1; i <= count[word]; i++) mark(member[word, i], value)
    }
    /^@/ { set = $1; next }
    $1 == "FILTER" { value = sub("~", "") ? 0 : 1; for (i = 2; i <= NF; i++) mark($i, value); next }
    NF == 1 { member[set, ++count[set]] = $1 }
    END { mark("@default", 1); for (call in may) if (may[call]) print call }' | sort
}
calls() {
  local server
  strace -f -qq -o "$folder/calls" "$nbdq" serve --tcp 127.0.0.1:0 --unix "$folder/s" < "$top/packaging/examples/test-bed.toml" > "$folder/said" &
  server=$!
  wait_for_ready
  nbdcopy "$nbdq" "nbd+unix:///test1?socket=$folder/s"
  nbdinfo "nbd+unix:///test1?socket=$folder/s"
  kill "$(pgrep -P $server)"
  wait $server 2>/dev/null
  rm -f "$folder/s"
  sed -n 's/^[0-9]* *\([a-z_0-9]*\)(.*/\1/p' "$folder/calls" | sort -u > "$folder/made"
  grep -q recvfrom "$folder/made" && allowed > "$folder/allowed" && comm -23 "$folder/made" "$folder/allowed" > "$folder/more" && cat "$folder/more" && [ ! -s "$folder/more" ]
}
check "it makes no system call that the service may not" calls

# ---- short of memory, as LimitDATA has it
# With 220 MiB a disk of 256 MiB can't be filled, and the client is dropped. Once there may be more, the bytes are there.
short_of_memory() {
  local server status disk="nbd+unix:///d?socket=$folder/s"
  printf '[[export]]\nname = "d"\nsize = 268435456\n' > "$folder/d.toml"
  prlimit --data=230686720: "$nbdq" serve --unix "$folder/s" < "$folder/d.toml" > "$folder/said" &
  server=$!
  wait_for_ready
  head -c 268435456 /dev/urandom > "$folder/sent"
  nbdcopy --connections=1 --requests=1 "$folder/sent" "$disk" && { echo "the disk was filled"; return 1; }
  head -c 67108864 "$folder/sent" > "$folder/first"
  prlimit --pid $server --data=1073741824:
  nbdcopy --connections=1 --requests=1 "$disk" "$folder/back" && cmp -n 67108864 "$folder/back" "$folder/first"
  status=$?
  kill $server
  wait $server 2>/dev/null
  rm -f "$folder/s"
  return $status
}
check "short of memory it goes on, and serves its bytes once it may have more" short_of_memory

# ---- and away again
check "it removes what it installed" env "DESTDIR=$root" PREFIX=/usr "$top/packaging/install.sh" --remove
gone() { [ -z "$(find "$root" -type f)" ]; }
check "nothing is left of it" gone
check "the scripts are clean by shellcheck" shellcheck "$top"/packaging/*.sh "$top"/tests/*.sh -s bash "$top/packaging/nbdq.bash"
echo "$passed passed, $failed failed"
[ "$failed" = 0 ]
