#!/usr/bin/env bash
# Real clients against `nbdq serve`, over TCP and over a Unix socket: nbdinfo, nbdcopy, qemu-img, qemu-io, fio, libnbd from
# Python, and as much of nbd-client as needs no kernel (tests/kernel.sh tries the kernel).
#
#   tests/clients.sh [PROGRAM]      PROGRAM is crates/nbdq/out/nbdq where none is named; `rt run` in crates/nbdq makes it
#
# It isn't part of `rt ci`, and installs nothing. On Debian the clients are in libnbd-bin, python3-libnbd, qemu-utils, fio and
# nbd-client. It prints a line for each check; the last counts what passed and failed, and the status is 0 where nothing failed.
# All traffic stays on the loopback address and in a new folder. PORT is the port, at random where it isn't set.
set -u
top=$(cd "$(dirname "$0")/.." && pwd)
program=$(realpath -m "${1:-$top/crates/nbdq/out/nbdq}")
PATH=$PATH:/usr/sbin
for tool in nbdinfo nbdcopy qemu-img qemu-io fio nbd-client; do
  command -v "$tool" >/dev/null || { echo "no $tool: apt-get install libnbd-bin qemu-utils fio nbd-client"; exit 2; }
done
# Debian's module is that of Debian's python3, which need not be the first on the PATH.
python=python3
"$python" -c 'import nbd' 2>/dev/null || python=/usr/bin/python3
"$python" -c 'import nbd' 2>/dev/null || { echo "no module nbd: apt-get install python3-libnbd"; exit 2; }
[ -x "$program" ] || { echo "no program at $program: (cd $top/crates/nbdq && rt run -- talk < stdin)"; exit 2; }

# What fio keeps of a verify, it leaves in the folder that it runs in.
folder=$(mktemp -d)
cd "$folder" || exit 2
port=${PORT:-$((20000 + RANDOM % 20000))}
size=33554432
passed=0
failed=0
cat > "$folder/disks.toml" <<TOML
[[export]]
name = "disk"
description = "what clients write"
size = $size
[[export]]
name = "other"
size = $size
[[export]]
name = "seen"
size = 1048576
read_only = true
[[export]]
name = "large"
size = 1099511627776
TOML
"$program" serve --tcp "127.0.0.1:$port" --unix "$folder/socket" < "$folder/disks.toml" > "$folder/said" &
server=$!
trap 'kill $server 2>/dev/null; rm -rf "$folder"' EXIT
for _ in $(seq 100); do grep -q ready "$folder/said" && break; sleep 0.1; done

# check NAME COMMAND..: whether a command ends well within two minutes. `not` before it wants it to fail.
check() {
  local name=$1 wanted=0 status
  shift
  if [ "$1" = not ]; then
    wanted=1
    shift
  fi
  timeout 120 "$@" > "$folder/out" 2>&1
  status=$?
  [ $status = 0 ] || [ $status = 124 ] || status=1
  if [ $status = $wanted ]; then
    echo "ok      $name"
    passed=$((passed + 1))
  else
    echo "FAILED  $name"
    sed 's/^/        /' "$folder/out" | tail -5 | cut -c1-200
    failed=$((failed + 1))
  fi
}

# "${says[@]}" TEXT COMMAND..: whether a command says a text, however it ends.
# shellcheck disable=SC2016  # the inner shell reads these
says=(bash -c '"${@:2}" 2>&1 | grep -F -- "$1"' says)

nbdinfo --version
qemu-img --version | head -1
fio --version
nbd-client -V
head -c "$size" /dev/urandom > "$folder/sent"
for kind in tcp unix; do
  if [ $kind = tcp ]; then
    uri() { echo "nbd://127.0.0.1:$port/$1"; }
    place=(127.0.0.1 "$port")
  else
    uri() { echo "nbd+unix:///$1?socket=$folder/socket"; }
    place=(-unix "$folder/socket")
  fi
  check "$kind nbdinfo" nbdinfo "$(uri disk)"
  check "$kind nbdinfo of a list" nbdinfo --list "$(uri '')"
  check "$kind nbdinfo finds CACHE" nbdinfo --can cache "$(uri disk)"
  check "$kind nbdinfo finds CACHE on a disk that is read-only" nbdinfo --can cache "$(uri seen)"
  check "$kind nbdinfo of a disk of 1 TiB" test "$(nbdinfo --size "$(uri large)")" = 1099511627776
  check "$kind an unknown export is refused" not nbdinfo "$(uri nothing)"
  for connections in 1 4; do
    check "$kind nbdcopy to the disk, $connections connections" nbdcopy --connections=$connections "$folder/sent" "$(uri disk)"
    check "$kind nbdcopy from the disk, $connections connections" nbdcopy --connections=$connections "$(uri disk)" "$folder/back"
    check "$kind the bytes are the same" cmp "$folder/sent" "$folder/back"
  done
  check "$kind nbdcopy from one export to another" nbdcopy "$(uri disk)" "$(uri other)"
  check "$kind both have the same bytes" qemu-img compare -f raw -F raw "$(uri disk)" "$(uri other)"
  check "$kind qemu-img convert" qemu-img convert -n -f raw -O raw "$folder/sent" "$(uri disk)"
  check "$kind qemu-img compare" qemu-img compare -f raw -F raw "$folder/sent" "$(uri disk)"
  check "$kind qemu-img bench, reads" qemu-img bench -f raw -c 5000 -d 32 -s 4k "$(uri disk)"
  check "$kind qemu-img bench, writes with flushes" qemu-img bench -f raw -w -c 5000 -d 32 -s 4k --flush-interval=100 "$(uri disk)"
  check "$kind qemu-io patterns" qemu-io -f raw \
    -c "write -P 0xaa 0 64k" -c "read -P 0xaa 0 64k" -c "write -z 4k 8k" -c "read -P 0 4k 8k" \
    -c "discard 32k 16k" -c "read -P 0 32k 16k" -c "write -f -P 0x55 1000 100" -c "read -P 0x55 1000 100" -c flush "$(uri disk)"
  check "$kind qemu-io at the end of a disk of 1 TiB" qemu-io -f raw \
    -c "write -P 0x77 1099511624704 3072" -c "discard 1099511627000 100" -c "read -P 0x77 1099511627100 676" -c "read -P 0 1099511620000 4k" "$(uri large)"
  check "$kind a write to a disk that is read-only is refused" not qemu-io -f raw -c "write 0 512" "$(uri seen)"
  check "$kind fio verify, 4 KiB at depth 16" fio --name=verify --ioengine=nbd "--uri=$(uri disk)" --rw=randrw --verify=crc32c \
    --bs=4k --size=32m --io_size=32m --iodepth=16 --output-format=terse
  check "$kind fio verify, 4 jobs, 128 KiB at depth 8" fio --name=verify --ioengine=nbd "--uri=$(uri disk)" --rw=randwrite \
    --verify=crc32c --bs=128k --size=8m --offset_increment=8m --numjobs=4 --iodepth=8 --output-format=terse
  check "$kind fio, as a machine starts" env "URI=$(uri disk)" fio --output-format=terse "$top/tests/boot.fio"
  for test in greeting options bytes_kept many_under_way refusals; do
    check "$kind python3-libnbd, $test" "$python" "$top/tests/libnbd_client.py" "$test" "$(uri disk)" "$(uri seen)"
  done
  check "$kind nbd-client lists the exports" "${says[@]}" other nbd-client -l "${place[@]}"
  check "$kind nbd-client is told the size before it looks for the kernel" "${says[@]}" "size = 32MB" nbd-client -N disk "${place[@]}" /dev/null
  check "$kind a client that is killed costs nobody anything" bash -c "timeout -s KILL 1 fio --name=cut --thread --ioengine=nbd '--uri=$(uri disk)' --rw=randread --bs=128k --size=32m --iodepth=32 --time_based --runtime=30 >/dev/null 2>&1; nbdinfo '$(uri disk)'"
done

# join: one more client that stays. It chooses the disk, reads 4 KiB, and asks for nothing more.
join() {
  local client
  exec {client}<>"/dev/tcp/127.0.0.1/$port" || return 1
  printf '\0\0\0\3IHAVEOPT\0\0\0\1\0\0\0\4disk' >&$client
  printf '\x25\x60\x95\x13\0\0\0\0\0\0\0\0\0\0\0\1\0\0\0\0\0\0\0\0\0\0\x10\0' >&$client
  # the greeting, the answer to EXPORT_NAME, and a reply with its data
  [ "$(timeout 10 head -c 4140 <&$client | wc -c)" = 4140 ]
}
joined=0
for _ in $(seq 64); do join && joined=$((joined + 1)); done
before=$(awk '{print $14 + $15}' "/proc/$server/stat")
sleep 2
after=$(awk '{print $14 + $15}' "/proc/$server/stat")
check "64 clients were answered and stay connected ($joined)" test "$joined" = 64
check "with these, idle, the server uses no processor time ($((after - before)) ticks in 2 s)" test "$before" = "$after"
echo "$passed passed, $failed failed"
[ "$failed" = 0 ]
