#!/usr/bin/env bash
# What kernel.sh does in its machine, as root: kernel_guest.sh PROGRAM. Not to be run elsewhere.
set -u
here=$(cd "$(dirname "$0")" && pwd)
program=$1
export PATH=/usr/sbin:/usr/bin:/sbin:/bin
[ -e /dev/nbd0 ] || { echo "this isn't the machine of kernel.sh"; exit 2; }
cd /tmp || exit 2

# check NAME COMMAND..: whether a command ends well, which may be a function of this file.
check() {
  local name=$1
  shift
  if "$@" > out 2>&1; then
    echo "ok      $name"
  else
    echo "FAILED  $name"
    sed 's/^/        /' out | tail -6 | cut -c1-200
  fi
}
# is TEXT COMMAND..: whether a command's output is this text.
is() {
  local wanted=$1 got
  shift
  got=$("$@" 2>&1)
  [ "$got" = "$wanted" ] || { echo "it is '$got', not '$wanted'"; return 1; }
}
# does SCRIPT: whether a script of the shell ends well within two minutes.
does() { timeout 120 bash -c "$1"; }

# ---- the service
PREFIX=/usr "$here/../packaging/install.sh" "$program" > out 2>&1 || { echo "FAILED  install.sh"; cat out; }
systemd-sysusers /usr/lib/sysusers.d/nbdq.conf
mkdir -p /etc/nbdq
cat > /etc/nbdq/disks.toml <<'TOML'
[[export]]
name = "disk"
size = 134217728
[[export]]
name = "other"
size = 67108864
[[export]]
name = "seen"
size = 1048576
read_only = true
TOML
systemctl daemon-reload
socket=/run/nbdq/socket
pid() { systemctl show -P MainPID nbdq; }
held() { nbdcopy "$tcp" - | tr -d '\0' | wc -c; }
tcp=nbd://127.0.0.1/disk
unix="nbd+unix:///disk?socket=$socket"

check "systemctl start nbdq" systemctl start nbdq
for _ in $(seq 50); do [ -S $socket ] && break; sleep 0.1; done
check "the service is active" is active systemctl is-active nbdq
check "it runs as the user nbdq" is nbdq ps -o user= -p "$(pid)"
check "it serves on TCP" is 134217728 nbdinfo --size $tcp
check "it serves on its socket" is 134217728 nbdinfo --size "$unix"
check "the socket is its group's alone" is "nbdq nbdq 770" stat -c '%U %G %a' $socket
check "another user can't connect" does "! runuser -u nobody -- nbdinfo --size '$unix'"
check "its journal has 'ready' and nothing odd" is ready journalctl -u nbdq -o cat -t nbdq
check "its limits are those of the unit" is "$(printf '12884901888\n16384')" systemctl show -P MemoryMax -P LimitNOFILE nbdq

check "systemctl stop nbdq" systemctl stop nbdq
check "its socket is gone" test ! -e /run/nbdq
check "it starts again" systemctl start nbdq
for _ in $(seq 50); do [ -S $socket ] && break; sleep 0.1; done
kill -KILL "$(pid)"
sleep 1
check "one that is killed isn't restarted" is failed systemctl is-active nbdq
check "and leaves no socket" test ! -e /run/nbdq
check "the administrator starts it again" systemctl start nbdq
for _ in $(seq 50); do [ -S $socket ] && break; sleep 0.1; done
cp /etc/nbdq/disks.toml good.toml
echo 'speed = 1' >> /etc/nbdq/disks.toml
systemctl stop nbdq
systemctl start nbdq
sleep 0.5
check "a refused configuration is told in the journal" does "journalctl -u nbdq -o cat -t nbdq | tail -1 | grep -qx 'C2 export 2'"
cp good.toml /etc/nbdq/disks.toml
systemctl reset-failed nbdq
systemctl start nbdq
for _ in $(seq 50); do [ -S $socket ] && break; sleep 0.1; done

# ---- the kernel's client
check "nbd-client over TCP" nbd-client -N disk 127.0.0.1 10809 /dev/nbd0 -b 4096
check "the device has the disk's size" is 134217728 blockdev --getsize64 /dev/nbd0
check "the device knows of flushes and FUA" is "$(printf 'write back\n1')" cat /sys/block/nbd0/queue/write_cache /sys/block/nbd0/queue/fua
check "and of discards" grep -qv '^0$' /sys/block/nbd0/queue/discard_max_bytes
check "its scheduler can be none" does 'echo none > /sys/block/nbd0/queue/scheduler; grep -q "\[none\]" /sys/block/nbd0/queue/scheduler'
check "mkfs.ext4" mkfs.ext4 -q /dev/nbd0
check "mount" mount -o discard /dev/nbd0 /mnt
cp -r /usr/sbin /mnt
check "files are kept over umount and mount" does 'umount /mnt && mount /dev/nbd0 /mnt && diff -r /usr/sbin /mnt/sbin'
umount /mnt
before=$(held)
mount /dev/nbd0 /mnt
rm -rf /mnt/sbin
sync # what is deleted is free once the journal is written
check "fstrim" fstrim /mnt
umount /mnt
after=$(held)
check "fstrim leaves few bytes that aren't zero ($before, then $after)" test "$((after * 4))" -lt "$before"
check "the file system is well" e2fsck -fn /dev/nbd0
check "nbd-client -c tells who holds the device" nbd-client -c /dev/nbd0
check "nbd-client -d" nbd-client -d /dev/nbd0

check "nbd-client over the socket, 4 connections" nbd-client -unix $socket -N disk -C 4 /dev/nbd1 -b 4096
check "fio over the kernel, 4 jobs, verified" fio --name=verify --filename=/dev/nbd1 --direct=1 --ioengine=libaio --rw=randwrite \
  --bs=4k --size=16m --offset_increment=16m --numjobs=4 --iodepth=16 --verify=crc32c --output-format=terse
check "the device is there for others over NBD" is 134217728 nbdinfo --size "$unix"
check "nbd-client -d of four connections" nbd-client -d /dev/nbd1
check "a second export beside the first" nbd-client -N other 127.0.0.1 10809 /dev/nbd0 -b 4096
check "swap on it" does 'mkswap /dev/nbd0 && swapon /dev/nbd0 && swapoff /dev/nbd0'
check "nbd-client -d" nbd-client -d /dev/nbd0
check "nbd-client with an export that is read-only" nbd-client -N seen 127.0.0.1 10809 /dev/nbd2
check "its device is read-only" is 1 blockdev --getro /dev/nbd2
check "nbd-client -d" nbd-client -d /dev/nbd2

# ---- a disk of qemu's
check "qemu's disk has the export's size" is 67108864 blockdev --getsize64 /dev/vda
check "mkfs.ext4 on it" mkfs.ext4 -q /dev/vda
check "files on it are kept" does "mount /dev/vda /mnt && cp -r /usr/sbin /mnt && umount /mnt && mount /dev/vda /mnt && diff -r /usr/sbin /mnt/sbin"
check "fstrim" fstrim /mnt
check "umount" umount /mnt

# ---- a server that is gone
check "nbd-client with a server that will end" nbd-client -N disk 127.0.0.1 10809 /dev/nbd0 -b 4096 -t 5
systemctl stop nbdq
check "then reads fail, and don't hang" does '! dd if=/dev/nbd0 of=/dev/null bs=4096 count=1 iflag=direct'
nbd-client -d /dev/nbd0 > out 2>&1
echo "all was tried"
