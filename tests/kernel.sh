#!/usr/bin/env bash
# The Linux kernel's client, the service of systemd, and a disk of qemu's, in a machine of its own: Debian's kernel in qemu, over this
# machine's files, which it reads and doesn't change.
#
#   tests/kernel.sh [PROGRAM]      PROGRAM is crates/nbdq/out/nbdq where none is named; `rt run` in crates/nbdq makes it
#
# It isn't part of `rt ci`, and installs nothing. On Debian its tools are in qemu-system-x86, busybox-static, kmod, cpio, systemd,
# nbd-client, libnbd-bin, e2fsprogs and fio. KERNEL is a folder with boot/vmlinuz-VERSION and lib/modules/VERSION; where it isn't set
# Debian's package is fetched (70 MB) and unpacked into a new folder. Without /dev/kvm the
# machine is emulated, and takes some minutes.
# What the machine does stands in kernel_guest.sh. The last line counts what passed and failed.
set -eu
here=$(cd "$(dirname "$0")" && pwd)
program=$(realpath -m "${1:-$here/../crates/nbdq/out/nbdq}")
PATH=$PATH:/usr/sbin:/sbin
for tool in qemu-system-x86_64 busybox modprobe depmod cpio systemctl nbd-client nbdcopy mkfs.ext4 fio; do
  command -v "$tool" >/dev/null || { echo "no $tool: apt-get install qemu-system-x86 busybox-static kmod cpio systemd nbd-client libnbd-bin e2fsprogs fio"; exit 2; }
done
[ -x "$program" ] || { echo "no program at $program"; exit 2; }
folder=$(mktemp -d)
server=
trap 'kill "$server" 2>/dev/null || true; rm -rf "$folder"' EXIT

kernel=${KERNEL:-$folder/kernel}
if [ ! -d "$kernel" ]; then
  package=$(apt-cache depends linux-image-amd64 | sed -n 's/.*Depends: \(linux-image-[^ ]*\).*/\1/p' | head -1)
  (cd "$folder" && apt-get download "$package" && dpkg -x "$package"*.deb "$kernel") > "$folder/log" 2>&1 || { tail -3 "$folder/log"; exit 2; }
fi
version=$(basename "$kernel"/boot/vmlinuz-* | sed 's/^vmlinuz-//')
depmod -b "$kernel" "$version"

# The first files of the machine: they make a root of this one's files with memory above them, and start systemd.
first=$folder/first
mkdir -p "$first"/{bin,modules,proc,dev,low,high,root,nbdq-test/tests}
cp "$(command -v busybox)" "$first/bin/busybox"
cp -r "$program" "$here/../packaging" "$first/nbdq-test/"
cp "$here/kernel_guest.sh" "$first/nbdq-test/tests/"
for module in virtio_pci virtio_blk 9p 9pnet_virtio overlay nbd ext4; do
  modprobe -d "$kernel" -S "$version" --show-depends "$module"
done | awk '!seen[$2]++ { print $2 }' | while read -r file; do
  cp "$file" "$first/modules/"
  echo "/bin/busybox insmod /modules/$(basename "$file")" >> "$folder/load"
done
cat > "$first/init" <<INIT
#!/bin/busybox sh
/bin/busybox mount -t devtmpfs dev /dev
$(cat "$folder/load")
/bin/busybox mount -t 9p -o trans=virtio,version=9p2000.L,ro,msize=262144,cache=mmap host /low
/bin/busybox mount -t tmpfs -o size=512m high /high
/bin/busybox mkdir /high/up /high/work
/bin/busybox mount -t overlay -o lowerdir=/low,upperdir=/high/up,workdir=/high/work over /root
/bin/busybox mount -t tmpfs -o size=512m tmp /root/tmp
/bin/busybox cp -r /nbdq-test /root/nbdq-test
# What walks through this machine's files at its start.
for unit in systemd-tmpfiles-setup.service systemd-journal-flush.service; do
  /bin/busybox ln -s /dev/null /root/etc/systemd/system/\$unit
done
/bin/busybox cat > /root/etc/systemd/system/nbdq-test.service <<UNIT
[Unit]
Requires=sysinit.target
After=sysinit.target
[Service]
Type=oneshot
ExecStart=/bin/bash /nbdq-test/tests/kernel_guest.sh /nbdq-test/$(basename "$program")
ExecStopPost=/bin/systemctl poweroff --force --force
StandardOutput=tty
StandardError=tty
TTYPath=/dev/ttyS0
UNIT
exec /bin/busybox switch_root /root /lib/systemd/systemd --unit=nbdq-test.service
INIT
chmod +x "$first/init"
(cd "$first" && find . | cpio -o -H newc --quiet) > "$folder/initrd"

# One disk of the machine is an export of a server out here.
printf '[[export]]\nname = "machine"\nsize = 67108864\n' > "$folder/disks.toml"
"$program" serve --unix "$folder/socket" < "$folder/disks.toml" > "$folder/ready" &
server=$!
for _ in $(seq 100); do grep -q ready "$folder/ready" && break; sleep 0.05; done
disk="nbd+unix:///machine?socket=$folder/socket"

machine=(-accel tcg)
if [ -w /dev/kvm ] && grep -qE '^flags.* (vmx|svm) ' /proc/cpuinfo; then machine=(-accel kvm -cpu host); fi
timeout 900 qemu-system-x86_64 "${machine[@]}" -m 2048 -smp 2 -nic none -nographic -no-reboot \
  -kernel "$kernel/boot/vmlinuz-$version" -initrd "$folder/initrd" -append "console=ttyS0 quiet panic=-1 systemd.show_status=no" \
  -drive "file=$disk,format=raw,if=virtio,cache=none,discard=unmap" \
  -virtfs local,path=/,mount_tag=host,security_model=none,readonly=on,multidevs=remap < /dev/null > "$folder/said" 2>&1 || true
tr -d '\r' < "$folder/said" > "$folder/text"
echo "Linux $version"
grep -aE '^(ok|FAILED) |^ {8}[^ ]' "$folder/text" || true
passed=$(grep -ac '^ok ' "$folder/text" || true)
failed=$(grep -ac '^FAILED ' "$folder/text" || true)
# check NAME COMMAND..: whether a command ends well.
check() {
  local name=$1
  shift
  if "$@" > "$folder/out" 2>&1; then
    echo "ok      $name"
    passed=$((passed + 1))
  else
    echo "FAILED  $name"
    tail -5 "$folder/out"
    failed=$((failed + 1))
  fi
}
check "the machine came to its end" grep -aqx 'all was tried' "$folder/text"
nbdcopy "$disk" "$folder/disk"
check "the file system that it made on qemu's disk is well out here" e2fsck -fn "$folder/disk"
echo "$passed passed, $failed failed"
[ "$failed" = 0 ]
