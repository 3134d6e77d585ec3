#!/usr/bin/env bash
# Installs nbdq, its page of the manual, its service, its completion and its examples, or takes them away again.
#
#   packaging/install.sh [PROGRAM]      PROGRAM is crates/nbdq/out/nbdq where none is named; `rt run` in crates/nbdq makes it
#   packaging/install.sh --remove
#
# PREFIX (/usr/local) is where all goes, below DESTDIR (nothing). It changes no configuration, starts nothing, stops nothing and
# makes no user: it says what is left to do.
set -eu
top=$(cd "$(dirname "$0")/.." && pwd)
prefix=${PREFIX:-/usr/local}
root=${DESTDIR:-}$prefix

# What is installed: mode, file, and its place below the prefix.
list() {
  cat <<LIST
755 ${1:-} bin/nbdq
644 $top/packaging/nbdq.1 share/man/man1/nbdq.1
644 $top/packaging/nbdq.service lib/systemd/system/nbdq.service
644 $top/packaging/nbdq.sysusers lib/sysusers.d/nbdq.conf
644 $top/packaging/nbdq.bash share/bash-completion/completions/nbdq
644 $top/packaging/examples/vm-host.toml share/doc/nbdq/examples/vm-host.toml
644 $top/packaging/examples/test-bed.toml share/doc/nbdq/examples/test-bed.toml
644 $top/packaging/examples/build-farm.toml share/doc/nbdq/examples/build-farm.toml
LIST
}

case ${1:-} in
  --remove | "" | [!-]*) ;;
  *) echo "packaging/install.sh [PROGRAM | --remove]" >&2; exit 2 ;;
esac

if [ "${1:-}" = --remove ]; then
  list - | while read -r _ _ place; do rm -fv "$root/$place"; done
  rmdir "$root/share/doc/nbdq/examples" "$root/share/doc/nbdq" 2>/dev/null || true
  exit 0
fi

program=$(realpath -m "${1:-$top/crates/nbdq/out/nbdq}")
[ -x "$program" ] || { echo "no program at $program: (cd $top/crates/nbdq && rt run -- talk < stdin)" >&2; exit 2; }
list "$program" | while read -r mode file place; do
  install -D -m "$mode" "$file" "$root/$place"
  echo "$root/$place"
done
# Where the program isn't in /usr/local, the service and the page name its place.
sed -i "s|/usr/local/|$prefix/|g" "$root/lib/systemd/system/nbdq.service" "$root/share/man/man1/nbdq.1"

# Elsewhere than below these systemd looks for no service by its name.
case $prefix in
  /usr | /usr/local) unit=nbdq ;;
  *) unit=$prefix/lib/systemd/system/nbdq.service ;;
esac
cat <<SAID
To run it as a service:
  systemd-sysusers $prefix/lib/sysusers.d/nbdq.conf      # makes the user nbdq
  install -D $prefix/share/doc/nbdq/examples/vm-host.toml /etc/nbdq/disks.toml      # and edit it
  $prefix/bin/nbdq check < /etc/nbdq/disks.toml
  systemctl daemon-reload && systemctl enable --now $unit
SAID
