#!/bin/sh
# Each name of docs/MODEL.md that stands in `..` is in crates/, and each one that begins a list's line of a crate's section is defined in the
# files that the line names in brackets: crates/CRATE/specs/FILE.antt. Prints what isn't so, and a count.
cd "$(dirname "$0")/.." || exit 2
tick=$(printf '\140')
words=$(mktemp) && trap 'rm -f "$words"' EXIT
find crates \( -name '*.antt' -o -name '*.rt' \) -exec cat {} + | grep -oE '[A-Za-z_][A-Za-z_0-9]*' | sort -u > "$words"
# Each item of a list on one line.
awk '/^  [^ -]/ && line ~ /^- / { line = line " " substr($0, 3); next } NR > 1 { print line } { line = $0 } END { print line }' docs/MODEL.md | awk '
    /^## / { crate = $2 }
    /^- \**`/ { print "line", crate, $0 }
    { rest = $0
      while (match(rest, /`[A-Za-z_:]+`/)) { print "name", substr(rest, RSTART + 1, RLENGTH - 2); rest = substr(rest, RSTART + RLENGTH) } }
' | sort -u | (
    bad=0 seen=0
    while read -r kind crate rest; do
        seen=$((seen + 1))
        if [ "$kind" = name ]; then
            grep -qx "${crate##*::}" "$words" || { echo "nowhere: $crate"; bad=$((bad + 1)); }
            continue
        fi
        files=$(printf '%s\n' "$rest" | sed -n 's/^[^(]*(\([A-Za-z, ]*\)[;)].*/\1/p' | tr -d ,)
        [ -n "$files" ] || continue
        for name in $(printf '%s\n' "${rest%%(*}" | grep -oE "${tick}[A-Za-z_]+$tick" | tr -d "$tick"); do
            found=
            for file in $files; do
                grep -qsE "^ *([a-z]+ )+$name( |\$)" "crates/$crate/specs/$file.antt" && found=1
            done
            [ -n "$found" ] || { echo "$crate: $name isn't defined in $files"; bad=$((bad + 1)); }
        done
    done
    echo "$seen looked at, $bad wrong"
    [ "$bad" = 0 ]
)
