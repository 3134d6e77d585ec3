#!/bin/sh
# shellcheck disable=SC2016
# Each link of README and docs to a file, or to a heading of one, leads there. Prints what doesn't, and a count.
cd "$(dirname "$0")/.." || exit 2
# The anchors of a file's headings, as GitHub makes them.
anchors() {
    sed '/^```/,/^```/d' "$1" | sed -n 's/^##* *//p' | tr '[:upper:]' '[:lower:]' | sed 's/[^a-z0-9 _-]//g; s/ /-/g'
}
find README.md docs bench packaging tests -name '*.md' | while read -r page; do
    sed '/^```/,/^```/d' "$page" | grep -oE '\]\([^) ]+\)' | sed 's/^](//; s/)$//' | sort -u | while read -r link; do
        case $link in http*) continue ;; esac
        file=${link%%#*}
        place=$page
        [ -z "$file" ] || place=$(dirname "$page")/$file
        if [ ! -e "$place" ]; then
            echo "$page: $link: no such file"
        elif [ "$link" != "$file" ] && ! anchors "$place" | grep -qxF "${link#*#}"; then
            echo "$page: $link: no such heading"
        else
            echo "ok"
        fi
    done
done | sort | awk '/^ok$/ { good++; next } { print; bad++ } END { print good + 0, "lead there,", bad + 0, "do not"; exit bad > 0 }'
