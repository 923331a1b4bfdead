#!/bin/sh
# Wrong readings of the rules (readings/*.edit, edits of the driver's plain reader) against the stored sample: builds the reader with each and prints how many stored
# answers change. Without an edit none may; with one some must.
usage() {
    cat <<'HELP'
usage: sh oracle/readings.sh [READING ..]      (default: all)

Tries wrong readings of docs/RULES.md (oracle/readings/READING.edit) against the stored sample: each must
change some stored answer. Needs rustc and python3, not the Rust to compare with.
The last line is 'N passed, M failed'.
HELP
}
for word in "$@"; do
    case $word in
        -h | --help) usage; exit 0 ;;
        *) [ -f "$(dirname "$0")/readings/$word.edit" ] || { echo "readings.sh: there is no oracle/readings/$word.edit" >&2; usage >&2; exit 2; } ;;
    esac
done
set -eu
here=$(cd "$(dirname "$0")" && pwd)
top=$(dirname "$here")
work=$(mktemp -d)
trap 'rm -rf "$work"' EXIT
mkdir "$work/incremental"
cat "$top/tests/sample/requests" "$top/crates/item_sets/stdin" >"$work/requests"
cat "$top/tests/sample/answers" "$top/crates/item_sets/stdout" >"$work/answers"
passed=0
failed=0

# A copy of the reader's sources with an edit, built and run: 'K of N' or what went wrong.
read_with() {
    rm -rf "$work/driver" "$work/readings"
    cp -R "$here/driver" "$work/driver"
    mkdir "$work/readings"
    cp "$here/readings/reader.rs" "$work/readings/"
    if [ -n "$1" ]; then
        python3 - "$1" "$work" <<'PY' || return 1
import sys
edit, work = sys.argv[1:]
path = old = None
for line in open(edit).read().splitlines():
    kind, _, text = line.partition(': ')
    if kind == 'file':
        path = f'{work}/{text}'
    elif kind == 'old':
        old = text
    elif kind == 'new':
        source = open(path).read()
        if source.count(old) != 1:
            sys.exit(print('bad edit: its old text stands', source.count(old), 'times') or 1)
        open(path, 'w').write(source.replace(old, text))
PY
    fi
    rustc --edition 2024 -A warnings -C opt-level=1 -C incremental="$work/incremental" \
        -o "$work/reader" "$work/readings/reader.rs" 2>"$work/errors" || { echo "not built:"; cat "$work/errors"; return 1; }
    timeout 300 "$work/reader" "$work/requests" "$work/answers" || { echo "not answered"; return 1; }
}

# Name, edit, whether answers must change.
try() {
    told=$(read_with "$2") && good=yes || good=no
    case "$good:$3:$told" in
    yes:no:"0 of "* | yes:yes:[1-9]*) passed=$((passed + 1)) ;;
    *) failed=$((failed + 1)) ;;
    esac
    echo "$1: $told"
}

try "without an edit" "" no
if [ $# -eq 0 ]; then
    set -- "$here"/readings/*.edit
fi
for edit; do
    name=$(basename "$edit" .edit)
    try "$name" "$here/readings/$name.edit" yes
done
echo "$passed passed, $failed failed"
[ "$failed" -eq 0 ]
