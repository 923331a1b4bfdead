#!/usr/bin/env bash
# Tries the stored edits that the test command leaves out (crates/NAME/edits).
# Works in a copy of the repository, where they stand as must-fail edits and `rt ci CRATE..` tries them: what a run of `rt ci` proved already on this machine is not proved again.
set -uo pipefail
cd "$(dirname "$0")" || exit 2

usage() {
    cat <<'HELP'
usage: ./edits.sh [CRATE..]

Tries the wrong programs that stand in crates/CRATE/edits; the prover must refuse each. Those of
crates/CRATE/must-fail are tried by ./test.sh. Without a crate it tries all that are stored, which
takes 80 minutes of processor time; one edit costs about a check of its crate.
The last line is 'N passed, M failed', and the status is 0 where none failed.
HELP
}

for word in "$@"; do
    case $word in
        -h | --help) usage; exit 0 ;;
        *) [ -d "crates/$word/edits" ] || { echo "edits.sh: there is no folder crates/$word/edits" >&2; usage >&2; exit 2; } ;;
    esac
done
if [ $# -eq 0 ]; then
    for folder in crates/*/edits; do
        [ -d "$folder" ] && set -- "$@" "$(basename "$(dirname "$folder")")"
    done
fi
copy=$(mktemp -d) || exit 2
trap 'rm -rf "$copy"' EXIT
mkdir "$copy/.git"
cp crates.txt "$copy" || exit 2
[ ! -f HANDLES ] || cp HANDLES "$copy" || exit 2
tar -c --exclude='crates/*/out' --exclude='crates/*/must-fail' crates | tar -x -C "$copy" || exit 2
total=0
for crate in "$@"; do
    mv "$copy/crates/$crate/edits" "$copy/crates/$crate/must-fail"
    total=$((total + $(find "$copy/crates/$crate/must-fail" -name '*.edit' | wc -l)))
done
(cd "$copy" && env -u CI rt ci "$@") 2>&1 | grep --line-buffered -v '^[0-9]* passed, [0-9]* failed' | tee "$copy/said"
status=${PIPESTATUS[0]}
passed=$(grep -c '^rt: must-fail .*: refused, as it must be' "$copy/said")
failed=$((total - passed))
# All refused, and yet rt is not content: a crate or a run that failed.
[ "$failed" -gt 0 ] || [ "$status" -eq 0 ] || failed=1
echo "$passed passed, $failed failed"
[ "$failed" -eq 0 ]
