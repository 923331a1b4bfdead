#!/bin/sh
# Makes the stored sample from fixed seeds, by the built oracle: tests/sample, which tests/c/replay.c asks of the static library,
# and the stdin and stdout of the program item_sets, for what has no entry for C.
usage() {
    cat <<'HELP'
usage: sh oracle/sample.sh [--check]

Makes the stored sample (tests/sample, and stdin and stdout of the program item_sets) from fixed seeds, by the
built oracle (oracle/build.sh). With --check it changes nothing and fails on a difference.

  ORACLE_OUT    where the oracle was built (default: target/oracle at the top)
HELP
}
set -eu

here=$(cd "$(dirname "$0")" && pwd)
top=$(dirname "$here")
oracle=${ORACLE_OUT:-$top/target/oracle}/oracle
case "${1:-}" in
"") command=cp ;;
--check) command=cmp ;;
-h | --help)
    usage
    exit 0
    ;;
*)
    echo "sample.sh: there is no option '$1'" >&2
    usage >&2
    exit 2
    ;;
esac
made=$(mktemp -d)
trap 'rm -rf "$made"' EXIT
mkdir "$made/parts"
"$oracle" sample "$made/requests" "$made/answers"
"$here/split.py" "$made/requests" "$made/answers" "$made/parts"
$command "$made/parts/requests" "$top/tests/sample/requests"
$command "$made/parts/answers" "$top/tests/sample/answers"
$command "$made/parts/sets.requests" "$top/crates/item_sets/stdin"
$command "$made/parts/sets.answers" "$top/crates/item_sets/stdout"
[ "$command" = cp ] || echo "no difference"
