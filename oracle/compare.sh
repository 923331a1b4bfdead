#!/bin/sh
# One command for the comparison with the Rust, from a fresh machine.
usage() {
    cat <<'HELP'
usage: LALRPOP_SRC=FOLDER sh oracle/compare.sh [SEED [COUNT]]      (default: 1 200)

Builds the proved library and programs, the Rust beside them, and compares: marked examples, every sort of
question in one process, the stored sample, the explaining program byte for byte, the states that are built
with bison's, and yacc files with byacc and bison. The last line is 'N passed, 0 failed'.
LALRPOP_SRC and other variables: sh oracle/build.sh --help.
HELP
}
case ${1-}${2-} in
    -h | --help) usage; exit 0 ;;
    *[!0-9]*) echo "compare.sh: SEED and COUNT are numbers" >&2; usage >&2; exit 2 ;;
esac
[ $# -le 2 ] || { echo "compare.sh: too many arguments" >&2; usage >&2; exit 2; }
set -eu
cd "$(dirname "$0")/.."
seed=${1:-1}
count=${2:-200}
log=$(mktemp)
trap 'rm -f "$log"' EXIT
./library.sh target/c
for p in explain states; do
    [ -x "crates/$p/out/$p" ] || (cd "crates/$p" && rt run </dev/null >/dev/null) || [ -x "crates/$p/out/$p" ]
done
PORT_LIB=target/c sh oracle/build.sh
run() {
    "$@" >"$log" || { cat "$log"; exit 1; }
    cat "$log"
    passed=$((passed + $(tail -n 1 "$log" | cut -d ' ' -f 1)))
}
passed=0
run target/oracle/oracle marked
run target/oracle/oracle compare all "$seed" "$count"
run python3 oracle/explain.py target/oracle/oracle crates/explain/out/explain "$seed" "$count" crates/states/out/states
run sh oracle/bison.sh 0 1000 port
run sh oracle/yacc.sh 0 1000
sh oracle/sample.sh --check
echo "$passed passed, 0 failed"
