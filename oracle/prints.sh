#!/bin/sh
# Classifying with prints made weak on purpose: all equal, and equal where cursor and number of places add up alike. In a copy of the tree the print's two numbers
# are changed, in its definition and in the code; all is proved again, as the proofs ask nothing of a print but that equal readings have equal ones, and the library is compared with the Rust.
usage() {
    cat <<'HELP'
usage: LALRPOP_SRC=FOLDER oracle/prints.sh [SEEDS]      (default: 60)

Makes the prints of examples weak in a copy of the tree, proves it again and compares it with the Rust, on
seeds 1 to SEEDS of every kind and on the limits. LALRPOP_SRC and other variables: sh oracle/build.sh --help.
HELP
}
case ${1-} in
    -h | --help) usage; exit 0 ;;
    *[!0-9]*) echo "prints.sh: SEEDS is a number" >&2; usage >&2; exit 2 ;;
esac
[ $# -le 1 ] || { echo "prints.sh: too many arguments" >&2; usage >&2; exit 2; }
set -eu

top=$(cd "$(dirname "$0")/.." && pwd)
seeds=${1:-60}
copy=$(mktemp -d)
trap 'rm -rf "$copy"' EXIT
mkdir "$copy/.git"
tar -C "$top" -c --exclude='crates/*/out' --exclude='crates/*/must-fail' --exclude='crates/*/edits' crates crates.txt library.sh oracle | tar -x -C "$copy"
cd "$copy"

# The last match is replaced; one that is missing ends the run.
put() { # FILE OLD NEW
    grep -qF "$2" "$1" || { echo "prints.sh: $1 has no '$2'" >&2; exit 1; }
    OLD=$2 NEW=$3 perl -pi -e 's/\Q$ENV{OLD}\E/$ENV{NEW}/' "$1"
}

weak() { # WHAT BASE, whose BASE was before
    put crates/conflict_sides/specs/outline/Outline.antt "print_base = $3" "print_base = $2"
    put crates/conflict_sides/src/outline.rt "BASE: u64 = $3;" "BASE: u64 = $2;"
    echo "prints.sh: $1"
    ./library.sh target/c | tail -n 1
    PORT_LIB=$copy/target/c sh oracle/build.sh | tail -n 1
    for words in marked "compare all 1 $seeds" "compare limit 1 14"; do
        # shellcheck disable=SC2086
        target/oracle/oracle $words | tail -n 1
    done
}

put crates/conflict_sides/specs/outline/Outline.antt "symbol_code kind number = 64 * kind + number + 1" "symbol_code kind number = 0 * kind + 0 + 1"
put crates/conflict_sides/src/outline.rt "(Outline::KIND * kind + number + 1)" "(0 * kind + 0 + 1)"
weak "all equal" 0 25173
weak "equal where cursor and number of places add up alike" 1 0
