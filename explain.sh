#!/usr/bin/env bash
# Explains the conflicts of one file by the library's programs.
set -euo pipefail

usage() {
    cat <<'HELP'
usage: ./explain.sh FILE

Explains the conflicts of FILE by the library's programs, in numbers. The end of its name says what it is:

  FILE.y         rules of a yacc file             ./explain.sh tables/dangling_else.y
  FILE.grammar   a grammar typed as numbers       ./explain.sh tables/dangling_else.grammar
  other names    a table with its conflicts       ./explain.sh tables/table_b.txt

The first run proves and builds the programs, which takes minutes; it says so.
docs/ANSWERS.md says how to read the lines, docs/YACC.md which yacc files are read.
The status is 0 where all conflicts are shown or there are none, 1 where something is refused,
unreadable or cut, which standard error then says, and 2 for a wrong use.
HELP
}

case ${1-} in
    -h | --help) usage; exit 0 ;;
    '') usage >&2; exit 2 ;;
    -*) echo "explain.sh: there is no option '$1'" >&2; usage >&2; exit 2 ;;
esac
if [ $# -gt 1 ]; then
    echo "explain.sh: one file at a time" >&2
    usage >&2
    exit 2
fi
if [ ! -e "$1" ]; then
    echo "explain.sh: there is no file '$1'" >&2
    exit 2
fi
file=$(realpath "$1")
cd "$(dirname "$0")"
case $file in
    *.y) programs="yacc states explain" ;;
    *.grammar) programs="parse_words states explain" ;;
    *) programs="parse_words explain" ;;
esac
for p in $programs; do
    [ ! -x "crates/$p/out/$p" ] || continue
    command -v rt >/dev/null || { echo "explain.sh: the program $p is not built, and the Rattle kit's rt is not on the PATH" >&2; exit 2; }
    echo "explain.sh: proving and building the program $p; this is done once, and takes minutes" >&2
    # (what it answers to no input is of no use)
    (cd "crates/$p" && rt run </dev/null >/dev/null) || [ -x "crates/$p/out/$p" ] || { echo "explain.sh: the program $p was not built" >&2; exit 2; }
done
work=$(mktemp -d)
trap 'rm -rf "$work"' EXIT
said=$work/said
# A program that writes nothing has refused.
refused() { # what it wrote
    [ ! -s "$1" ] || return 0
    cat "$said" >&2
    exit 1
}
"crates/${programs%% *}/out/${programs%% *}" <"$file" >"$work/words" 2>"$said"
table=$work/words
if [[ $programs == *states* ]]; then
    [[ $file != *.y ]] || refused "$work/words"
    table=$work/table
    crates/states/out/states <"$work/words" >"$table" 2>>"$said"
    refused "$table"
    # a record count of two bytes, records of eight, and nothing behind them
    records=$(od -An -tu2 -N2 "$table")
    if [ ! -s "$said" ] && [ "$(wc -c <"$table")" -eq $((2 + 8 * records)) ]; then
        echo "no conflicts" >&2
        exit 0
    fi
fi
crates/explain/out/explain <"$table" 2>>"$said"
cat "$said" >&2
[ ! -s "$said" ]
