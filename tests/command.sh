#!/usr/bin/env bash
# Tries the built command as its users do: statuses, options, pipes, files that cannot be read or written.
# What it prints of grammars is compared by the programs of the gate (crates/explain_text and the like).
set -uo pipefail
case ${1-} in
    '') ;;
    -h | --help)
        echo "usage: tests/command.sh"
        echo "Tries the command, which must be built (crates/lihvemur/out/lihvemur), as its users do."
        exit 0
        ;;
    *)
        echo "command.sh: takes no argument" >&2
        exit 2
        ;;
esac
cd "$(dirname "$0")/.." || exit 1
program=$PWD/crates/lihvemur/out/lihvemur
if [ ! -x "$program" ]; then
    echo "command.sh: crates/lihvemur/out/lihvemur is not built: (cd crates/lihvemur && rt run -- --version)" >&2
    exit 1
fi
work=$(mktemp -d) || exit 1
trap 'rm -rf "$work"' EXIT
passed=0
failed=0
# What is said of a case: whether the last test held.
judge() { # name, whether it holds (0: yes)
    if [ "$2" -eq 0 ]; then
        passed=$((passed + 1))
    else
        failed=$((failed + 1))
        echo "command.sh: $1"
        sed 's/^/    out: /' "$work/out" | head -5
        sed 's/^/    err: /' "$work/err" | head -5
    fi
}
# Runs the command with its output and errors in files.
run() { # argument..
    "$program" "$@" >"$work/out" 2>"$work/err" </dev/null
    status=$?
}
says_out() { grep -qF -- "$1" "$work/out"; }
says_err() { grep -qF -- "$1" "$work/err"; }
no_out() { [ ! -s "$work/out" ]; }
no_err() { [ ! -s "$work/err" ]; }
is() { # name, status, test..
    local name=$1 wanted=$2
    shift 2
    [ "$status" -eq "$wanted" ] && "$@"
    judge "$name (status $status, wanted $wanted)" $?
}

run tables/dangling_else.y
is "a conflict is status 1" 1 says_out "tables/dangling_else.y:6:7: shift/reduce conflict: before ELSE"
is "a report says nothing on standard error" 1 no_err
run tables/levels.y
is "no conflicts are status 0" 0 no_err
run --expect 1 tables/dangling_else.y
is "as many conflicts as expected are status 0" 0 says_out "dangling_else.y"
run --expect 2 tables/dangling_else.y
is "fewer than expected are status 1" 1 says_out "2"
run --expect x tables/dangling_else.y
is "an expectation that is no number" 4 says_err "expect"
run check tables/dangling_else.y tables/levels.y
is "check has a line for each file" 1 [ "$(wc -l <"$work/out")" -eq 2 ]
run -q tables/dangling_else.y
is "quiet: the status tells" 1 no_out
run --format json tables/dangling_else.y
is "JSON is JSON" 1 python3 -c '
import json, sys
report = json.load(open(sys.argv[1]))
assert report["file"] == "tables/dangling_else.y"
assert report["summary"]["shift_reduce"] == 1 and report["summary"]["reduce_reduce"] == 0
assert len(report["conflicts"]) == 1 and report["conflicts"][0]["tokens"] == ["ELSE"]' "$work/out"
run --only ELSE tables/dangling_else.y
is "only a token" 1 says_out "ELSE"
run --only nothing tables/dangling_else.y
judge "what --only leaves out is said" "$(grep -qE 'nothing|left out' "$work/out" "$work/err"; echo $?)"
run --start nothing tables/dangling_else.y
is "a start that is no rule" 4 says_err "nothing"
run --color always tables/dangling_else.y
is "colours when asked for" 1 grep -q $'\e\\[' "$work/out"
run tables/dangling_else.y
is "no colours in a file" 1 eval '! grep -q $'"'"'\e'"'"' "$work/out"'

# files that cannot be read, and command lines with mistakes
run no_such.y
is "a missing file" 4 says_err "no_such.y"
is "a missing file: nothing on standard output" 4 no_out
run tables
is "a folder" 4 says_err "tables"
run
is "no file" 4 says_err "FILE"
run --no-such-option tables/levels.y
is "an unknown option" 4 says_err "--no-such-option"
run --format xml tables/levels.y
is "an unknown format" 4 says_err "xml"
run --help
is "help is on standard output" 0 says_out "Status:"
run check --help
is "help of check" 0 says_out "FILE"
run --version
is "the version names the logic" 0 says_out "$(rt version 2>/dev/null || echo logic)"

# standard input, several files, and what a file with mistakes keeps from being said
"$program" - >"$work/out" 2>"$work/err" <tables/dangling_else.y
status=$?
is "standard input" 1 says_out "<stdin>:6:7:"
printf 'a : b ;\n' >"$work/undefined.y"
run "$work/undefined.y"
is "no grammar: status 2" 2 says_err "undefined.y:"
is "no grammar: nothing on standard output" 2 no_out
run tables/dangling_else.y "$work/undefined.y" no_such.y
is "the gravest of several files" 4 says_out "dangling_else.y"
: >"$work/empty.y"
run "$work/empty.y"
is "an empty file" 2 says_err "empty.y:1:1: error:"
printf '%%%%\na : %s\n' "'x' ;" | tr '\n' '\r' | sed 's/\r/\r\n/g' >"$work/crlf.y"
run "$work/crlf.y"
is "lines that end with CR LF" 0 no_err

# output that cannot be written, and a reader that goes away
"$program" tables/dangling_else.y >/dev/full 2>"$work/err"
status=$?
: >"$work/out"
is "a full device is status 4" 4 [ -s "$work/err" ]
{ "$program" --all --settled tables/sum.y 2>"$work/err"; echo $? >"$work/status"; } | true
: >"$work/out"
judge "a closed pipe ends quietly" "$([ ! -s "$work/err" ]; echo $?)"

echo "command.sh: $passed passed, $failed failed"
[ "$failed" -eq 0 ] && [ "$passed" -gt 0 ]
