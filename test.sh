#!/usr/bin/env bash
# The test command: all parts below, or those that are named.
set -euo pipefail
cd "$(dirname "$0")"

parts=(citations edits ci arrays c tables command)

usage() {
    cat <<'HELP'
usage: ./test.sh [PART..]

Runs all tests of the repository, or the parts that are named:

  citations   no text cites a paper that a reader doesn't have (tests/no-citations.sh; a second)
  edits       each stored edit can be applied to the source (tests/edits-stand.sh; a second)
  ci          `rt ci`: layout, each crate proved, each edit of must-fail refused, each program run
              against its stored output. It keeps what it passed, and takes minutes where much changed
  arrays      no function that classifying reaches has an array above 2,000 words (tests/arrays.py)
  c           every entry of the C header, called through the static library: tests/c/entries.c, and
              the stored sample of what the Rust answers (tests/c/replay.c, tests/sample). From outside
              the archive asks for memcpy and memset alone
  tables      the library's built programs against the stored outputs of tables/ (tests/tables.sh)
  command     the command as its users run it: statuses, options, pipes, files that fail (tests/command.sh)

`arrays`, `c`, `tables` and `command` use what `ci` left built; the first three build what is missing.
All needs the Rattle kit (`rt`), a C compiler (`cc`) and Python 3, on x86-64.
With `ci` the last line is 'N passed, 0 failed', as `rt ci` counts; without it 'passed: PARTS'.
Where anything fails it is another line, and the status is not 0.
HELP
}

chosen=()
for word in "$@"; do
    case $word in
        -h | --help) usage; exit 0 ;;
        citations | edits | ci | arrays | c | tables | command) chosen+=("$word") ;;
        *) echo "test.sh: there is no part '$word'" >&2; usage >&2; exit 2 ;;
    esac
done
whole=no
if [ ${#chosen[@]} -eq 0 ]; then
    whole=yes
    chosen=("${parts[@]}")
fi

work=$(mktemp -d)
finish() {
    local status=$?
    rm -rf "$work"
    [ "$status" -eq 0 ] || echo "test.sh: FAILED"
}
trap finish EXIT

# Passes on what it reads, but for the last line, which goes to a file.
hold_back() {
    local last line
    IFS= read -r last || return 1
    while IFS= read -r line; do
        printf '%s\n' "$last"
        last=$line
    done
    printf '%s\n' "$last" >"$1"
}

after_ci=()
run_ci() {
    local status=0 edits refused bad
    rt ci | tee "$work/said" | hold_back "$work/last" || status=$?
    if [ "$status" -ne 0 ]; then
        cat "$work/last"
        exit "$status"
    fi
    # `rt ci` passes over an edit that it cannot apply, compile or read; each must have been refused.
    edits=$(find crates -path '*/must-fail/*.edit' | wc -l)
    refused=$(sed -n 's/^rt: ok;.*must-fail edits: \([0-9]*\) refused.*/\1/p' "$work/said")
    bad=$(sed -n 's/^rt: ok;.*, \([0-9]*\) bad[;, ].*/\1/p' "$work/said")
    if [ "${bad:-0}" -ne 0 ] || [ "${refused:-0}" -ne "$edits" ]; then
        echo "test.sh: of $edits must-fail edits ${refused:-0} were refused, ${bad:-0} are bad"
        exit 1
    fi
    after_ci=(--after-ci)
}

run_arrays() {
    tests/arrays.py --selftest
    tests/arrays.py >"$work/arrays" || { cat "$work/arrays"; exit 1; }
    tail -n 1 "$work/arrays"
}

run_c() {
    ./library.sh "${after_ci[@]}" "$work" >"$work/library" 2>&1 || { cat "$work/library"; exit 1; }
    # What the archive asks of whoever links it, which need not have a C library.
    asked=$(nm -u "$work/liblihvemur.a" | sed -n 's/^ *U //p' | sort | xargs)
    [ "$asked" = 'memcpy memset' ] || { echo "test.sh: the archive asks from outside for $asked"; exit 1; }
    cc -std=c11 -Wall -Wextra -Werror -Iinclude tests/c/entries.c "$work/liblihvemur.a" -o "$work/c-entries"
    "$work/c-entries"
    cc -std=c11 -O1 -Wall -Wextra -Werror -Iinclude tests/c/replay.c "$work/liblihvemur.a" -o "$work/c-replay"
    "$work/c-replay" <tests/sample/requests >"$work/answers"
    cmp "$work/answers" tests/sample/answers
    echo "$(wc -l <tests/sample/answers) stored answers are those of the C entries"
}

for part in "${chosen[@]}"; do
    echo "test.sh: $part"
    case $part in
        citations) tests/no-citations.sh ;;
        edits) tests/edits-stand.sh ;;
        ci) run_ci ;;
        arrays) run_arrays ;;
        c) run_c ;;
        tables) tests/tables.sh ;;
        command) tests/command.sh ;;
    esac
done
[ "$whole" = yes ] || echo "passed: ${chosen[*]}"
[ ! -f "$work/last" ] || cat "$work/last"
