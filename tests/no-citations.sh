#!/bin/sh
# No text of the repository cites a paper that a reader doesn't have: prints each that does, and fails if there is one.
case ${1-} in
    '') ;;
    -h | --help)
        echo "usage: tests/no-citations.sh"
        echo "Prints each line that cites a paper that is not in the repository, and fails if there is one."
        exit 0
        ;;
    *)
        echo "no-citations.sh: takes no argument" >&2
        exit 2
        ;;
esac
cd "$(dirname "$0")/.." || exit 1
found=$(git ls-files | grep -vE '(^|/)(LICENSE[^/]*|NOTICE|stdin|stdout|no-citations\.sh)$' | tr '\n' '\0' |
    xargs -0 grep -nIE "[Dd]ocument 0[0-9]|\bReq [0-9]|[Rr]equests? [0-9][0-9]\b|[Dd]emand [0-9]|[Pp]arts? [0-9]+( (to|and) [0-9]+)? of (document|the rules)|acceptance [A-Z][0-9]|\bthe papers?\b|paper's|acceptance list")
[ -z "$found" ] && { echo "no citations"; exit 0; }
echo "$found" | cut -c1-200
exit 1
