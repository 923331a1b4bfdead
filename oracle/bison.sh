#!/bin/sh
# The states that are built against bison's canonical LR(1) automata. No part of the tests.
usage() {
    cat <<'HELP'
usage: sh oracle/bison.sh [SEED [COUNT [SIDE ..]]]      (default: 0 1000)

Compares the plain reader with bison on COUNT grammars, and the sides named (port, if linked) with the reader.
Installs bison where it is missing. The last line is 'N passed, M failed'.

  ORACLE_OUT    where the oracle was built (default: target/oracle at the top)
HELP
}
case ${1-}${2-} in
    -h | --help) usage; exit 0 ;;
    *[!0-9]*) echo "bison.sh: SEED and COUNT are numbers" >&2; usage >&2; exit 2 ;;
esac
set -eu
here=$(cd "$(dirname "$0")" && pwd)
oracle=${ORACLE_OUT:-$(dirname "$here")/target/oracle}/oracle
command -v bison >/dev/null || {
    apt-get update
    apt-get install -y bison
}
seed=${1:-0}
count=${2:-1000}
if [ $# -gt 2 ]; then
    shift 2
else
    set --
fi
exec "$oracle" bison "$seed" "$count" "$@"
