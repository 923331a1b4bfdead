#!/bin/sh
# Yacc files that are read against byacc and bison. No part of the tests.
usage() {
    cat <<'HELP'
usage: sh oracle/yacc.sh [SEED [COUNT]]      (default: 0 3000)

Compares the plain reader with both on COUNT files that all should read: productions, start and terminals by
the tools' own output. Then on as many texts of the classes in which docs/YACC.md says that they differ, and
on half as many files with one byte changed. Installs byacc and bison where they are missing.
The last line is 'N passed, M failed'.

  ORACLE_OUT    where the oracle was built (default: target/oracle at the top)
HELP
}
case ${1-}${2-} in
    -h | --help) usage; exit 0 ;;
    *[!0-9]*) echo "yacc.sh: SEED and COUNT are numbers" >&2; usage >&2; exit 2 ;;
esac
[ $# -le 2 ] || { echo "yacc.sh: too many arguments" >&2; usage >&2; exit 2; }
set -eu
here=$(cd "$(dirname "$0")" && pwd)
oracle=${ORACLE_OUT:-$(dirname "$here")/target/oracle}/oracle
if ! command -v byacc >/dev/null || ! command -v bison >/dev/null; then
    apt-get update
    apt-get install -y byacc bison
fi
exec "$oracle" yacc "${1:-0}" "${2:-3000}"
