#!/usr/bin/env bash
# Builds the static library for C, the exports of crates/lihvemur_c.
set -euo pipefail

usage() {
    cat <<'HELP'
usage: ./library.sh [--after-ci] [FOLDER]

Writes FOLDER/liblihvemur.a (default: target/c), and proves what has changed since it was last proved.
include/lihvemur.h declares its functions, docs/LIBRARY.md says how to use them.

  --after-ci   take the libraries below as `rt ci` left them just now, and prove the exports alone again
HELP
}

taken=no
case ${1:-} in
    -h | --help) usage; exit 0 ;;
    --after-ci) taken=yes; shift ;;
esac
case ${1:-} in
    -*) echo "library.sh: there is no option '$1'" >&2; usage >&2; exit 2 ;;
esac
if [ $# -gt 1 ]; then
    echo "library.sh: one folder at most" >&2
    usage >&2
    exit 2
fi
mkdir -p "${1:-$(dirname "$0")/target/c}"
to=$(cd "${1:-$(dirname "$0")/target/c}" && pwd)/liblihvemur.a
cd "$(dirname "$0")"
top=$PWD
below=$(sed -n 's/#.*//; s/^lihvemur_c staticlib: *//p' crates.txt)
for crate in $below; do
    rlib=crates/$crate/out/rlib
    # a mark of `rt lib`, or no library: then all is built that is not as its source
    [ -d "$rlib/$crate.rlib" ] && [ ! -e "$rlib/stamp" ] || taken=no
done
cd crates/lihvemur_c
if [ "$taken" = no ]; then
    rt lib
    cp out/liblihvemur_c.a "$to"
    exit 0
fi
kit=$(dirname "$(dirname "$(readlink -f "$(command -v rt)")")")
words=()
for crate in $below; do
    words+=(--extern "$crate=$top/crates/$crate/out/rlib/$crate.rlib")
done
# those below them, which it does not name
for rlib in "$top"/crates/*/out/rlib; do
    words+=(-L "dependency=$rlib")
done
"$kit/bin/rattle" build --crate-name lihvemur_c src/lib.rt --extern std="$kit/rlibs/std.rlib" -L dependency="$kit/rlibs" "${words[@]}" \
    --antt-project "$kit/rattle/logic/antt-project.json" --logic-built "$kit/logic_built" --links lihvemur_c= --crate-type staticlib --toolchain "$kit/toolchain" -o "$to"
