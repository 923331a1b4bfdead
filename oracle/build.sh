#!/bin/sh
# Builds the Rust that the port is compared with (oracle/README.md).
usage() {
    cat <<'HELP'
usage: LALRPOP_SRC=FOLDER sh oracle/build.sh

Builds the Rust that the library is compared with, and the driver that compares them (oracle/README.md).

  LALRPOP_SRC   the folder that holds lalrpop/src (must be given)
  ORACLE_OUT    where the build copy goes (default: target/oracle at the top)
  CRATES_DIR    Debian's crate sources (default: /usr/share/cargo/registry)
  PORT_LIB      a folder with the library's archive, liblihvemur.a (optional)
  JOBS          cargo jobs (default: 1)
HELP
}
case ${1-} in
    '') ;;
    -h | --help) usage; exit 0 ;;
    *) echo "build.sh: takes no argument" >&2; usage >&2; exit 2 ;;
esac
set -eu

here=$(cd "$(dirname "$0")" && pwd)
out=${ORACLE_OUT:-$(dirname "$here")/target/oracle}
crates=${CRATES_DIR:-/usr/share/cargo/registry}

if [ -z "${LALRPOP_SRC:-}" ]; then
    echo "Set LALRPOP_SRC to the folder that holds lalrpop/src (lalrpop/lalrpop, commit 8abaee08d0)." >&2
    exit 2
fi
if [ ! -d "$LALRPOP_SRC/lalrpop/src" ]; then
    echo "No lalrpop/src in $LALRPOP_SRC." >&2
    exit 2
fi
src=$(cd "$LALRPOP_SRC" && pwd)

# The published bytes, each file.
if ! (cd "$src" && sha256sum --check --strict --quiet "$here/sources.sha256"); then
    echo "The sources are not the published ones." >&2
    exit 1
fi
echo "sources: $(grep -c . "$here/sources.sha256") files as published"

# The crates that the modules use.
have() {
    for c in petgraph itertools bit-set string_cache; do
        ls -d "$crates/$c"-[0-9]* >/dev/null 2>&1 || return 1
    done
}
if ! have; then
    echo "crates: installing Debian's packages"
    apt-get update
    apt-get install -y librust-petgraph-dev librust-itertools-dev librust-bit-set-dev \
        librust-string-cache-dev
fi
have || { echo "The crates are not in $crates." >&2; exit 1; }

# The build copy: published modules, shims beside them, child modules appended.
mkdir -p "$out"
out=$(cd "$out" && pwd)
project=$out/project
copy=$out/stage
rm -rf "$copy"
mkdir -p "$copy/lalrpop/src" "$copy/.cargo"
cp -R "$here/shims/." "$copy/lalrpop/src/"
while read -r f; do
    mkdir -p "$copy/lalrpop/src/$(dirname "$f")"
    if [ -e "$copy/lalrpop/src/$f" ]; then
        echo "A shim stands in the place of $f." >&2
        exit 1
    fi
    cp "$src/lalrpop/src/$f" "$copy/lalrpop/src/$f"
done <"$here/modules"
while read -r f; do
    printf '\npub mod oracle;\n' >>"$copy/lalrpop/src/$f"
done <"$here/children/list"
(cd "$here/children" && find . -name '*.rs') | while read -r f; do
    cp "$here/children/$f" "$copy/lalrpop/src/$f"
done
# Every module begins with its published bytes.
while read -r f; do
    cmp -s -n "$(wc -c <"$src/lalrpop/src/$f")" "$src/lalrpop/src/$f" "$copy/lalrpop/src/$f" || {
        echo "The build copy of $f differs." >&2
        exit 1
    }
done <"$here/modules"
cp -R "$here/wrappers" "$here/driver" "$copy/"

cat >"$copy/lalrpop/Cargo.toml" <<'TOML'
[package]
name = "lalrpop"
version = "0.0.0"
edition = "2024"

[dependencies]
ascii_canvas = { package = "ascii-canvas-shim", path = "../wrappers/ascii-canvas" }
bit_set = { package = "bit-set-wrapper", path = "../wrappers/bit-set" }
string_cache = { package = "string-cache-wrapper", path = "../wrappers/string-cache" }
itertools = { version = "*", default-features = false, features = ["use_std"] }
petgraph = { version = "*", default-features = false }
TOML
cat >"$copy/Cargo.toml" <<'TOML'
[workspace]
resolver = "2"
members = ["driver"]

[profile.release]
opt-level = 3
codegen-units = 1
TOML
cat >"$copy/.cargo/config.toml" <<TOML
[source.crates-io]
replace-with = "debian"

[source.debian]
directory = "$crates"

[build]
target-dir = "$out/cargo"
TOML

# Only what changed goes on to cargo.
mkdir -p "$project"
(cd "$copy" && find . -type f) | while read -r f; do
    cmp -s "$copy/$f" "$project/$f" || {
        mkdir -p "$project/$(dirname "$f")"
        cp "$copy/$f" "$project/$f"
    }
done
(cd "$project" && find . -type f ! -name Cargo.lock) | while read -r f; do
    [ -e "$copy/$f" ] || rm "$project/$f"
done
rm -rf "$copy"

features=
if [ -n "${PORT_LIB:-}" ]; then
    PORT_LIB=$(cd "$PORT_LIB" && pwd)
    export PORT_LIB
    features="--features port"
fi
# shellcheck disable=SC2086
(cd "$project" && cargo build --release --offline -j "${JOBS:-1}" $features)
cp "$out/cargo/release/oracle" "$out/oracle"
echo "built: $out/oracle"
