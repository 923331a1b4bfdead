#!/usr/bin/env bash
# Fetches the real grammars of the development set from Debian's source packages, and compares the command with bison on each.
set -euo pipefail

usage() {
    cat <<'TEXT'
Usage: oracle/real.sh [--folder FOLDER] [--fetch] [--again] [--bison] [--lr1] [--times] [--program PATH]
       oracle/real.sh --help | --list

Fetches the yacc files of 20 Debian source packages (40 grammars) into FOLDER, as FOLDER/NAME.y, and then
compares `lihvemur` with bison on each of them (oracle/real.py). The grammars are other people's: they are
never committed, so FOLDER lies outside the repository.

  --folder FOLDER   where the grammars are put
                    (default: ${XDG_CACHE_HOME:-$HOME/.cache}/lihvemur-real)
  --fetch           fetch alone, compare nothing
  --again           unpack files that are there already once more
  --bison           passed on to real.py: ask bison itself too, and compare the conflicts one by one
  --lr1             passed on to real.py: compare canonical LR(1) states too
  --times           compare, then print seconds and megabytes of both, best of three
  --program PATH    passed on to real.py: the command's binary
                    (default: crates/lihvemur/out/lihvemur)
  --list            the grammars with package, file and step, and end
  --help            this text

What it does, in this order:
 1. Makes deb-src lines from the machine's own apt sources (/etc/apt/sources.list, /etc/apt/sources.list.d)
    in FOLDER/.apt, and runs `apt-get update` on those alone. The machine's lists stay as they are.
 2. For each package `apt-get source --download-only`: the version of oracle/real.tsv where the archive has
    it, else the newest that can be had.
 3. Unpacks the grammar files alone, and applies what Debian's patches change in them.
 4. Applies to two files the step that the package's own build applies (--list says which).
 5. Writes FOLDER/sources.tsv: name, package, version, file, sha256, step.
A package that can't be had is said, and the run goes on. Status: 0 all fetched and all equal, 1 a difference
or a package that can't be had, 4 usage.
TEXT
}

# NAME PACKAGE FILE [STEP]: the file within the package, and what its build does to it before yacc reads it.
grammars() {
    cat <<'TEXT'
bash               bash           parse.y
gawk               gawk           awkgram.y
gawk_command       gawk           command.y
bc                 bc             bc/bc.y
flex               flex           src/parse.y
jq                 jq             src/parser.y
perl               perl           perly.y
php                php8.2         Zend/zend_language_parser.y
php_ini            php8.2         Zend/zend_ini_parser.y
php_json           php8.2         ext/json/json_parser.y
php_phpdbg         php8.2         sapi/phpdbg/phpdbg_parser.y
ruby               ruby3.1        parse.y                             ruby_tokens
postgresql         postgresql-15  src/backend/parser/gram.y
plpgsql            postgresql-15  src/pl/plpgsql/src/pl_gram.y
pg_bootstrap       postgresql-15  src/backend/bootstrap/bootparse.y
pg_replication     postgresql-15  src/backend/replication/repl_gram.y
pg_jsonpath        postgresql-15  src/backend/utils/adt/jsonpath_gram.y
pg_cube            postgresql-15  contrib/cube/cubeparse.y
pg_bench_expr      postgresql-15  src/bin/pgbench/exprparse.y
graphviz_dot       graphviz       lib/cgraph/grammar.y
graphviz_gml       graphviz       cmd/tools/gmlparse.y
graphviz_html      graphviz       lib/common/htmlparse.y
graphviz_expr      graphviz       lib/expr/exparse.y
graphviz_lefty     graphviz       cmd/lefty/dot2l/dotparse.y
libpcap            libpcap        grammar.y.in                        reentrant
bison              bison          src/parse-gram.y
bison_cxx_types    bison          examples/c/glr/c++-types.y
gettext_plural     gettext        gettext-runtime/intl/plural.y
gettext_po         gettext        gettext-tools/src/po-gram-gen.y
iproute2_ss        iproute2       misc/ssfilter.y
iproute2_ematch    iproute2       tc/emp_ematch.y
gdb_c              gdb            gdb/c-exp.y
gdb_ada            gdb            gdb/ada-exp.y
ld                 binutils       ld/ldgram.y
windres_rc         binutils       binutils/rcparse.y
windmc             binutils       binutils/mcparse.y
byacc_grammar      byacc          test/grammar.y
octave             octave         libinterp/parse-tree/oct-parse.yy
cdecl              cdecl          cdgram.y
swig               swig           Source/CParse/parser.y
TEXT
}

steps() {
    cat <<'TEXT'

Steps (each the one that the package's own build applies before yacc reads the file):
  ruby_tokens   tool/id2token.rb: on lines that begin with %token, RUBY_TOKEN(NAME) becomes the token's
                number, counted from 128 in the order of `token_ops` in defs/id.def
  reentrant     config.status: @REENTRANT_PARSER@ becomes `%define api.pure`, as configure sets it for bison
TEXT
}

here=$(cd "$(dirname "$0")" && pwd)
folder=${XDG_CACHE_HOME:-$HOME/.cache}/lihvemur-real
fetch_alone=false
again=false
has_times=false
passed_on=()

while [ $# -gt 0 ]; do
    case $1 in
        --help) usage; exit 0 ;;
        --list) grammars; steps; exit 0 ;;
        --folder | --program)
            [ $# -ge 2 ] || { echo "real.sh: $1 wants a value; see --help" >&2; exit 4; }
            if [ "$1" = --folder ]; then folder=$2; else passed_on+=("$1" "$2"); fi
            shift 2 ;;
        --fetch) fetch_alone=true; shift ;;
        --again) again=true; shift ;;
        --bison | --lr1) passed_on+=("$1"); shift ;;
        --times) has_times=true; shift ;;
        *) echo "real.sh: unknown argument '$1'; see --help" >&2; exit 4 ;;
    esac
done

for tool in apt-get apt-cache tar patch sha256sum python3; do
    command -v "$tool" >/dev/null || { echo "real.sh: '$tool' is needed and is not there (this runs on Debian and its like)" >&2; exit 4; }
done
mkdir -p "$folder"
folder=$(cd "$folder" && pwd)
if repository=$(git -C "$folder" rev-parse --show-toplevel 2>/dev/null) && [ "$repository" = "$(dirname "$here")" ]; then
    echo "real.sh: $folder lies within the repository, where the grammars must not be" >&2
    exit 4
fi
apt=$folder/.apt
mkdir -p "$apt/sources" "$apt/lists/partial" "$apt/cache/archives/partial" "$apt/packages"
work=$(mktemp -d)
trap 'rm -rf "$work"' EXIT

apt_options=(-q -o Dir::Etc::SourceList="$apt/sources.list" -o Dir::Etc::SourceParts="$apt/sources"
    -o Dir::State::Lists="$apt/lists" -o Dir::Cache="$apt/cache" -o Dir::Etc::Trusted=/etc/apt/trusted.gpg)
[ "$(id -u)" -ne 0 ] || apt_options+=(-o APT::Sandbox::User=root)

# deb-src lines from the machine's own sources: one-line files and those in paragraphs.
make_sources() {
    rm -f "$apt/sources.list" "$apt"/sources/*
    : >"$apt/sources.list"
    local file
    for file in /etc/apt/sources.list /etc/apt/sources.list.d/*.list; do
        [ -f "$file" ] || continue
        sed -n 's/^[[:space:]]*deb[[:space:]]/deb-src /p' "$file" >>"$apt/sources.list"
    done
    for file in /etc/apt/sources.list.d/*.sources; do
        [ -f "$file" ] || continue
        sed 's/^Types:.*/Types: deb-src/' "$file" >"$apt/sources/$(basename "$file")"
    done
}

# The versions of a package that apt knows: that of the stored table first, the others from the newest.
versions() { # package
    local known stored=
    known=$(apt-cache "${apt_options[@]}" showsrc "$1" 2>/dev/null | awk -v package="$1" '
        $1 == "Package:" { mine = $2 == package } $1 == "Version:" && mine { print $2 }' | sort -Vru)
    [ ! -f "$here/real.tsv" ] || stored=$(awk -F '\t' -v package="$1" '$2 == package { sub(/ .*/, "", $3); print $3; exit }' "$here/real.tsv")
    if [ -n "$stored" ] && grep -qxF -e "$stored" <<<"$known"; then echo "$stored"; fi
    [ -z "$known" ] || grep -vxF -e "${stored:-none}" <<<"$known" || true
}

# The upstream part of a version, as it stands in the names of the files.
upstream_of() { # version
    local version=${1#*:}
    echo "${version%-*}"
}

original_of() { # package, version
    find "$apt/packages" -name "$1_$(upstream_of "$2").orig.tar.*" ! -name '*.asc' | head -n 1
}

has_changes() { # package, version
    [ -f "$apt/packages/$1_${2#*:}.debian.tar.xz" ] || [ -f "$apt/packages/$1_${2#*:}.diff.gz" ]
}

# Debian's changes as one stream of patches, in the order in which they are applied.
changes_of() { # package, version
    local version=${2#*:} file name
    file=$apt/packages/$1_$version.diff.gz
    if [ -f "$file" ]; then
        gzip -dc "$file"
        return
    fi
    file=$apt/packages/$1_$version.debian.tar.xz
    rm -rf "$work/debian"
    tar -xJf "$file" -C "$work" debian/patches 2>/dev/null || return 0
    [ -f "$work/debian/patches/series" ] || return 0
    sed 's/[[:space:]]*#.*//; s/[[:space:]].*//' "$work/debian/patches/series" | while read -r name; do
        [ -z "$name" ] || cat "$work/debian/patches/$name"
    done
}

# Of a stream of patches those of one file, which is named without the first folder.
patches_of() { # file
    awk -v wanted="$1" '
        function path(line) { sub(/^(---|\+\+\+) /, "", line); sub(/[\t\r].*/, "", line); sub(/ +$/, "", line); sub(/^[^\/]*\//, "", line); return line }
        /^--- / { held = $0; shown = 0; next }
        /^\+\+\+ / && held != "" { shown = path($0) == wanted; if (shown) { print held; print } held = ""; next }
        { held = "" }
        /^(diff |Index: |From [0-9a-f]+ )/ { shown = 0 }
        shown'
}

ruby_tokens() { # folder of the package, file
    awk '/^token_ops = %\[/ { on = 1; next } on && /^\]/ { exit }
        on { token = $3 != "" ? $3 : length($2) > 1 ? $1 : ""; if (token != "") print token, 128 + count++ }' "$1/defs/id.def" >"$work/numbers"
    awk 'NR == FNR { number[$1] = $2; next }
        /^%token/ { while (match($0, /RUBY_TOKEN\([A-Z0-9_]+\)/)) $0 = substr($0, 1, RSTART - 1) number[substr($0, RSTART + 11, RLENGTH - 12)] substr($0, RSTART + RLENGTH) }
        { print }' "$work/numbers" "$2"
}

reentrant() { # folder of the package, file
    sed 's/^@REENTRANT_PARSER@$/%define api.pure/' "$2"
}

# Fetches one package; sets `version` and `changed` (whether Debian's changes came too).
fetch() { # package
    local candidate
    version=
    changed=true
    while read -r candidate; do
        if (cd "$apt/packages" && apt-get "${apt_options[@]}" source --download-only "$1=$candidate" >"$work/log" 2>&1); then
            version=$candidate
            return 0
        fi
        echo "  $1 $candidate: $(grep -m 1 '^E:' "$work/log" || echo 'not fetched')" >&2
    done < <(versions "$1")
    while read -r candidate; do
        if [ -n "$(original_of "$1" "$candidate")" ]; then
            version=$candidate
            has_changes "$1" "$candidate" || changed=false
            return 0
        fi
    done < <(versions "$1")
    return 1
}

missing=0
miss() { # what, why
    echo "not had: $1: $2" >&2
    missing=$((missing + 1))
}

# Unpacks the grammars of one package.
unpack() { # package
    local package=$1 tree=$work/tree original name file step patterns=()
    original=$(original_of "$package" "$version")
    rm -rf "$tree"
    mkdir -p "$tree"
    while read -r name _ file step; do patterns+=("*/$file"); done < <(grammars | awk -v p="$package" '$2 == p')
    [ "$package" != ruby3.1 ] || patterns+=('*/defs/id.def')
    tar -xf "$original" -C "$tree" --strip-components=1 --no-wildcards-match-slash --wildcards "${patterns[@]}" 2>/dev/null || true
    : >"$work/changes"
    if $changed; then
        changes_of "$package" "$version" >"$work/changes"
    else
        echo "  $package $version: Debian's changes can't be had, the original files are taken" >&2
        version="$version without Debian's changes"
    fi
    while read -r name _ file step; do
        if [ ! -f "$tree/$file" ]; then
            miss "$name" "$file is not in $(basename "$original")"
            continue
        fi
        patches_of "$file" <"$work/changes" >"$work/patch"
        if [ -s "$work/patch" ] && ! patch -s -f -d "$tree" "$file" "$work/patch" >"$work/log"; then
            miss "$name" "Debian's patches do not apply: $(head -n 1 "$work/log")"
            continue
        fi
        if [ -n "$step" ]; then
            "$step" "$tree" "$tree/$file" >"$work/made"
            mv "$work/made" "$tree/$file"
        fi
        mv "$tree/$file" "$folder/$name.y"
        printf '%s\t%s\t%s\t%s\t%s\t%s\n' "$name" "$package" "$version" "$file" "$(sha256sum <"$folder/$name.y" | cut -d ' ' -f 1)" "${step:--}" >>"$work/sources"
    done < <(grammars | awk -v p="$package" '$2 == p')
}

stands() { # package: whether all its grammars are there as they were fetched
    local name count=0
    [ -f "$folder/sources.tsv" ] || return 1
    while read -r name _; do
        [ "$(awk -F '\t' -v n="$name" '$1 == n { print $5 }' "$folder/sources.tsv")" = "$(sha256sum <"$folder/$name.y" 2>/dev/null | cut -d ' ' -f 1)" ] || return 1
    done < <(grammars | awk -v p="$1" '$2 == p')
}

: >"$work/sources"
updated=false
for package in $(grammars | awk '!seen[$2]++ { print $2 }'); do
    if ! $again && stands "$package"; then
        while read -r name _; do awk -F '\t' -v n="$name" '$1 == n' "$folder/sources.tsv" >>"$work/sources"; done < <(grammars | awk -v p="$package" '$2 == p')
        continue
    fi
    if ! $updated; then
        make_sources
        apt-get "${apt_options[@]}" update >"$work/log" 2>&1 || { grep -E '^[EW]:' "$work/log" >&2; echo "real.sh: apt-get update failed; what is known is used" >&2; }
        updated=true
    fi
    if fetch "$package"; then
        unpack "$package"
        echo "fetched: $package $version"
    else
        miss "$package" 'no version can be fetched'
    fi
done
cp "$work/sources" "$folder/sources.tsv"
echo "$(wc -l <"$folder/sources.tsv") grammars stand in $folder"
[ "$missing" -eq 0 ] || echo "$missing not had, as said above" >&2

if ! $fetch_alone; then
    python3 "$here/real.py" --folder "$folder" "${passed_on[@]}" || missing=$((missing + 1))
    if $has_times; then
        python3 "$here/real.py" --folder "$folder" "${passed_on[@]}" --times || missing=$((missing + 1))
    fi
fi
[ "$missing" -eq 0 ]
