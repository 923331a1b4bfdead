#!/bin/sh
# Each stored edit (crates/NAME/must-fail, crates/NAME/edits) can be applied: every 'old:' text stands exactly once in its file, as `rt must-fail` reads it. Proves nothing.
case ${1-} in
    '') ;;
    -h | --help)
        echo "usage: tests/edits-stand.sh"
        echo "Shows that each stored edit can be applied: its old texts stand exactly once in their files."
        exit 0
        ;;
    *)
        echo "edits-stand.sh: takes no argument" >&2
        exit 2
        ;;
esac
cd "$(dirname "$0")/.." || exit 1
find crates -name '*.edit' | sort | awk '
    function fail(m) { print edit ": " m; failed++; bad = 1 }

    # The file as it stands, read once.
    function stored(f,    text, line) {
        if (!(f in known)) {
            text = ""
            while ((getline line < f) > 0) text = text line "\n"
            close(f)
            known[f] = text
        }
        return known[f]
    }

    # One replacement; later ones of the edit see what it left.
    function replace(f, old, new,    whole, at, rest) {
        if (f !~ /^(src|specs|proofs)\// || ("/" f "/") ~ /\/\.\.\//) { fail("its file is not under src/, specs/ or proofs/"); return }
        whole = (f in edited) ? edited[f] : stored(crate "/" f)
        if (whole == "") { fail("there is no " f); return }
        at = old == "" ? 0 : index(whole, old)
        if (!at) { fail("its old text is not in " f); return }
        rest = substr(whole, at + length(old))
        if (index(rest, old)) { fail("its old text stands in " f " more than once"); return }
        if (old == new) { fail("it changes nothing"); return }
        edited[f] = substr(whole, 1, at - 1) new rest
        pairs++
    }

    {
        edit = $0; f = ""; old = ""; pairs = 0; bad = 0; total++
        split("", edited)
        crate = edit; sub(/\/[^\/]*\/[^\/]*$/, "", crate)
        while (!bad && (getline line < edit) > 0) {
            if (line ~ /^file: /) f = substr(line, 7)
            else if (line ~ /^old: /) old = substr(line, 6)
            else if (line ~ /^new:/) {
                new = substr(line, 5); sub(/^ /, "", new)
                replace(f, old, new)
                old = ""
            }
        }
        close(edit)
        if (!bad && pairs == 0) fail("it has no pair of old and new")
    }
    END {
        print total - failed " of " total " stored edits stand"
        exit failed > 0 || total == 0
    }'
