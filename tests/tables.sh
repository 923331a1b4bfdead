#!/bin/sh
# Tries the built programs yacc, unyacc, parse_words, states, explain, respell, print_table and compact on the tables of tables/ and on inputs made here, and compares what they write.
# Where an expected output comes from: TABLE.out is what the Rust's explaining program writes for that table (`oracle explain`, oracle/README.md),
# and so is every expected line below that is not a refusal; the refusals are those of docs/RULES.md, applied by hand where they stand.
# GRAMMAR.out is what that program writes for the states and conflicts of the oracle's own reader of grammars, YACC.y.out what it writes for those of `yacc | states`, which the oracle's readers are compared with elsewhere; .err is what `explain.sh` says.
case ${1-} in
    '') ;;
    -h | --help)
        echo "usage: tests/tables.sh"
        echo "Compares what the library's programs write for the files of tables/ with what is stored there."
        echo "A program that is not built is proved and built first, which takes minutes."
        exit 0
        ;;
    *)
        echo "tables.sh: takes no argument" >&2
        exit 2
        ;;
esac
cd "$(dirname "$0")/.." || exit 1
work=$(mktemp -d) || exit 1
trap 'rm -rf "$work"' EXIT
failed=0

for p in yacc unyacc parse_words states explain respell print_table compact; do
    [ ! -x "crates/$p/out/$p" ] || continue
    echo "tables.sh: proving and building the program $p"
    (cd "crates/$p" && rt run </dev/null >/dev/null) || [ -x "crates/$p/out/$p" ] || exit 1
done

verdict() { # name, status
    if [ "$2" -eq 0 ]; then
        echo "same: $1"
    else
        echo "differs: $1"
        failed=1
    fi
}

# Words of standard input are explained as the file `expected` says, and nothing is said on standard error.
explains() { # name
    crates/explain/out/explain <"$work/input" >"$work/output" 2>"$work/said"
    cmp -s "$work/output" "$work/expected" && [ ! -s "$work/said" ]
    verdict "$1" $?
}

# Text typed as a table, as words.
typed() {
    crates/parse_words/out/parse_words >"$work/input" 2>"$work/unread" && [ ! -s "$work/unread" ]
}

# Table B (docs/RULES.md), its 96 words; a word may be put at a place.
table_b() { # place, word
    sed 's/#.*//' tables/table_b.txt | awk -v at="${1:--2}" -v word="${2:-0}" '
        { for (i = 1; i <= NF; i++) if (k < 97) { print (k == at + 1 ? word : $i); k++ } }'
}

for t in tables/*.txt; do
    typed <"$t"
    cp "${t%.txt}.out" "$work/expected"
    explains "$t"
done

# Input through a program to output, nothing being said.
through() { # program
    "crates/$1/out/$1" <"$work/input" >"$work/output" 2>"$work/said" && [ ! -s "$work/said" ]
}
# Written afresh, a table is explained as before, and written again it stays; as text it is read back word for word, its conflicts too.
for t in tables/*.txt; do
    typed <"$t"
    cp "$work/input" "$work/given"
    through print_table
    verdict "$t as text" $?
    crates/parse_words/out/parse_words <"$work/output" | cmp -s - "$work/given"
    verdict "$t as text, read back" $?
    through respell
    verdict "$t written afresh" $?
    cp "$work/output" "$work/input"
    through respell && cmp -s "$work/input" "$work/output"
    verdict "$t written twice" $?
    cp "${t%.txt}.out" "$work/expected"
    explains "$t written afresh, explained"
done
# Table B with its two symbol chains exchanged and an unreached record between them: the same text, once written afresh.
{
    echo '25  1 2 4 2  6 0 0 0  13 21 0 0  15 22 0 0  16 23 0 0  19 24 0 0  7 10 0 9  0 8 12 13  0 1 1 0  9 9 9 9  11 0 0 0  12 1 0 0  0 0 0 0'
    echo '14 0 0 0  0 1 0 0  0 0 1 0  17 0 2 0  18 0 0 0  0 1 0 0  20 0 3 0  0 0 1 0  0 0 0 1  0 1 0 2  0 0 0 3  0 1 0 2  3 0 0 0 0'
} | typed
through respell
crates/print_table/out/print_table <"$work/output" >"$work/expected"
typed <tables/table_b.txt
through print_table
cmp -s "$work/output" "$work/expected"
verdict "two layouts of table B, one text" $?

# Refused: a line on standard error and nothing on standard output.
refuses() { # program, refusal and place
    "crates/$1/out/$1" <"$work/input" >"$work/output" 2>"$work/said"
    echo "refused $2" | cmp -s - "$work/said" && [ ! -s "$work/output" ]
    verdict "$1 refused $2" $?
}
table_b 48 12 | typed
for p in respell print_table compact states unyacc; do refuses "$p" '3 12'; done
: >"$work/input"
for p in respell print_table compact states unyacc; do refuses "$p" '1 0'; done
# states already given; a start production out of range, and none
{ table_b; echo 0; } | typed
refuses states '18 0'
for start in 3 ''; do
    { sed '$d' tables/sum.grammar; echo "$start"; } | typed
    refuses states '18 0'
done
# 128 states that share 8,062 edges: the spelling would have a million records
{ echo 8192; awk 'BEGIN { print "1 1 128 0  0 0 0 0"; for (s = 0; s < 128; s++) print "0 130 0 0"
    for (r = 130; r < 8192; r++) print (r < 8191 ? r + 1 : 0), 1, 0, 0 }'; } | typed
refuses respell '17 0'

# A grammar is explained from its text alone; where its states are not built `explain.sh` fails with the refusal, and where it has no conflicts it says so.
for g in tables/*.grammar tables/*.y; do
    : >"$work/expected"
    [ ! -f "$g.err" ] || cp "$g.err" "$work/expected"
    ! grep -q refused "$work/expected"
    fails=$?
    ./explain.sh "$g" >"$work/output" 2>"$work/said"
    [ $? -eq "$fails" ] && cmp -s "$work/output" "$g.out" && cmp -s "$work/said" "$work/expected"
    verdict "$g" $?
done
# The table that is built is its own spelling and has nothing to take back; the rest is passed on behind the conflicts.
for g in dangling_else sum optional_part at_the_end levels; do
    typed <"tables/$g.grammar"
    through states
    verdict "$g, states" $?
    cp "$work/output" "$work/input"
    through respell && cmp -s "$work/input" "$work/output"
    verdict "$g, states, written afresh: its own words" $?
    through compact && cmp -s "$work/input" "$work/output"
    verdict "$g, states, compact: its own words" $?
done
# G = S, S = A and one of 63 terminals, and so many empty productions of A: with 46 of them there are 65,205 conflicts in state 0, with 47 more than there is room for.
empties() { # how many
    awk -v k="$1" 'BEGIN {
        first = 5; symbols = first + 64 + k
        print symbols + 127
        print 3, 63, 1, 64 + k
        print first, 0, 0, 0
        print first + 1, 0, 0, 0
        print first + 64, 0, 0, 0
        print 0, 0, 0, 0
        print 0, symbols, 0, 0
        for (i = 1; i <= 63; i++) print (i < 63 ? first + i + 1 : 0), symbols + 2 * i - 1, 0, 0
        for (j = 1; j <= k; j++) print (j < k ? first + 64 + j : 0), 0, 0, 0
        print 0, 0, 1, 0
        for (i = 1; i <= 63; i++) { print symbols + 2 * i, 0, 2, 0; print 0, 1, i - 1, 0 }
        print 0
    }'
}
awk 'BEGIN { for (p = 64; p < 110; p++) for (q = p + 1; q < 110; q++) for (t = 0; t < 63; t++) print 0, p, 1, q, t }' | crates/parse_words/out/parse_words >"$work/expected"
empties 46 | typed
through states && tail -c "$(wc -c <"$work/expected")" "$work/output" | cmp -s - "$work/expected"
verdict "65,205 conflicts" $?
empties 47 | typed
refuses states '17 0'
{ cat tables/sum.grammar; echo '4 1 0 0 0'; } | typed
through states
cp "$work/output" "$work/input"
{ cat tables/sum.grammar.out; sed 's/^1 /2 /' tables/sum.grammar.out; } >"$work/expected"
explains "a conflict typed behind a grammar comes after those found"

# A grammar written as a yacc file and read again is the same but for its spans, and written again the same file; the start production is its first.
for g in dangling_else sum optional_part at_the_end levels brackets; do
    typed <"tables/$g.grammar"
    through unyacc
    verdict "$g, unyacc" $?
    cp "$work/output" "$work/file"
    sed 's/#.*//' "tables/$g.grammar" | awk '
        { for (i = 1; i <= NF; i++) w[n++] = $i }
        END { first = 1 + w[1] + w[3]; for (i = 0; i < n; i++) { r = int((i - 1) / 4); print (i > 0 && r >= first && r < first + w[4] && (i - 1) % 4 > 1 ? "span" : w[i]) } }' >"$work/expected"
    cp "$work/file" "$work/input"
    through yacc
    cp "$work/output" "$work/input"
    od -An -v -tu2 -w2 "$work/input" | awk '
        { w[n++] = $1 }
        END { first = 1 + w[1] + w[3]; for (i = 0; i < n; i++) { r = int((i - 1) / 4); print (i > 0 && r >= first && r < first + w[4] && (i - 1) % 4 > 1 ? "span" : w[i]) } }' | cmp -s - "$work/expected"
    verdict "$g, unyacc, yacc: its own words but for the spans" $?
    through unyacc && cmp -s "$work/file" "$work/output"
    verdict "$g, written twice" $?
done
# Of a first nonterminal that stands nowhere else and has one production no production is added; of any other, one behind all others, until no number is left.
rules() { # how many rules of one nonterminal each, text in front of the last `;`
    awk -v n="$1" -v last="$2" 'BEGIN { print "%%"; for (k = 0; k < n; k++) printf "a%d : %s ;\n", k, (k == n - 1 ? last : "") }'
}
rules 32 '' >"$work/input"
through yacc && [ "$(od -An -tu2 -j2 -N8 "$work/output" | tr -s ' ')" = ' 32 0 1 32' ]
verdict "32 nonterminals, no production added" $?
rules 31 'a0' >"$work/input"
through yacc && [ "$(od -An -tu2 -j2 -N8 "$work/output" | tr -s ' ')" = ' 32 0 1 32' ]
verdict "31 nonterminals, one added" $?
rules 32 'a0' >"$work/input"
refuses yacc '2 0'
rules 33 '' >"$work/input"
refuses yacc '2 0'
# Where a text leaves the grammar: line and column of the byte.
strays() { # refusal, line, column, what is wrong
    crates/yacc/out/yacc <"$work/input" >"$work/output" 2>"$work/said"
    printf 'refused %s 0\nline %s column %s: %s\n' "$1" "$2" "$3" "$4" | cmp -s - "$work/said" && [ ! -s "$work/output" ]
    verdict "yacc refused $1 at line $2 column $3" $?
}
printf '%%%%\na : b' >"$work/input"
strays 20 2 6 'the text ends too early'
printf '%%%%\na : b ;\n%%%%\n' >"$work/input"
strays 20 3 1 'cannot read this'
printf '%%token a\r\n%%%%\na : ;\n' >"$work/input"
strays 20 1 9 'cannot read this'
printf '%%start b\n%%%%\na : ;\n' >"$work/input"
strays 21 1 8 'cannot use this name'
printf '%%token b\n%%%%\na : c ;\nb : ;\n' >"$work/input"
strays 21 3 5 'cannot use this name'
{ printf '%%%%\na : ;\n'; head -c 65527 /dev/zero | tr '\0' ' '; } >"$work/input"
strays 20 3 65527 'the text is too long'
{ printf '%%%%\na : ;\n'; head -c 65526 /dev/zero | tr '\0' ' '; } >"$work/input"
through yacc
verdict "65,535 bytes" $?

# With unused records taken back the same is explained, from a table that has none and from one with records between and behind its own.
compacted() { # name
    through compact
    verdict "$1, compact" $?
    cp "$work/output" "$work/input"
    explains "$1, compact, explained"
}
# A table of words, each loose record before an unused one.
spread() {
    sed 's/#.*//' "$1" | awk '
        { for (i = 1; i <= NF; i++) w[n++] = $i }
        function to(x) { return x == 0 ? 0 : loose + 2 * (x - loose) }
        END {
            first = 1 + w[1]; second = first + w[3]; loose = second + w[4]
            print 2 * w[0] - loose
            for (r = 0; r < w[0]; r++) {
                a = w[1 + 4 * r]; b = w[2 + 4 * r]
                if (r >= first && r < second || r >= loose) a = to(a)
                if (r >= first && r < loose) b = to(b)
                print a, b, w[3 + 4 * r], w[4 + 4 * r]
                if (r >= loose) print 1, 2, 3, 4
            }
            for (i = 1 + 4 * w[0]; i < n; i++) print w[i]
        }'
}
for t in tables/*.txt; do
    cp "${t%.txt}.out" "$work/expected"
    typed <"$t"
    cp "$work/input" "$work/typed"
    compacted "$t"
    spread "$t" | typed
    compacted "$t, spread"
    cmp -s "$work/input" "$work/typed"
    verdict "$t, spread, compact: its own words" $?
done

# Bad tables: the inputs of refusals 2, 3, 4 and 7 in docs/RULES.md; a place is record * 4 + word.
refused_table() { # refusal, place, changed place, word
    table_b "$3" "$4" | typed
    echo "0 refused $1 $2" >"$work/expected"
    explains "table B, word $3 = $4"
}
echo '1 0 0 1 0' | typed
echo '0 refused 2 0' >"$work/expected"
explains "one record 0 0 1 0"
refused_table 3 12 48 12
refused_table 4 7 24 0
refused_table 7 18 74 4

# Inputs that end before their table does, and counts that no table has: refusal 1.
echo '0 refused 1 0' >"$work/expected"
: >"$work/input"
explains "no input"
printf '\030' >"$work/input"
explains "one byte"
table_b | typed
whole=$(wc -c <"$work/input")
cp "$work/input" "$work/b"
for n in 2 3 "$((whole - 1))"; do
    head -c "$n" "$work/b" >"$work/input"
    explains "the first $n bytes of table B"
done
echo 0 | typed
explains "no record"
{ echo 8193; awk 'BEGIN { for (i = 0; i < 8193 * 4; i++) print 0 }'; } | typed
explains "8,193 records"

# Conflicts of table B. The class and lines of 3 0 0 0 0 stand in docs/RULES.md.
precedence() { # how many
    awk -v n="$1" 'BEGIN { for (k = 1; k <= n; k++) {
        print k " 2 3 3 0"
        print "a 5 3 0/0 1/0 0/0 1/0 0/0 2-5/0 0-5/0"
        print "r 5 3 0/0 1/0 0/0 1/0 0/0 0-3/0 0-5/0"
    } }'
}
conflicts() { # how many, and what follows them
    { table_b; awk -v n="$1" 'BEGIN { for (k = 0; k < n; k++) print "3 0 0 0 0" }'; echo "$2"; } | typed
}
# one of each class that B has, refusals 10 and 9, and one cut short
{ table_b; echo '3 0 0 0 0  3 0 0 1 0  3 0 0 0 1  3 0 0 0 2  3 0 1 1 2  3 0 1 0 0  4 0 0 0 0  3 0 0'; } | typed
cat >"$work/expected" <<'LINES'
1 2 3 3 0
a 5 3 0/0 1/0 0/0 1/0 0/0 2-5/0 0-5/0
r 5 3 0/0 1/0 0/0 1/0 0/0 0-3/0 0-5/0
2 1 3 3
a 5 3 0/0 1/0 0/0 1/0 0/0 2-5/0 0-5/0
r 5 3 0/0 1/0 0/0 1/0 0/0 0-3/0 0-5/0
3 0 0 3
4 refused 10 0
5 0 1 3
6 5 3 3 0 9 0 9
a 5 3 0/0 1/0 0/0 1/0 0/0 0-3/0 0-5/0
7 refused 9 0
8 refused 9 0
LINES
explains "table B, conflicts of each class"
conflicts 0 ''
: >"$work/expected"
explains "no conflict"
conflicts 5000 ''
precedence 5000 >"$work/expected"
explains "5,000 conflicts"
# one cut short is 9, and the last
for cut in '3' '3 0 0 0'; do
    conflicts 4096 "$cut"
    { precedence 4096; echo '4097 refused 9 0'; } >"$work/expected"
    explains "4,096 conflicts and $cut"
done
conflicts 1 ''
cp "$work/input" "$work/one"
{ cat "$work/one"; printf '\003'; } >"$work/input"
{ precedence 1; echo '2 refused 9 0'; } >"$work/expected"
explains "a conflict and one byte"
# 9 and 10 refuse one conflict and not the next
conflicts 1 '4 0 0 0 0  3 0 0 0 2  3 0 0 0 0'
{ precedence 1; echo '2 refused 9 0'; echo '3 refused 10 0'; precedence 1 | sed 's/^1 /4 /'; } >"$work/expected"
explains "refusals 9 and 10 between conflicts"

# One state, one terminal a. A production N = a, and productions of 16 times N whose items at 1 to 15 all shift N there: each is an edge from an item to N, so an example.
wide() { # how many productions of 16 symbols
    awk -v p="$1" 'BEGIN {
        symbols = 3 + p + 1; items = symbols + 17; last = items + p * 15
        print last + 1
        print 1, 1, 1, p + 1
        print 3, 0, 0, 0
        print items, 0, 0, 0
        print (p > 0 ? 4 : 0), symbols + 16, 0, 0
        for (k = 1; k <= p; k++) print (k < p ? 3 + k + 1 : 0), symbols, 0, 0
        for (k = 1; k <= 16; k++) print (k < 16 ? symbols + k : 0), 0, 0, 0
        print 0, 1, 0, 0
        for (k = 1; k <= p; k++) for (i = 1; i <= 15; i++) print items + (k - 1) * 15 + i, k, i, 0
        print 0, 0, 0, 0
        print "0 0 0 0 0"
    }'
}
# 69 * 15 + 1 edges are more than 1,024
wide 69 | typed
echo '1 refused 12 0' >"$work/expected"
explains "1,036 edges"
# 13 * 15 examples are more than 192
wide 13 | typed
echo '1 refused 14 0' >"$work/expected"
explains "195 examples"

# One state, eight nonterminals, a production M = N for each two of them and N = a: every nonterminal has an edge from each, so 13,700 walks of distinct ones from the first, each with eight edges into its end.
{
    awk 'BEGIN {
        n = 8; first = n + 2; symbols = first + n * n + 1; items = symbols + n + 1; last = items + n * n
        print last + 1
        print n, 1, 1, n * n + 1
        for (m = 0; m < n; m++) print first + m * n, 0, 0, 0
        print items, 0, 0, 0
        for (m = 0; m < n; m++) for (k = 0; k < n; k++) print (k < n - 1 ? first + m * n + k + 1 : (m == n - 1 ? first + n * n : 0)), symbols + k, 0, 0
        print 0, symbols + n, 0, 0
        for (k = 0; k < n; k++) print 0, 0, k, 0
        print 0, 1, 0, 0
        for (k = 0; k < n * n; k++) print items + k + 1, k, 0, 0
        print 0, n * n, 0, 0
        print "0 0 0 0 0"
    }'
} | typed
echo '1 refused 13 0' >"$work/expected"
explains "109,601 trials"

# What fails is said on standard error: a full device, and a folder in place of a file.
says() { # name, part of what is said
    grep -q "$2" "$work/said"
    verdict "$1" $?
}
crates/explain/out/explain <"$work/one" >/dev/full 2>"$work/said"
says "explain to a full device" 'standard output'
crates/parse_words/out/parse_words <tables/table_b.txt >/dev/full 2>"$work/said"
says "parse_words to a full device" 'standard output'
# A program says that it cannot write the answer to the input, nor read a folder, of which it writes nothing.
fails() { # program
    "crates/$1/out/$1" <"$work/input" >/dev/full 2>"$work/said"
    says "$1 to a full device" 'standard output'
    "crates/$1/out/$1" <tables >"$work/output" 2>"$work/said"
    says "$1 of a folder" 'standard input'
    [ ! -s "$work/output" ]
    verdict "$1 of a folder, nothing written" $?
}
cp "$work/one" "$work/input"
for p in respell print_table; do fails "$p"; done
typed <tables/sum.grammar
for p in states unyacc; do fails "$p"; done
cp tables/sum.y "$work/input"
fails yacc
crates/explain/out/explain <tables >"$work/output" 2>"$work/said"
says "explain of a folder" 'standard input'
[ ! -s "$work/output" ]
verdict "explain of a folder, nothing written" $?
crates/parse_words/out/parse_words <tables >"$work/input" 2>"$work/said"
says "parse_words of a folder" 'standard input'
echo '0 refused 1 0' >"$work/expected"
explains "words of a folder, explained"
./explain.sh >"$work/output" 2>"$work/said"
[ $? -eq 2 ] && grep -q '^usage: ' "$work/said" && [ ! -s "$work/output" ]
verdict "explain.sh without a file says its usage" $?
./explain.sh no-such-file.y >"$work/output" 2>"$work/said"
[ $? -eq 2 ] && grep -q 'no-such-file.y' "$work/said" && [ ! -s "$work/output" ]
verdict "explain.sh names a file that is not there" $?
./explain.sh tables >"$work/output" 2>"$work/said"
[ $? -ne 0 ] && grep -q 'standard input' "$work/said"
verdict "explain.sh fails for a folder" $?
./explain.sh tables/table_b.txt >/dev/full 2>"$work/said"
[ $? -ne 0 ] && grep -q 'standard output' "$work/said"
verdict "explain.sh fails at a full device" $?
# a byte that cannot be read: its place is said, the conflicts before it are shown, and the next is refused as cut
{ cat tables/table_b.txt; echo 'x'; } >"$work/typed"
./explain.sh "$work/typed" >"$work/output" 2>"$work/said"
[ $? -ne 0 ] && grep -q 'cannot read this' "$work/said"
verdict "explain.sh fails at an unreadable byte" $?
{ precedence 1; echo '2 refused 9 0'; } | cmp -s - "$work/output"
verdict "the conflicts before it are shown" $?

exit $failed
