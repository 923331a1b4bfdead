#!/usr/bin/env python3
"""Counts the derivations of a list of symbols, without any automaton: by dynamic programming over its parts.

    oracle/recount.py FILE SYMBOL ..            derivations from the start symbol: 0, 1 or 2 (two or more)
    oracle/recount.py --root NAME FILE SYMBOL ..
    oracle/recount.py --tables                  the sentences of tables/verdicts.tsv

A symbol of the list may be a nonterminal, which then stays one. FILE is read here, by a reader that shares nothing
with the command's. With --tables each `ambiguous` grammar must have two derivations of its sentence, and no other
grammar of the table may have two of any sentence of up to --length tokens; by bison's canonical LR(1) states those
of LALR alone have no conflict, and those with two inputs have one.

Status: 0 as it should be (or counted), 1 a difference, 4 usage.
"""

import argparse
import itertools
import os
import sys

import real


class Grammar:
    """The rules of a yacc file: of each nonterminal the right sides."""

    def __init__(self, text):
        self.rules = {}
        self.start = None
        names = real.Names(text)
        words = self.words_of(text)
        left = None
        actions = 0
        right = []
        pending = False  # an action, which is a symbol of its own if another follows
        skip_next = False
        for index, (kind, word) in enumerate(words):
            if skip_next:
                skip_next = False
                continue
            if kind == "name" and index + 1 < len(words) and words[index + 1] == ("other", ":"):
                if left is not None:
                    self.rules[left].append(tuple(right))
                left = names.one(word)
                self.start = self.start or left
                self.rules.setdefault(left, [])
                right, pending = [], False
                skip_next = True
            elif word == ";" and kind == "other":
                if left is not None:
                    self.rules[left].append(tuple(right))
                left, right, pending = None, [], False
            elif word == "|" and kind == "other":
                self.rules[left].append(tuple(right))
                right, pending = [], False
            elif kind == "directive":
                skip_next = word in ("%prec", "%dprec", "%merge", "%expect", "%expect-rr")
            elif kind in ("name", "character", "string", "open") and left is not None:
                if pending:
                    actions += 1
                    right.append(f"@{actions}")
                    self.rules[f"@{actions}"] = [()]
                pending = kind == "open"
                if not pending:
                    right.append(names.one(word))
        if left is not None:
            self.rules[left].append(tuple(right))
        self.start = self.start_of(text, names) or self.start

    @staticmethod
    def words_of(text):
        """Kind and text of the words between the two `%%`."""
        words = []
        at = 0
        marks = 0
        while at < len(text) and marks < 2:
            found = real.PIECE.match(text, at)
            kind, at = found.lastgroup, found.end()
            word = found.group().decode("utf-8", "surrogateescape")
            if kind == "open":
                at = real.end_of_code(text, at - 1)
            if kind == "mark":
                marks += 1
            elif marks == 1 and kind not in ("comment", "tag", "prologue") and not word.isspace() and word != ",":
                words.append((kind, word))
        # `[name]` behind a symbol
        plain = []
        depth = 0
        for kind, word in words:
            depth += (kind, word) == ("other", "[")
            if depth == 0:
                plain.append((kind, word))
            depth -= (kind, word) == ("other", "]")
        return plain

    @staticmethod
    def start_of(text, names):
        before = None
        at = 0
        while at < len(text):
            found = real.PIECE.match(text, at)
            kind, word, at = found.lastgroup, found.group(), found.end()
            if kind == "open":
                at = real.end_of_code(text, at - 1)
            if kind == "mark":
                return None
            if before == b"%start" and kind == "name":
                return names.one(word.decode())
            if not word.isspace() and kind != "comment":
                before = word
        return None

    def terminals(self):
        return sorted({x for rights in self.rules.values() for right in rights for x in right if x not in self.rules})

    def count(self, root, form):
        """How many trees with this root have these leaves, none of two counted where there are more."""
        form = tuple(form)
        leaves = set(form)
        # rules with a terminal that the form has not are of no use
        rules = {left: [r for r in rights if all(x in self.rules or x in leaves for x in r)] for left, rights in self.rules.items()}
        counts = {}  # of a nonterminal and a part of the form

        def ways(symbol, begin, end):
            leaf = 1 if end == begin + 1 and form[begin] == symbol else 0
            return leaf + counts.get((symbol, begin, end), 0)

        def cover(right, begin, end):
            reached = {begin: 1}
            for position, symbol in enumerate(right):
                is_last = position == len(right) - 1
                following = {}
                for middle, found in reached.items():
                    for stop in (end,) if is_last else range(middle, end + 1):
                        number = ways(symbol, middle, stop)
                        if number:
                            following[stop] = min(2, following.get(stop, 0) + found * number)
                reached = following
                if not reached:
                    return 0
            return reached.get(end, 0)

        for length in range(len(form) + 1):
            for begin in range(len(form) - length + 1):
                has_changed = True
                while has_changed:
                    has_changed = False
                    for left, rights in rules.items():
                        number = min(2, sum(cover(right, begin, begin + length) for right in rights))
                        if number != counts.get((left, begin, begin + length), 0):
                            counts[left, begin, begin + length] = number
                            has_changed = True
        return min(2, ways(root, 0, len(form)))


def check_tables(length):
    """The differences from tables/verdicts.tsv, as lines."""
    lines = []
    for name, row in real.read_table(real.VERDICTS).items():
        if row["verdict"] == "refused":
            continue
        text = real.read_file(os.path.join(os.path.dirname(real.VERDICTS), name))
        grammar = Grammar(text)
        canonical = real.bison_report(text, real.LR1).counts
        open_conflicts = canonical["shift_reduce"] + canonical["reduce_reduce"]
        if (row["verdict"] in ("ambiguous", "two inputs")) != (open_conflicts > 0):
            lines.append(f"tables/{name}: {open_conflicts} conflicts of canonical LR(1) states")
        if row["verdict"] == "ambiguous":
            for sentence in row["sentences"].split(" / "):
                found = grammar.count(grammar.start, sentence.split())
                if found < 2:
                    lines.append(f"tables/{name}: {found} derivations of {sentence}")
        elif b"%prec" not in text:
            tokens = grammar.terminals()
            for size in range(length + 1):
                if len(tokens) ** size > 4000:
                    break
                for sentence in itertools.product(tokens, repeat=size):
                    if grammar.count(grammar.start, sentence) > 1:
                        lines.append(f"tables/{name}: two derivations of {' '.join(sentence)}")
    return lines


def main():
    parser = argparse.ArgumentParser(description=__doc__, formatter_class=argparse.RawDescriptionHelpFormatter, allow_abbrev=False)
    parser.add_argument("--root", help="the nonterminal to derive from (default: the file's start symbol)")
    parser.add_argument("--tables", action="store_true", help="check tables/verdicts.tsv")
    parser.add_argument("--length", type=int, default=7, help="the longest sentence tried with --tables (default: %(default)s)")
    parser.add_argument("file", nargs="?", metavar="FILE")
    parser.add_argument("form", nargs="*", metavar="SYMBOL")
    try:
        wish = parser.parse_args()
    except SystemExit as end:
        return 4 if end.code else 0
    if wish.tables:
        lines = check_tables(wish.length)
        print("\n".join(lines + [f"{len(lines)} differences"]))
        return 1 if lines else 0
    if not wish.file:
        print("recount.py: a FILE is wanted; see --help", file=sys.stderr)
        return 4
    text = real.read_file(wish.file)
    grammar = Grammar(text)
    names = real.Names(text)
    print(grammar.count(wish.root or grammar.start, [names.one(x) for x in wish.form]))
    return 0


if __name__ == "__main__":
    sys.exit(main())
