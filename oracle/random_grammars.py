#!/usr/bin/env python3
"""Compares the counts of the command `lihvemur` with bison's on random small grammars.

What real grammars have too little of: precedence of every sort, each sort of conflict at one state and token,
empty rules, mid-rule actions, `error`, %prec of a token without a level, the end of the input within a rule.
Grammars with a nonterminal that bison calls useless are passed over, since bison leaves its rules out.
Grammar I of seed S is always the same. Each difference is printed, and its grammar is kept.

The last line is `N grammars, M passed over, D differences`. Status: 0 none, 1 differences, 4 usage.
"""

import argparse
import os
import random
import sys
import tempfile
import time

import real

CACHE = os.environ.get("XDG_CACHE_HOME") or os.path.expanduser("~/.cache")


def grammar(seed, index):
    """Grammar number `index` of the seed, as the text of a yacc file."""
    dice = random.Random(f"{seed}:{index}")
    nonterminals = [f"n{k}" for k in range(dice.choice((1, 2, 2, 3, 4, 6)))]
    named = [f"T{k}" for k in range(dice.randint(1, 4))]
    tokens = named + dice.sample(["'+'", "'-'", "'('", "')'", "'\\n'"], dice.randint(0, 3))
    lines = ["%token " + " ".join(named)]
    usable = list(tokens)
    if dice.randrange(6) == 0:
        usable.append("error")
    if dice.randrange(12) == 0:
        lines.append('%token FINISH 0 "the end"')
        usable.append(dice.choice(("FINISH", '"the end"')))
    if dice.randrange(3) == 0:
        lines.append('%token ALIASED "an alias"')
        usable.append('"an alias"')
    levels = []
    for _ in range(dice.choice((0, 1, 2, 2, 3, 4))):
        free = [t for t in tokens + ["LOW"] if t not in levels]
        if free:
            level = dice.sample(free, min(len(free), dice.choice((1, 1, 2))))
            levels += level
            lines.append(dice.choice(("%left", "%right", "%nonassoc", "%precedence")) + " " + " ".join(level))
    if "LOW" not in levels:
        lines.append("%token LOW")
    lines.append("%%")
    for number, left in enumerate(nonterminals):
        alternatives = []
        count = dice.choice((2, 2, 3, 4))
        for which in range(count):
            symbols = []
            for _ in range(dice.choice((0, 1, 1, 2, 2, 3, 3, 4))):
                # the last alternative derives something, the first leads on: few symbols are useless
                is_terminal = which == count - 1 or dice.randrange(5) >= 2
                symbols.append(dice.choice(usable if is_terminal else nonterminals))
                if dice.randrange(20) == 0:
                    symbols.append("{ middle(); }")
            if which == 0 and number + 1 < len(nonterminals):
                symbols.insert(dice.randrange(len(symbols) + 1), nonterminals[number + 1])
            if not symbols and dice.randrange(2):
                symbols.append("%empty")
            if dice.randrange(5) == 0:
                symbols.append("%prec " + dice.choice([t for t in tokens + ["LOW"]]))
            if dice.randrange(4) == 0:
                symbols.append("{ $$ = 1; }")
            alternatives.append(" ".join(symbols))
        lines.append(f"{left} : " + "\n   | ".join(alternatives) + (" ;" if dice.randrange(5) else ""))
    return "\n".join(lines) + "\n"


def main():
    parser = argparse.ArgumentParser(description=__doc__, formatter_class=argparse.RawDescriptionHelpFormatter, allow_abbrev=False)
    parser.add_argument("--program", default=real.PROGRAM, help="the command's binary (default: crates/lihvemur/out/lihvemur)")
    parser.add_argument("--count", type=int, default=1000, help="how many grammars (default: %(default)s)")
    parser.add_argument("--seed", type=int, help="default: from the clock; it is printed")
    parser.add_argument("--keep", default=os.path.join(CACHE, "lihvemur-findings"), help="where grammars that differ are kept (default: %(default)s)")
    parser.add_argument("--show", type=int, metavar="INDEX", help="write this grammar of --seed to standard output, and end")
    try:
        wish = parser.parse_args()
    except SystemExit as end:
        return 4 if end.code else 0
    if wish.show is not None:
        if wish.seed is None:
            print("random_grammars.py: --show wants --seed", file=sys.stderr)
            return 4
        print(grammar(wish.seed, wish.show), end="")
        return 0
    if not os.access(wish.program, os.X_OK):
        print(f"random_grammars.py: {wish.program} is not there: build the command, or name it by --program", file=sys.stderr)
        return 4
    seed = wish.seed if wish.seed is not None else int(time.time())
    print(f"seed {seed}", flush=True)
    passed_over = differences = 0
    sums = dict.fromkeys(real.CONFLICTS, 0)
    with tempfile.TemporaryDirectory() as folder:
        for index in range(wish.count):
            text = grammar(seed, index)
            row, report, bare = real.bison_row(text.encode())
            if report.is_reduced:
                passed_over += 1
                continue
            name = f"{seed}_{index}"
            path = os.path.join(folder, name + ".y")
            with open(path, "w", encoding="utf-8") as file:
                file.write(text)
            for field in sums:
                sums[field] += row[field]
            found = real.compare(name, row, wish.program, path) or real.compare_contents(name, wish.program, path, report, bare)
            if found:
                differences += 1
                os.makedirs(wish.keep, exist_ok=True)
                os.replace(path, os.path.join(wish.keep, name + ".y"))
                print("\n".join(found), flush=True)
    print("of bison: " + ", ".join(f"{field} {count}" for field, count in sums.items()))
    print(f"{wish.count} grammars, {passed_over} passed over, {differences} differences")
    return 1 if differences else 0


if __name__ == "__main__":
    sys.exit(main())
