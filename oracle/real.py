#!/usr/bin/env python3
"""Compares the command `lihvemur` with bison on real grammars.

For each FOLDER/NAME.y (oracle/real.sh fetches them) the counts of `lihvemur --format json`, as the file is and
with --no-precedence, are held against bison's: shift/reduce and reduce/reduce conflicts, what precedence settled,
conflicts distinct by rules and token, nonterminals, terminals, productions, LALR states. Bison's counts stand in
oracle/real.tsv, so that the comparison needs no bison. With --bison bison is asked, the table is held against it, and
so are the conflicts themselves: rules and token of each, what settles which, and that the symbols said to lead there
lead bison's automaton to a state with that conflict. Without precedence bison gets the file with %left, %right, %nonassoc and %precedence made %token and
without %prec and %expect (`without_precedence` below, which knows nothing of the command).

Status: 0 all equal, 1 a difference (each is named), 4 usage or something that is not there.
"""

import argparse
import collections
import hashlib
import json
import os
import re
import shutil
import signal
import subprocess
import sys
import tempfile

HERE = os.path.dirname(os.path.abspath(__file__))
TABLE = os.path.join(HERE, "real.tsv")
PROGRAM = os.path.join(HERE, "..", "crates", "lihvemur", "out", "lihvemur")
SHAPE = ["nonterminals", "terminals", "productions", "states"]
CONFLICTS = ["shift_reduce", "reduce_reduce", "settled", "distinct"]
CANONICAL = ["states"] + CONFLICTS
COLUMNS = ["name", "package", "version", "sha256"] + SHAPE + CONFLICTS + ["bare_" + c for c in CONFLICTS if c != "settled"] + ["lr1_" + c for c in CANONICAL]
# bison by itself drops states that precedence made unreachable; the command keeps them, as the automaton has them
ALL_STATES = "-Flr.keep-unreachable-state=true"
LALR = "-Flr.type=lalr"
LR1 = "-Flr.type=canonical-lr"
# processor seconds and bytes that bison may take for canonical LR(1) states: of a grammar that takes more they are not compared
PATIENCE = 20
ROOM = 2 << 30
# seconds after which the command hangs
HANG = 60
ENVIRONMENT = dict(os.environ, LC_ALL="C.UTF-8")


class Missing(Exception):
    """Something that the comparison needs is not there, or does not answer."""


class TooLarge(Exception):
    """Bison would take more time or memory than it is given."""


# ---- the file without precedence

PIECE = re.compile(
    rb"""(?P<prologue>%\{.*?%\})
       | (?P<comment>/\*.*?\*/|//[^\n]*)
       | (?P<string>"(?:\\.|[^"\\\n])*")
       | (?P<character>'(?:\\.|[^'\\\n])*')
       | (?P<mark>%%)
       | (?P<directive>%[a-zA-Z][a-zA-Z0-9_-]*|%[<>02])
       | (?P<open>%\?\{|\{)
       | (?P<tag><(?:[^<>\n]|<[^<>\n]*>)*>)
       | (?P<number>[0-9]+)
       | (?P<name>[A-Za-z_.$@\x80-\xff][A-Za-z0-9_.$@\x80-\xff-]*)
       | (?P<other>.)""",
    re.S | re.X,
)
CODE = re.compile(rb"""/\*.*?\*/|//[^\n]*|"(?:\\.|[^"\\\n])*"|'(?:\\.|[^'\\\n])*'|[{}]|.""", re.S)
LEVELS = {b"%left", b"%right", b"%nonassoc", b"%precedence", b"%binary", b"%<", b"%>", b"%2"}


def end_of_code(text, at):
    """The index behind the brace that closes the one at `at`."""
    depth = 0
    for piece in CODE.finditer(text, at):
        if piece.group() == b"{":
            depth += 1
        elif piece.group() == b"}":
            depth -= 1
            if depth == 0:
                return piece.end()
    return len(text)


def without(text, has_levels):
    """The same grammar without each %expect; if no levels are wanted, with them made %token and without each %prec."""
    out = []
    at = 0
    marks = 0
    level = None  # of a level that is made %token: what stands in it, but for strings, which are no names there
    drop_next = False  # the name behind %prec, the number behind %expect

    def close_level():
        if level is not None and any(kind in ("name", "character") for kind, _ in level):
            out.extend(word for _, word in level)

    while at < len(text) and marks < 2:
        piece = PIECE.match(text, at)
        kind, word, at = piece.lastgroup, piece.group(), piece.end()
        if kind == "open":
            end = end_of_code(text, at - 1)
            word, at = word + text[at:end], end
        if kind in ("open", "mark", "directive", "prologue") or (kind == "other" and word in b";:|"):
            close_level()
            level = None
        if kind == "mark":
            marks += 1
        if kind == "directive":
            drop_next = word in (b"%expect", b"%expect-rr") or (word == b"%prec" and not has_levels)
            if drop_next:
                word = b" "
            elif word in LEVELS and not has_levels:
                level = [("directive", b"%token")]
                continue
        elif kind in ("name", "character", "string", "number") and drop_next:
            word = b" "
            drop_next = False
        if level is None:
            out.append(word)
        elif kind != "string":
            level.append((kind, word))
    close_level()
    return b"".join(out) + text[at:]


def expectations(text):
    """The numbers that %expect and %expect-rr of the declarations say, 0 where they are not there."""
    said = {b"%expect": 0, b"%expect-rr": 0}
    before = None
    at = 0
    while at < len(text):
        piece = PIECE.match(text, at)
        kind, word, at = piece.lastgroup, piece.group(), piece.end()
        if kind == "mark":
            break
        if kind == "open":
            at = end_of_code(text, at - 1)
        if kind == "number" and before in said:
            said[before] = int(word)
        if not word.isspace():
            before = word
    return said[b"%expect"], said[b"%expect-rr"]


def without_precedence(text):
    return without(text, False)


def without_expectations(text):
    """Bison stops at conflicts that %expect does not expect."""
    return without(text, True)


# ---- bison


def run(words):
    """Runs a program: status, standard output, standard error."""
    done = subprocess.run(words, stdin=subprocess.DEVNULL, capture_output=True, env=ENVIRONMENT)
    return done.returncode, done.stdout, done.stderr


def bison_report(text, kind=LALR, words=()):
    """Bison's report of one grammar (see oracle/README.md, the footing of the counts)."""
    with tempfile.TemporaryDirectory() as folder:
        path = os.path.join(folder, "grammar.y")
        report = os.path.join(folder, "report")
        with open(path, "wb") as file:
            file.write(text)
        words = [*words, "bison", "-Wnone", kind, ALL_STATES, "--report=solved", "--report-file=" + report, "-o", os.path.join(folder, "parser.c"), path]
        status, _, error = run(words)
        if status == -signal.SIGXCPU or b"memory exhausted" in error:
            raise TooLarge
        if status != 0:
            raise Missing("bison refuses it: " + error.decode("utf-8", "replace").split("\n")[0])
        with open(report, encoding="utf-8", errors="surrogateescape") as file:
            return Report(file)


RULE = re.compile(r"^ +(\d+) (?:(\S+):|\s*\|)(.*)$")
SYMBOL = re.compile(r"\"(?:\\.|[^\"\\])*\"|'(?:\\.|[^'\\])+'|\S+")
CONFLICT_LINE = re.compile(r"^State \d+ conflicts: (?:(\d+) shift/reduce)?(?:, )?(?:(\d+) reduce/reduce)?")
ACTION = re.compile(r"^    (\S+|\"(?:\\.|[^\"\\])*\"|'(?:\\.|[^'\\])*') +(?:(shift), and )?(?:go to state (\d+)|(\[?)reduce using rule (\d+) \(|error )")
SOLVED = re.compile(r"^    Conflict between rule (\d+) and token (.*) resolved as (shift|reduce|an error) \(")
KEPT = {"shift": "shift", "reduce": "reduction", "an error": "neither"}


class Clash:
    """What bison does in one state before one token."""

    def __init__(self):
        self.shifts = False
        self.reductions = []
        self.is_conflict = False


class Report:
    """What bison's report says of a grammar."""

    def __init__(self, lines):
        self.rules = {}  # by number: the left side and the right side
        self.targets = []  # of each state: where its symbols lead
        self.clashes = []  # of each state: what is done before its tokens
        self.solved = set()  # rule, token and what precedence keeps
        self.is_reduced = False  # whether bison left out what is useless
        self.counts = collections.Counter({name: 0 for name in SHAPE + CONFLICTS})
        said = collections.Counter()
        section = ""
        left = None
        for line in lines:
            line = line.rstrip("\n")
            found = CONFLICT_LINE.match(line)
            if found:
                said["shift_reduce"] += int(found.group(1) or 0)
                said["reduce_reduce"] += int(found.group(2) or 0)
            elif re.match(r"^State \d+$", line):
                section = "state"
                self.targets.append({})
                self.clashes.append(collections.defaultdict(Clash))
            elif line and not line.startswith(" "):
                section = line
                self.is_reduced |= line.endswith("useless in grammar")
            elif section == "state":
                self.read_action(line)
            elif section in ("Grammar", "Rules useless in grammar") and RULE.match(line):
                number, name, right = RULE.match(line).groups()
                left = name or left
                self.counts["productions"] += 1
                if section == "Grammar":
                    self.rules[int(number)] = (left, [x for x in SYMBOL.findall(right) if x not in ("ε", "%empty")])
            elif section.startswith("Terminals, with") and re.match(r"^    \S", line):
                self.counts["terminals"] += 1
            elif section.startswith(("Nonterminals, with", "Nonterminals useless")) and re.match(r"^    \S", line):
                self.counts["nonterminals"] += 1
        self.count()
        for name in ("shift_reduce", "reduce_reduce"):
            if self.counts[name] != said[name]:
                raise Missing(f"bison's report is read wrongly: {name} by its actions {self.counts[name]}, by its summary {said[name]}")

    def read_action(self, line):
        found = ACTION.match(line)
        if not found:
            found = SOLVED.match(line)
            if found:
                rule, token, kept = found.groups()
                self.counts["settled"] += 1
                self.solved.add((int(rule), token, KEPT[kept]))
            return
        symbol, shift, target, bracket, rule = found.groups()
        if target:
            self.targets[-1][symbol] = int(target)
        if shift:
            self.clashes[-1][symbol].shifts = True
        elif rule:
            self.clashes[-1][symbol].reductions.append(int(rule))
            self.clashes[-1][symbol].is_conflict |= bracket == "["

    def conflicts(self):
        """State, token, rule and the other rule (None: the shift) of each conflict."""
        for state, clashes in enumerate(self.clashes):
            for token, clash in clashes.items():
                if clash.is_conflict:
                    rules = sorted(clash.reductions)
                    if clash.shifts:
                        yield from ((state, token, p, None) for p in rules)
                    yield from ((state, token, p, q) for p in rules for q in rules if p < q)

    def count(self):
        for clashes in self.clashes:
            for clash in clashes.values():
                if clash.is_conflict:
                    self.counts["shift_reduce"] += clash.shifts
                    self.counts["reduce_reduce"] += len(clash.reductions) - 1
        self.counts["distinct"] = len({conflict[1:] for conflict in self.conflicts()})
        self.counts["states"] = len(self.targets)
        self.counts["productions"] -= 1  # `$accept: START $end`
        self.counts["nonterminals"] -= 1  # `$accept`


def bison_row(text):
    """Both counts of bison as one row of the table, and its two reports."""
    with_levels = bison_report(without_expectations(text))
    bare = bison_report(without_precedence(text))
    row = {}
    for name in SHAPE:
        row[name] = with_levels.counts[name]
        # a token that stands behind %prec alone is gone with it
        if bare.counts[name] != row[name] and name != "terminals":
            raise Missing(f"{name} differ without precedence: {bare.counts[name]}, with {row[name]}")
    if bare.counts["settled"]:
        raise Missing(f"without precedence {bare.counts['settled']} conflicts are settled")
    for name in CONFLICTS:
        row[name] = with_levels.counts[name]
        if name != "settled":
            row["bare_" + name] = bare.counts[name]
    return row, with_levels, bare


def canonical_row(text):
    """The part of the row about canonical LR(1) states; `-`, where they are too many."""
    try:
        counts = bison_report(without_expectations(text), LR1, ["prlimit", f"--cpu={PATIENCE}:{2 * PATIENCE}", f"--as={ROOM}"]).counts
        return {"lr1_" + name: counts[name] for name in CANONICAL}
    except TooLarge:
        return {"lr1_" + name: "-" for name in CANONICAL}


# ---- names: bison reports a token by its alias, the command may by its name


CHARACTERS = {"\\n": "\n", "\\t": "\t", "\\r": "\r", "\\f": "\f", "\\v": "\v", "\\a": "\a", "\\b": "\b", "\\\\": "\\", "\\'": "'", '\\"': '"'}


class Names:
    """One name for each symbol of a file."""

    def __init__(self, text):
        self.names = {}
        self.lines = text.split(b"\n")
        is_token = False
        last = None
        at = 0
        marks = 0
        while at < len(text) and marks < 2:
            piece = PIECE.match(text, at)
            kind, word, at = piece.lastgroup, piece.group(), piece.end()
            if kind == "open":
                at = end_of_code(text, at - 1)
            marks += kind == "mark"
            if kind == "directive":
                is_token = word in (b"%token", b"%term", b"%0")
                last = None
            elif kind in ("open", "mark", "prologue") or word == b";":
                is_token = False
            elif is_token and kind in ("name", "character"):
                last = word.decode("utf-8", "surrogateescape")
            elif is_token and kind == "number" and int(word) == 0 and last:
                self.names[last] = "$end"
            elif is_token and kind == "string" and last:
                self.names[self.spelled(word.decode("utf-8", "surrogateescape"))] = last

    @staticmethod
    def spelled(name):
        """A character or a string, its escapes read."""
        if name[:1] not in "'\"":
            return name
        inner = re.sub(r"\\([0-7]{1,3}|x[0-9a-fA-F]+|.)", Names.escape, name[1:-1])
        return name[0] + inner + name[0]

    @staticmethod
    def escape(found):
        word = found.group(1)
        if word[0] in "01234567":
            return chr(int(word, 8))
        if word[0] == "x" and len(word) > 1:
            return chr(int(word[1:], 16))
        return CHARACTERS.get(found.group(), word)

    def one(self, name):
        if re.fullmatch(r"\$?@\d+", name):
            return "@" + name.split("@")[1]
        name = self.spelled(name)
        name = self.names.get(name, name)
        return self.names.get(name, name)

    def rule(self, left, right):
        return self.one(left), tuple(self.one(x) for x in right)


def words_of(rule):
    return f"{rule[0]}: {' '.join(rule[1]) or '%empty'}"


# ---- the command


def compare_conflicts(name, answer, report, bare, names):
    """Where the conflicts of the command are not bison's, by their rules and token, as lines."""
    rules = {number: names.rule(*rule) for number, rule in report.rules.items()}
    expected = set()
    for _, token, p, q in report.conflicts():
        expected.add((frozenset((rules[p], "shift" if q is None else rules[q])), names.one(token)))
    found = set()
    lines = []
    targets = [{names.one(x): to for x, to in state.items()} for state in bare.targets]
    clashes = [{names.one(x): clash for x, clash in state.items()} for state in bare.clashes]
    for conflict in answer["conflicts"]:
        for rule in conflict["rules"]:
            if wrong_place(rule, names.lines, names):
                lines.append(f"{name}: line {rule['line']} column {rule['column']} is not the place of `{rule['text']}`")
        reduced = [names.rule(r["left"], r["right"]) for r in conflict["rules"] if r["action"] == "reduce"]
        other = reduced[1] if len(reduced) > 1 else "shift"
        tokens = [names.one(x) for x in conflict["tokens"]]
        found.update((frozenset((reduced[0], other)), token) for token in tokens)
        state = 0
        for symbol in conflict["after"]:
            state = targets[state].get(names.one(symbol)) if state is not None else None
        at_state = {} if state is None else clashes[state]
        if not any(token in at_state and do_clash(at_state[token], rules, reduced[0], other) for token in tokens):
            lines.append(f"{name}: `{' '.join(conflict['after'])}` leads to no such conflict of {words_of(reduced[0])} before {' '.join(tokens)}")
    for title, rest in (("bison has, and lihvemur has not", expected - found), ("lihvemur has, and bison has not", found - expected)):
        for pair, token in sorted(rest, key=str)[:3]:
            lines.append(f"{name}: {title}: before {token}: " + " / ".join(sorted(x if x == "shift" else words_of(x) for x in pair)))
        if len(rest) > 3:
            lines.append(f"{name}: {title}: {len(rest)} in all")
    return lines


def wrong_place(rule, lines, names):
    """Whether the place that is said of a rule has not the symbol that must stand there, by the symbol behind the dot or the first."""
    right = rule["right"]
    if not right:
        return False
    wanted = names.one(right[rule["dot"] if rule["action"] == "shift" else 0])
    if wanted.startswith("@") or rule["left"] == "$accept":
        return False
    line = lines[rule["line"] - 1] if rule["line"] <= len(lines) else b""
    found = PIECE.match(line, rule["column"] - 1) if rule["column"] <= len(line) else None
    return found is None or names.one(found.group().decode("utf-8", "surrogateescape")) != wanted


def do_clash(clash, rules, rule, other):
    reductions = [rules.get(number) for number in clash.reductions]
    return rule in reductions and (clash.shifts if other == "shift" else other in reductions)


def compare_settled(name, answer, report, names):
    """Where precedence settles what it does not for bison, or otherwise, as lines."""
    expected = {(names.rule(*report.rules[rule]), names.one(token), kept) for rule, token, kept in report.solved}
    found = set()
    for settled in answer["settled"]:
        rule = settled["rules"][0]
        found.update((names.rule(rule["left"], rule["right"]), names.one(token), settled["kept"]) for token in settled["tokens"])
    lines = []
    for title, rest in (("bison settles, and lihvemur does not", expected - found), ("lihvemur settles, and bison does not", found - expected)):
        for rule, token, kept in sorted(rest, key=str)[:3]:
            lines.append(f"{name}: {title}: {words_of(rule)} before {token}: {kept}")
        if len(rest) > 3:
            lines.append(f"{name}: {title}: {len(rest)} in all")
    return lines


def program_answer(program, path, *options):
    status, out, error = run(["timeout", str(HANG), program, *options, "--format", "json", path])
    if status == 124:
        raise Missing(f"no answer in {HANG} s")
    if status not in (0, 1):
        first = error.decode("utf-8", "replace").strip().split("\n")[0]
        raise Missing(f"status {status}: {first}")
    try:
        answer = json.loads(out)
    except ValueError as reason:
        raise Missing(f"no JSON: {reason}")
    return status, answer


def program_summary(program, path, *options):
    status, answer = program_answer(program, path, *options)
    return status, answer["summary"]


def compare_contents(name, program, path, report, bare):
    """The differences from bison's reports in what the conflicts are, with precedence and without, as lines."""
    names = Names(read_file(path))
    try:
        _, answer = program_answer(program, path, "--settled")
        _, answer_bare = program_answer(program, path, "--no-precedence")
    except Missing as reason:
        return [f"{name}: {reason}"]
    return (
        compare_conflicts(name, answer, report, bare, names)
        + compare_settled(name, answer, report, names)
        + compare_conflicts(name + " without precedence", answer_bare, bare, bare, names)
    )


def compare(name, row, program, path, has_lr1=False):
    """The differences, as lines."""
    found = []
    own_expectations = expectations(read_file(path))
    runs = [("", SHAPE + CONFLICTS, "", []), (" without precedence", SHAPE + CONFLICTS, "bare_", ["--no-precedence"])]
    if has_lr1 and row["lr1_states"] != "-":
        runs.append((" by LR(1)", CANONICAL, "lr1_", ["--table", "lr1"]))
    for title, fields, prefix, options in runs:
        try:
            status, summary = program_summary(program, path, *options)
        except Missing as reason:
            found.append(f"{name}{title}: {reason}")
            continue
        # %expect speaks of the user's parser alone
        expected_conflicts = (0, 0) if prefix else own_expectations
        wanted = 0 if (summary.get("shift_reduce"), summary.get("reduce_reduce")) == expected_conflicts else 1
        if status != wanted:
            found.append(f"{name}{title}: status {status}, and should be {wanted} ({expected_conflicts[0]} and {expected_conflicts[1]} are expected)")
        for field in fields:
            expected = row.get(prefix + field, row.get(field) if field in SHAPE else 0)
            if field not in summary:
                found.append(f"{name}{title}: no field `{field}` in summary")
            elif summary[field] != int(expected):
                found.append(f"{name}{title}: {field}: lihvemur {summary[field]}, bison {expected}")
    return found


# ---- the table


def read_table(path):
    if not os.path.exists(path):
        return {}
    with open(path, encoding="utf-8") as file:
        lines = [line.rstrip("\n").split("\t") for line in file if line.strip() and not line.startswith("#")]
    return {cells[0]: dict(zip(lines[0], cells)) for cells in lines[1:]}


def write_table(path, rows):
    with open(path, "w", encoding="utf-8") as file:
        file.write("# Bison's counts of the real grammars that oracle/real.sh fetches; made by oracle/real.py --update.\n")
        file.write("\t".join(COLUMNS) + "\n")
        for row in rows:
            file.write("\t".join(str(row.get(column, "-")) for column in COLUMNS) + "\n")


def sources(folder):
    path = os.path.join(folder, "sources.tsv")
    if not os.path.exists(path):
        raise Missing(f"{path} is not there: run oracle/real.sh --folder {folder} first")
    with open(path, encoding="utf-8") as file:
        rows = [line.rstrip("\n").split("\t") for line in file]
    return [{"name": r[0], "package": r[1], "version": r[2]} for r in rows]


def read_file(path):
    with open(path, "rb") as file:
        return file.read()


# ---- grammars whose verdict is known

VERDICTS = os.path.join(HERE, "..", "tables", "verdicts.tsv")


def wrong_verdict(verdict, summary):
    """What a summary says against the known verdict, or None; it says nothing as long as it has no verdicts."""
    if "ambiguous" not in summary:
        return None
    ambiguous, lalr_only, distinct = summary["ambiguous"], summary.get("lalr_only", 0), summary["distinct"]
    if verdict == "ambiguous" and ambiguous != distinct:
        return f"{ambiguous} of {distinct} conflicts are called ambiguous, and all are"
    if verdict == "LALR alone" and lalr_only != distinct:
        return f"{lalr_only} of {distinct} conflicts are called of LALR alone, and all are"
    if verdict == "two inputs" and ambiguous + lalr_only:
        return f"{ambiguous} conflicts are called ambiguous and {lalr_only} of LALR alone, and none is"
    return None


def compare_verdicts(program, has_bison):
    """The differences of tables/*.y from tables/verdicts.tsv, as lines, and how many files were looked at."""
    found = []
    rows = read_table(VERDICTS)
    tables = os.path.dirname(VERDICTS)
    known = {os.path.relpath(os.path.join(where, name), tables) for where, _, names in os.walk(tables) for name in names if name.endswith(".y")}
    found += [f"tables/{name}: no verdict in tables/verdicts.tsv" for name in sorted(known - set(rows))]
    for name, row in rows.items():
        path = os.path.join(tables, name)
        if has_bison and row["verdict"] != "refused":
            counts = bison_report(without_expectations(read_file(path))).counts
            found += [f"tables/{name}: {f}: bison {counts[f]}, tables/verdicts.tsv {row[f]}" for f in ("shift_reduce", "reduce_reduce") if str(counts[f]) != row[f]]
        if program is None:
            continue
        try:
            status, summary = program_summary(program, path)
        except Missing as reason:
            if row["verdict"] != "refused" or not str(reason).startswith("status 2"):
                found.append(f"tables/{name}: {reason}")
            continue
        if row["verdict"] == "refused":
            found.append(f"tables/{name}: it is read, and should be refused")
            continue
        found += [f"tables/{name}: {f}: lihvemur {summary.get(f)}, tables/verdicts.tsv {row[f]}" for f in ("shift_reduce", "reduce_reduce") if str(summary.get(f)) != row[f]]
        wrong = wrong_verdict(row["verdict"], summary)
        if wrong:
            found.append(f"tables/{name}: {wrong}")
    return found, len(rows)


# ---- time and memory


TIME = "/usr/bin/time"


def best(words, rounds):
    """Least processor seconds and least peak megabytes of some runs, and the status of one."""
    runs = []
    with tempfile.NamedTemporaryFile("r") as said:
        for _ in range(rounds):
            # GNU time is small, so that what a process takes before it becomes the program does not count
            status = run([TIME, "-q", "-o", said.name, "-f", "%U %S %M", *words])[0]
            said.seek(0)
            user, system, kilobytes = said.read().split()[-3:]
            runs.append((float(user) + float(system), int(kilobytes) / 1024, status))
    return min(r[0] for r in runs), min(r[1] for r in runs), runs[0][2]


def print_times(names, folder, program, rounds):
    print(f"processor seconds and peak megabytes, least of {rounds}; bison with its parser written, without counterexamples")
    print(f"{'grammar':<18}{'bison s':>9}{'MB':>7}{'lihvemur s':>12}{'MB':>7}{'slower':>9}")
    slower = []
    total = [0.0, 0.0]
    with tempfile.TemporaryDirectory() as work:
        for name in names:
            path = os.path.join(folder, name + ".y")
            seconds, megabytes, _ = best(["bison", "-Wnone", "-o", os.path.join(work, "parser.c"), path], rounds)
            own, own_megabytes, status = best([program, path], rounds)
            said = "" if status in (0, 1) else f"  status {status}"
            mark = ""
            if own > seconds:
                slower.append(name)
                mark = "slower"
            total[0] += seconds
            total[1] += own
            print(f"{name:<18}{seconds:>9.2f}{megabytes:>7.1f}{own:>12.2f}{own_megabytes:>7.1f}{mark:>9}{said}", flush=True)
    print(f"{'all':<18}{total[0]:>9.2f}{'':>7}{total[1]:>12.2f}")
    return slower


def arguments():
    default_folder = os.path.join(os.environ.get("XDG_CACHE_HOME") or os.path.expanduser("~/.cache"), "lihvemur-real")
    parser = argparse.ArgumentParser(description=__doc__, formatter_class=argparse.RawDescriptionHelpFormatter, allow_abbrev=False)
    parser.add_argument("--folder", default=default_folder, help="where oracle/real.sh put the grammars (default: %(default)s)")
    parser.add_argument("--program", default=PROGRAM, help="the command's binary (default: crates/lihvemur/out/lihvemur)")
    parser.add_argument("--bison", action="store_true", help="ask bison too, and hold the stored table against it")
    parser.add_argument("--update", action="store_true", help="make oracle/real.tsv anew from bison, compare nothing")
    parser.add_argument("--times", action="store_true", help="processor time and peak memory of both, best of --rounds, as a table; compare nothing")
    parser.add_argument("--rounds", type=int, default=3, help="runs of each for --times (default: 3)")
    parser.add_argument("--lr1", action="store_true", help=f"compare canonical LR(1) states too, of the grammars for which bison takes at most {PATIENCE} s")
    parser.add_argument("--tables", action="store_true", help="look at tables/*.y and tables/command/*.y in place of real grammars: bison's and the command's counts and verdicts against tables/verdicts.tsv (without the command, bison's alone)")
    parser.add_argument("--strip", metavar="FILE", help="write FILE without precedence to standard output, and end")
    parser.add_argument("names", nargs="*", metavar="NAME", help="grammars to look at (default: all)")
    try:
        return parser.parse_args()
    except SystemExit as end:
        sys.exit(4 if end.code else 0)


def main():
    wish = arguments()
    if wish.strip:
        sys.stdout.buffer.write(without_precedence(read_file(wish.strip)))
        return 0
    has_bison = shutil.which("bison") is not None
    if wish.tables:
        program = wish.program if os.access(wish.program, os.X_OK) else None
        if not program and not has_bison:
            raise Missing("neither bison nor the command is there")
        differences, count = compare_verdicts(program, has_bison)
        for line in differences:
            print(line)
        print(f"{count} tables compared with {' and '.join((['bison'] if has_bison else []) + (['lihvemur'] if program else []))}, {len(differences)} differences")
        return 1 if differences else 0
    if (wish.update or wish.bison or wish.times) and not has_bison:
        raise Missing("bison is not there: apt-get install bison")
    if wish.times and not os.access(TIME, os.X_OK):
        raise Missing(f"{TIME} is not there: apt-get install time")
    listed = [row for row in sources(wish.folder) if not wish.names or row["name"] in wish.names]
    unknown = set(wish.names) - {row["name"] for row in listed}
    if unknown:
        raise Missing("no such grammar: " + ", ".join(sorted(unknown)))
    if not wish.update and not os.access(wish.program, os.X_OK):
        raise Missing(f"{wish.program} is not there: build the command, or name it by --program")

    if wish.times:
        slower = print_times([row["name"] for row in listed], wish.folder, wish.program, wish.rounds)
        print(f"{len(listed)} grammars, {len(slower)} slower than bison" + (": " + ", ".join(slower) if slower else ""))
        return 1 if slower else 0

    table = read_table(TABLE)
    differences = []
    compared = 0
    for row in listed:
        name = row["name"]
        path = os.path.join(wish.folder, name + ".y")
        text = read_file(path)
        row["sha256"] = hashlib.sha256(text).hexdigest()
        stored = table.get(name)
        is_stored = stored is not None and stored["sha256"] == row["sha256"]
        report = None
        try:
            if wish.update or wish.bison or not is_stored:
                if not is_stored and not wish.update:
                    print(f"{name}: not the file of oracle/real.tsv, bison is asked", file=sys.stderr)
                counts, report, bare = bison_row(text)
                row.update(counts)
                if wish.update or wish.lr1:
                    row.update(canonical_row(text))
                if is_stored and not wish.update:
                    differences += [f"{name}: {c}: bison {row[c]}, oracle/real.tsv {stored[c]}" for c in COLUMNS[4:] if c in row and str(row[c]) != stored[c]]
            else:
                row = stored
        except (Missing, FileNotFoundError) as reason:
            differences.append(f"{name}: {reason}")
            continue
        if not wish.update:
            differences += compare(name, row, wish.program, path, wish.lr1)
            if report:
                differences += compare_contents(name, wish.program, path, report, bare)
            compared += 1
        table[name] = row
    for line in differences:
        print(line)
    if wish.update:
        rows = [table[row["name"]] for row in sources(wish.folder) if row["name"] in table]
        write_table(TABLE, rows)
        print(f"{len(rows)} rows in oracle/real.tsv, {len(differences)} problems")
    else:
        print(f"{compared} grammars compared, {len(differences)} differences")
    return 1 if differences else 0


if __name__ == "__main__":
    try:
        sys.exit(main())
    except Missing as reason:
        print(f"real.py: {reason}", file=sys.stderr)
        sys.exit(4)
