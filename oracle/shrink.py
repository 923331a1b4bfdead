#!/usr/bin/env python3
"""Makes a grammar that shows a difference or a finding smaller, as long as it still shows one of the same sort.

The sorts: what oracle/real.py compares (counts, and the conflicts themselves) differs from bison's; the command
refuses a file that bison reads; and what oracle/fuzz.py calls a finding (--finding). Pieces of the file are left
out, large ones first. What is left is written to standard output, or to --output.

Status: 0 made, 1 FILE shows nothing, 4 usage.
"""

import argparse
import os
import re
import sys
import tempfile

import fuzz
import real


def pieces_of(text):
    """The words of a file, each with the space behind it; C code in braces is one."""
    pieces = []
    at = 0
    marks = 0
    while at < len(text) and marks < 2:
        found = real.PIECE.match(text, at)
        end = found.end()
        if found.lastgroup == "open":
            end = real.end_of_code(text, end - 1)
        marks += found.lastgroup == "mark"
        word = text[at:end]
        if found.lastgroup == "comment":
            word = b" "
        elif found.lastgroup == "open":
            word = b"{ }"
        if word.isspace() and pieces:
            pieces[-1] += b"\n" if b"\n" in word else b" "
        elif found.lastgroup == "prologue":
            pass
        else:
            pieces.append(word)
        at = end
    return pieces


class Judge:
    """Says of a text which sort of difference or finding it shows, or None."""

    def __init__(self, program, is_finding, mode, seconds):
        self.program, self.is_finding, self.mode, self.seconds = program, is_finding, mode, seconds
        self.folder = tempfile.TemporaryDirectory()
        self.path = os.path.join(self.folder.name, "grammar.y")
        self.said = []

    def sort_of(self, text):
        with open(self.path, "wb") as file:
            file.write(text)
        if self.is_finding:
            status, out, error, _ = fuzz.run(self.program, self.mode, [self.path], self.folder.name, self.seconds)
            return fuzz.judge(status, out, error, self.path)
        try:
            row, report, bare = real.bison_row(text)
        except real.Missing:
            return None
        if report.is_reduced:
            return None
        self.said = real.compare("grammar", row, self.program, self.path) or real.compare_contents("grammar", self.program, self.path, report, bare)
        if not self.said:
            return None
        return re.sub(r"[0-9`].*", "", self.said[0].split(": ", 1)[1])


def shrink(judge, pieces, sort):
    size = max(1, len(pieces) // 2)
    while True:
        at = 0
        has_changed = False
        while at < len(pieces):
            fewer = pieces[:at] + pieces[at + size :]
            if judge.sort_of(b"".join(fewer)) == sort:
                pieces = fewer
                has_changed = True
            else:
                at += size
        print(f"  {len(pieces)} words, pieces of {size}", file=sys.stderr, flush=True)
        if size > 1:
            size = max(1, min(size, len(pieces)) // 2)
        elif not has_changed:
            return pieces


def main():
    parser = argparse.ArgumentParser(description=__doc__, formatter_class=argparse.RawDescriptionHelpFormatter, allow_abbrev=False)
    parser.add_argument("file", metavar="FILE")
    parser.add_argument("--program", default=real.PROGRAM, help="the command's binary (default: crates/lihvemur/out/lihvemur)")
    parser.add_argument("--finding", metavar="OPTIONS", help="look for a finding of fuzz.py with these options of the command, e.g. 'check'")
    parser.add_argument("--seconds", type=float, default=2.0, help="limit for a finding (default: %(default)s)")
    parser.add_argument("--output", help="where what is left is written")
    try:
        wish = parser.parse_args()
    except SystemExit as end:
        return 4 if end.code else 0
    judge = Judge(os.path.abspath(wish.program), wish.finding is not None, (wish.finding or "").split(), wish.seconds)
    text = real.read_file(wish.file)
    sort = judge.sort_of(text)
    if sort is None:
        print(f"shrink.py: {wish.file} shows nothing", file=sys.stderr)
        return 1
    print(f"  kept: {sort}", file=sys.stderr)
    pieces = pieces_of(text)
    if judge.sort_of(b"".join(pieces)) != sort:
        # it lies in what the pieces leave out: spaces, comments, code
        pieces = [text[i : i + 1] for i in range(len(text))] if len(text) < 3000 else text.splitlines(True)
    text = b"".join(shrink(judge, pieces, sort))
    judge.sort_of(text)
    print("\n".join("  " + line for line in judge.said), file=sys.stderr)
    if wish.output:
        with open(wish.output, "wb") as file:
            file.write(text)
    else:
        sys.stdout.buffer.write(text)
    return 0


if __name__ == "__main__":
    sys.exit(main())
