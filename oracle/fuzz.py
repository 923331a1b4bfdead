#!/usr/bin/env python3
"""Gives the command `lihvemur` damaged grammars, and looks for what it must never do.

The files are those of FOLDER (oracle/real.sh fetches them), tables/*.y and tables/command/*.y, with bytes cut,
doubled, exchanged and changed, lines moved, words exchanged, and pieces of other grammars put in. File number I of
seed S is always the same. Many files are given to one process; what fails there is tried again by itself.

A finding is: an end by a signal; a status outside 0 to 4; more than --seconds of processor time for one file; output on standard
output for a file with errors; status 2 without a line `file:line:column: error:`; an error with another status.
Each finding is kept as KEEP/SEED_INDEX.y, with its arguments, and printed. The last line is `N files, M findings`.

With --bison each file (of the shorter grammars) is given to bison too. Then a finding is: a file that bison reads
and the command refuses; counts that differ (as in oracle/real.py). Of files that the command alone reads the number
is said: bison also looks into actions, and at types and values.

Status: 0 no findings, 1 findings, 4 usage or something that is not there.
"""

import argparse
import os
import random
import re
import resource
import shutil
import signal
import subprocess
import sys
import tempfile
import time

import real

HERE = os.path.dirname(os.path.abspath(__file__))
TOP = os.path.dirname(HERE)
PROGRAM = os.path.join(TOP, "crates", "lihvemur", "out", "lihvemur")
CACHE = os.environ.get("XDG_CACHE_HOME") or os.path.expanduser("~/.cache")

# What the processes are told, by turns; a count alone is the quickest and comes most often.
MODES = [["check"], ["check"], ["check", "--no-precedence"], ["--format", "json"], ["--all", "--settled"]]

# Words that are put in as they stand: what begins or ends something.
WORDS = [
    b"%%", b"%{", b"%}", b"{", b"}", b"/*", b"*/", b"//", b'"', b"'", b"\\", b";", b"|", b":", b"<", b">", b"[", b"]", b"%?{",
    b"%prec ", b"%token ", b"%left ", b"%nonassoc ", b"%precedence ", b"%type <", b"%start ", b"%union {", b"%empty", b"%expect ",
    b"%define ", b"%code ", b"%ifdef X\n", b"%dprec 1", b"%merge <x>", b"error", b"$end", b"$accept", b"$@1", b"@1", b"$$",
    b"\r\n", b"\r", b"\0", b"\x80", b"\xff\xfe", b"\xef\xbb\xbf", "ä".encode(), b"\t", b"\f", b"99999999999999999999999", b"0x", b"-1",
    b"'\\'", b"'\\777'", b"'\\x'", b'"\\"', b"''", b'""', b"%", b"#line 1\n", b"#if 0\n", b"a" * 5000, b"{" * 2000, b"}" * 50, b"<" * 500, b"a : a ;\n" * 20,
]


def read_file(path):
    with open(path, "rb") as file:
        return file.read()


def without_epilogue(text):
    """Up to the second `%%` at the begin of a line: behind it stands C, which takes long to copy and tells nothing."""
    found = [m.start() for m in re.finditer(rb"^%%", text, re.M)]
    return text[: found[1] + 3] if len(found) > 1 else text


def bases(folder):
    paths = []
    for where in (folder, os.path.join(TOP, "tables"), os.path.join(TOP, "tables", "command")):
        if os.path.isdir(where):
            paths += [os.path.join(where, name) for name in sorted(os.listdir(where)) if name.endswith(".y")]
    if not paths:
        raise SystemExit(usage(f"no grammars in {folder}: run oracle/real.sh first"))
    return [read_file(path) for path in paths]


def usage(text):
    print(f"fuzz.py: {text}", file=sys.stderr)
    return 4


# ---- damage


def piece(dice, text, most):
    """Begin and end of some bytes."""
    begin = dice.randrange(len(text) + 1)
    return begin, min(len(text), begin + dice.randint(1, most))


def line_piece(dice, text):
    lines = text.splitlines(True) or [b""]
    begin = dice.randrange(len(lines))
    return lines, begin, begin + dice.randint(1, 8)


NAME = re.compile(rb"[A-Za-z_][A-Za-z0-9_.]*|'[^'\n]{1,3}'|[;:|]|%[a-z]+")


def damage(dice, text, others):
    """The text with one change."""
    kind = dice.randrange(12)
    if kind == 0:
        begin, end = piece(dice, text, dice.choice((1, 3, 20, 400)))
        return text[:begin] + text[end:]
    if kind == 1:
        begin, end = piece(dice, text, dice.choice((1, 3, 20, 400)))
        return text[:end] + text[begin:end] * dice.choice((1, 1, 1, 5)) + text[end:]
    if kind == 2:
        begin, end = piece(dice, text, dice.choice((1, 3, 20)))
        other, stop = piece(dice, text, dice.choice((1, 3, 20)))
        if end <= other:
            return text[:begin] + text[other:stop] + text[end:other] + text[begin:end] + text[stop:]
        return text[:begin] + text[other:stop] + text[end:]
    if kind == 3 and text:
        at = dice.randrange(len(text))
        return text[:at] + bytes([dice.randrange(256)]) + text[at + 1 :]
    if kind == 4:
        lines, begin, end = line_piece(dice, text)
        moved = lines[begin:end]
        del lines[begin:end]
        at = dice.randrange(len(lines) + 1)
        return b"".join(lines[:at] + moved + lines[at:])
    if kind == 5:
        other = dice.choice(others)
        lines, begin, end = line_piece(dice, other)
        own = text.splitlines(True)
        at = dice.randrange(len(own) + 1)
        return b"".join(own[:at] + lines[begin:end] + own[at:])
    if kind == 6:
        other = dice.choice(others)
        begin, end = piece(dice, other, dice.choice((20, 300)))
        at = dice.randrange(len(text) + 1)
        return text[:at] + other[begin:end] + text[at:]
    if kind == 7:
        at = dice.randrange(len(text) + 1)
        return text[:at] + dice.choice(WORDS) + text[at:]
    if kind == 8 and dice.randrange(4) == 0:
        return text[: dice.randrange(len(text) + 1)]
    # the words of a grammar: one for another, one gone, one twice; such files are often read, and built
    word = word_near(dice, text)
    if not word:
        return text
    other = word_near(dice, text).group()
    new = dice.choice((b"", other, other, word.group() + b" " + word.group(), b"| " + word.group()))
    return text[: word.start()] + new + text[word.end() :]


def word_near(dice, text):
    """A word behind some place, or the first."""
    return NAME.search(text, dice.randrange(len(text) + 1)) or NAME.search(text)


def damaged(seed, index, texts, shorts):
    """File number `index` of the seed."""
    dice = random.Random(f"{seed}:{index}")
    text = dice.choice(texts if dice.randrange(20) == 0 else shorts)
    for _ in range(dice.choice((1, 1, 1, 2, 3, 5, 12, 40))):
        text = damage(dice, text, shorts)
    return text


# ---- runs


def processor_seconds():
    usage = resource.getrusage(resource.RUSAGE_CHILDREN)
    return usage.ru_utime + usage.ru_stime


def run(program, mode, paths, folder, seconds):
    """Status (None: out of time), standard output, standard error, processor seconds."""

    def limit():
        most = int(seconds) + 1
        resource.setrlimit(resource.RLIMIT_CPU, (most, most + 1))
        resource.setrlimit(resource.RLIMIT_AS, (4 << 30, 4 << 30))
        resource.setrlimit(resource.RLIMIT_CORE, (0, 0))

    begin = processor_seconds()
    try:
        # what takes processor time ends by its limit; what waits, on a busy machine too, by this one
        done = subprocess.run([program, *mode, *paths], cwd=folder, stdin=subprocess.DEVNULL, capture_output=True, timeout=60 + 20 * seconds, preexec_fn=limit)
    except subprocess.TimeoutExpired:
        return None, b"", b"", processor_seconds() - begin
    taken = processor_seconds() - begin
    status = None if done.returncode in (-signal.SIGXCPU, -signal.SIGKILL) and taken > seconds else done.returncode
    return status, done.stdout, done.stderr, taken


ERROR = re.compile(rb"^([^:\n]+):(\d+):(\d+): error: ", re.M)


def judge(status, out, error, name):
    """What is wrong with the answer for one file, or None."""
    if status is None:
        return "no end"
    if status < 0:
        return f"ended by signal {-status}"
    if status > 4:
        return f"status {status}"
    has_error = any(found.group(1) == name.encode() for found in ERROR.finditer(error))
    if status == 2 and not has_error:
        return "status 2 without a line `file:line:column: error:`"
    if status != 2 and has_error:
        return f"an error is said, and the status is {status}"
    if status == 2 and out:
        return "output on standard output for a file with errors"
    if status == 4:
        return "status 4 for a file that can be read"
    if b"panicked" in error:
        return "a panic is said"
    return None


def is_suspect(status, out, error, names, seconds, limit):
    """Whether the files of one process must be looked at one by one."""
    if status is None or status < 0 or status > 3 or seconds > limit or b"panicked" in error:
        return True
    wrong = {found.group(1) for found in ERROR.finditer(error)}
    if bool(wrong) != (status == 2) and not (wrong and status == 3):
        return True
    return any(re.search(rb"(?m)(^|\")" + re.escape(name) + rb"[:\" ]", out) for name in wrong)


def against_bison(wish, program, seed, texts):
    """The mode --bison."""
    findings = both = neither = alone = passed_over = 0
    with tempfile.TemporaryDirectory() as folder:
        for index in range(wish.first, wish.first + wish.count):
            text = damaged(seed, index, texts, texts)
            path = os.path.join(folder, f"{index}.y")
            with open(path, "wb") as file:
                file.write(text)
            try:
                row, report, bare = real.bison_row(text)
            except real.Missing as reason:
                row = None
                refusal = str(reason)
            if row is not None and report.is_reduced:
                passed_over += 1
                continue
            status, _, error, _ = run(program, ["check"], [path], folder, wish.seconds)
            if row is None:
                neither += status == 2
                alone += status in (0, 1)
                found = [] if status in (0, 1, 2, 3) else [f"{index}: status {status}, and bison refuses it: {refusal}"]
            else:
                both += status in (0, 1)
                found = real.compare(str(index), row, program, path) or real.compare_contents(str(index), program, path, report, bare)
            for line in found:
                print(f"finding: {line}", flush=True)
            if found:
                findings += 1
                os.makedirs(wish.keep, exist_ok=True)
                shutil.copy(path, os.path.join(wish.keep, f"{seed}_{index}.y"))
            os.unlink(path)
    print(f"{both} read by both, {neither} by neither, {alone} by the command alone, {passed_over} passed over (bison leaves useless rules out)")
    print(f"{wish.count} files, {findings} findings")
    return 1 if findings else 0


def arguments():
    parser = argparse.ArgumentParser(description=__doc__, formatter_class=argparse.RawDescriptionHelpFormatter, allow_abbrev=False)
    parser.add_argument("--folder", default=os.path.join(CACHE, "lihvemur-real"), help="where oracle/real.sh put the grammars (default: %(default)s)")
    parser.add_argument("--program", default=PROGRAM, help="the command's binary (default: crates/lihvemur/out/lihvemur)")
    parser.add_argument("--count", type=int, default=100000, help="how many files (default: %(default)s)")
    parser.add_argument("--seed", type=int, help="default: from the clock; it is printed")
    parser.add_argument("--first", type=int, default=0, metavar="INDEX", help="the number of the first file (default: 0)")
    parser.add_argument("--batch", type=int, default=40, help="files given to one process (default: %(default)s)")
    parser.add_argument("--alone", type=int, default=20, metavar="N", help="each N-th process is made for one file alone instead, for its exact answer (default: %(default)s)")
    parser.add_argument("--seconds", type=float, default=2.0, help="limit for one file, of processor time (default: %(default)s)")
    parser.add_argument("--keep", default=os.path.join(CACHE, "lihvemur-findings"), help="where findings are kept (default: %(default)s)")
    parser.add_argument("--bison", action="store_true", help="compare with bison, file by file")
    parser.add_argument("--show", type=int, metavar="INDEX", help="write this file of --seed to standard output, and end")
    try:
        return parser.parse_args()
    except SystemExit as end:
        sys.exit(4 if end.code else 0)


def main():
    wish = arguments()
    texts = bases(wish.folder)
    shorts = [without_epilogue(text) for text in texts]
    # large grammars take most of the time: they come once, all others three times
    shorts = [text for text in shorts for _ in range(1 if len(text) > 60000 else 3)]
    if wish.show is not None:
        if wish.seed is None:
            return usage("--show wants --seed")
        sys.stdout.buffer.write(damaged(wish.seed, wish.show, texts, shorts))
        return 0
    if not os.access(wish.program, os.X_OK):
        return usage(f"{wish.program} is not there: build the command, or name it by --program")
    program = os.path.abspath(wish.program)
    seed = wish.seed if wish.seed is not None else int(time.time())
    print(f"seed {seed}", flush=True)
    findings = 0
    errors = 0
    if wish.bison:
        return against_bison(wish, program, seed, [text for text in shorts if len(text) < 60000])
    begin = time.monotonic()
    shared = "/dev/shm" if os.path.isdir("/dev/shm") else None
    with tempfile.TemporaryDirectory(dir=shared) as folder:

        def alone(name, mode):
            nonlocal findings
            status, out, error, seconds = run(program, mode, [name], folder, wish.seconds)
            what = judge(status, out, error, name)
            if what is None:
                return
            findings += 1
            os.makedirs(wish.keep, exist_ok=True)
            kept = os.path.join(wish.keep, f"{seed}_{name}")
            shutil.copy(os.path.join(folder, name), kept)
            print(f"finding: {kept} ({' '.join(mode) or 'no options'}, {seconds:.2f} s): {what}", flush=True)

        done = 0
        turn = 0
        while done < wish.count:
            size = min(wish.batch, wish.count - done)
            names = []
            for index in range(wish.first + done, wish.first + done + size):
                name = f"{index}.y"
                with open(os.path.join(folder, name), "wb") as file:
                    file.write(damaged(seed, index, texts, shorts))
                names.append(name)
            mode = MODES[turn % len(MODES)]
            status, out, error, seconds = run(program, mode, names, folder, wish.seconds * size)
            errors += len({found.group(1) for found in ERROR.finditer(error)})
            if is_suspect(status, out, error, [n.encode() for n in names], seconds, wish.seconds) or turn % wish.alone == 0:
                for name in names:
                    alone(name, mode)
            for name in names:
                os.unlink(os.path.join(folder, name))
            done += size
            turn += 1
            if turn % 100 == 0:
                print(f"  {done} files, {findings} findings, {time.monotonic() - begin:.0f} s", file=sys.stderr, flush=True)
    print(f"{errors} of the files have errors, {time.monotonic() - begin:.0f} s")
    print(f"{done} files, {findings} findings")
    return 1 if findings else 0


if __name__ == "__main__":
    sys.exit(main())
