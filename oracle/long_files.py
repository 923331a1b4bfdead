#!/usr/bin/env python3
"""Gives the command `lihvemur` long files of one shape each, and looks whether time and memory grow as the file does.

Each shape is made at a size and at four times that size. A finding is: an end by a signal; a status outside 0 to 4;
more than --seconds of processor time; more than eight times the time or the memory at the larger size (where that is
above 0.2 s or 64 MB). The last line is `N shapes, M findings`.

Status: 0 no findings, 1 findings, 4 usage.
"""

import argparse
import os
import resource
import signal
import subprocess
import sys
import tempfile

import real


def numbered(count, form):
    return b"".join(form.replace(b"#", str(i).encode()).replace(b"&", str(i + 1).encode()) for i in range(count))


RULE = b"%token x\n%%\na: "
SHAPES = {
    "open braces": lambda n: RULE + b"{" * n,
    "actions": lambda n: RULE + b"{}" * (n // 2) + b";",
    "quotes": lambda n: RULE + b"'" * n,
    "strings on one line": lambda n: RULE + b'" "' * (n // 3) + b";",
    "open strings": lambda n: RULE + b'_("' * (n // 3) + b";",
    "tags": lambda n: b"%token " + b"<a " * (n // 3),
    "references": lambda n: RULE + b"x[y]" * (n // 4) + b";",
    "open comments": lambda n: RULE + b"/* " * (n // 3),
    "stray bytes": lambda n: b"% " * (n // 2),
    "prologues": lambda n: b"%{%}" * (n // 4),
    "predicates": lambda n: RULE + b"%? " * (n // 3) + b";",
    "rules of one name": lambda n: b"%%\n" + b"a:" * (n // 2),
    "empty alternatives": lambda n: b"%%\na:" + b"|" * n + b";",
    "equal alternatives": lambda n: RULE + b"x" + b"|x" * (n // 2) + b";",
    "tokens": lambda n: b"%token " + numbered(n // 7, b"a# ") + b"\n%%\na:;",
    "undeclared names": lambda n: b"%%\na: " + numbered(n // 7, b"a# ") + b";",
    "names near others": lambda n: b"%token " + numbered(n // 28, b"abcdefgh# ") + b"\n%%\na: " + numbered(n // 28, b"abcdefgx# ") + b";",
    "aliases": lambda n: b"%token " + numbered(n // 14, b't# "s#" ') + b"\n%%\na:;",
    "levels": lambda n: numbered(n // 13, b"%left a#\n") + b"%%\ns:a0;",
    "unit rules": lambda n: b"%token x\n%%\n" + numbered(n // 18, b"a#:a& x|x;\n") + b"a%d:x;" % (n // 18),
    "a long rule": lambda n: RULE + b"x " * (n // 2) + b";",
    "nested rules": lambda n: b"%token x\n%%\n" + numbered(n // 18, b"a#:x a& x;\n") + b"a%d:x;" % (n // 18),
}


def measure(program, text, seconds, room):
    """Status (None: out of time), processor seconds, peak megabytes."""
    with tempfile.TemporaryDirectory() as folder:
        path = os.path.join(folder, "grammar.y")
        said = os.path.join(folder, "said")
        with open(path, "wb") as file:
            file.write(text)

        def limit():
            resource.setrlimit(resource.RLIMIT_CPU, (seconds, seconds + 1))
            resource.setrlimit(resource.RLIMIT_AS, (room, room))
            resource.setrlimit(resource.RLIMIT_CORE, (0, 0))

        words = [real.TIME, "-q", "-o", said, "-f", "%U %S %M", program, "check", path]
        status = subprocess.run(words, stdin=subprocess.DEVNULL, stdout=subprocess.DEVNULL, stderr=subprocess.DEVNULL, preexec_fn=limit).returncode
        user, system, kilobytes = real.read_file(said).split()[-3:]
        taken = float(user) + float(system)
        # GNU time says 128 and the signal
        is_out = status - 128 in (signal.SIGXCPU, signal.SIGKILL) or taken > seconds
        return None if is_out else status, taken, int(kilobytes) / 1024


def main():
    parser = argparse.ArgumentParser(description=__doc__, formatter_class=argparse.RawDescriptionHelpFormatter, allow_abbrev=False)
    parser.add_argument("--program", default=real.PROGRAM, help="the command's binary (default: crates/lihvemur_command/out/lihvemur_command)")
    parser.add_argument("--size", type=int, default=2000, help="bytes of the smaller file (default: %(default)s)")
    parser.add_argument("--seconds", type=int, default=10, help="limit for one file, of processor time (default: %(default)s)")
    parser.add_argument("shapes", nargs="*", metavar="SHAPE", help="shapes to try (default: all)")
    try:
        wish = parser.parse_args()
    except SystemExit as end:
        return 4 if end.code else 0
    unknown = set(wish.shapes) - set(SHAPES)
    if unknown or not os.access(wish.program, os.X_OK) or not os.access(real.TIME, os.X_OK):
        what = f"no such shape: {', '.join(sorted(unknown))}" if unknown else f"{wish.program} or {real.TIME} is not there"
        print(f"long_files.py: {what}", file=sys.stderr)
        return 4
    findings = 0
    shapes = wish.shapes or list(SHAPES)
    print(f"{'shape':<22}{'status':>7}{'s':>8}{'MB':>8}{'four times: s':>16}{'MB':>8}")
    for name in shapes:
        small = measure(wish.program, SHAPES[name](wish.size), wish.seconds, 3 << 30)
        large = measure(wish.program, SHAPES[name](4 * wish.size), wish.seconds, 3 << 30)
        wrong = []
        if large[0] is None:
            wrong.append("no end")
        elif large[0] > 4:
            wrong.append(f"status {large[0]}")
        if large[1] > max(0.2, 8 * small[1]):
            wrong.append("time")
        if large[2] > max(64, 8 * small[2]):
            wrong.append("memory")
        findings += bool(wrong)
        print(f"{name:<22}{large[0]!s:>7}{small[1]:>8.2f}{small[2]:>8.1f}{large[1]:>16.2f}{large[2]:>8.1f}  {', '.join(wrong)}", flush=True)
    print(f"{len(shapes)} shapes, {findings} findings")
    return 1 if findings else 0


if __name__ == "__main__":
    sys.exit(main())
