#!/usr/bin/env python3
"""Compares the explaining program with the Rust byte for byte: explain.py ORACLE PROGRAM SEED COUNT [STATES]. Every generated table with its conflicts is one input;
with the program states named, so is every table that it builds of a generated grammar, with all its conflicts."""
import struct
import subprocess
import sys


def cases(lines):
    """Tables with their conflicts and the start productions that are asked."""
    table, conflicts, starts = None, [], set()
    for line in lines:
        words = line.split()
        if not words:
            continue
        if words[0] == "table":
            if table is not None:
                yield table, conflicts, starts
            table, conflicts, starts = [int(w) for w in words[1:]], [], set()
        elif words[0] == "classify":
            conflicts.append([int(w) for w in words[1:6]])
        elif words[0] == "build":
            starts.add(int(words[1]))
    if table is not None:
        yield table, conflicts, starts


def packed(numbers):
    return struct.pack("<%dH" % len(numbers), *numbers)


def run(program, data):
    return subprocess.run(program, input=data, capture_output=True, check=True).stdout


def inputs(oracle, seed, count, states):
    """What is explained, and of what kind it is."""
    for kind in ["classic", "random", "bent", "arbitrary", "limit"] + (["build"] if states else []):
        text = subprocess.run([oracle, "generate", kind, seed, count], capture_output=True, text=True, check=True).stdout
        for table, conflicts, starts in cases(text.splitlines()):
            front = [len(table) // 4] + table
            if conflicts:
                yield kind, packed(front + [w for conflict in conflicts for w in conflict])
            for start in sorted(starts):
                built = run([states], packed(front + [start]))
                if built:
                    yield kind, built


def main():
    if sys.argv[1:] in (["-h"], ["--help"]):
        print(__doc__)
        return
    if len(sys.argv) not in (5, 6) or not (sys.argv[3] + sys.argv[4]).isdigit():
        sys.stderr.write(__doc__ + "\n")
        sys.exit(2)
    oracle, program, seed, count = sys.argv[1:5]
    states = sys.argv[5] if len(sys.argv) > 5 else None
    passed, failed, classes = 0, 0, {}
    for kind, data in inputs(oracle, seed, count, states):
        expected = run([oracle, "explain"], data)
        if b" no run\n" in expected:
            # two targets for one symbol: the Rust cannot hold the table
            continue
        answer = run([program], data)
        for line in answer.decode().splitlines():
            words = line.split()
            if words[0].isdigit():
                classes[kind, words[1]] = classes.get((kind, words[1]), 0) + 1
        if answer == expected:
            records = struct.unpack("<H", data[:2])[0]
            passed += (len(data) - 2 - 8 * records) // 10
        else:
            failed += 1
            print("differs:", kind, struct.unpack("<%dH" % (len(data) // 2), data))
    print("explain: seeds %s on, %s each; classes" % (seed, count), sorted(classes.items()))
    print("%d passed, %d failed" % (passed, failed))
    sys.exit(0 if failed == 0 and passed > 0 else 1)


main()
