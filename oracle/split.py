#!/usr/bin/env python3
"""Parts the sample of the oracle by what answers it: split.py REQUESTS ANSWERS FOLDER writes FOLDER/requests and FOLDER/answers, which tests/c/replay.c asks of the static library,
and FOLDER/sets.requests and FOLDER/sets.answers, those of ops 14 and 15, which the program item_sets answers."""
import struct
import sys

SETS = (14, 15)


def requests(data):
    """Each request with its op, in order: op, number of table words in two words, the table, number of further words, those."""
    at = 0
    while at < len(data):
        op, low, high = struct.unpack_from("<3H", data, at)
        more = at + 6 + 2 * (low + high * 65536)
        end = more + 2 + 2 * struct.unpack_from("<H", data, more)[0]
        yield op, data[at:end]
        at = end


def main():
    if sys.argv[1:] in (["-h"], ["--help"]):
        print(__doc__)
        return
    if len(sys.argv) != 4:
        sys.stderr.write(__doc__ + "\n")
        sys.exit(2)
    given, answered, folder = sys.argv[1:]
    with open(given, "rb") as file:
        asked = list(requests(file.read()))
    with open(answered, encoding="ascii") as file:
        answers = file.read().splitlines(keepends=True)
    if len(asked) != len(answers):
        sys.exit("split.py: %d requests and %d answers" % (len(asked), len(answers)))
    for prefix, sets in (("", False), ("sets.", True)):
        chosen = [k for k, (op, _) in enumerate(asked) if (op in SETS) == sets]
        with open("%s/%srequests" % (folder, prefix), "wb") as file:
            file.write(b"".join(asked[k][1] for k in chosen))
        with open("%s/%sanswers" % (folder, prefix), "w", encoding="ascii") as file:
            file.write("".join(answers[k] for k in chosen))


main()
