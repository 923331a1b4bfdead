#!/usr/bin/env python3
"""Arrays of the functions that `conflicts::classify` and `conflicts::choose` reach, read from the MIR of the proved libraries (crates/NAME/out/rlib, the toolchain's for std).

    tests/arrays.py [LIMIT]      the table: every array of every function reached, with its elements and its words of 16 bits; fails where one has above LIMIT (2000) of either
    tests/arrays.py --selftest   a planted array of 2,001 words in a function reached makes one finding more, one of 2,000 or in a function that is not reached none

What is behind a reference is another's. An array in a struct, in an array or in a variant counts where the value that holds it is a local.
The libraries are those that `rt ci` left; where `rt lib` built them in this checkout, it first brings them up to date.
"""
import glob
import json
import os
import re
import shutil
import subprocess
import sys

CRATE = "conflicts"
ROOTS = ["conflicts::classify", "conflicts::choose"]
LIMIT = 2000
TOP = os.path.dirname(os.path.dirname(os.path.abspath(__file__)))


def libraries():
    """The crate and those below it, as crates.txt lists them."""
    lines = {}
    for line in open(TOP + "/crates.txt", encoding="utf-8"):
        name, colon, below = line.partition("#")[0].partition(":")
        if colon:
            lines[name.split()[0]] = below.split()
    found, left = [], [CRATE]
    while left:
        crate = left.pop()
        if crate in lines and crate not in found:
            found.append(crate)
            left.extend(lines[crate])
    return found


def rlib(crate):
    return "%s/crates/%s/out/rlib/%s.rlib/toolchain/mir.json" % (TOP, crate, crate)


def ready(crates):
    """Has the libraries stand as their sources are."""
    if all(os.path.isfile(rlib(crate)) for crate in crates) and not glob.glob(TOP + "/crates/*/out/rlib/stamp"):
        return
    sys.stderr.write("arrays.py: proving and building the libraries; this takes minutes\n")
    said = subprocess.run(["rt", "lib"], cwd="%s/crates/%s" % (TOP, CRATE), stdout=subprocess.PIPE, stderr=subprocess.STDOUT, universal_newlines=True)
    if said.returncode != 0:
        sys.exit(said.stdout + "arrays.py: `rt lib` built no library")


def toolchain():
    return os.path.dirname(os.path.dirname(os.path.realpath(shutil.which("rt"))))


def inside(node):
    """Every list and object within a term, the term itself first."""
    left = [node]
    while left:
        at = left.pop()
        if isinstance(at, dict):
            yield at
            left.extend(reversed(list(at.values())))
        elif isinstance(at, list):
            left.extend(reversed(at))


class Mir:
    """The functions of all crates, read as they are asked for."""

    def __init__(self, crates):
        self.functions, self.types, self.methods, self.read = {}, {}, {}, set()
        self.files = {crate: rlib(crate) for crate in crates}

    def function(self, name):
        crate = name.partition("::")[0]
        if crate not in self.read:
            self.read.add(crate)
            file = self.files.get(crate, "%s/rlibs/%s.rlib/toolchain/mir.json" % (toolchain(), crate))
            with open(file, encoding="utf-8") as text:
                for given, item in json.load(text):
                    self.functions[given] = item
                    for declared in item["types"]:
                        self.types[declared["name"]] = declared["shape"]
                    for impl in item["generics"]["impls"]:
                        self.methods[impl["name"]] = impl["methods"]
        if name not in self.functions:
            sys.exit("arrays.py: %s is called and not in the MIR" % name)
        return self.functions[name]


def put(node, types, dicts):
    """A term with the caller's types and implementations in the place of parameters."""
    if isinstance(node, list):
        return [put(part, types, dicts) for part in node]
    if isinstance(node, dict):
        if list(node) == ["Param"] and isinstance(node["Param"], int):
            return types[node["Param"]]
        if list(node) == ["Given"]:
            return dicts[node["Given"]]
        return {key: put(part, types, dicts) for key, part in node.items()}
    return node


class Program:
    def __init__(self, mir):
        self.mir = mir
        self.planted = {}

    def locals(self, instance):
        name, types, dicts = json.loads(instance)
        found = [put(local["ty"], types, dicts) for local in self.mir.function(name)["locals"]]
        return found + self.planted.get(name, [])

    def calls(self, instance):
        name, types, dicts = json.loads(instance)
        for node in inside(self.mir.function(name)["body"]):
            if "CallV" in node:
                sys.exit("arrays.py: %s calls what it was passed, and is not followed" % name)
            if "Fn" in node and isinstance(node["Fn"], list):
                callee, given = node["Fn"]
                yield self.instance(callee, put(given["types"], types, dicts), put(given["dicts"], types, dicts))
            if "Method" in node and isinstance(node["Method"], list):
                of, number, given = node["Method"]
                impl = put(of, types, dicts)["Impl"]
                # (the name is that of the crate in which it stands, whose functions are read first)
                self.load(impl[0])
                yield self.instance(self.mir.methods[impl[0]][number], impl[1] + put(given["types"], types, dicts), impl[2] + put(given["dicts"], types, dicts))

    def load(self, name):
        if name not in self.mir.methods:
            try:
                self.mir.function(name)
            except SystemExit:
                pass
        if name not in self.mir.methods:
            sys.exit("arrays.py: the implementation %s is used and not in the MIR" % name)

    def instance(self, name, types, dicts):
        declared = self.mir.function(name)["generics"]
        if len(declared["types"]) != len(types):
            sys.exit("arrays.py: %s has %d type parameters and is given %d" % (name, len(declared["types"]), len(types)))
        return json.dumps([name, types, dicts])

    def reached(self):
        found, left = [], [self.instance(root, [], []) for root in ROOTS]
        while left:
            at = left.pop(0)
            if at in found:
                continue
            found.append(at)
            left.extend(sorted(set(self.calls(at))))
        return found

    def layouts(self, type_):
        """The fields of a struct, or those of each variant of an enum behind its tag."""
        if "Struct" in type_:
            return [type_["Struct"][1]]
        named, types = type_["Named"]
        shape = put(self.mir.types[named["name"]], types, [])
        if "Fields" in shape:
            return [shape["Fields"]]
        return [[{"Int": 8}] + variant for variant in shape["Variants"]]

    def size(self, type_):
        """Bytes and alignment of a value."""
        kind = type_ if isinstance(type_, str) else next(iter(type_))
        if kind == "Unit":
            return 0, 1
        if kind == "Bool":
            return 1, 1
        if kind in ("Ref", "Ptr"):
            return 8, 8
        if kind in ("Int", "Float"):
            return type_[kind] // 8, type_[kind] // 8
        if kind in ("Array", "Vector"):
            each, align = self.size(type_[kind][0])
            return each * length(type_), align
        whole, most = 0, 1
        for fields in self.layouts(type_):
            at = 0
            for field in fields:
                size, align = self.size(field)
                at = -(-at // align) * align + size
                most = max(most, align)
            whole = max(whole, at)
        return -(-whole // most) * most, most

    def arrays(self, type_):
        """The arrays that a value of this type has."""
        kind = type_ if isinstance(type_, str) else next(iter(type_))
        if kind in ("Array", "Vector"):
            yield type_
            yield from self.arrays(type_[kind][0])
        elif kind in ("Struct", "Named"):
            for fields in self.layouts(type_):
                for field in fields:
                    yield from self.arrays(field)

    def shown(self, type_):
        kind = type_ if isinstance(type_, str) else next(iter(type_))
        if kind in ("Array", "Vector"):
            return "[%s; %d]" % (self.shown(type_[kind][0]), length(type_))
        if kind == "Int":
            return "u%d" % type_["Int"]
        if kind == "Named":
            return type_["Named"][0]["name"]
        return kind.lower()

    def rows(self):
        """(function, array, how many, elements of one, words of one)"""
        found = {}
        for instance in self.reached():
            for local in self.locals(instance):
                for array in self.arrays(local):
                    elements, inner = length(array), next(iter(array.values()))[0]
                    while isinstance(inner, dict) and "Array" in inner:
                        elements, inner = elements * length(inner), inner["Array"][0]
                    key = (json.loads(instance)[0], self.shown(array), elements, -(-self.size(array)[0] // 2))
                    found[key] = found.get(key, 0) + 1
        return sorted(((f, a, n, e, w) for (f, a, e, w), n in found.items()), key=lambda row: (-max(row[3], row[4]), row[0], row[1]))


def length(array):
    given = next(iter(array.values()))[1]
    for key in ("Lit", "Const"):
        if isinstance(given, dict) and isinstance(given.get(key), int):
            return given[key]
    sys.exit("arrays.py: an array's length is no number: %s" % given)


def above(rows, limit):
    return [row for row in rows if max(row[3], row[4]) > limit]


def selftest(mir):
    def findings(function=None, elements=0):
        program = Program(mir)
        if function:
            program.planted[function] = [{"Array": [{"Int": 16}, {"Lit": elements}]}]
        return above(program.rows(), LIMIT)

    reached = [json.loads(it)[0] for it in Program(mir).reached()]
    spared = sorted(set(mir.functions) - set(reached))
    before = findings()
    for function in (reached[0], reached[-1]):
        more = [row for row in findings(function, LIMIT + 1) if row not in before]
        if [row[:2] + row[3:] for row in more] != [(function, "[u16; %d]" % (LIMIT + 1), LIMIT + 1, LIMIT + 1)]:
            sys.exit("arrays.py: an array of %d words in %s is not found" % (LIMIT + 1, function))
        if findings(function, LIMIT) != before:
            sys.exit("arrays.py: an array of %d words in %s is a finding" % (LIMIT, function))
    if spared and findings(spared[0], LIMIT + 1) != before:
        sys.exit("arrays.py: %s is not reached, and its array is a finding" % spared[0])
    print("arrays.py: planted arrays are found")


def main():
    words = sys.argv[1:]
    if words in (["-h"], ["--help"]):
        print(__doc__.strip())
        return
    if words and words != ["--selftest"] and not (len(words) == 1 and words[0].isdigit()):
        sys.stderr.write("arrays.py: not understood: %s\n\n%s\n" % (" ".join(words), __doc__.strip()))
        sys.exit(2)
    if not shutil.which("rt"):
        sys.exit("arrays.py: the Rattle kit's rt is not on the PATH")
    crates = libraries()
    ready(crates)
    mir = Mir(crates)
    if words == ["--selftest"]:
        selftest(mir)
        return
    limit = int(words[0]) if words else LIMIT
    program = Program(mir)
    rows = program.rows()
    print("%8s %8s  array" % ("words", "elements"))
    for function, array, count, elements, size in rows:
        print("%8d %8d  %s%s in %s" % (size, elements, "%d of " % count if count > 1 else "", array, function))
    over = above(rows, limit)
    print("%d functions reached, %d rows, %d above %d" % (len({json.loads(it)[0] for it in program.reached()}), len(rows), len(over), limit))
    sys.exit(1 if over else 0)


if __name__ == "__main__":
    main()
