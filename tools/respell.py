#!/usr/bin/env python3
"""Spells this repository's own definitions, lemmas and record fields in snake case.

Run once at the top, after the kit's own script. It reads the names that specs/ and proofs/ declare, and turns `gateOf` and
`xor-over` into `gate_of` and `xor_over` wherever they stand, in specs/, proofs/ and the clauses of src/. A name whose new
spelling is taken, by another name here or by one that is brought in from the library, keeps its dash. Comments, strings,
names of the library and names that the check makes (`loop-w`, `returns-in_ok`) stay.
"""
import glob
import re
import sys

TOKEN = re.compile(r"[^\s(){}\[\].,;:·`\"]+")
DECLARED = re.compile(r"^(\s*)(?:(?:abbrev|unfoldable|pub|irrelevant)\s+)*(?:(?:data|record)\s+)?([^\s(){}\[\].,;:·]+)\s*(?:\(|\{|:)")
MADE = re.compile(r"^(returns|loop|if|in|then|else|overflow|bounds|invariant|measure|slice_bounds|nonzero|offset_bounds|prove|match|recursion|closure)-|-(requires|init|preserved|smaller|clause-.*)$")


# Names that would fall together with another.
CHOSEN = {
    "places-of": "wires_to_places",
    "is-in": "in_if_is_in",
    "is-out": "out_if_is_out",
    "plain-text": "text_is_plain",
    "writtenOff": "after_write_off",
    "if-obeyed": "if_obeyed",
    "in-none-out": "in_none_out",
    "in-not-out": "in_not_out",
    "in-or-out": "in_or_out",
    "in-word": "in_word",
}


def is_own(module, crates):
    return module.split(".")[0] == "Rattle" and module.split(".")[1] in crates


def main():
    crates = {p.split("/")[1] for p in glob.glob("crates/*/src")}
    files = glob.glob("crates/*/specs/**/*.antt", recursive=True) + glob.glob("crates/*/proofs/**/*.antt", recursive=True)
    sources = glob.glob("crates/*/src/**/*.rt", recursive=True)
    own, foreign = {}, set()
    for f in files + sources:
        text = open(f).read()
        for module, names in re.findall(r"use ([^\s{}]+)\.\{([^}]*)\}", text):
            if not is_own(module, crates):
                for n in names.split(","):
                    foreign.add(n.strip().split(" as ")[0].strip())
                    foreign.add(n.strip().split(" as ")[-1].strip())
            else:
                for n in names.split(","):
                    if " as " in n:
                        own.setdefault(n.split(" as ")[1].strip(), f)
    for f in files:
        for line in open(f):
            m = DECLARED.match(line)
            if m and not line.lstrip().startswith(("use ", "pub use", "--")):
                own.setdefault(m.group(2), f)
    new = {}
    for n in own:
        if n in foreign or n not in CHOSEN and MADE.search(n) or not n[0].islower():
            continue
        s = CHOSEN.get(n) or re.sub(r"([a-z0-9])([A-Z])", lambda m: m.group(1) + "_" + m.group(2).lower(), n).replace("-", "_")
        if s != n:
            new[n] = s
    # a new spelling that is taken
    taken = {}
    for n, s in sorted(new.items()):
        taken.setdefault(s, []).append(n)
    for s, ns in taken.items():
        if len(ns) > 1 or s in own or s in foreign or s in STD:
            print("taken:", s, ns, "own" if s in own else "", "foreign" if s in foreign else "", "std" if s in STD else "")
            for n in ns:
                if "-" in n:
                    del new[n]
    report = open("/tmp/respelled.txt", "w")
    for n, s in sorted(new.items()):
        report.write(f"{n} {s}\n")

    def turn(code):
        return TOKEN.sub(lambda m: new.get(m.group(0), m.group(0)), code)

    for f in files:
        out = []
        for line in open(f):
            code, dashes, comment = line.partition("--")
            out.append(turn(code) + dashes + comment)
        open(f, "w").write("".join(out))
    for f in sources:
        out = []
        for line in open(f):
            code, slashes, comment = line.partition("//")
            parts = re.split(r'("(?:[^"\\]|\\.)*")', code)
            parts = [p if i % 2 else turn(p) for i, p in enumerate(parts)]
            out.append("".join(parts) + slashes + comment)
        open(f, "w").write("".join(out))
    print(len(new), "names respelled; the list is in /tmp/respelled.txt")


def std_names():
    text = open("/opt/rattle/rattle/std/proofs/Common.antt").read()
    return {n.strip() for g in re.findall(r"\{([^}]*)\}", text) for n in g.split(",")}


STD = std_names()
if __name__ == "__main__":
    sys.exit(main())
