#!/usr/bin/env python3
"""Lists the places in src/ that an older form of the language may have left: run it at the top as `tools/places.py POINT`.

Each line is one candidate, FILE:LINE: TEXT. A candidate is no verdict: docs/DESIGN-PASS.md says which of them are places and what became
of each. POINT is 1 to 7, as there; with no POINT it prints how many candidates each has.
"""
import collections
import glob
import re
import sys


def sources():
    for name in sorted(glob.glob("crates/*/src/**/*.rt", recursive=True)):
        yield name, open(name).read().split("\n")


def code(line):
    """The line without its comment."""
    return re.sub(r"//.*", "", line)


def lines_with(pattern):
    """Every line of code with the pattern in it."""
    found = []
    for name, lines in sources():
        for i, line in enumerate(lines):
            if re.search(pattern, code(line)) and not line.lstrip().startswith("ghost"):
                found.append(f"{name}:{i + 1}: {line.strip()}")
    return found


def functions():
    """Each function as (file, line, name, header, body), in the order of the files."""
    for name, lines in sources():
        text = "\n".join(code(line) for line in lines)
        for match in re.finditer(r"\bfn (\w+)", text):
            end, depth, i = None, 0, match.end()
            start = None
            while i < len(text):
                char = text[i]
                if char == "{":
                    if depth == 0 and re.search(r"(requires|ensures)\*?( \w+)?\s*$", text[match.start():i]):
                        inner = 1
                        i += 1
                        while inner:
                            inner += {"{": 1, "}": -1}.get(text[i], 0)
                            i += 1
                        continue
                    if depth == 0:
                        start = i
                    depth += 1
                elif char == "}":
                    depth -= 1
                    if depth == 0:
                        end = i + 1
                        break
                elif char == ";" and depth == 0 and start is None:
                    break
                i += 1
            line = text.count("\n", 0, match.start()) + 1
            header = text[match.start():start if start else i]
            body = text[start:end] if start and end else ""
            yield name, line, match.group(1), header, body


def kinds():
    """1: own enums, flags, numbers that stand for a case."""
    enums = lines_with(r"^\s*(pub(\(crate\))? )?enum ")
    flags = [line for line in lines_with(r"\w+: bool\b") if "ensures" not in line]
    numbers = []
    for name, line, function, header, body in functions():
        if re.search(r"-> (u8|usize|u64|u16)\s*(ensures|requires|$|\n)", header + "\n"):
            if re.search(r"(else \{\s*|=> |^\s*return |return )(0|64|u\d+::MAX)\b", body):
                numbers.append(f"{name}:{line}: fn {function}")
    return enums + flags + numbers


def normal(body):
    """A body with its names and numbers taken off: twins have the same."""
    words = re.sub(r"\b\d[\d_a-z]*\b", "0", body)
    words = re.sub(r"[A-Za-z_]\w*", lambda m: m.group(0) if m.group(0) in KEPT else "x", words)
    return re.sub(r"\s+", " ", words)


KEPT = {"for", "in", "if", "else", "match", "while", "loop", "return", "let", "mut", "write", "assert", "assert_eq", "as"}


def twins():
    """2: functions whose bodies differ only in names and numbers, and functions of one name with like bodies."""
    groups = collections.defaultdict(list)
    for name, line, function, header, body in functions():
        if len(body) > 60:
            groups[normal(body)].append((name, line, function))
    found = []
    for group in groups.values():
        if len(group) > 1:
            for name, line, function in group:
                found.append(f"{name}:{line}: fn {function} ({len(group)} alike)")
    return sorted(found)


def loops():
    """3: loops over a range, and loops with a count of their own."""
    return lines_with(r"\bfor \w+ in [^{]*\.\.|\bwhile\b|\bloop\b|^\s*\w+ (\+|-)= 1;|saturating_add\(1\)")


def by_hand():
    """4: conversions, equality, copying and printing."""
    return (lines_with(r"\bimpl(<[^>]*>)? (fmt::Display|From|TryFrom|PartialEq|PartialOrd|Ord|Clone)\b.* for ")
            + lines_with(r"\bfn (duplicate|number|event|name|usage|wanted|verb_named|same\w*|meets|check_same|answer_of|place_answer|flush_answer)\b"))


def facts():
    """5: a clause that stands in three contracts or more of a crate, and parameters that go together in three signatures or more."""
    clauses = collections.defaultdict(set)
    groups = collections.defaultdict(set)
    for name, line, function, header, body in functions():
        crate = name.split("/")[1]
        for match in re.finditer(r"(requires|ensures)(?: \w+)? \{(.*)\}\s*$", header, re.M):
            clauses[(crate, match.group(1), match.group(2).strip())].add(f"{name}:{line}: fn {function}")
        parameters = header.split("->")[0]
        parameters = re.sub(r"^fn \w+(<(?:[^<>]|<[^<>]*>)*>)?", "", parameters)
        names = re.findall(r"\b(\w+): &?", parameters.split("requires")[0].split("ensures")[0])
        for i in range(len(names)):
            for j in range(i + 1, len(names)):
                groups[(crate, names[i], names[j])].add(f"{name}:{line}: fn {function}")
    found = []
    for (crate, kind, text), where in sorted(clauses.items()):
        if len(where) >= 3:
            found.append(f"{crate}: {len(where)} contracts: {kind} {{ {text} }}")
    for (crate, a, b), where in sorted(groups.items()):
        if len(where) >= 3:
            found.append(f"{crate}: {len(where)} signatures: {a}, {b}")
    return found


def buffers():
    """6: fixed arrays, and fields or parameters that say how much of one is in use."""
    return lines_with(r"\[[\w:<>]+; *\w+\]|^\s*(pub(\(crate\))? )?(left|right|count|n|length|places): (usize|Vec|\[)|\bat: usize|left: &\[")


def switches():
    """7: a match that chooses which call to make, tables of functions, boxes of traits."""
    return lines_with(r"\bmatch (self|verb|order|command|call|kind|slot)\b|\bfn\(|\bdyn\b|\bwrites_off\b.*\{")


POINTS = {"1": kinds, "2": twins, "3": loops, "4": by_hand, "5": facts, "6": buffers, "7": switches}


def main():
    if len(sys.argv) < 2:
        for point, listed in POINTS.items():
            print(f"{point}: {len(listed())}")
        return
    for line in POINTS[sys.argv[1]]():
        print(line)


main()
