#!/usr/bin/env python3
"""Lists the places of the sources where an older form may stand for one of today's, by fixed rules.

    python3 tools/places.py [FOLDER]     FOLDER has crates/ (this repository if left out)

Each rule only says where to look: docs/DESIGN-PASS.md says of each place what became of it.
"""
import pathlib
import re
import sys
from collections import defaultdict

ROOT = pathlib.Path(sys.argv[1] if len(sys.argv) > 1 else pathlib.Path(__file__).parent.parent)


def sources():
    for path in sorted(ROOT.glob("crates/*/src/*.rt")):
        lines = [re.sub(r"\s*//.*", "", line) for line in path.read_text().splitlines()]
        yield path.relative_to(ROOT / "crates"), lines


def functions():
    """(file, line, name, parameters, clauses, body) of each function."""
    for path, lines in sources():
        text = "\n".join(lines)
        for head in re.finditer(r"\bfn (\w+)(?:<[^(]*?>)?\(", text):
            at, depth = head.end(), 1
            while depth:
                depth += {"(": 1, ")": -1}.get(text[at], 0)
                at += 1
            params = " ".join(text[head.end():at - 1].split())
            end = at
            clauses = []
            while True:
                rest = text[end:]
                clause = re.match(r"[^{;]*?\b(requires|ensures\*?)( \w+)? \{", rest)
                if not clause:
                    break
                open_at, depth = end + clause.end(), 1
                while depth:
                    depth += {"{": 1, "}": -1}.get(text[open_at], 0)
                    open_at += 1
                body = " ".join(text[end + clause.end():open_at - 1].split())
                clauses.append((clause.group(1), body))
                end = open_at
            start = text.find("{", end)
            semi = text.find(";", end)
            body = ""
            if start >= 0 and not 0 <= semi < start:
                at2, depth = start + 1, 1
                while depth:
                    depth += {"{": 1, "}": -1}.get(text[at2], 0)
                    at2 += 1
                body = text[start:at2]
            yield path, text[:head.start()].count("\n") + 1, head.group(1), params, clauses, body


def show(point, title, places):
    print(f"{point}. {title}: {len(places)}")
    for place in places:
        print(f"   {place}")


def grep(pattern):
    return [f"{path}:{n + 1}: {' '.join(line.split())}"
            for path, lines in sources() for n, line in enumerate(lines) if re.search(pattern, line)]


def enums():
    """Each enum with its variants: one that adds 'nothing' or 'stop' to a value is an Option or a Result."""
    found = []
    for path, lines in sources():
        text = "\n".join(lines)
        for enum in re.finditer(r"enum (\w+)(?:<[^>]*>)? \{(.*?)\n\}", text, re.S):
            variants = re.findall(r"^    (\w+)", enum.group(2), re.M)
            found.append(f"{path}: {enum.group(1)} = {' | '.join(variants)}")
    return found


def error_matches():
    """Places that take an Err apart only to hand the same error on."""
    found = []
    for path, lines in sources():
        for n, line in enumerate(lines):
            if re.search(r"Err\((\w+)\) => (return )?Err\(\1\)", line):
                found.append(f"{path}:{n + 1}: {line.strip()}")
    return found


def shapes():
    """Functions of one file or of two types whose bodies differ only in names and numbers."""
    by_shape = defaultdict(list)
    for path, line, name, params, clauses, body in functions():
        shape = re.sub(r"\w+", "w", " ".join(body.split()))
        if len(shape) > 24 and not re.fullmatch(r"\{ (match w \{|w\.w(\.w)?|w) \}", shape):
            by_shape[(shape, params.count(":"))].append(f"{path}:{line} {name}")
    return [" ~ ".join(places) for places in by_shape.values() if len(places) > 1]


def types():
    """Structs whose fields have the same types in the same order, numbers and names of types aside."""
    by_shape = defaultdict(list)
    for path, lines in sources():
        text = "\n".join(lines)
        for struct in re.finditer(r"struct (\w+)(?:<[^>]*>)? \{(.*?)\n\}", text, re.S):
            fields = re.findall(r"^    (?:pub(?:\(crate\))? )?\w+: (.*),$", struct.group(2), re.M)
            shape = ", ".join(re.sub(r"\b[A-Z]\w*\b(?!<)|\b\d+\b|\b[ui]\d+\b(?=;)", "_", f) for f in fields)
            by_shape[shape].append(f"{path}: {struct.group(1)}")
    return [f"{' ~ '.join(places)}  ({shape})" for shape, places in by_shape.items() if len(places) > 1]


def repeated_requires():
    found = defaultdict(list)
    for path, line, name, params, clauses, body in functions():
        for kind, text in clauses:
            if kind == "requires":
                found[(path.parts[0], text)].append(name)
    return [f"{crate}: {len(names)} x  {text}  ({', '.join(names)})"
            for (crate, text), names in found.items() if len(names) >= 3]


def travelling():
    """Two or more parameters, same names and types, that stand together in three or more functions."""
    groups = defaultdict(set)
    for path, line, name, params, clauses, body in functions():
        parts = [p.strip() for p in re.split(r",(?![^<(\[]*[>)\]])", params) if ":" in p]
        parts = [p for p in parts if "self" not in p]
        for i, first in enumerate(parts):
            for second in parts[i + 1:]:
                groups[(first, second)].add(f"{path.parts[0]}::{name}:{line}")
    merged = defaultdict(set)
    for pair, users in groups.items():
        if len(users) >= 3:
            merged[frozenset(users)].update(pair)
    return [f"({', '.join(sorted(pair))}) in {len(users)}: {', '.join(sorted(users))}"
            for users, pair in merged.items()]


def buffers():
    found = grep(r"^\s+(pub(\(crate\))? )?(used|len|count|places): usize")
    for path, line, name, params, clauses, body in functions():
        if re.search(r"\w+: &(mut )?\[.*\], \w+: usize", params):
            found.append(f"{path}:{line}: fn {name}({params})")
    for path, lines in sources():
        text = "\n".join(lines)
        for struct in re.finditer(r"struct (\w+)(?:<[^>]*>)? \{(.*?)\n\}", text, re.S):
            arrays = re.findall(r"(\w+): \[[^;]*; ([^\]]*)\]", struct.group(2))
            if len(arrays) > 1:
                found.append(f"{path}: {struct.group(1)} has arrays {', '.join(a for a, _ in arrays)}")
    return found


def switches():
    found = []
    for path, line, name, params, clauses, body in functions():
        for match in re.finditer(r"match [^{]*\{", body):
            at, depth = match.end(), 1
            while depth:
                depth += {"{": 1, "}": -1}.get(body[at], 0)
                at += 1
            arms = re.findall(r"=> [\w.:]+\(", body[match.end():at])
            calls = [a for a in arms if not re.search(r"=> (Some|Ok|Err|[A-Z]\w*::[A-Z]\w*)\(", a)]
            if len(calls) >= 3:
                found.append(f"{path}:{line} {name}: {len(calls)} arms call a function each")
    return found


def main():
    show(1, "enums", enums())
    show(1, "numbers for kinds or refusals, by a match", grep(r"=> \d+,$|^\s+\d+ => "))
    show(1, "an Err matched only to be handed on", error_matches())
    show(2, "functions alike but for names", shapes())
    show(2, "structs alike but for names and numbers", types())
    show(3, "loops", grep(r"^\s*(for .* in |while |loop \{)"))
    show(4, "conversions, tests of equality and printing as functions of their own",
         grep(r"fn (of|from\w*|to_\w+|as_\w+|eq|cmp|clone|number|print\w*|line_of)\b"))
    show(5, "a requires that stands in three or more contracts", repeated_requires())
    show(5, "parameters that stand together in three or more functions", travelling())
    show(6, "a buffer with a length beside it, parallel arrays", buffers())
    show(7, "a switch on which step to run", switches())


if __name__ == "__main__":
    main()
