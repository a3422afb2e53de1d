#!/usr/bin/env python3
"""Prints the places in crates/*/src where an older form of the language may stand, by kind.

    python3 tools/places.py [KIND]      from the top of the repository; KIND is 1 to 8, none prints the counts alone

It finds candidates by their text; whether each is one is judged by reading. docs/DESIGN-PASS.md has the judgement.
"""
import collections
import pathlib
import re
import sys

KINDS = {
    1: "failures and choices said by flags, sentinels, numbers or own enums",
    2: "functions and types that stand twice",
    3: "loops that count",
    4: "comparisons, conversions, zero rows and printing by hand",
    5: "parameters and facts that travel together",
    6: "buffers with a length, parallel tables, indices for links",
    7: "switches on which step to run",
    8: "proof files",
}

TEXTS = {
    1: r"^\s*(pub(\(crate\))? )?enum \w+"
    r"|^\s*(pub(\(crate\))? )?\w+: bool,"
    r"|Option<(\w*Fault|Refusal|Field|u8)>"
    r"|Refused\(u8\)"
    r"|Some\(Err\("
    r"|-> u8$"
    r"|// .*\bor (the (number|count|list's length)|0 where)|/// .*\bor (the (number|count|list's length)|0 where)"
    r"|the answer$|is the place itself"
    r"|\blabel: u32[,)]",
    3: r"\bwhile\b (?!let)|\bfor \w+ in [^{]*\.\.(?!\.)|\b\w+ \+= 1;|\w+ = \w+\.saturating_add\(1\);",
    4: r"fn (same\w*|eq|is_before|comes_before|precedes|rises|refusal|letter|layer_name|none|blank\w*|number_of)\b"
    r"|\.\w+ == \w+\.\w+ && \w+\.\w+ == \w+\.\w+"
    r"|impl.* (PartialEq|PartialOrd|Ord|Clone|Copy|Default|Debug|fmt::Display|From<.*>|TryFrom<.*>) for ",
    6: r"\blen: usize|\w+: \[[^\[\];]+; *\w+\],$|Option<usize>|: Vec<(Span|bool|Option<u32>)>|&\[Span\]|&mut \[Span\]",
    7: r"\bmatch (self\.)?(section|kind\w*(\(.*\))?|action|change|step\.action|dice\.below\(.*\)) \{|\bfn\(|dyn ",
}


def sources():
    for path in sorted(pathlib.Path("crates").glob("*/src/**/*.rt")):
        yield path, path.read_text().splitlines()


def by_text(kind):
    pattern = re.compile(TEXTS[kind])
    for path, lines in sources():
        for number, line in enumerate(lines, 1):
            if pattern.search(line):
                yield f"{path}:{number}: {line.strip()}"


def functions():
    for path, lines in sources():
        text = "\n".join(lines)
        for found in re.finditer(r"\bfn (\w+)(<[^(]*>)?\(([^)]*)\)", text):
            yield path, text.count("\n", 0, found.start()) + 1, found.group(1), found.group(3)


def twins():
    """Functions of one name outside traits that stand in several files, and fields that several structs share."""
    places = collections.defaultdict(list)
    for path, number, name, _ in functions():
        places[name].append(f"{path}:{number}")
    common = {"fmt", "from", "main", "new", "count", "arrival", "states", "next", "ends", "precedes", "test", "number"}
    for name, found in sorted(places.items()):
        if len(found) > 1 and name not in common:
            yield f"fn {name}: {', '.join(found)}"


def zero_rows():
    for path, lines in sources():
        text = "\n".join(lines)
        for found in re.finditer(r"\b([A-Z]\w+) \{((?:\s*\w+: 0,?)+)\s*\}", text):
            if found.group(2).count(":") > 1:
                yield f"{path}:{text.count(chr(10), 0, found.start()) + 1}: {found.group(1)} of zeros"


def together():
    groups = collections.defaultdict(list)
    for path, number, name, parameters in functions():
        words = [" ".join(p.split()) for p in parameters.split(",") if ":" in p]
        for size in (2, 3):
            for i in range(len(words) - size + 1):
                groups[", ".join(words[i : i + size])].append(f"{path}:{number} {name}")
    for group, found in sorted(groups.items(), key=lambda item: -len(item[1])):
        if len(found) >= 3:
            yield f"({group}) in {len(found)} functions"
    clauses = collections.Counter()
    for _, lines in sources():
        for line in lines:
            if re.match(r"\s*(requires|ensures)", line):
                clauses[" ".join(line.split())] += 1
    for clause, count in clauses.most_common():
        if count >= 3:
            yield f"[{clause}] {count} times"


def proofs():
    files = sorted(pathlib.Path("crates").glob("*/proofs/**/*.antt"))
    lines = sum(len(path.read_text().splitlines()) for path in files)
    answers = sum(
        len(re.findall(r"^pub [\w'-]+ :", path.read_text(), re.M)) for path in files if path.name == "Answers.antt"
    )
    yield f"{len(files)} files, {lines} lines, {answers} answers"


def places(kind):
    if kind == 2:
        return list(twins())
    if kind == 5:
        return list(together())
    if kind == 8:
        return list(proofs())
    found = list(by_text(kind))
    return found + list(zero_rows()) if kind == 4 else found


def main():
    if len(sys.argv) > 1:
        print("\n".join(places(int(sys.argv[1]))))
        return
    for kind, meaning in KINDS.items():
        found = places(kind)
        print(f"{kind} {meaning}: {found[0] if kind == 8 else len(found)}")


main()
