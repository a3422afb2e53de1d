#!/usr/bin/env python3
"""Brings this repository's own names to one spelling, once: definitions, lemmas, fields and local names of specs/ and proofs/ in
snake case, types in camel case. Names of Rust items, of the library and of what Rattle makes (goals, steps) stay.

usage: python3 tools/spell.py [--dry]     at the top of the repository, after the kit's port.py
"""

import os
import re
import sys
from collections import defaultdict

TOKEN = re.compile(r"[A-Za-z_][A-Za-z0-9_']*(?:-[A-Za-z0-9_'∷≡≤<+*]+)*")
HEAD = re.compile(r"^\s*(?:abbrev |unfoldable )?(?:pub )?(?:abbrev |unfoldable )?([A-Za-z_][^\s:(){}«».,;]*)((?:\s+[A-Za-z_][^\s:(){}«».,;]*)*)\s*:(?!=)")
TYPE = re.compile(r"^\s*(?:pub )?(?:record|data)\s+([^\s:(){}]+)")
LET = re.compile(r"(?:\blet |\bλ |\bin let )\s*([a-z][A-Za-z0-9_']*(?:-[A-Za-z0-9_']+)+)")
BOUND = re.compile(r"[({]([a-z][A-Za-z0-9_' -]*?)\s*:\s")
MADE = re.compile(r"goal\.([^\s(){};,]+)")
USE = re.compile(r"^\s*(?:pub )?(?:ghost )?use (Rattle\.[^\s{;]+|[A-Za-z][^\s{;]*)\.\{([^}]*)\}", re.M)


def files(*ends):
    for folder, dirs, names in os.walk("crates"):
        dirs[:] = sorted(d for d in dirs if d != "out")
        for n in sorted(names):
            if n.endswith(ends):
                yield os.path.join(folder, n)


def read(p):
    with open(p, encoding="utf-8") as f:
        return f.read()


def code(line):
    """A line without its comment."""
    return line.split("-- ")[0] if not line.startswith("--") else ""


def crates():
    return {d for d in os.listdir("crates")}


def camel(name):
    return "".join(w[:1].upper() + w[1:] for w in name.split("-") if w)


# lemmas that would have their function's name
LEMMAS = {"add-all", "add-lists", "first-stop", "network-bytes", "road-bytes", "timetable-bytes"}


def snake(name):
    if name in LEMMAS:
        return name.replace("-", "_") + "_lem"
    name = name.replace("-", "_")
    name = re.sub(r"(?<=[a-z0-9])([A-Z])", r"_\1", name)
    return name.lower()


def own_names():
    types, words = set(), set()
    made, fromlib = set(), defaultdict(set)
    own = crates()
    for p in files(".antt"):
        text = read(p)
        made |= set(MADE.findall(text))
        for m in USE.finditer(text):
            path = m.group(1).split(".")
            if not (path[0] == "Rattle" and len(path) > 1 and path[1] in own):
                for item in m.group(2).split(","):
                    item = item.strip()
                    if " as " in item:
                        words.add(item.split(" as ")[1].strip())
                        item = item.split(" as ")[0].strip()
                    fromlib[item].add(p)
        for line in text.splitlines():
            line = code(line)
            t = TYPE.match(line)
            if t:
                types.add(t.group(1))
                continue
            if line.strip().startswith("use "):
                continue
            h = HEAD.match(line)
            if h:
                for n in [h.group(1)] + h.group(2).split():
                    rest = line.split(":", 1)[1]
                    (types if n[0].isupper() and re.search(r"Type [01]\s*$|Type [01] where", line) else words).add(n)
            for n in LET.findall(line):
                words.add(n)
            for group in BOUND.findall(line):
                for n in group.split():
                    words.add(n)
    for p in files(".rt"):
        for m in USE.finditer(read(p)):
            path = m.group(1).split(".")
            for item in m.group(2).split(","):
                name, _, alias = item.strip().partition(" as ")
                if not (path[0] == "Rattle" and len(path) > 1 and path[1] in own):
                    fromlib[name].add(p)
                if alias and "ghost use" in m.group(0):
                    words.add(alias.strip("«»"))
    return types, words, made, fromlib


def rust_names():
    names = set()
    for p in files(".rt"):
        for line in read(p).splitlines():
            if "ghost use" in line:
                continue
            names |= set(re.findall(r"\b(?:fn|struct|enum|let|const|type|trait)\s+(?:mut\s+)?([A-Za-z_]\w*)", line))
            names |= set(re.findall(r"\b([a-z_]\w*)\s*:\s*[&A-Zui\[(]", line))
    return names


def mapping():
    types, words, made, fromlib = own_names()
    turned, kept = {}, {}
    for n in types:
        if "-" in n:
            turned[n] = camel(n)
    for n in words - types:
        if n in made:
            if "-" in n or re.search(r"[a-z][A-Z]", n):
                kept[n] = "a goal of that name"
            continue
        if n[:1].isupper():
            continue
        new = snake(n)
        if new != n:
            turned[n] = new
    for n in list(turned):
        if n in fromlib:
            kept[n] = "the library's: " + sorted(fromlib[n])[0]
            del turned[n]
    return turned, kept


def main():
    dry = "--dry" in sys.argv
    turned, kept = mapping()
    tokens = set()
    for p in files(".antt", ".rt"):
        tokens |= set(TOKEN.findall(read(p)))
    back = defaultdict(list)
    for old, new in turned.items():
        back[new].append(old)
    for new, olds in sorted(back.items()):
        if len(olds) > 1:
            print(f"together: {', '.join(olds)} -> {new}")
        elif new in tokens:
            where = [p for p in files(".antt", ".rt") if re.search(r"(?<![\w'-])" + re.escape(new) + r"(?![\w'-])", read(p)) and re.search(r"(?<![\w'-])" + re.escape(olds[0]) + r"(?![\w'-])", read(p))]
            if where:
                print(f"beside: {olds[0]} -> {new} stands already in {', '.join(where)}")
    for n, why in sorted(kept.items()):
        print(f"kept: {n}: {why}")
    print(f"{len(turned)} names")
    if dry:
        return

    def put(m):
        return turned.get(m.group(0), m.group(0))

    for p in files(".antt"):
        text = read(p)
        new = "\n".join(line if line.startswith("--") else TOKEN.sub(put, line) for line in text.split("\n"))
        if new != text:
            with open(p, "w", encoding="utf-8") as f:
                f.write(new)
    for p in files(".rt"):
        text = read(p)
        out = []
        for line in text.split("\n"):
            ghost = re.match(r"\s*(?:ghost|requires|ensures)\b", line) or ("{" in line and re.search(r"\b(?:requires|ensures|ghost)\b", line))
            out.append(TOKEN.sub(put, line) if ghost else line)
        new = "\n".join(out)
        if new != text:
            with open(p, "w", encoding="utf-8") as f:
                f.write(new)
    quoted = re.compile(r"`[^`\n]+`")
    docs = ["README.md"] + sorted(os.path.join("docs", n) for n in os.listdir("docs") if n.endswith(".md"))
    for p in docs:
        text = read(p)
        rust = rust_names()
        new = quoted.sub(lambda q: q.group(0) if "/" in q.group(0) else TOKEN.sub(lambda m: m.group(0) if m.group(0) in rust else put(m), q.group(0)), text)
        if new != text:
            with open(p, "w", encoding="utf-8") as f:
                f.write(new)


if __name__ == "__main__":
    main()
