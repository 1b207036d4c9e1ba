#!/usr/bin/env python3
"""Brings this repository's own names in definitions, laws and clauses to one spelling: words in snake case, types and facts in
upper camel case. Run once, behind the toolchain's own script of the port (docs/PORT.md); kept so that the port can be done again.

    tools/respell.py [--list] [FOLDER]

Names of src/, of other libraries and of what the toolchain makes keep their spelling. Two names that would become one are listed,
and nothing is written."""
import glob
import os
import re
import sys

TOKEN = re.compile(r"[^\s(){}\[\],;.:\"`|]+")
# A name that the port's script garbled.
GARBLED = {"Numbers-of": "numbers_of"}
# Local names whose declaration the patterns below do not see.
LOCAL = {"firsts-are", "still-right"}
# Words that a dash may join: functions of the libraries, and what laws on them are named after.
WORDS = set("length get_or take drop set map replicate append nil cons reverse insert count filter sum lt le eq gt add sub mul div mod "
            "zero suc one pow min max if".split())


def files(root, *patterns):
    return sorted(f for p in patterns for f in glob.glob(os.path.join(root, p), recursive=True))


def laws(root):
    return files(root, "crates/*/specs/*.antt", "crates/*/proofs/*.antt")


def everything(root):
    return files(root, "crates/*/specs/*.antt", "crates/*/proofs/**/*.antt", "crates/*/src/*.rt")


def outside(root):
    """Names that come from other libraries, or that the toolchain makes."""
    own = {os.path.basename(os.path.dirname(d)) for d in glob.glob(os.path.join(root, "crates/*/"))}
    found = set()
    for f in everything(root):
        mark = "ghost " if f.endswith(".rt") else "(?:pub )?"
        for path, names in re.findall(r"^" + mark + r"use ([^\s{;]+?)\.?(?:\{([^}]*)\}|;|$)", open(f).read(), re.M):
            parts = path.split(".")
            made = "specs.declared" in path or "specs.contracts" in path or parts[-1] in ("Statement", "Tie", "Goals", "Given")
            if parts[0] != "Rattle" or parts[1] not in own or made:
                for n in (names or "").split(","):
                    found.add(n.split(" as ")[0].strip())
    return found


def changes(name):
    return bool(re.match(r"[A-Za-z]", name)) and ("-" in name or re.search(r"[a-z0-9][A-Z]", name) is not None)


def snake(word):
    return re.sub(r"(?<=[a-z0-9])([A-Z])", lambda m: "_" + m.group(1).lower(), word)


def respelled(name, functions):
    if name in GARBLED:
        return GARBLED[name]
    parts = name.split("-")
    if name[0].isupper():
        return "".join(p[0:1].upper() + p[1:] for p in parts)
    parts = [snake(p) if p[0:1].islower() else p for p in parts]
    out = parts[0]
    for before, p in zip(parts, parts[1:]):
        out += ("-" if before in functions and p in functions else "_") + p
    return out


def declared(text):
    found = set()
    for line in text.split("\n"):
        if re.match(r"(?:pub |ghost )*use ", line):
            found.update(re.findall(r"\bas ([^\s,};]+)", line))
            continue
        if line.lstrip().startswith("--"):
            continue
        head = re.match(r"\s*(?:(?:abbrev|unfoldable|pub|private|data|record|module|infix\w*)\s+)*([^\s(){}\[\],;.:\"]+)(?:\s+\{[^}]*\}|\s+\([^)]*\))*\s*:", line)
        if head:
            found.add(head.group(1))
        for names in re.findall(r"[({]([^(){}:=]+?) :", line):
            found.update(names.split())
        for names in re.findall(r"λ ([^.]*)\.", line):
            found.update(TOKEN.findall(names))
        found.update(re.findall(r"\blet ([^\s:=(]+)", line))
        found.update(re.findall(r"^\s*(?:pub )?(?:data|record) ([^\s(:]+)", line))
    return found


def table(root):
    others = outside(root)
    own, facts, functions = set(LOCAL), {}, set(WORDS)
    for f in files(root, "crates/*/src/*.rt"):
        own |= declared("\n".join(re.findall(r"^ghost use .*", open(f).read(), re.M)))
    for f in laws(root):
        text = open(f).read()
        own |= declared(text)
        for name, kind in re.findall(r"^(?:abbrev |unfoldable |pub )*([a-z][^\s(){}:]*)(?:\s+\{[^}]*\})* : ([^\n]*(?:\n +[→×][^\n]*)*)", text, re.M):
            if re.search(r"Type 0\s*$", kind):
                facts[name] = "".join(w.capitalize() for w in re.split(r"[-_]", name))
    seen = set()
    for f in everything(root):
        seen.update(TOKEN.findall(open(f).read()))
    turned = {n: respelled(n, functions) for n in own - others if changes(n) and n != respelled(n, functions)}
    turned.update({n: f for n, f in facts.items() if n not in others})
    kept = set(others)
    for f in laws(root):
        kept.update(TOKEN.findall("\n".join(l for l in open(f).read().split("\n") if not l.lstrip().startswith("--"))))
    clash = [(n, t) for n, t in turned.items() if t in kept - set(turned)]
    by = {}
    for n, t in turned.items():
        by.setdefault(t, []).append(n)
    clash += [(ns, t) for t, ns in by.items() if len(ns) > 1]
    left = sorted(n for n in seen if changes(n) and n[0].islower() and "-" in n and n not in turned and n not in others)
    return turned, clash, left


def turn(text, turned):
    return TOKEN.sub(lambda m: turned.get(m.group(0), m.group(0)), text)


def main(argv):
    listing = "--list" in argv
    argv = [a for a in argv if a != "--list"]
    root = argv[0] if argv else "."
    turned, clash, left = table(root)
    if listing:
        for n, t in sorted(turned.items()):
            print(n, t)
        print("== left", *left, sep="\n")
    for c in clash:
        print("clash:", *c)
    if clash or listing:
        return 1 if clash else 0
    for f in everything(root) + files(root, "crates/*/must-fail/*.edit"):
        text = open(f).read()
        new = turn(text, turned)
        if new != text:
            open(f, "w").write(new)
    for f in files(root, "README.md", "docs/**/*.md", "tests/README.md", "bench/README.md", "crates/*/README.md"):
        text = open(f).read()
        new = re.sub(r"`[^`\n]+`", lambda m: turn(m.group(0), turned), text)
        if new != text:
            open(f, "w").write(new)
    print(f"{len(turned)} names turned")
    return 0


if __name__ == "__main__":
    raise SystemExit(main(sys.argv[1:]))
