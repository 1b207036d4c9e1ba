#!/usr/bin/env python3
"""Lists the places in the code that docs/DESIGN-PASS.md counts, point by point.

    tools/places.py [COMMIT]      # of the tree as it stands, or of a commit; a count for each point, then the places
    tools/places.py --counts [COMMIT]
"""
import collections, io, pathlib, re, subprocess, sys, tarfile

ROOT = pathlib.Path(__file__).resolve().parent.parent


def sources(commit):
    """The files of src/ by name: of the work tree, or of a commit."""
    if not commit:
        return {str(p.relative_to(ROOT)): p.read_text() for p in sorted(ROOT.glob("crates/*/src/*.rt"))}
    data = subprocess.run(["git", "-C", str(ROOT), "archive", commit, "crates"], check=True, capture_output=True).stdout
    with tarfile.open(fileobj=io.BytesIO(data)) as tar:
        names = sorted(m.name for m in tar if re.fullmatch(r"crates/\w+/src/\w+\.rt", m.name))
        return {n: tar.extractfile(n).read().decode() for n in names}


class Fn:
    """A function: its head without the contract, its clauses, its body."""

    def __init__(self, file, line, name, params, result, contract, body):
        self.file, self.line, self.name, self.params, self.result, self.contract, self.body = file, line, name, params, result, contract, body

    @property
    def crate(self):
        return self.file.split("/")[1]

    @property
    def at(self):
        return f"{self.file}:{self.line} {self.name}"


def closing(text, at, pair):
    """The place behind the bracket that closes the one at `at`."""
    depth = 0
    for i in range(at, len(text)):
        depth += (text[i] == pair[0]) - (text[i] == pair[1])
        if depth == 0:
            return i + 1
    return len(text)


def split(text, mark):
    """The parts of a text between marks that stand in no bracket."""
    parts, depth, last = [], 0, 0
    for i, c in enumerate(text):
        depth += (c in "([{<" and text[i - 1:i + 1] != "-<") - (c in ")]}>" and text[i - 1:i + 1] not in ("->", "=>"))
        if c == mark and depth == 0:
            parts.append(text[last:i])
            last = i + 1
    return [" ".join(p.split()) for p in parts + [text[last:]] if p.strip()]


def functions(files):
    for file, text in files.items():
        for m in re.finditer(r"^[ \t]*(?:pub )?(?:extern \"C\" )?fn (\w+)(?:<[^()]*>)?\(", text, re.M):
            end = closing(text, m.end() - 1, "()")
            params = split(text[m.end():end - 1], ",")
            rest = text[end:]
            head = re.match(r"\s*(?:->\s*([^\n{]+?))?\s*(?=\n\s*(?:requires|ensures)|\{|;|where)", rest)
            result = (head.group(1) or "") if head else ""
            at, clauses = end + (head.end() if head else 0), []
            while (c := re.compile(r"\s*(requires|ensures)[ \w]*\{").match(text, at)):
                stop = closing(text, c.end() - 1, "{}")
                clauses.append((c.group(1), text[c.end():stop - 1]))
                at = stop
            open_at = text.find("{", at)
            body = text[open_at:closing(text, open_at, "{}")] if open_at >= 0 else ""
            yield Fn(file, text.count("\n", 0, m.start()) + 1, m.group(1), params, result.strip(), clauses, body)


def lines(files, pattern):
    for file, text in files.items():
        for i, line in enumerate(text.splitlines(), 1):
            if re.search(pattern, line) and not line.lstrip().startswith(("//", "ghost use")):
                yield f"{file}:{i} {line.strip()}"


def enums(files):
    for file, text in files.items():
        for m in re.finditer(r"^(?:pub )?enum (\w+)[^{]*\{", text, re.M):
            body = text[m.end():closing(text, m.end() - 1, "{}") - 1]
            yield file, text.count("\n", 0, m.start()) + 1, m.group(1), split(body, ",")


def point_1(files, fns):
    """Own enums with a case that carries a value beside one that tells a failure or nothing; flags beside values; numbers for what is missing or refused."""
    for file, line, name, cases in enums(files):
        if len(cases) in (2, 3) and (any(re.search(r"[({]", c) for c in cases) or name in ("Room", "Turn")):
            yield f"{file}:{line} enum {name}"
    for file, text in files.items():
        for m in re.finditer(r"^pub struct (\w+) \{[^}]*: bool,[^}]*\}", text, re.M):
            yield f"{file}:{text.count(chr(10), 0, m.start()) + 1} struct {m.group(1)}: a flag beside what it speaks of"
    for f in fns:
        if f.result in ("u8", "usize") and re.search(r"return [a-z]\w*;", f.body) and re.search(r"\n    (n|m|x)\n\}$", f.body):
            yield f"{f.at}: the end for none"
    yield from (f"{p}: a refusal by its number" for p in lines(files, r"\bnumber: (\d+|u8)|refused\(\d+|unfit\(\d+|return 1[01];|print::refused\(out, 30"))
    yield from (f"{f.at}: false for a failure" for f in fns if f.result == "bool" and f.name in ("close_up", "close_down", "upward", "downward", "next"))


STEMS = [(r"(8|16|32|64)$", "width"), (r"_(up|down)$|^(up|down)_", "table"), (r"(plausible|feasible)", "rank"), (r"^(up|down)ward$", "pass"), (r"_(up|down)ward$", "pass"),
         (r"^(wide|word|span|double|quad|long)$", "widening"), (r"^(lesser|least)$", "lesser")]


def point_2(files, fns):
    """Functions of one crate whose names differ by a width, a table, a kind of rank or a direction alone, and equal helpers under one name."""
    groups = collections.defaultdict(list)
    for f in fns:
        for pattern, what in STEMS:
            if re.search(pattern, f.name):
                if f.crate != "text":
                    groups[f.crate if what not in ("widening", "lesser") else "", re.sub(pattern, "*", f.name), what].append(f)
                break
    for (crate, stem, what), group in groups.items():
        if len(group) > 1:
            yield from (f"{f.at} (with {len(group) - 1} other {stem} by {what})" for f in group)


def point_3(files, fns):
    """Loops that count an index by hand."""
    yield from lines(files, r"^\s*(?:'\w+: )?while (?!let\b)")


def point_4(files, fns):
    """Functions that copy, compare, convert or print as the language's own traits and methods do."""
    for f in fns:
        if re.fullmatch(r"wide|word|span|double|quad|long|lesser|least|same_state|bit|swapped|copy_in|copy_members|copy\d+|element\d*|code", f.name) and f.crate != "text":
            yield f.at


def conjuncts(clause):
    return split(clause, "×")


def point_5(files, fns):
    """Facts that three or more functions of a crate ask, and pairs of parameters that three or more of them take side by side."""
    facts, pairs = collections.defaultdict(list), collections.defaultdict(list)
    for f in fns:
        for kind, clause in f.contract:
            if kind == "requires":
                for fact in conjuncts(clause):
                    facts[f.crate, re.sub(r"\.(old|now)", "", fact.strip("() "))].append(f)
        for a, b in zip(f.params, f.params[1:]):
            pairs[f.crate, a.replace("mut ", ""), b.replace("mut ", "")].append(f)
    yield from (f"{c}: the fact `{fact}` asked by {len(fs)} functions" for (c, fact), fs in sorted(facts.items()) if len(fs) > 2)
    yield from (f"{c}: `{a}, {b}` taken by {len(fs)} functions" for (c, a, b), fs in sorted(pairs.items()) if len(fs) > 2)


def point_6(files, fns):
    """Buffers with what they hold beside them, arrays that run side by side, searches by hand, slices with places worked out by hand."""
    yield from (f"{f.at}: what is held stands beside the buffer" for f in fns if any(p.startswith("held: usize") for p in f.params))
    for file, text in files.items():
        for m in re.finditer(r"struct (\w+) \{([^}]*)\}", text):
            arrays = re.findall(r"\w+: \[[^\]]*; (\w+)\]", m.group(2))
            if len(arrays) > len(set(arrays)):
                yield f"{file}:{text.count(chr(10), 0, m.start()) + 1} struct {m.group(1)}: arrays side by side"
    for f in fns:
        arrays = re.findall(r"\[[^\]\[]*; (\w+)\]", " ".join(f.params))
        if any(n in ("NODES", "LABELS", "KIDS") and arrays.count(n) > 1 for n in arrays) or {"RANKS", "NODES"} <= set(arrays):
            yield f"{f.at}: arrays side by side"
        if f.name in ("find", "known", "remember", "first_alike"):
            yield f"{f.at}: a search, or places, by hand"


def point_7(files, fns):
    """Switches on which step to run."""
    for file, line, name, cases in enums(files):
        if not any(re.search(r"[({=]", c) for c in cases) and name not in ("Room", "Turn"):
            yield f"{file}:{line} enum {name}"


def point_8(files, fns):
    """Answers to goals, by crate."""
    return iter(())


POINTS = [point_1, point_2, point_3, point_4, point_5, point_6, point_7]


def main():
    args = [a for a in sys.argv[1:] if a != "--counts"]
    files = sources(args[0] if args else None)
    fns = list(functions(files))
    for n, point in enumerate(POINTS, 1):
        found = list(point(files, fns))
        print(f"{n}. {len(found)}: {point.__doc__}")
        if "--counts" not in sys.argv:
            print("".join(f"    {p}\n" for p in found), end="")


main()
