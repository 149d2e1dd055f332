#!/usr/bin/env python3
"""Lists the places that docs/DESIGN-PASS.md speaks of, by its points: `python3 docs/places.py [POINT]`, at the top of the repository."""
import collections
import glob
import re
import sys

FILES = sorted(glob.glob("crates/*/src/**/*.rt", recursive=True))
TEXT = {file: open(file, encoding="utf-8").read() for file in FILES}
FUNCTION = re.compile(r"(?m)^( *)((?:pub(?:\(crate\))? )?(?:unsafe )?(?:extern \"C\" )?)fn (\w+)(?:<[^>]*>)?\(([^)]*)\)")


def lines(pattern, skip=""):
    """Returns the lines of code in which the pattern stands."""
    found = []
    for file, text in TEXT.items():
        for number, line in enumerate(text.split("\n"), 1):
            if re.search(pattern, line) and not line.strip().startswith("//") and not (skip and re.search(skip, f"{file} {line}")):
                found.append(f"{file}:{number}: {line.strip()}")
    return found


def functions():
    """Returns each function: its file, name, parameters and body."""
    found = []
    for file, text in TEXT.items():
        for it in FUNCTION.finditer(text):
            indent = it[1]
            begin = re.compile(rf"(?m)^{indent}\{{\n").search(text, it.end())
            same_line = text[it.end():].split("\n", 1)[0].rstrip()
            if same_line.endswith("{"):
                start = it.end() + len(same_line) + 1
            elif begin:
                start = begin.end()
            else:
                continue
            end = re.compile(rf"(?m)^{indent}\}}").search(text, start)
            parameters = [p.strip() for p in re.sub(r"\([^()]*\)", "", it[4]).split(",") if p.strip()]
            found.append((file, text.count("\n", 0, it.start()) + 1, it[3], parameters, text[start:end.start()]))
    return found


def shape(body):
    """Returns the body with its names and numbers replaced by the order of their first appearance."""
    seen = {}
    words = re.findall(r"//.*|\"[^\"]*\"|[A-Za-z_]\w*|\d\w*|\S", body)
    kept = {"let", "mut", "if", "else", "while", "for", "in", "return", "match", "as", "true", "false", "usize", "u64", "f64", "u8", "bool", "Some", "None", "Ok", "Err", "len"}
    return tuple(w if w in kept or not re.match(r"\w", w) else seen.setdefault(w, f"#{len(seen)}") for w in words if not w.startswith("//"))


def twins():
    """Returns the functions of four or more lines that differ from another one only in names, types and numbers."""
    groups = collections.defaultdict(list)
    for file, number, name, _, body in functions():
        if body.count("\n") >= 4:
            groups[shape(body)].append(f"{file}:{number}: {name}")
    return [" ~ ".join(it) for it in groups.values() if len(it) > 1]


def by_hand():
    """Returns the functions that say by hand what a derive or a method of the library says: smaller, larger, which variant, which number."""
    found = []
    for file, number, name, _, body in functions():
        words = " ".join(body.split())
        if re.fullmatch(r"if (\w+) < (\w+) \{ (\1|\2) \} else \{ (\1|\2) \}", words) or re.fullmatch(r"match (self|\w+) \{( \w+::\w+ => (true|false|\d+),)+ \}", words) or re.fullmatch(r"(if \w+ == \d+ \{ return \w+::\w+; \} )+\w+::\w+", words) or re.fullmatch(r"if set \{ 1 \} else \{ 0 \}", words):
            found.append(f"{file}:{number}: {name}")
    return found


def facts():
    """Returns the parts of `requires` clauses that stand in three or more functions."""
    found = collections.defaultdict(set)
    for file, text in TEXT.items():
        for clause in re.findall(r"(?s)\brequires(?: \w+)? \{(.*?)\}\n", text):
            for part in re.split(r" × ", " ".join(clause.split())):
                found[part.strip("() ")].add((file, text.find(clause)))
    return [f"{len(places)} times: {part}" for part, places in sorted(found.items()) if len(places) > 2]


def together(one, other):
    """Returns the functions that are lent two lists by these names."""
    is_list = lambda name, p: any(re.match(rf"{name}: &(mut )?\[", it) for it in p)
    return [f"{file}:{number}: {name}, {one} and {other}" for file, number, name, p, _ in functions() if is_list(one, p) and is_list(other, p)]


def answers(pattern):
    """Returns the lines of answers in which the pattern stands."""
    found = []
    for file in sorted(glob.glob("crates/*/proofs/**/Answers.antt", recursive=True)):
        for number, line in enumerate(open(file, encoding="utf-8").read().split("\n"), 1):
            if re.search(pattern, line):
                found.append(f"{file}:{number}: {line}")
    return found


POINTS = {
    "1 variants": lambda: lines(r"^ +(Refused\(usize\)|NotJoined|NoKind|Nothing|Omitted|Unknown),$"),
    "1 numbers": lambda: lines(r"(return|Refused\(|refused\() ?[0-9]+\)?;", r"/replay_|sweep_answering|totals_reuse|strip_bonds|totals_sums|entry_exhaustive_c.* 0;|job_sheet/src/record.* (4|5|9|13);"),
    "1 tests": lambda: lines(r"\b(refusal|refused|unfit|number) != 0"),
    "1 flags": lambda: lines(r"^ +pub (refusal|sound|wanted): "),
    "1 kinds": lambda: lines(r"\bkind: (usize|u64|u8)\b"),
    "2 twins": twins,
    "3 loops": lambda: lines(r"^\s*(while .*|loop) \{"),
    "4 by hand": by_hand,
    "5 long": lambda: [f"{file}:{number}: {name}, {len(p)}" for file, number, name, p, _ in functions() if len(p) > 8],
    "5 facts": facts,
    "6 lengths": lambda: lines(r"^ +pub len: usize"),
    "6 pairs": lambda: together("us", "vs") + together("early", "late") + together("a", "b"),
    "7 switches": lambda: [f"{file}:{number}: {name}" for file, number, name, p, _ in functions() if any(re.fullmatch(r"(elementwise|less|due|drawn|signed): bool", it) for it in p)],
    "8 found alone": lambda: answers(r"= search( rules)?$"),
}
asked = sys.argv[1] if len(sys.argv) > 1 else ""
for point, find in POINTS.items():
    if point.startswith(asked):
        found = find()
        print(f"{point}: {len(found)}")
        if asked:
            print("\n".join(f"    {it}" for it in found))
