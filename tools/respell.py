#!/usr/bin/env python3
"""Respells the names that this repository's definitions and lemmas declare, after the kit's own script has respelled the library's.

usage: tools/respell.py [--table FILE] FOLDER      FOLDER holds crates/; FILE gets a line for each name: old, a tab, new

Functions, lemmas, fields and constructors are in snake case: keptOf becomes kept_of. A dash joins names that stand by themselves in this
repository, as in kept_of-bit; a plain word is joined by an underscore, as in kept_none. Types and modules keep their capitals. The goals of a
function's own Proof.antt keep their names, since these follow the toolchain's. A name whose new spelling is taken in a file that has the old one
stays as it is. Names turn in .antt files, in .rt files outside strings, and in must-fail edits.
"""

import collections
import os
import re
import sys

WORD = re.compile(r'[^\s(){}.;,@"«»⟨⟩]+')
QUIET = re.compile(r'b?"(?:[^"\\\n]|\\.)*"')
DECLARED = re.compile(
    r'(?m)^( *)((?:(?:pub|abbrev|unfoldable|opaque|record|data)\s+)*)([^\s(){}.;,@"«»]+)((?: \{[^{}\n]*\}| \([^()\n]*\))*)\s*:(?=\s)([^\n]*)'
)
# Two facts, which begin with a capital, and two functions whose plain new spelling a lemma has.
GIVEN = {"soundAll": "SoundAll", "soundAt": "SoundAt", "inOrder": "is_in_order", "pairedAt": "paired_factor"}


def files(root):
    for folder, dirs, names in os.walk(os.path.join(root, "crates")):
        dirs[:] = sorted(d for d in dirs if d != "out")
        for name in sorted(names):
            if name.endswith((".antt", ".rt", ".edit")):
                yield os.path.join(folder, name)


def words(text):
    return WORD.findall(QUIET.sub(" ", text))


def bound(path, text):
    """The words that a new spelling could meet: in code not those of a path and no field; in sources the parameters and the clauses' words."""
    if path.endswith(".rt"):
        text = re.sub(r"(?m)//.*$", "", QUIET.sub(" ", text))
        text = re.sub(r"(?m)^(?:pub )?(?:ghost )?use [^\n{;]*", "", text)
        clauses = " ".join(re.findall(r"(?s)(?:ghost use[^;]*;|(?:requires|ensures)\*?\s*\w*\s*\{.*?\}\s*(?=requires|ensures|\{|;))", text))
        return words(clauses) + re.findall(r"\b(\w+)\s*:(?!:)", text)
    text = re.sub(r"(?m)(?:--.*|^ *#.*|^(?:old|new):.*[&;].*)$", "", text)
    text = re.sub(r"(?m)^(?:pub )?use [^\n{]*", "", text)
    return words(re.sub(r"\.[^\s(){}.;,@\"«»]+", "", text))


def snake(part):
    """One part of a name between dashes; what begins with a capital or is no word stays."""
    if part in GIVEN:
        return GIVEN[part]
    if not re.match(r"[a-z]", part):
        return part
    return re.sub(r"(?<=[a-z0-9])([A-Z]+)", lambda m: "_" + m[1].lower(), part)


def once(argv, table_of):
    table = None
    if argv[:1] == ["--table"]:
        table, argv = argv[1], argv[2:]
    if len(argv) != 1:
        print(__doc__)
        return 2
    root = argv[0]
    texts = {}
    for path in files(root):
        with open(path, encoding="utf-8") as f:
            texts[path] = f.read()
    declared = set()  # all names of this repository
    stands = set()  # those of specs/ that are no theorems: what a name may join by a dash
    for path, text in texts.items():
        declared.update(re.findall(r"\bas ([a-z]+(?:[A-Z][a-z]+)+)(?=[,}])", text))
        if not path.endswith(".antt"):
            continue
        for m in DECLARED.finditer(re.sub(r"(?m)--.*$", "", text)):
            name, kind = m[3], m[5].strip()
            if path.endswith("/Proof.antt") and (kind.startswith("tie.") or "statement" in kind):
                continue
            declared.add(name)
            if "/specs/" in path and "-" not in name and (m[2].split() or m[1]):
                if "/Laws/" not in path or re.search(r"\b(unfoldable|abbrev|record|data)\b", m[2]):
                    stands.add(snake(name))
        # constructors of one type that stand on one line
        for m in re.finditer(r"(?m)^ +(?:pub )?([a-z]\w*(?: [a-z]\w*)+) : [A-Z]\w*$", text):
            declared.update(m[1].split())
    declared = {n for n in declared if WORD.fullmatch(n)}
    # what some file imports from a library is the library's to spell
    crates = set(os.listdir(os.path.join(root, "crates")))
    for path, text in texts.items():
        for m in [] if path.endswith(".edit") else re.finditer(r"(?m)\buse ([\w.·]+)\.\{([^}]*)\}", text):
            if m[1].split(".")[0] != "Rattle" or m[1].split(".")[1] not in crates:
                declared -= {w.split(" as ")[0].strip() for w in m[2].split(",")}
    # what the kit's script has respelled in .antt files and not in a clause of several lines
    for path, text in texts.items():
        if path.endswith(".rt"):
            declared.update(w for w in words(text) if re.fullmatch(r"[a-z0-9]+(?:[A-Z][a-z0-9]*)+", w) and snake(w) in declared)

    def respelled(name):
        parts = [snake(p) for p in re.split(r"(?<=.)-(?=.)", name)]
        joins = all(p in stands or p[:1].isupper() or not re.match(r"[a-z]", p) for p in parts)
        return ("-" if joins else "_").join(parts)

    turned = {n: respelled(n) for n in declared}
    turned = {o: n for o, n in turned.items() if o != n}
    # a new spelling that a file with the old one has already, or that two names would share
    has = collections.defaultdict(set)
    for path, text in texts.items():
        for w in set(bound(path, text)):
            has[w].add(path)
    by_new = collections.defaultdict(list)
    for o, n in turned.items():
        by_new[n].append(o)
    forced = {"isEight", "isTri"}  # the edit that has both spellings has them in two languages
    stays = {}
    for o, n in turned.items():
        others = [p for p in by_new[n] if p != o and ("-" in o or "-" not in p)]
        if any(has[o] & has[p] for p in others):
            stays[o] = "two names would meet: " + ", ".join(by_new[n])
        elif has[n] & has[o] and o not in forced:
            stays[o] = f"{n} stands in {sorted(has[n] & has[o])[0]}"
    # a name with capitals must turn all the same where it can keep its dashes
    for o in sorted(stays):
        n = "-".join(snake(p) for p in o.split("-"))
        del turned[o]
        if n != o and n not in declared and not (has[n] & has[o]):
            turned[o] = n
        print(f"stays: {o}: {stays[o]}" + (f"; becomes {turned[o]}" if o in turned else ""))

    def turn(text):
        done, at = [], 0
        for m in QUIET.finditer(text):
            done += [WORD.sub(lambda w: turned.get(w[0], w[0]), text[at : m.start()]), m[0]]
            at = m.end()
        done.append(WORD.sub(lambda w: turned.get(w[0], w[0]), text[at:]))
        return "".join(done)

    changed = 0
    for path, text in texts.items():
        new = turn(text)
        if new != text:
            changed += 1
            with open(path, "w", encoding="utf-8") as f:
                f.write(new)
    table_of.update(turned)
    if table:
        with open(table, "w", encoding="utf-8") as f:
            f.writelines(f"{o}\t{n}\n" for o, n in sorted(table_of.items()))
    print(f"respell: {len(turned)} names, {changed} files; {len(stays)} stay")
    return 0 if not changed else -1


def main(argv):
    """Again and again until nothing turns: a name that an alias had taken turns in a later pass."""
    table_of = {}
    while (status := once(list(argv), table_of)) == -1:
        pass
    return status


if __name__ == "__main__":
    sys.exit(main(sys.argv[1:]))
