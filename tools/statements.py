#!/usr/bin/env python3
"""Lists the definitions and statements of a repository's .antt files, for a look at what a change of folders kept.

usage: tools/statements.py FOLDER            each with its file, a theorem without its proof
       tools/statements.py OLD NEW           those of OLD that NEW does not have word for word, crate by crate, wherever they stand

Proofs of functions (Proof, Invariants, Answers), imports, and the bodies of definitions that are not marked to be unfolded are passed over.
"""

import collections
import glob
import os
import re
import sys

NAME = r'[^\s(){}.;,@"«»]+'
# Parameters in parentheses, up to four deep, or in braces.
ROUND = r"\((?:[^()]|\((?:[^()]|\((?:[^()]|\([^()]*\))*\))*\))*\)"
CURLED = r"\{(?:[^{}]|\{[^{}]*\})*\}"
# The head of a declaration; that of a record or a type may go on in the next line.
HEAD = re.compile(rf"^( *)((?:(?:pub|abbrev|unfoldable|opaque|record|data|ruleset)\s+)*)({NAME})((?:\s*(?:{CURLED}|{ROUND}))*)\s*(:(?=\s|$)|$)")
WHOLE = {"abbrev", "unfoldable", "record", "data", "ruleset"}


def statements(path):
    with open(path, encoding="utf-8") as f:
        lines = f.read().split("\n")
    i = 0
    while i < len(lines):
        m = HEAD.match(lines[i])
        if not m or not m[5] and not {"record", "data"} & set(m[2].split()) or lines[i].lstrip().startswith(("--", "use ", "infix", "module ", "let ", "rw ")):
            i += 1
            continue
        indent, is_whole = len(m[1]), bool(WHOLE & set(m[2].split()))
        clause = re.compile(r"\s*(?:unfolding |" + re.escape(m[3]) + r'(?![^\s(){}.;,@"«»]))')
        text, j = [lines[i].strip()], i + 1
        while j < len(lines) and lines[j].strip() and not lines[j].lstrip().startswith("--"):
            depth = len(lines[j]) - len(lines[j].lstrip())
            if depth < indent or depth == indent and not (is_whole and clause.match(lines[j])):
                break
            text.append(lines[j].strip())
            j += 1
        yield " ".join(text)
        i = j if is_whole else i + 1


def collected(root):
    found = collections.defaultdict(list)
    for path in sorted(glob.glob(f"{root}/crates/*/specs/**/*.antt", recursive=True) + glob.glob(f"{root}/crates/*/proofs/**/*.antt", recursive=True)):
        if os.path.basename(path) not in ("Proof.antt", "Answers.antt", "Invariants.antt"):
            inside = os.path.relpath(path, f"{root}/crates")
            found[inside.split("/")[0]] += [(inside, it) for it in statements(path)]
    return found


def main(argv):
    if len(argv) == 1:
        for _, its in sorted(collected(argv[0]).items()):
            for path, text in its:
                print(f"{path}: {text}")
    elif len(argv) == 2:
        old, new = collected(argv[0]), collected(argv[1])
        total, lacking = 0, 0
        for crate in sorted(old):
            has = collections.Counter(text for _, text in new[crate])
            for path, text in old[crate]:
                total += 1
                if has[text]:
                    has[text] -= 1
                else:
                    lacking += 1
                    print(f"{path}: {text}")
        print(f"{lacking} of {total} stand otherwise")
    else:
        print(__doc__)
        return 2
    return 0


if __name__ == "__main__":
    sys.exit(main(sys.argv[1:]))
