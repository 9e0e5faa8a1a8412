#!/usr/bin/env python3
"""Spells the names that this repository's antt declares as Rattle does today: words in snake case.

usage: tools/respell_names.py [--check] TOP      TOP: the top of a checkout that port.py has turned

A name that an .antt file of crates/ declares (a definition, a lemma, a field, a variable) and that has a dash or a capital inside gets
underscores: 'sqDist' is 'sq_dist', 'sum-within' is 'sum_within'. It turns in .antt files, in the clauses and ghost items of .rt files, and in
the comments of both. What stays: names that begin with a capital, names that a file imports from a library, names that Rattle makes (behind 'tie.'
and 'goal.'), functions of src/, strings. INSTEAD has the names that would fall together with another one.
--check writes nothing and prints the table, and each file in which two names would fall together.
"""

import os
import re
import sys

WORD = re.compile(r'[^\s(){}.;,@"«»`]+')
COMMENT = re.compile(r"(?<![^\s(){}.;,])--[^\n]*")
LIBRARY = re.compile(r"\buse ((?:Prim|native|mathlib|lib|borrow|denote|Rattle\.(?:std|core|std_alloc))\b[^\s{;]*)\.\{([^}]*)\}", re.S)
HEAD = re.compile(r"(?m)^ *(?:(?:pub|abbrev|unfoldable|fn|data|record|ghost) )*([^\s(){}.;,:]+)(?: *[({][^(){}]*[)}])* :(?=\s)")
LET = re.compile(r"\blet ([^\s(){}.;,:]+) (?::|=)")
BINDER = re.compile(r"[({]((?:[^\s(){}.;,:λ]+ )+): ")
LAMBDA = re.compile(r"λ ((?:[^\s(){}.;,:λ]+ ?)+)\.")
CLAUSE = re.compile(r"\b(?:requires|ensures)\*?(?: \w+)? \{|\bghost(?: \w+)?(?::|=)? *\{|\bghost \w+: \{")
GHOST_USE = re.compile(r"ghost use [^;]*;", re.S)
# old: new, where the plain spelling falls together with another name
INSTEAD = {n: n.replace("-", "_") + "_lem" for n in (
    "pair-of id-at sum-at is-nan is-finite links-most never-reused pairs-from joins-by stays-among outliers-held "
    "potential-held first-no insertion-said insertion-number opening-number label-found labels-read floor-root row_from"
).split()}


def snake(name):
    name = re.sub(r"(?<=[a-z0-9ℕℤ])([A-Z])(?=[A-Z]*[a-z]|$|[A-Z0-9_'-])", lambda m: "_" + m[1].lower(), name)
    return name.replace("-", "_").lower() if name[:1].islower() else name.replace("-", "_")


def texts(top, *ends):
    for folder, dirs, files in os.walk(os.path.join(top, "crates")):
        dirs[:] = sorted(d for d in dirs if d != "out")
        for f in sorted(files):
            if f.endswith(ends):
                yield os.path.join(folder, f)


def read(path):
    with open(path, encoding="utf-8") as f:
        return f.read()


def odd(name):
    return not name[0].isupper() and not name.startswith(("-", "◌")) and re.search(r"[A-Za-z0-9']-[A-Za-z0-9]|[⊕⊖⊗⊘ℕ≤]-[a-z]|^[a-z][A-Za-z0-9]*[a-z0-9][A-Z]", name)


def table(top):
    found, foreign = set(), set()
    for path in texts(top, ".antt", ".rt"):
        text = COMMENT.sub("", read(path))
        for _, names in LIBRARY.findall(text):
            foreign |= {n.split(" as ")[0].strip() for n in names.split(",")}
        if path.endswith(".rt"):
            continue
        found |= set(HEAD.findall(text)) | set(LET.findall(text))
        for pattern in (BINDER, LAMBDA):
            for names in pattern.findall(text):
                found |= set(names.split())
    own = {n for n in found - foreign if odd(n) and not re.match(r"(invariant|decreases)-loop", n)}
    return {n: INSTEAD.get(n, snake(n)) for n in sorted(own | INSTEAD.keys())}


def turn(text, names, walked=False):
    def one(m):
        before = text[max(0, m.start() - 8) : m.start()]
        made = re.search(r"\b(?:tie|goal)\.$", before) or walked and m[0] in INSTEAD and before.endswith(".")
        return m[0] if made else names.get(m[0], m[0])

    return WORD.sub(one, text)


def closing(text, at):
    depth = 0
    for i in range(at, len(text)):
        depth += (text[i] == "{") - (text[i] == "}")
        if depth < 0:
            return i
    return len(text)


def turn_rt(text, names):
    out, at = [], 0
    spots = [(m.start(), m.end()) for m in GHOST_USE.finditer(text)]
    spots += [(m.end(), closing(text, m.end())) for m in CLAUSE.finditer(text)]
    spots += [(m.start(), m.end()) for m in re.finditer(r"//[^\n]*", text)]
    for start, end in sorted(spots):
        if start >= at:
            out += [text[at:start], turn(text[start:end], names)]
            at = end
    return "".join(out + [text[at:]])


def main(args):
    check = "--check" in args
    top = [a for a in args if a != "--check"][0]
    names = table(top)
    news = {}
    for old, new in names.items():
        news.setdefault(new, set()).add(old)
    if check:
        for old, new in names.items():
            print(f"{old}\t{new}")
    met = changed = 0
    for path in texts(top, ".antt", ".rt"):
        text = read(path)
        bare = COMMENT.sub("", text) if path.endswith(".antt") else "".join(turn_spots(text))
        words = set(WORD.findall(bare))
        for new in sorted({names[w] for w in words if w in names}):
            olds = (news[new] | {new}) & words
            if len(olds) > 1:
                met += 1
                print(f"meet: {path}: {sorted(olds)}")
        if check:
            continue
        done = turn(text, names, path.endswith("/Proof.antt")) if path.endswith(".antt") else turn_rt(text, names)
        if done != text:
            changed += 1
            with open(path, "w", encoding="utf-8") as f:
                f.write(done)
    print(f"names {len(names)}, files changed {changed}, places where names meet {met}")


def turn_spots(text):
    """Of an .rt file: what clauses and ghost items hold, and the parameters, which a clause sees too."""
    for m in GHOST_USE.finditer(text):
        yield m[0] + " "
    for m in CLAUSE.finditer(text):
        yield text[m.end() : closing(text, m.end())] + " "
    for m in re.finditer(r"\bfn \w+(?:<[^>]*>)?\(([^)]*)\)", text):
        yield " ".join(re.findall(r"(\w+):", m[1])) + " "


if __name__ == "__main__":
    sys.exit(main(sys.argv[1:]))
