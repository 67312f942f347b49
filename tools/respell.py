#!/usr/bin/env python3
"""Brings the project's own words to snake case, and its own types and facts to camel case.

Run once at the top, right behind the toolchain's own respelling script. A word with a dash that is declared in specs/ or in a
lemma file of proofs/, or bound in one, is the project's own; a word that such a file takes from a library, or that a proof of a
function takes from what the prover made for it, is left. Functions, exported names and strings keep their names.
"""
import glob
import re
import sys

WORD = re.compile(r"[^\s(){}\[\],;.«»\"`|]+")
DASH = re.compile(r"[A-Za-z0-9']-[A-Za-z0-9]")
# A library's, though no import in braces names it.
LIBRARY = {"not-nil"}
# What a dash alone does not tell.
BY_HAND = {"getD-made": "get_or_made", "getD-in": "get_or_in"}


def own_files():
    """Every file of definitions and lemmas; and the proofs of functions apart."""
    files = sorted(glob.glob("crates/*/specs/**/*.antt", recursive=True) + glob.glob("crates/*/proofs/**/*.antt", recursive=True))
    return [f for f in files if not f.endswith("/Proof.antt")], [f for f in files if f.endswith("/Proof.antt")]


def imports(text):
    """Each (module, name) that the text takes in braces."""
    for head, names in re.findall(r"^(?:ghost )?use ([^\s{]+)\.\{([^}]*)\}", text, re.M):
        for name in names.split(","):
            yield head, name.split(" as ")[0].strip()


def is_own(module):
    return module.startswith("Rattle.") and not module.startswith("Rattle.std.")


def spelled(name):
    if name in BY_HAND:
        return BY_HAND[name]
    if re.match(r"[A-Z][a-z]", name):
        return "".join(part[:1].upper() + part[1:] for part in name.split("-"))
    return (name[:1].lower() + name[1:]).replace("-", "_")


def words_of(text):
    for line in text.split("\n"):
        if not line.lstrip().startswith("--"):
            for word in WORD.findall(line):
                if DASH.search(word):
                    yield word


def main():
    lemmas, functions = own_files()
    texts = {f: open(f).read() for f in lemmas + functions}
    library = LIBRARY | {n for t in texts.values() for m, n in imports(t) if not is_own(m)}
    own = {w for f in lemmas for w in words_of(texts[f]) if w not in library}
    # of a function's proof, what it takes from a file of the project's
    own |= {n for f in functions for m, n in imports(texts[f]) if is_own(m) and DASH.search(n) and ".Tie" not in m}
    names = {w: spelled(w) for w in own}
    if "--list" in sys.argv:
        for old, new in sorted(names.items()):
            print(old, new)
        return
    sources = glob.glob("crates/*/src/**/*.rt", recursive=True)
    for f in lemmas + functions + sources:
        text = texts.get(f) or open(f).read()
        out = []
        for line in text.split("\n"):
            head, mark, tail = line, "", ""
            if f.endswith(".rt"):
                head, mark, tail = line.partition("//")
                # only clauses and imports speak of definitions
            head = WORD.sub(lambda m: names.get(m.group(0), m.group(0)), head)
            # in a comment, a word that is quoted
            tail = re.sub(r"`([^`\s]+)`", lambda m: "`" + names.get(m.group(1), m.group(1)) + "`", tail)
            if not f.endswith(".rt") and line.lstrip().startswith("--"):
                head = re.sub(r"`([^`]+)`", lambda m: "`" + WORD.sub(lambda n: names.get(n.group(0), n.group(0)), m.group(1)) + "`", line)
            out.append(head + mark + tail)
        changed = "\n".join(out)
        if changed != text:
            open(f, "w").write(changed)
    # edits, and what the pages and tests quote
    for f in glob.glob("crates/*/must-fail/*.edit"):
        lines = open(f).read().split("\n")
        turned = [WORD.sub(lambda m: names.get(m.group(0), m.group(0)), projections(ln)) if ln[:4] in ("old:", "new:") else ln for ln in lines]
        open(f, "w").write("\n".join(turned))
    for f in ["README.md"] + glob.glob("docs/*.md"):
        text = open(f).read()
        open(f, "w").write(re.sub(r"`([^`\n]+)`", lambda m: "`" + WORD.sub(lambda n: names.get(n.group(0), n.group(0)), m.group(1)) + "`", text))


def projections(line):
    """A projection is written tight, as `n.gates`, and `(f n).gates` behind a call; names of the logic are dotted no more."""
    line = line.replace("Rattle·", "Rattle.").replace(".specs.specs.", ".specs.").replace("lib.ListN.getD", "lib.ListN.get_or")
    return re.sub(r"(?<=[A-Za-z0-9_)]) \.(?=[a-z])", ".", line)


main()
