#!/usr/bin/env python3
"""respell: brings the names of this repository's own definitions and lemmas to the spelling of the toolchain's library.

  respell.py [--list | --anyway]     at the top of the repository

Words are in snake case: a name in camel case, as `firstRow`, and a dash between plain words, as `first-here`, get an underscore. A dash
stays between two functions that the lemma is about, as in `sum-append`. It goes by the names that the files in crates/*/specs and proofs
define, and writes them anew wherever they stand as words in specs/, proofs/, src/ and must-fail/; names of other libraries stay. Names of
functions in src/ stay too, as nothing in specs/ or proofs/ defines them. A name that the check makes and that is spelled like one of ours
(as `point-is`, which is also what it calls the value of `point` at a join) has to be put back by hand.

Where two names would fall together it says so and writes nothing; --anyway writes them all the same. --list prints the names alone.
"""
import glob, re, sys

CAMEL = r"(?<![\w'-])([a-z][a-z0-9]*(?:[A-Z][a-z0-9]*)+ℤ?)(?![\w'-])"
DASHED = r"[A-Za-z][\w'₀-₉ℤ]*(?:-[\w'₀-₉ℤ]+)+"
EDGE = r"(?<![\w'ₐ-ₜ₀-₉ℤ-])%s(?![\w'ₐ-ₜ₀-₉ℤ-])"
# snake case would give these the name of a function of src/, or of a lemma
INSTEAD = {"firstRow": "first_row_of", "hasPart": "has_present", "passedUp": "refusal_passed_up"}
# a lemma that makes room for a definition in camel case
ROOM = {"fallsAt": ("falls_at", "falls_next")}
# the words for operators that a lemma may be about
OPERATORS = {"append": r"◌\+\+◌| \+\+ "}


def files(pattern):
    return sorted(f for f in glob.glob("crates/*/" + pattern, recursive=True) if "/out/" not in f)


def own_modules():
    return {line.split(":")[0].strip() for line in open("crates.txt") if ":" in line and not line.startswith("#")}


def defined(texts):
    """Each dashed name that a specs or proofs file defines, with its signature."""
    found = {}
    for t in texts.values():
        for m in re.finditer(r"(?m)^([ \t]*)(?:(?:abbrev|unfoldable|pub)\s+)*(" + DASHED + r") : (.*(?:\n\1[ \t]+.*)*)", t):
            if not m.group(3).startswith("goal."):
                found.setdefault(m.group(2), "")
                found[m.group(2)] += " " + m.group(3)
    return found


def foreign(texts, mine):
    """The names that are imported from other libraries."""
    out = set()
    for t in texts.values():
        for m in re.finditer(r"(?m)^\s*(?:ghost )?use ([\w.]+)\.\{([^}]*)\}", t):
            parts = m.group(1).split(".")
            if not (parts[0] == "Rattle" and len(parts) > 1 and parts[1] in mine):
                out |= {x.strip().split(" as ")[0] for x in m.group(2).split(",")}
    return out


def functions(texts):
    out = {"length", "drop", "take", "map", "replicate", "set"}
    for f, t in texts.items():
        if "/specs/" in f:
            out |= set(re.findall(r"(?m)^(?:(?:abbrev|unfoldable|pub)\s+)+([a-z]\w*) :", t))
    return out


def undashed(name, signature, words):
    parts = name.split("-")
    said = parts[0]
    for a, b in zip(parts, parts[1:]):
        about = all(p in words and re.search(EDGE % re.escape(p), signature) or p in OPERATORS and re.search(OPERATORS[p], signature) for p in (a, b))
        said += ("-" if about else "_") + b
    return said


def main():
    antt = {f: open(f, encoding="utf-8").read() for p in ("specs/**/*.antt", "proofs/**/*.antt") for f in files(p)}
    others = {f: open(f, encoding="utf-8").read() for p in ("src/**/*.rt", "must-fail/*.edit") for f in files(p)}
    mine, words = own_modules(), functions(antt)
    skip = foreign(antt, mine) | foreign({f: t for f, t in others.items() if f.endswith(".rt")}, mine)
    names = {n: undashed(n, s, words) for n, s in defined(antt).items() if n not in skip}
    imports = "\n".join(l for t in others.values() for l in t.split("\n") if l.lstrip().startswith("ghost use"))
    for t in [*antt.values(), imports]:
        for n in re.findall(CAMEL, t):
            if n not in skip:
                names[n] = re.sub(r"[A-Z]", lambda m: "_" + m.group(0).lower(), n)
    stands = lambda n: any(re.search(EDGE % re.escape(n), t) for t in antt.values())
    names |= {n: s for n, s in INSTEAD.items() if stands(n)} | {n: s for camel, (n, s) in ROOM.items() if stands(camel)}
    names = {n: s for n, s in names.items() if n != s}
    taken = set(re.findall(r"[A-Za-z][\w'₀-₉ℤ]*(?:-[\w'₀-₉ℤ]+)*", " ".join(antt.values())))
    together = [n for n, s in names.items() if s in taken - set(names) or sum(x == s for x in names.values()) > 1]
    for n, s in sorted(names.items()):
        if "--list" in sys.argv or n in together:
            print(f"{n} {s}{'  FALLS TOGETHER' if n in together else ''}")
    if "--list" in sys.argv or not names:
        return
    if together and "--anyway" not in sys.argv:
        sys.exit("respell: nothing was written")
    pattern = re.compile(EDGE % ("(?:" + "|".join(re.escape(n) for n in sorted(names, key=len, reverse=True)) + ")"))
    for f, t in {**antt, **others}.items():
        said = pattern.sub(lambda m: names[m.group(0)], t)
        if said != t:
            open(f, "w", encoding="utf-8").write(said)


main()
