#!/usr/bin/env python3
"""Spells this repository's own words of specs/ and proofs/ as today's library does.

usage: python3 tools/spell_names.py [--list]     at the top of the repository (--list: print the names and change nothing)

A word or a lemma is in snake case (`firstBroken` is `first_broken`, `walk-finds` is `walk_finds`), a dash is left only between two names
of functions (`hasb-insert`), and a fact is spelled as a type (`One-list` is `OneList`). It turns every .antt and .rt file of crates/, the
must-fail edits, and the pages of docs/. Names that Rattle makes, and names that a file imports from a library, are left as they are.
Functions, types, strings and comments' plain words in src/ are not touched: a name of Rust has no dash and no capital after a small letter.
"""
import collections
import os
import re
import sys

NAME = r"[^\W\d_][\w'′ᴰ]*(?:-[\w'′ᴰ]+)*"
TOKEN = re.compile(r"(?<![\w'′\-])" + NAME)
DECLARED = re.compile(r"^\s*(?:\| )?(?:abbrev |unfoldable |opaque )?(?:pub )?(" + NAME + r") :(?! goal\.)", re.M)
FUNCTION = re.compile(r"^\s*(?:abbrev|unfoldable) pub (" + NAME + r") :", re.M)
KINDS = re.compile(r"^\s*(?:abbrev |unfoldable )?(?:pub )?(?:record|data) (" + NAME + r")", re.M)
LOCAL = re.compile(r"\blet (" + NAME + r")\b|λ ((?:\(?" + NAME + r"(?: : [^()]*\))? ?)+)\.")
# Words of the library that a lemma's name may join by a dash.
LIBRARY = set("length append take drop map get_or replicate sum reverse concat".split())


def files(top):
    for folder, dirs, names in os.walk(os.path.join(top, "crates")):
        dirs[:] = sorted(d for d in dirs if d != "out")
        for n in sorted(names):
            if n.endswith((".antt", ".rt", ".edit")):
                yield os.path.join(folder, n)
    docs = os.path.join(top, "docs")
    for n in sorted(os.listdir(docs)):
        if n.endswith(".md"):
            yield os.path.join(docs, n)


def snake(word):
    return re.sub(r"(?<=[a-z0-9])([A-Z])", lambda m: "_" + m.group(1).lower(), word)


def bare(text):
    return re.sub(r"--.*", "", text)


def spelled(name, functions):
    """The new spelling of a declared name."""
    if name in LEMMAS:
        return LEMMAS[name]
    name = name.replace("′", "'").replace("getD", "get_or")
    parts = name.split("-")
    if name[0].isupper() and len(parts) > 1 and all(p[:1].islower() or p[:1].isupper() for p in parts):
        if parts[0] in FACTS:
            return parts[0] + "-" + "_".join(snake(p) for p in parts[1:])
        return "".join(p[:1].upper() + p[1:] for p in parts)
    if name[0].isupper():
        return name
    parts = [snake(p) for p in parts]
    out = parts[0]
    for before, p in zip(parts, parts[1:]):
        joins = before in functions and p in functions
        out += ("-" if joins else "_") + p
    return out


# Names that would fall together with another: lemmas that would have their function's name, and cases of a type.
LEMMAS = {"value-of": "value_of_lem", "first-broken": "first_broken_lem", "names-line": "names_part", "clause-line": "clause_part"}
FACTS = {"All", "Joined", "IfOk", "MatchOption", "MatchResult", "Decides", "Minimal"}


def survey(top):
    """The declared names, the functions among them, and the names of each file that come from a library."""
    declared, functions, foreign, texts = set(), set(), {}, {}
    own = set(os.listdir(os.path.join(top, "crates")))
    for p in files(top):
        with open(p, encoding="utf-8") as f:
            texts[p] = f.read()
        if not p.endswith((".antt", ".rt")):
            foreign[p] = set()
            continue
        imported = set()
        for m in re.finditer(r"\buse ([\w.·◌⊆]+)\.\{([^}]*)\}", texts[p]):
            root = m.group(1).split(".")
            if root[0] != "Rattle" or root[1] not in own or "Goals" in m.group(1) or "Given" in m.group(1):
                imported.update(re.findall(NAME, m.group(2)))
        foreign[p] = imported
        if p.endswith(".antt"):
            t = bare(texts[p])
            found = set(DECLARED.findall(t)) | set(KINDS.findall(t))
            declared |= found
            if os.sep + "specs" + os.sep in p:
                functions |= {snake(n) for n in FUNCTION.findall(t) if n[0].islower() and "-" not in n}
            for a, b in LOCAL.findall(t):
                declared.update(re.findall(NAME, a + " " + re.sub(r": [^()]*\)", "", b)))
    return declared, functions | LIBRARY, foreign, texts


def main(argv):
    top = os.getcwd()
    declared, functions, foreign, texts = survey(top)
    made = set()
    for p, t in texts.items():
        if p.endswith(".antt") and os.sep + "proofs" + os.sep in p:
            made |= set(re.findall(r"^(?:abbrev )?pub (" + NAME + r") : goal\.", t, re.M))
            for m in re.finditer(r"\.(?:Goals|Given)\.\{([^}]*)\}", t):
                made |= set(re.findall(NAME, m.group(1)))
    turn = {}
    for n in sorted(declared - made):
        if "-" in n or "′" in n or re.match(r"[a-z][a-z0-9]*[A-Z]", n):
            s = spelled(n, functions)
            if s != n:
                turn[n] = s
    # Names that Rattle makes of the calls of a function stand after a point, and so do fields: those only are turned there.
    fields = set()
    for p, t in texts.items():
        if p.endswith(".antt"):
            for block in re.findall(r"^( *)(?:pub )?record [^\n]* where\n((?:\1 +[^\n]*\n|\n)+)", bare(t), re.M):
                fields |= set(DECLARED.findall(block[1]))
    for p, t in texts.items():
        new = {}

        def put(m):
            w = m.group(0)
            if w not in turn or w in foreign[p]:
                return w
            dotted = m.start() > 0 and t[m.start() - 1] == "."
            if dotted and w not in fields and re.match(r"[a-z_]", t[: m.start() - 1][-1:] or " ") and re.search(r"(?:^|[^\w.])[a-z][\w'\-.]*\.$", t[max(0, m.start() - 80) : m.start()]) and not re.search(r"Rattle\.[\w.\-]*\.$", t[max(0, m.start() - 120) : m.start()]):
                return w
            new.setdefault(turn[w], set()).add(w)
            return turn[w]

        if p.endswith(".rt"):
            s = re.sub(r'"(?:\\.|[^"\\])*"|//[^\n]*|(?<![\w\'′\-])' + NAME, lambda m: m.group(0) if m.group(0).startswith('"') else put_in(m, put, turn, foreign[p]), t)
        elif p.endswith(".md"):
            s = re.sub(r"`[^`\n]*`", lambda m: TOKEN.sub(lambda k: turn.get(k.group(0), k.group(0)), m.group(0)), t)
        else:
            s = TOKEN.sub(put, t)
        for k, olds in new.items():
            there = set(TOKEN.findall(t))
            if len(olds) > 1 or (k in there and k not in turn):
                print(f"look: {p}: {sorted(olds)} -> {k}" + (", which stands there already" if k in there else ""))
        if "--list" not in argv and s != t:
            with open(p, "w", encoding="utf-8") as f:
                f.write(s)
    if "--list" in argv:
        for n, s in turn.items():
            print(n, "->", s)
    print(f"spell: {len(turn)} names")


def put_in(m, put, turn, foreign):
    w = m.group(0)
    if w.startswith("//"):
        return re.sub(r"`[^`\n]*`", lambda q: TOKEN.sub(lambda k: turn.get(k.group(0), k.group(0)), q.group(0)), w)
    return put(m)


if __name__ == "__main__":
    main(sys.argv[1:])
