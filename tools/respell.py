#!/usr/bin/env python3
"""Respells this repository's own definitions and lemmas after port.py: snake case for definitions, lemmas, fields and cases.

usage: tools/respell.py [--say]    in the repository, once, on what port.py wrote; --say prints the names and writes nothing

A name is respelt where a file of specs/, or of proofs/ beside a function's folder, declares it: `keySize` and `key-size` become `key_size`. Where two names fall together the lemma
gets `_lem`. Names of functions, of types and modules, and of what the check makes are left. Must-fail edits and wrong/ are respelt in their texts alone.
"""
import glob
import os
import re
import sys

TOKEN = re.compile(r"[A-Za-z_\u00c0-\uffff][\w'\u2032\u2080-\u2089-]*")
DECLARES = re.compile(r"^\s*(?:abbrev |unfoldable |pub )*((?:[A-Za-z_][\w'-]*)(?: [A-Za-z_][\w'-]*)*)\s+:(?:\s|$)")


def texts(*patterns):
    return sorted(f for p in patterns for f in glob.glob(p, recursive=True))


def own(f):
    """A file of definitions or of lemmas, and not of one function's proof."""
    return "/specs/" in f or os.path.basename(os.path.dirname(f)) == "proofs"


def declared(files):
    """The names that files declare: definitions, lemmas, fields and cases, those inside a module too."""
    found = {}
    for f in files:
        for line in open(f, encoding="utf-8"):
            m = DECLARES.match(line)
            if m and not line.lstrip().startswith(("--", "let ")):
                for name in m[1].split():
                    found[name] = True
    return found


# Where names fall together and the rule would not do: a definition has the plain name before a lemma that port.py has respelt already, and a field may have a definition's.
CHOSEN = {"sameBytes": "same_bytes", "same_bytes": "same_bytes_lem", "recordAfter": "record_after", "record-after": "record_after", "exhaustedByte": "exhausted_byte", "exhausted-byte": "exhausted_byte"}


def snake(name):
    words = re.sub(r"(?<=[a-z0-9])([A-Z])", lambda m: "_" + m[1].lower(), name)
    return words.replace("-", "_")


def table(found):
    old = [n for n in found if not n[0].isupper() and snake(n) != n and n not in CHOSEN]
    new = {n: s for n, s in CHOSEN.items() if n in found}
    taken = {n for n in found if snake(n) == n} | set(CHOSEN.values())
    for n in sorted(old, key=lambda n: ("-" in n, n)):
        s = snake(n)
        if s in taken:
            s += "_lem"
            print(f"together: {n} is {s}")
        if s in taken:
            raise SystemExit(f"respell: {n} has no free name")
        taken.add(s)
        new[n] = s
    return new


def respelt(text, new):
    out, at = [], 0
    for m in TOKEN.finditer(text):
        if m[0] in new:
            out.append(text[at:m.start()] + new[m[0]])
            at = m.end()
    return "".join(out) + text[at:]


def ghost_parts(text):
    """The ghost lines and clauses of a source file, as spans."""
    spans = [m.span() for m in re.finditer(r"^\s*ghost use [^;]*;", text, re.M)]
    for m in re.finditer(r"\b(?:requires|ensures|invariant)\*?(?: \w+)? \{", text):
        deep, i = 1, m.end()
        while deep and i < len(text):
            deep += (text[i] == "{") - (text[i] == "}")
            i += 1
        spans.append((m.start(), i))
    return sorted(spans)


def main():
    say = "--say" in sys.argv[1:]
    os.chdir(os.path.join(os.path.dirname(os.path.abspath(__file__)), ".."))
    antt = texts("crates/*/specs/**/*.antt", "crates/*/proofs/**/*.antt")
    new = table(declared([f for f in antt if own(f)]))
    # The check looks for the proof of a function f as `f_spec`.
    for f in antt:
        if f.endswith("/Proof.antt"):
            for name in re.findall(r"^pub ([\w-]+-spec) :", open(f, encoding="utf-8").read(), re.M):
                new[name] = name.replace("-", "_")
    if say:
        for n in new:
            print(n, new[n])
        return
    for f in antt:
        t = open(f, encoding="utf-8").read()
        r = respelt(t, new)
        if r != t:
            open(f, "w", encoding="utf-8").write(r)
    for f in texts("crates/*/src/**/*.rt"):
        t = open(f, encoding="utf-8").read()
        out, at = [], 0
        for a, b in ghost_parts(t):
            out.append(t[at:a] + respelt(t[a:b], new))
            at = b
        r = "".join(out) + t[at:]
        if r != t:
            open(f, "w", encoding="utf-8").write(r)
    for f in texts("crates/*/must-fail/*.edit", "crates/*/wrong/*.edit"):
        t = open(f, encoding="utf-8").read()
        r = "\n".join(respelt(l, new) if re.match(r"(old|new):", l) else l for l in t.split("\n"))
        if r != t:
            open(f, "w", encoding="utf-8").write(r)


main()
