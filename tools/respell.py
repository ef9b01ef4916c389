#!/usr/bin/env python3
"""Brings the repository's own names of specs/ and proofs/ to one spelling.

Words are in snake case; a dash stays only between two names that are defined, as in get_or-padded. Types, facts and modules keep
their upper camel case, and names of src/ keep theirs. Run once, at the top, after the kit's port.py; --look only tells.
"""
import collections
import glob
import re
import sys

SIGNATURE = re.compile(r"^(\s*)((?:abbrev |unfoldable )?(?:pub )?)([^\s():{}.,;]+) : ")
WORD = re.compile(r"[\w'-]+")
STD = {"length", "take", "drop", "set", "get_or", "append", "replicate", "sum", "suc", "cons", "snoc", "zero", "nil"}
# Names that would fall together with a field, or that another file has for itself.
APART = {"inHand": "count_in_hand", "one-of": "is_one_of", "inOrder": "in_order"}
# A field that would hide a definition, where it stands.
FIELD = re.compile(r"(?<=\.)is_free\b|(?<=pub )is_free(?= : )|\bis_free(?= = first)")
FIELD_IN = ["crates/pool/specs/Laws.antt", "crates/machine/proofs/Blocks.antt", "crates/story/proofs/Once.antt", "crates/story/proofs/Blocks.antt"]


def files(*patterns):
    return sorted(f for p in patterns for f in glob.glob(p, recursive=True) if "/out/" not in f)


def text_of(f):
    with open(f, encoding="utf-8") as it:
        return it.read()


def snake(word):
    return re.sub(r"(?<=[a-z0-9])([A-Z])", lambda m: "_" + m.group(1).lower(), word)


def defined():
    """What specs/ and proofs/*.antt define: definitions, fields and lemmas. What is inside a function's proof keeps its name."""
    kinds = collections.defaultdict(set)
    for f in files("crates/*/specs/**/*.antt", "crates/*/proofs/*.antt"):
        inside = False
        for line in text_of(f).split("\n"):
            if re.match(r"^\s*(pub )?(data|record) [A-Z]", line):
                inside = True
                continue
            inside = inside and line.startswith(" ")
            m = SIGNATURE.match(line)
            if m and m.group(3) not in ("let", "λ"):
                marked = "abbrev" in m.group(2) or "unfoldable" in m.group(2)
                kinds[m.group(3)].add("word" if marked else "field" if inside else "lemma")
    return kinds


def respelled(name, words):
    if name in APART or name[0].isupper():
        return APART.get(name, name)
    parts = [snake(p) for p in re.sub(r"^getD(?=-|$)", "get_or", name).split("-")]
    out, last = parts[0], parts[0]
    for p in parts[1:]:
        joins = (last in words or last in STD) and (p in words or p in STD)
        out, last = out + ("-" if joins else "_") + p, p
    return out


def main():
    kinds = defined()
    words = {snake(n) for n, k in kinds.items() if "word" in k}
    turned = {}
    for n, k in kinds.items():
        t = respelled(n, words)
        # A lemma that would have the name of a definition.
        turned[n] = t + "_lem" if k == {"lemma"} and t in words else t
    there = collections.defaultdict(list)
    for n, t in sorted(turned.items()):
        there[t].append(n)
    for t, ns in sorted(there.items()):
        if len(ns) > 1:
            print("together:", t, "<-", " ".join(f"{n} ({', '.join(sorted(kinds[n]))})" for n in ns))
    turned = {n: t for n, t in turned.items() if n != t}
    if "--look" in sys.argv:
        print("\n".join(f"{n} {t}" for n, t in sorted(turned.items())))
        return
    for f in files("crates/*/specs/**/*.antt", "crates/*/proofs/**/*.antt", "crates/*/src/**/*.rt"):
        old = text_of(f)
        kept = FIELD.sub("free_there", old) if f in FIELD_IN else old
        new = WORD.sub(lambda m: turned.get(m.group(0), m.group(0)), kept)
        if new != old:
            with open(f, "w", encoding="utf-8") as it:
                it.write(new)


main()
