#!/usr/bin/env python3
"""Respells the names of goals and steps in a crate's proof files.

usage: rt check --generated OUT --old-names; python3 tools/goal_names.py OUT/names.json     in the crate's folder

Rattle made names with dashes alone, and now keeps a source name's underscore: `overflow-sub-x` is `overflow_sub-x`. A name in an
Answers.antt or Invariants.antt that is one of its function's names but for that is respelt; others are printed.
"""
import collections
import json
import os
import re
import sys

WORD = r"[^\s(){}\[\],;.:\"`«»]+"


def plain(name):
    return name.replace("_", "-").replace("·", "-")


def strings(value):
    if isinstance(value, str):
        yield value
    elif isinstance(value, list):
        for v in value:
            yield from strings(v)
    elif isinstance(value, dict):
        for k, v in value.items():
            yield k
            yield from strings(v)


def main():
    with open(sys.argv[1], encoding="utf-8") as f:
        names = json.load(f)
    for key, value in names.items():
        m = re.fullmatch(r"Rattle-\w+-proofs\.(.+)\.Lts(?:-\w+)?", key)
        if not m:
            continue
        folder = os.path.join("proofs", *m.group(1).split("."))
        known = collections.defaultdict(set)
        for pair in value["needs"]:
            known[plain(pair[1])].add(pair[1])
        for place in value["places"]:
            known[plain(place[2][1])].add(place[2][1])
        for s in strings([value["places_by_name"], value["loops"], value["settled"]]):
            known[plain(s)].add(s)
        for name in ("Answers.antt", "Invariants.antt", "Proof.antt"):
            path = os.path.join(folder, name)
            if not os.path.exists(path):
                continue
            with open(path, encoding="utf-8") as f:
                text = f.read()

            def turn(m, tail=False):
                word = m.group(2)
                to = known.get(plain(word))
                if to and word not in to and len(to) == 1:
                    return m.group(1) + next(iter(to))
                if not to and not word.startswith(("invariant", "decreases")):
                    print(f"{path}: {m.group(1)}{word} is no name of today's")
                return m.group(0)

            new = re.sub(r"(goal\.)(" + WORD + ")", turn, text)
            new = re.sub(r"(\b[cl]\.)(?!args|requires|ranges|initial|fn|type_inv|utf8)(" + WORD + ")", turn, new) if name == "Answers.antt" else new
            new = re.sub(r"(Goals\.\{)([^}]*)", lambda m: m.group(1) + ", ".join(next(iter(known.get(plain(w), {w}))) for w in m.group(2).split(", ")), new)
            goals = set(re.findall(r"goal\.(" + WORD + ")", new))
            heads = {plain(g): g for g in goals}
            new = re.sub(r"(?m)^(pub |abbrev pub )?(" + WORD + r")(?=\s)", lambda m: (m.group(1) or "") + heads.get(plain(m.group(2)), m.group(2)), new)
            if new != text:
                with open(path, "w", encoding="utf-8") as f:
                    f.write(new)


main()
