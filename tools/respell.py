#!/usr/bin/env python3
"""Respells the repository's own definitions and lemmas: words in snake case, types and facts in camel case.

usage: python3 tools/respell.py [--list]     at the top of the repository, once, right after port.py

What a file of specs/ or proofs/ declares becomes `SomeName` if it is a type or a fact, and else `some_name`. A dash
stays where it joins two names, as in `length-items`, and a name stays where the new one would fall together with another
of a file that uses it. Goals (`x : goal.y`) and steps (`c.x`) keep the names that Rattle gives them, and so do
comments, strings and what is no name of antt. With --list it only prints old and new.
"""
import collections
import os
import re
import sys

SEPARATORS = re.compile(r"([\s(){}\[\],;.\"`«»:]+)")
DECLARED = re.compile(r"^\s*(?:(?:abbrev|unfoldable|pub|data|record|ruleset)\s+)*([^\s(){}\[\],;.:|]+)\s*(?:\([^)]*\)\s*|\{[^}]*\}\s*)*:(?:\s|$)(.*)")


# names that stand for two things, by file: the other keeps the new name
APART = {
    "crates/grid/proofs/Entries.antt": {"accepted": "enter_told"},
    "crates/grid/proofs/store/calls/GridMatrix/enter/Answers.antt": {"accepted": "enter_told"},
}


def files(endings):
    for folder, dirs, names in os.walk("crates"):
        dirs[:] = sorted(d for d in dirs if d != "out")
        for name in sorted(names):
            if name.endswith(endings):
                yield os.path.join(folder, name)


def read(path):
    with open(path, encoding="utf-8") as f:
        return f.read()


def cut(line, antt):
    """The line's code and its comment."""
    at = re.search(r"(^|\s)--(\s|$)" if antt else r"//", line)
    return (line[: at.start()], line[at.start() :]) if at else (line, "")


def declared():
    """Each declared name that is to change, with whether it is a fact and whether it is a lemma; and each word of specs/."""
    found, every = {}, set()
    for path in files((".antt",)):
        for line in read(path).splitlines():
            code, _ = cut(line, True)
            m = DECLARED.match(code)
            if not m or "goal." in m.group(2) or m.group(2).strip().startswith("given."):
                continue
            name = m.group(1)
            if "/specs/" in path:
                every.add(name)
            fact = bool(re.search(r"(^|→\s*|\s)Type \d+( where)?$", m.group(2).strip()))
            inner = "-" in name.strip("-") or re.search(r"[a-z][A-Z]", name) and name[0].islower()
            if "◌" not in name and (inner or fact and name[0].islower() and len(name) > 1):
                old = found.get(name, (True, True))
                found[name] = (old[0] and fact, old[1] and "/proofs/" in path)
    return found, every


def respelt(name, fact, lemma, every):
    parts = ["get_or" if p == "getD" else p for p in name.split("-")]
    if name[0].isupper() or fact:
        return "".join(p[:1].upper() + p[1:] for p in parts)
    parts = [re.sub(r"(?<=[a-z])[A-Z]", lambda m: "_" + m.group(0).lower(), p) for p in parts]
    whole = {p for p in every if "-" not in p} | {"length", "take", "drop", "append", "map", "get_or", "set"}
    if lemma and len(parts) == 2 and all(p in whole for p in parts):
        return name
    return "_".join(parts)


def words(path):
    """The names of antt that a file says; of a source file its ghost names, parameters and fields."""
    antt = path.endswith(".antt")
    said = set()
    for line in read(path).splitlines():
        code = cut(line, antt)[0]
        if antt or "-" in code or line.startswith("ghost use"):
            said.update(w for w in SEPARATORS.split(code) if antt or "-" in w or line.startswith("ghost use"))
        if not antt:
            said.update(re.findall(r"\b(\w+): ", code))
    return said


def is_made(pieces, i, antt):
    """Whether the word is a step or a clause's label, which have their names from the code, or stands in a string."""
    before, last = (pieces[i - 1], pieces[i - 2]) if i >= 2 else ("", "")
    after = pieces[i + 1] if i + 1 < len(pieces) else ""
    if antt:
        is_label = pieces[i + 2 : i + 3] == ["="] and before.strip()[-1:] in ("{", ";")
        return before == "." and last in ("c", "ensures", "requires") or is_label
    return last in ("ensures", "requires", "ghost") and before == " " or "".join(pieces[:i]).count('"') % 2 == 1 or after == ": "


def main():
    found, every = declared()
    new = {name: respelt(name, *of, every) for name, of in found.items()}
    new = {a: b for a, b in new.items() if a != b}
    by_new = collections.defaultdict(set)
    for a, b in new.items():
        by_new[b].add(a)
    kept = {}
    for path in files((".antt", ".rt")):
        said = words(path)
        for a, b in new.items():
            if a in said and (b in said or len(by_new[b] & said) > 1):
                kept.setdefault(a, []).append(path)
    for a in kept:
        del new[a]
    if "--list" in sys.argv:
        for a, b in sorted(new.items()):
            print(a, "->", b)
        for a, where in sorted(kept.items()):
            print("kept:", a, "in", ", ".join(where))
        return
    for path in files((".antt", ".rt", ".edit")):
        antt = path.endswith(".antt")
        out = []
        for line in read(path).split("\n"):
            code, comment = cut(line, antt) if not path.endswith(".edit") else (line, "")
            pieces = SEPARATORS.split(code)
            for i in range(0, len(pieces), 2):
                if pieces[i] in new and not is_made(pieces, i, antt):
                    pieces[i] = APART.get(path, {}).get(pieces[i], new[pieces[i]])
            out.append("".join(pieces) + comment)
        text = "\n".join(out)
        if text != read(path):
            with open(path, "w", encoding="utf-8") as f:
                f.write(text)
    print(f"respell: {len(new)} names, {len(kept)} kept")


main()
