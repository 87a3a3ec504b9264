#!/usr/bin/env python3
"""Brings the repository's own definitions and lemmas to one spelling: facts and types in upper camel case, all else in snake case.

    tools/respell.py [--dry]        at the top of the repository, once

A name is the repository's own if an .antt file under crates/ declares it, as a definition, a lemma, a field or a constructor.
Names that the check makes (goals, invariants, measures) and names of a library keep their spelling. Functions, strings and
comments of src/ are left alone: in a .rt file only ghost items and clauses are touched."""
import os
import re
import sys

# names whose parts are an older spelling of a library's own word
APART = {"getD-zeros": "get_or_zeros", "sumBy-map": "sum_by_map"}
NAME = r"[^\s(){}\[\];,.:=λ→×∷≡≤<+*⌜⌝\"]+"
WORDS = r"(?:(?:abbrev|unfoldable|pub|data|record|ruleset|mutual|let)\s+)*"
DECLARED = re.compile(r"\s*" + WORDS + "(" + NAME + r")((?:\s+[({][^)}]*[)}])*)\s*:\s(.*)")
BOUND = re.compile(r"\blet\s+(" + NAME + r")\s*[:=]")
# what the check makes: its goals are declared by 'goal.', its invariants and measures stand in Invariants.antt
MADE = re.compile(r"\bgoal\.|\bneed\.")
CLAUSE = re.compile(r"\s*(ghost|requires|ensures)\b")


def files():
    for folder, inner, names in os.walk("crates"):
        inner[:] = sorted(d for d in inner if d != "out")
        for name in sorted(names):
            if name.endswith((".antt", ".rt")):
                yield os.path.join(folder, name)


def declared():
    found = set()
    for path in files():
        if not path.endswith(".antt") or path.endswith("Invariants.antt"):
            continue
        for line in open(path, encoding="utf-8"):
            if line.lstrip().startswith("--"):
                continue
            m = DECLARED.match(line)
            if m and not MADE.search(m.group(3)):
                found.add(m.group(1))
            found.update(BOUND.findall(line))
    return {n for n in found if re.fullmatch(r"[A-Za-z][\w']*(?:-[\w']+)+", n)}


def respelled(name):
    if name in APART:
        return APART[name]
    parts = name.split("-")
    if name[0].isupper():
        return "".join(p[:1].upper() + p[1:] for p in parts)
    return "_".join(parts)


def main():
    names = {n: respelled(n) for n in declared()}
    pattern = re.compile(r"(?<![\w'\-])(" + "|".join(sorted(map(re.escape, names), key=len, reverse=True)) + r")(?![\w'\-])")
    texts = {p: open(p, encoding="utf-8").read() for p in files()}
    words = set()
    for text in texts.values():
        words.update(re.findall(r"[A-Za-z][\w']*", text))
    for old, new in sorted(names.items()):
        same = [o for o in names if o != old and names[o] == new]
        if same or new in words:
            print(f"falls together: {old} -> {new} {same}")
    if "--dry" in sys.argv:
        return
    for path, text in texts.items():
        turn = lambda t: pattern.sub(lambda m: names[m.group(1)], t)
        if path.endswith(".antt"):
            new = turn(text)
        else:
            new, inside = [], False
            for line in text.split("\n"):
                # a clause may go over several lines, up to the line where its braces close
                if CLAUSE.match(line) or inside:
                    line = turn(line)
                    depth = (0 if not inside else inside) + line.count("{") - line.count("}")
                    inside = max(depth, 0)
                new.append(line)
            new = "\n".join(new)
        if new != text:
            open(path, "w", encoding="utf-8").write(new)
    print(f"{len(names)} names respelled")


main()
