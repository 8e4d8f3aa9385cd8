#!/usr/bin/env python3
"""Brings the names that specs/ and proofs/ declare to one spelling: words in snake case, types and facts in upper camel case.

usage: tools/respell.py [--list]      at the top of the repository, once, after the toolchain's own port script

A declared name with a dash is respelled wherever it stands in a crate's .rt and .antt files, comments included, and where docs/ and
README.md name it in backticks. The dashed names that the prover itself makes (goals, steps, loops) are no declarations of ours and stay.
Names of std stay too: a dashed name that is only imported is never touched. It stops, and writes nothing, where two names would fall
together. --list prints the pairs instead of writing.
"""
import collections
import os
import re
import sys

NAME = r"[A-Za-z_][A-Za-z0-9_'+]*(?:-[A-Za-z0-9_'+]+)+"
RENAMED = re.compile(r"\bas (" + NAME + r")(?=[,};])")
DECLARED = re.compile(r"^\s*(?:(?:unfoldable|abbrev|pub|data|record)\s+)*(" + NAME + r")\s*(?:[({].*)?:(?!\S)")
SEVERAL = re.compile(r"^  ((?:[A-Za-z_][A-Za-z0-9_'-]* )+): [A-Z]\w*$")
TOKEN = re.compile(r"(?<![A-Za-z0-9_'+◌·-])" + NAME + r"(?![A-Za-z0-9_'+◌·-])")


def files(top, endings, folders):
    for folder in folders:
        for where, dirs, names in os.walk(os.path.join(top, folder)):
            dirs[:] = sorted(d for d in dirs if d not in ("out", ".git"))
            for name in sorted(names):
                if name.endswith(endings):
                    yield os.path.join(where, name)


def read(path):
    with open(path, encoding="utf-8") as f:
        return f.read()


def respelled(name):
    parts = name.split("-")
    if name[0].isupper():
        return "".join(p[0].upper() + p[1:] for p in parts)
    return "_".join(parts)


def declared(top):
    """The dashed names that specs/ and proofs/ declare or import under, but for answers to goals, whose names the prover makes."""
    found = collections.defaultdict(set)
    for path in files(top, (".rt", ".antt"), ["crates"]):
        for line in read(path).splitlines():
            line = re.sub(r"--(?= |$).*|//.*", "", line)
            names = RENAMED.findall(line) if re.match(r"(ghost )?use ", line) else []
            m = DECLARED.match(line) if path.endswith(".antt") else None
            if m and not re.match(r"\s*:\s*(goal|given)\.", line[m.end(1):]):
                names.append(m[1])
            several = SEVERAL.match(line)
            if several and path.endswith(".antt"):
                names += [n for n in several[1].split() if "-" in n]
            for name in names:
                found[name].add(os.path.relpath(path, top))
    return found


def taken(top):
    """The words that a new name must not be one of: what .antt files call anything, and the fields and variables of src/."""
    words = collections.defaultdict(set)
    for path in files(top, (".rt", ".antt"), ["crates"]):
        if path.endswith(".rt"):
            text = re.sub(r"//.*", "", read(path))
            found = re.findall(r"\b(\w+)\s*:(?!:)|\blet (?:mut )?(\w+)", text)
        else:
            text = re.sub(r"--(?= |$).*", "", read(path))
            found = re.findall(r"(?<![A-Za-z0-9_'.-])([A-Za-z_][A-Za-z0-9_']*)(?![A-Za-z0-9_'-])()", text)
        for words_found in found:
            for word in filter(None, words_found):
                words[word].add(os.path.relpath(path, top))
    return words


def main():
    top = os.getcwd()
    names = declared(top)
    pairs = {n: respelled(n) for n in sorted(names)}
    back = collections.Counter(pairs.values())
    words = taken(top)
    clashes = [(n, to) for n, to in pairs.items() if back[to] > 1 or to in words]
    if "--list" in sys.argv:
        for n, to in pairs.items():
            print(n, to)
    for n, to in clashes:
        print(f"falls together: {n} -> {to}: {sorted(words.get(to, []))[:4]}, declared in {sorted(names[n])[:3]}", file=sys.stderr)
    if "--list" in sys.argv:
        return 0
    if clashes:
        return 1
    for path in files(top, (".rt", ".antt"), ["crates"]):
        text = read(path)
        new = TOKEN.sub(lambda m: pairs.get(m[0], m[0]), text)
        if new != text:
            with open(path, "w", encoding="utf-8") as f:
                f.write(new)
    for path in list(files(top, ".md", ["docs"])) + [os.path.join(top, "README.md")]:
        text = read(path)
        new = re.sub(r"`[^`\n]+`", lambda m: TOKEN.sub(lambda t: pairs.get(t[0], t[0]), m[0]), text)
        if new != text:
            with open(path, "w", encoding="utf-8") as f:
                f.write(new)
    return 0


if __name__ == "__main__":
    raise SystemExit(main())
