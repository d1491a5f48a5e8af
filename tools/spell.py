#!/usr/bin/env python3
"""Brings the repository's own definitions and lemmas to the spelling of today's Rattle: words in snake case.

usage: python3 tools/spell.py     at the top of the repository, once, right after the kit's port.py

A name that a file of specs/ or proofs/ declares (a definition, a lemma, a field, a constructor, a `where`) loses its dashes and its inner
capitals for `_`: next-below is next_below, firstCorner is first_corner. Types and facts keep their upper camel case. A name of the library
keeps its spelling, also where one of ours is spelled alike: of such a pair only what a file declares, or takes from one of our crates, is
turned. Functions of src/, names that Rattle makes and text outside backticks stay. It prints each pair of names that would fall together.
"""
import collections
import glob
import re
import sys

DELIMITERS = " \t\n(){}[],;.:\"`«»"
TOKEN = re.compile(r"[^\s(){}\[\],;.:\"`«»]+")
DECLARED = re.compile(
    r"^\s*(?:\|\s*)?(?:(?:abbrev|pub|unfoldable|axiom)\s+)*([^\s(){}\[\],;.:\"`«»]+)\s*(?:\{[^{}]*\}\s*|\([^()]*\)\s*)*:(?:\s|$)")
NAMED = re.compile(r"^\s*(?:(?:abbrev|pub|unfoldable)\s+)*(?:record|data|ruleset)\s+([^\s(){}\[\],;.:\"`«»]+)")
USE = re.compile(r"^\s*(?:ghost\s+|pub\s+)*use\s+([^\s{;]+?)(?:\.\{([^}]*)\}|\s+as\s+(\S+?))?\s*;?\s*$")


def snake(name):
    if "◌" in name or name[:1].isupper() and "-" not in name:
        return name
    head, out = name[:1], name
    if not head.isupper():
        out = re.sub(r"(?<=[a-z0-9'])([A-Z])", lambda m: "_" + m.group(1).lower(), out)
    return out.replace("-", "_")


def turned(name):
    return re.match(r"^[A-Za-z][A-Za-z0-9'_-]*$", name) is not None and snake(name) != name


def logical(text):
    """The lines of a file, with a `use` that was broken over lines put together (for reading only)."""
    out, held = [], None
    for line in text.split("\n"):
        if held is not None:
            held += " " + line.strip()
            if "}" in line:
                out.append(held)
                held = None
        elif re.match(r"^\s*(ghost\s+|pub\s+)*use\b", line) and "{" in line and "}" not in line:
            held = line
        else:
            out.append(line)
    return out


def imports(text):
    """(module, name, alias) of each `use`."""
    for line in logical(text):
        m = USE.match(line)
        if m and m.group(2) is not None:
            for it in m.group(2).split(","):
                words = it.split()
                if words:
                    yield m.group(1), words[0], words[2] if len(words) == 3 else None


def by_hand(path):
    return path.endswith("Proof.antt")


def code_of(line):
    i = line.find("--")
    while i > 0 and line[i - 1] not in DELIMITERS:
        i = line.find("--", i + 2)
    return line if i < 0 else line[:i]


def main():
    crates = sorted(g.split("/")[1] for g in glob.glob("crates/*/"))
    ours = re.compile(r"^Rattle\.(" + "|".join(crates) + r")\.(specs|proofs)(\.|$)")
    antt = sorted(glob.glob("crates/*/specs/**/*.antt", recursive=True) + glob.glob("crates/*/proofs/**/*.antt", recursive=True))
    rt = sorted(glob.glob("crates/*/src/**/*.rt", recursive=True))
    texts = {p: open(p, encoding="utf-8").read() for p in antt + rt}
    declares, own, kit = {}, set(), set()
    for p in antt:
        mine = set()
        for line in texts[p].split("\n"):
            m = DECLARED.match(code_of(line))
            if m and not (by_hand(p) and (re.search(r":\s+tie\.|:.*\bstatement\b", line) or not line.startswith((" ", "abbrev pub", "pub")) and re.match(r"^\S+ : tie\.", line))):
                mine.add(m.group(1))
        declares[p] = mine
        own |= mine
    for p in antt + rt:
        for module, name, alias in imports(texts[p]):
            if alias:
                own.add(alias)
            if not ours.match(module):
                kit.add(name)
    own = {n for n in own if turned(n)}
    shared = own & kit
    new = {n: snake(n) for n in own}
    fall = collections.defaultdict(set)
    for n in new:
        fall[new[n]].add(n)
    every = collections.defaultdict(set)
    for p in antt:
        for l in texts[p].split("\n"):
            if not re.match(r"^\s*(pub\s+)?use\b", l):
                for t in TOKEN.findall(re.sub(r"\.[^\s(){}\[\],;.:]+", "", code_of(l))):
                    every[t].add(p)
    for n, olds in sorted(fall.items()):
        if len(olds) > 1:
            print("fall together:", n, sorted(olds))
            for old in olds:
                if "-" in old:
                    new[old] = n + "_lem"
        if n in kit:
            print("a name of the library already:", n, sorted(olds))
            for old in olds:
                new[old] = n + "_lem"
        elif n in every:
            print("is there already:", n, sorted(olds), sorted(every[n])[:3])
    if shared:
        print("also a name of the library:", sorted(shared))
    for p in antt + rt:
        taken = set(declares.get(p, ()))
        foreign = set()
        for module, name, alias in imports(texts[p]):
            (taken if ours.match(module) else foreign).add(name)
        names = {n: s for n, s in new.items() if n not in shared or n in taken and n not in foreign}

        def turn(m):
            return names.get(m.group(0), m.group(0))

        def ticked(m):
            return "`" + TOKEN.sub(turn, m.group(1)) + "`"

        out = []
        for line in texts[p].split("\n"):
            if p.endswith(".antt"):
                code = code_of(line)
                tail = line[len(code):]
                held = re.match(r"^(\s*)(\S+)( : tie\..*| c( κs)? =.*)$", code) if by_hand(p) else None
                if held:
                    code = held.group(1) + held.group(2) + TOKEN.sub(turn, held.group(3))
                else:
                    code = TOKEN.sub(turn, code)
            else:
                i = line.find("//")
                code, tail = (line, "") if i < 0 else (line[:i], line[i:])
                code = re.sub(r"\"[^\"]*\"|[A-Za-z_][A-Za-z0-9_']*", lambda m: m.group(0) if m.group(0)[0] == '"' else turn(m), code)
            out.append(code + re.sub(r"`([^`]*)`", ticked, tail))
        text = "\n".join(out)
        if text != texts[p]:
            with open(p, "w", encoding="utf-8") as f:
                f.write(text)
    names = {n: s for n, s in new.items() if n not in shared}
    pages = ["README.md"] + sorted(glob.glob("docs/*.md"))
    for p in pages + sorted(glob.glob("crates/*/must-fail/*.edit")):
        t = open(p, encoding="utf-8").read()
        turn = lambda m: names.get(m.group(0), m.group(0))
        if p.endswith(".md"):
            u = re.sub(r"`([^`\n]*)`", lambda m: "`" + TOKEN.sub(turn, m.group(1)) + "`", t)
        else:
            u = "\n".join(TOKEN.sub(turn, l) if l.startswith(("old:", "new:")) and "file: specs/" in t else l for l in t.split("\n"))
        if u != t:
            with open(p, "w", encoding="utf-8") as f:
                f.write(u)
    print(f"{len(own)} names turned")


sys.exit(main())
