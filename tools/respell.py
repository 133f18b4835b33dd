#!/usr/bin/env python3
"""Brings the names of this repository's definitions and lemmas to the spelling of today's Rattle.

usage: python3 tools/respell.py [--dry]     at the top of the repository, once, after port.py

A word, a field and a lemma are in snake case; in a lemma a dash stays where it joins two names of functions, as in
`length-replicate`. Names that Rattle makes of source names (`read-bit-requires`) take the source's spelling
(`read_bit-requires`). Names from src/, strings, comments (but for what stands in backticks), inputs and outputs stay.
Types and facts are in camel case already. It prints the names that fall together.
"""
import collections
import os
import re
import sys

DECL = re.compile(r"^(?P<marks>(?:(?:unfoldable|abbrev|pub)\s+)*)(?P<name>[^\s:(){}]+)\s*(?:\{[^}]*\}\s*|\([^)]*\)\s*)*:\s(?P<type>.*)$")
FIELD = re.compile(r"^\s+pub ([^\s:(){}]+)\s*:")
# a constructor, a field that is not public, or a lemma below `where`
INNER = re.compile(r"^\s+([^\s:(){}]+)\s*(?:\{[^}]*\}\s*|\([^)]*\)\s*)*:\s")
# a name that a `let` or a parameter gives
LOCAL = re.compile(r"(?<!\S)let ([^\s:=(){}]+) [:=]|\(((?:[^\s:(){}]+ )+): ")
TYPE = re.compile(r"^(?:pub )?(?:record|data)(?: pub)? ([^\s:(){}]+)")
GOAL = re.compile(r"^(?:goal|need\u00b7)\.")
# plain words, which a lemma's name takes with `_`
PLAIN = {"more", "whole", "line", "not", "other", "one", "single", "here", "zeroed", "none", "some", "kept", "first", "true", "words"}
TOKEN = re.compile(r"[^\s(){}\[\],;.`\"λ@⟦⟧⌜⌝<>]+")
# words of Rattle in the names that it makes
MADE = ["slice-bounds", "overflow-add", "overflow-sub", "overflow-mul", "overflow-shl", "overflow-shr", "overflow-cast",
        "overflow-step", "nonzero-div", "nonzero-rem", "offset-bounds", "invariant-of", "in-ok", "in-err", "in-default",
        "type-inv", "the-impl", "range-from", "range-to"]


def files(root):
    for top in ("crates",):
        for folder, dirs, names in os.walk(os.path.join(root, top)):
            dirs[:] = sorted(d for d in dirs if d != "out")
            for f in sorted(names):
                if f.endswith((".rt", ".antt")):
                    yield os.path.join(folder, f)


def read(path):
    with open(path, encoding="utf-8") as f:
        return f.read()


def own_names(root):
    words, lemmas, fields, others = set(), set(), set(), set()
    for path in files(root):
        if not path.endswith(".antt"):
            continue
        data = False
        for line in read(path).split("\n"):
            t, f, d, inner = TYPE.match(line), FIELD.match(line), DECL.match(line), INNER.match(line)
            data = bool(re.match(r"(?:pub )?data ", line)) or (data and line.startswith(" "))
            for m in LOCAL.finditer(line):
                fields |= set((m.group(1) or m.group(2)).split())
            if t:
                others.add(t.group(1))
            elif f:
                fields.add(f.group(1))
            elif inner and not line.lstrip().startswith("--"):
                (words if data else lemmas).add(inner.group(1))
            elif d and not line.startswith(("use ", "--", "  ", "open ")):
                if GOAL.match(d.group("type")):
                    continue
                kind = words if "abbrev" in d.group("marks") or "unfoldable" in d.group("marks") else lemmas
                kind.add(d.group("name"))
    return words, lemmas, fields, others


def library_words(root):
    found = set()
    for path in files(root):
        for m in re.finditer(r"use Rattle\.std\.[\w.'-]*\.\{([^}]*)\}", read(path)):
            found |= {x.strip().split(" as ")[0] for x in m.group(1).split(",") if x.strip()}
    return found


def source_words(root):
    found = set()
    for path in files(root):
        if path.endswith(".rt"):
            found |= set(re.findall(r"\b[a-z][a-z0-9]*(?:_[a-z0-9]+)+\b", read(path)))
    return found


def snake(name):
    return name.replace("-", "_")


def lemma_name(name, known):
    parts = name.split("-")
    for i in range(1, len(parts)):
        left, right = "_".join(parts[:i]), "_".join(parts[i:])
        if left in known and right in known:
            return left + "-" + right
    return "_".join(parts)


def made_name(token, kebabs):
    for kebab, to in kebabs:
        token = re.sub(r"(?<![\w'-])" + re.escape(kebab) + r"(?![\w'])", to, token)
        token = re.sub(r"(?<=[-+])" + re.escape(kebab) + r"(?![\w'])", to, token)
    return token


def foreign(text):
    """Names that a file takes from the library, which keep their dashes."""
    found = set()
    for m in re.finditer(r"use Rattle\.std\.[\w.'-]*\.\{([^}]*)\}", text):
        found |= {x.strip().split(" as ")[-1] for x in m.group(1).split(",") if x.strip()}
    return found


def turn_line(line, turn, rust):
    """Turns a line's code, and in its comment what stands in backticks."""
    mark = "//" if rust else "--"
    at = re.search(r"(?<!\S)" + mark, line)
    code, comment = (line[:at.start()], line[at.start():]) if at else (line, "")
    pieces = re.split(r'("(?:[^"\\]|\\.)*")', code)
    code = "".join(p if k % 2 else TOKEN.sub(turn, p) for k, p in enumerate(pieces))
    comment = re.sub(r"`[^`]*`", lambda m: TOKEN.sub(turn, m.group()), comment)
    return code + comment


def main():
    root, dry = ".", "--dry" in sys.argv
    words, lemmas, fields, others = own_names(root)
    known = ({snake(w) for w in words} | {w for w in library_words(root) if re.match(r"[a-z]", w)}) - PLAIN
    table = {n: snake(n) for n in words | fields if "-" in n}
    table |= {n: lemma_name(n, known) for n in lemmas if "-" in n and n not in table}
    table = {a: b for a, b in table.items() if re.search(r"\w-\w", a)}
    kebabs = sorted(((w.replace("_", "-"), w) for w in source_words(root)), key=lambda p: -len(p[0]))
    kebabs += [(w, snake(w)) for w in MADE]
    falls = collections.defaultdict(set)
    for n in words | lemmas | fields | others | library_words(root):
        falls[table.get(n, n)].add(n)
    for new, olds in sorted(falls.items()):
        if len(olds) > 1:
            print(f"fall together: {' '.join(sorted(olds))} -> {new}")
    changed = 0
    targets = list(files(root)) + [os.path.join("docs", f) for f in sorted(os.listdir("docs"))] + ["README.md"]
    for path in targets:
        before = text = read(path)
        keep = foreign(text)
        proof = "/proofs/" in path and path.endswith(".antt")
        text = text.replace("need\u00b7", "goal")

        def turn(m):
            t = m.group()
            if "-" not in t or t in keep:
                return t
            if t in table:
                return table[t]
            return made_name(t, kebabs) if proof and re.search(r"\w-\w", t) else t

        if path.endswith(".md"):
            new = re.sub(r"```.*?```|`[^`\n]*`", lambda m: TOKEN.sub(turn, m.group()), text, flags=re.S)
        else:
            rust = path.endswith(".rt")
            new = "\n".join(turn_line(line, turn, rust) for line in text.split("\n"))
        if new != before:
            changed += 1
            if not dry:
                with open(path, "w", encoding="utf-8") as f:
                    f.write(new)
    print(f"{len(table)} names, {changed} files")
    if dry:
        for a, b in sorted(table.items()):
            if b != snake(a) or a in lemmas:
                print(a, "->", b)


if __name__ == "__main__":
    main()
