#!/usr/bin/env python3
"""Respells this repository's own antt names as Rattle's style asks, after port.py: python3 tools/spell_names.py

Types in upper camel case, everything else in snake case, where a dash stays in a lemma's name only between two names
(length-placed_last). `All` and `Has`, which were other names for std's words, become those words. Functions of src/,
strings, inputs and outputs keep their names. Run once at the top; it prints each name that it turned, and stops,
with nothing written, where two names would fall together.
"""

import os
import re
import sys

DECLARED = re.compile(r"^(\s*)((?:(?:abbrev|unfoldable|pub|data|record)\s+)*)([^\s:(){}.,;]+)\s*((?:\([^)]*\)|\{[^}]*\})\s*)*:\s(.*)$")
TOKEN = re.compile(r"[^\s(){}\[\],;.:\"«»|\\λ]+")
# words of the library that stand as names in a lemma's name
LIBRARY = set("length take drop get_or set append cons nil add sub mul div mod pow zero suc cond filter map reverse min max eqb leb ltb".split())
WORDS = {"All": "AllByRecursion", "Has": "ContainsAt"}
KEPT = set("let use where in module open elim as rw record data pub abbrev unfoldable unfolding".split())


def files(root, *ends):
    for folder, dirs, names in os.walk(root):
        dirs[:] = sorted(d for d in dirs if d not in ("out", "target", ".git"))
        for name in sorted(names):
            if name.endswith(ends):
                yield os.path.join(folder, name)


def read(path):
    with open(path, encoding="utf-8") as f:
        return f.read()


def declared():
    """The names that the antt files declare: types, other definitions, and lemmas, fields and constructors."""
    types, words, others = set(), set(), set()
    for path in files("crates", ".antt"):
        for line in read(path).splitlines():
            m = DECLARED.match(line)
            if not m or m[3] in KEPT or m[5].startswith("goal."):
                continue
            marks, name = m[2].split(), m[3]
            if line.rstrip().endswith("where") or re.search(r"Type 0\s*$", m[5]):
                types.add(name)
            elif "abbrev" in marks or "unfoldable" in marks:
                words.add(name)
            else:
                others.add(name)
    return types, words, others - words - types


def camel(name):
    return "".join(part[:1].upper() + part[1:] for part in re.split(r"[-_]", name))


def lemma(name, known):
    """A dash between two names stays, any other becomes an underscore: the longest names first."""
    parts = name.split("-")
    pieces = []
    while parts:
        for n in range(len(parts), 0, -1):
            piece = "_".join(parts[:n])
            if piece in known or n == 1:
                pieces.append(piece)
                parts = parts[n:]
                break
    said = pieces[0]
    for before, piece in zip(pieces, pieces[1:]):
        said += ("-" if before in known and piece in known else "_") + piece
    return said


def spellings():
    types, words, others = declared()
    turned = {}
    for name in types:
        if "-" in name or not name[0].isupper():
            turned[name] = camel(name)
    for name in words:
        if "-" in name:
            turned[name] = name.replace("-", "_")
    known = LIBRARY | {turned.get(w, w) for w in words} | {turned.get(t, t) for t in types}
    for name in others:
        if "-" in name:
            turned[name] = lemma(name, known)
    return {old: new for old, new in turned.items() if old != new}


def spell(text, turned):
    return TOKEN.sub(lambda m: turned.get(m[0], m[0]), text)


def spell_antt(text, turned):
    """Comments change in quotes alone; a file that gave std's word another name drops that name."""
    turned = turned | {name: word for name, word in WORDS.items() if f"{word} as {name}" in text}
    for name, word in WORDS.items():
        text = text.replace(f"{word} as {name}", word)
    lines = []
    for line in text.split("\n"):
        code, dashes, comment = line.partition("-- ") if line.lstrip().startswith("-- ") else (line, "", "")
        lines.append(spell(code, turned) + dashes + re.sub(r"`[^`]*`", lambda m: spell(m[0], turned), comment))
    return "\n".join(lines)


def spell_page(text, turned):
    """A page, or a source file's comments: names in quotes."""
    return re.sub(r"`[^`\n]*`", lambda m: re.sub(r"[^\s`(){},.]+", lambda t: turned.get(t[0], t[0]), m[0]), text)


GHOST = re.compile(r"(\b(?:requires|ensures|ghost)\b[^{;\n]*\{)")


def spell_source(text, turned):
    """Clauses, ghost items and imports; outside them only comments in quotes."""
    out, at = [], 0
    while True:
        m = GHOST.search(text, at)
        if not m:
            break
        line = text.rfind("\n", 0, m.start()) + 1
        if text[line : m.start()].lstrip().startswith("//"):
            out.append(spell_page(text[at : m.end()], turned))
            at = m.end()
            continue
        depth, end = 1, m.end()
        while depth:
            depth += {"{": 1, "}": -1}.get(text[end], 0)
            end += 1
        out.append(spell_page(text[at : m.start()], turned))
        out.append(spell(text[m.start() : end], turned))
        at = end
    out.append(spell_page(text[at:], turned))
    return "".join(out)


def main():
    turned = spellings()
    used = set()
    for path in files("crates", ".antt"):
        used |= set(TOKEN.findall(re.sub(r"\bRattle(\.[\w+]+)+", "", read(path))))
    clashes = [f"{old} -> {new}: used already" for old, new in sorted(turned.items()) if new in used]
    by_new = {}
    for old, new in turned.items():
        by_new.setdefault(new, []).append(old)
    clashes += [f"{' and '.join(sorted(olds))} -> {new}" for new, olds in sorted(by_new.items()) if len(olds) > 1]
    if "--list" in sys.argv:
        for old, new in sorted(turned.items()):
            print(old, new)
    if clashes:
        print("\n".join(clashes))
        print(f"{len(turned)} names, {len(clashes)} clashes: nothing written")
        return 1
    if "--list" in sys.argv:
        return 0
    turns = [("crates", (".antt",), spell_antt), ("crates", (".rt",), spell_source), ("docs", (".md",), spell_page), (".", ("README.md",), spell_page)]
    for root, ends, how in turns:
        for path in files(root, *ends):
            was = read(path)
            now = how(was, turned)
            if now != was:
                with open(path, "w", encoding="utf-8") as f:
                    f.write(now)
    for old, new in sorted(turned.items()):
        print(old, new)
    return 0


if __name__ == "__main__":
    sys.exit(main())
