#!/usr/bin/env python3
"""Counts the places in src/ that an older language left: places.py [ROOT]. One line a place, and the counts at the end.

By text alone: what it finds is read by a person, who says in docs/DESIGN-PASS.md which are places indeed.
"""
import collections
import pathlib
import re
import sys

root = pathlib.Path(sys.argv[1] if len(sys.argv) > 1 else ".")
found = collections.OrderedDict((str(n), []) for n in range(1, 8))


def note(point, path, line, what):
    found[point].append(f"{path}:{line}: {what}")


def functions(text):
    """(line, name, signature and clauses, body) of each function that has a body."""
    for m in re.finditer(r"^( *)(?:pub(?:\([a-z]+\))? )?(?:const )?fn (\w+)", text, re.M):
        indent = m.group(1)
        end = re.search(rf"^{indent}}}$", text[m.start():], re.M)
        one = re.match(rf"[^\n]*\{{[^\n]*\}}$", text[m.start():].split("\n", 1)[0])
        whole = text[m.start():].split("\n", 1)[0] if one else text[m.start():m.start() + end.end()] if end else ""
        opened = re.search(rf"(^{indent}\{{$)|(\{{$)", whole, re.M)
        if opened:
            yield text[:m.start()].count("\n") + 1, m.group(2), whole[:opened.start()], whole[opened.end():]


def shape(code):
    code = re.sub(r"//[^\n]*", "", code)
    code = re.sub(r"\b\d[\d_]*\b", "0", code)
    names = {}
    return re.sub(r"[A-Za-z_]\w*", lambda m: names.setdefault(m.group(0), f"n{len(names)}"), re.sub(r"\s+", " ", code))


files = sorted(root.glob("crates/*/src/**/*.rt"))
shapes, consts, facts, pairs, structs = (collections.defaultdict(list) for _ in range(5))
for path in files:
    text = path.read_text()
    rel = path.relative_to(root)
    tests = text.find("mod tests {")
    at = lambda i: text[:i].count("\n") + 1
    for m in re.finditer(r"Refusal::(?:plain|at)\(\d+|\bcode: \d+,|=> \(\d+, |-> \(u8, u32(?:, u64)?\)|^\s+(?:pub )?\w+: bool,|-> Option<\w*Fault>", text, re.M):
        if not 0 <= tests < m.start():
            note("1", rel, at(m.start()), m.group(0).strip())
    for m in re.finditer(r"else \{\s*return None;\s*\}|None => None,|Err\((\w+)\) => Err\(\1\),", text):
        before = text[max(0, m.start() - 60):m.start()]
        if "let " in before.rsplit("\n", 1)[-1] or "=>" in m.group(0):
            note("1", rel, at(m.start()), "`?` by hand: " + re.sub(r"\s+", " ", m.group(0)))
    for m in re.finditer(r"^\s*(?:pub )?const ([A-Z_]+): [^=]*= ?([^;]*);", text, re.M):
        if tests < 0 or m.start() < tests:
            consts[re.sub(r"\s+", " ", m.group(2))].append((rel, at(m.start()), m.group(1)))
    for m in re.finditer(r"struct (\w+)(?:<[^>]*>)? \{([^}]*)\}", text):
        kinds = tuple(re.findall(r"^\s+(?:pub(?:\([a-z]+\))? )?\w+: ([^,\n]+),", m.group(2), re.M))
        if len(kinds) >= 1 and not (len(kinds) == 1 and kinds[0] in ("u32", "u64", "u8")):
            structs[kinds].append((rel, at(m.start()), m.group(1)))
        fields = re.findall(r"^\s+(?:pub(?:\([a-z]+\))? )?(\w+): ([^,\n]+),", m.group(2), re.M)
        if any(re.match(r"\[.*;", k) for _, k in fields) and any(n in ("len", "count") for n, _ in fields):
            note("6", rel, at(m.start()), f"{m.group(1)}: a buffer with a length beside it")
        if any(n == "at" and k == "usize" for n, k in fields):
            note("6", rel, at(m.start()), f"{m.group(1)}: an index into a slice")
    for line, name, head, body in functions(text):
        inside = len(body)
        if inside > 60:
            shapes[shape(re.sub(r"^[^{]*?\)", "", head.split("requires")[0].split("ensures")[0]) + body)].append((rel, line, name))
        for m in re.finditer(r"for (\w+) in [^{\n]*\.\.[^{\n]*\{", body):
            if re.search(rf"\b{m.group(1)}\b(?: as \w+)?(?: [-+] 1)?\]|\[{m.group(1)}\b|\b{m.group(1)} as ", body):
                note("3", rel, line, f"{name}: {m.group(0)}")
        for m in re.finditer(r"while [^{]*?(?:<|>|<=|>=) [^{]*\{", body):
            var = re.search(r"while (?:\w+\.)?(\w+)", m.group(0)).group(1)
            if re.search(rf"\b{var} (?:\+=|-=) 1;|\[{var}\b|\b{var} (?:\+=|-=)", body):
                note("3", rel, line, f"{name}: " + re.sub(r"\s+", " ", m.group(0)))
        for m in re.finditer(r"(\w+) \+= [^;]*;", body):
            if re.search(r"for \w+ in (?!\S*\.\.)", body) and re.search(rf"let mut {m.group(1)}(?:: \w+)? = 0;", body) and re.search(rf"^\s*{m.group(1)}\s*$", body, re.M):
                note("3", rel, line, f"{name}: a sum by hand: {m.group(0)}")
        if re.search(r"for \w+ in [^{]*\{\s*if [^{]*\{\s*return (?:true|false|Some\(\*?\w+\));", body) or re.search(r"for \(\w+, \w+\) in [^{]*\{\s*if [^{]*\{\s*return Some\(\w+\);", body):
            note("3", rel, line, f"{name}: a search by hand")
        if re.search(r"refusal$|^refusal_of$", name) and "Refusal" in head and "from" != name:
            note("4", rel, line, f"{name}: a conversion by hand")
        if re.search(r"(\w+)\.(\w+) == (\w+)(?:\.\w+)?\.\2\s*&& \1\.(\w+) == \3(?:\.\w+)?\.\4", body):
            note("4", rel, line, f"{name}: equality by hand")
        if re.search(r"if \w+\.?\w* != \w+\.?\w* \{\s*return [^;]*<[^;]*;", body) or re.search(r"< \w+\.(\w+) \|\| \(?\w+\.\1 ==", body):
            note("4", rel, line, f"{name}: an order by hand")
        if re.search(r"match [^{]*\{\s*(?:\d+ => \w|\w+::\w+ => b\")", body):
            note("4", rel, line, f"{name}: a conversion by hand (match of numbers or texts)")
        params = sorted(set(re.findall(r"(\w+): ([&\w\[\]' <>]+?)(?=,|\))", re.split(r"\brequires\b|\bensures\b", head)[0])))
        for i, a in enumerate(params):
            for b in params[i + 1:]:
                pairs[(a, b)].append((rel, line, name))
        for m in re.finditer(r"(?:requires|ensures)(?: \w+)? \{ (.*) \}$", head, re.M):
            if m.group(0).startswith("requires"):
                for fact in re.split(r" × ", m.group(1)):
                    key = re.sub(r"\.(now|old|new|entry)\b", "", fact.strip("() "))
                    if len(key) > 6:
                        facts[key].append((rel, line, name))
    for m in re.finditer(r"^\s*(?:pub )?(?:const|static) (NO_\w+|NOTHING|EMPTY_\w+|ZERO)\b", text, re.M):
        note("4", rel, at(m.start()), f"{m.group(1)}: a default by hand")
    for m in re.finditer(r"fn \w+[^{]*?\(\s*[^)]*\b(\w+): &(?:mut )?\[[^)]*\b(len|n|at|count): usize", text):
        note("6", rel, at(m.start()), "a slice with a length or place beside it: " + re.search(r"fn (\w+)", m.group(0)).group(1))
    for m in re.finditer(r"^type \w+ = \[", text, re.M):
        note("6", rel, at(m.start()), m.group(0))
    for m in re.finditer(r"match \w+ \{\s*Sort::|if queue == 0 \{", text):
        note("7", rel, at(m.start()), re.sub(r"\s+", " ", m.group(0)))

for places in shapes.values():
    if len(places) > 1:
        note("2", places[0][0], places[0][1], "functions of one shape: " + ", ".join(f"{n} ({p}:{i})" for p, i, n in places))
for value, places in consts.items():
    if len(places) > 1 and len({p for p, _, _ in places}) > 1:
        note("2", places[0][0], places[0][1], "constants of one value: " + ", ".join(f"{n} ({p}:{i})" for p, i, n in places))
for kinds, places in structs.items():
    if len(places) > 1:
        note("2", places[0][0], places[0][1], "structs of one make: " + ", ".join(f"{n} ({p}:{i})" for p, i, n in places))
for key, places in facts.items():
    if len({(p, n) for p, _, n in places}) >= 3:
        note("5", places[0][0], places[0][1], f"asked {len(places)} times: {key}")
for (a, b), places in pairs.items():
    crates = collections.Counter(p.parts[1] for p, _, _ in places)
    for crate, n in crates.items():
        if n >= 3:
            note("5", pathlib.Path("crates") / crate, 0, f"{a[0]} and {b[0]} together in {n} functions")

for point, places in found.items():
    for place in places:
        print(f"{point} {place}")
for point, places in found.items():
    print(f"point {point}: {len(places)}")
