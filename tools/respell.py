#!/usr/bin/env python3
"""Respells the repository's own names in specs/, proofs/ and clauses: a definition, a lemma, a constructor, a field or a local
name with dashes gets underscores, a type or a fact gets upper camel case, and the name of a clause is spelled in proofs as its
source has it. Names of the library keep their spelling, and so do functions, strings, comments, inputs and outputs.

usage: python3 tools/respell.py [--dry]      at the top of the repository, once, after the toolchain's own script
It prints the names that fall together, or that fall on a name of the sources. It proves nothing: rt check decides."""

import collections
import os
import re
import sys

DRY = "--dry" in sys.argv
NAME = re.compile(r"[A-Za-z_◌ℕℤ][\w₀-₉'′◌→↔≤<≡+*]*(?:-[\w₀-₉'′◌→↔≤<≡+*]+)*")
DECLARED = re.compile(r"^(\s*)((?:abbrev |unfoldable |pub )*)([^\s(){}:,;=λ\[\]|]+) :(?=\s|$)(.*)$")
KIND = re.compile(r"^\s*(?:pub )?(?:data|record) ([^\s(:]+)")


def walk(ends):
    for folder, dirs, files in os.walk("crates"):
        dirs[:] = sorted(d for d in dirs if d != "out")
        for f in sorted(files):
            if f.endswith(ends):
                yield os.path.join(folder, f)


def read(path):
    with open(path, encoding="utf-8") as f:
        return f.read()


def code_parts(text, antt):
    """The text in pieces: (piece, whether it is code and no comment, string or character)."""
    comment = r"--[^\n]*" if antt else r"//[^\n]*"
    skip = re.compile(r'(?:(?<![^\s])' + comment + r')|b?"(?:\\.|[^"\\])*"' + ("" if antt else r"|b?'(?:\\.[^']*|[^'\\])'"))
    at = 0
    for m in skip.finditer(text):
        yield text[at : m.start()], True
        yield m[0], False
        at = m.end()
    yield text[at:], True


def camel(name):
    return "".join(p[:1].upper() + p[1:] for p in re.split(r"[-_]", name))


OWN = sorted(c for c in os.listdir("crates") if os.path.isdir(os.path.join("crates", c, "src")))
labels, identifiers, taken = set(), set(), collections.defaultdict(set)
for path in walk(".rt"):
    text = "".join(p for p, code in code_parts(read(path), False) if code)
    for m in re.finditer(r"(?:requires|ensures)\*? (\w+) \{", text):
        labels.add(m[1])
    for m in re.finditer(r"\bghost (?:invariant )?(\w+): ", text):
        labels.add(m[1])
    for m in re.finditer(r"\b[a-z][a-z0-9]*(?:_[a-z0-9]+)+\b", text):
        identifiers.add(m[0])
    for m in re.finditer(r"(?:struct|enum|trait|const|static|type) (\w+)", text):
        taken[m[1]].add(path)
    for m in re.finditer(r"(?m)^\s+(?:pub )?(\w+): [^{]*,$", text):
        taken[m[1]].add(path)

facts, fields = set(), set()
for path in walk(".antt"):
    inner = None
    lines = read(path).split("\n")
    for i, l in enumerate(lines):
        m = DECLARED.match(l)
        if m and not m[1]:
            says = m[4]
            j = i
            while not re.search(r"Type 0\s*$", says) and j + 1 < len(lines) and lines[j + 1].startswith("    ") and " = " not in lines[j + 1]:
                j += 1
                says += " " + lines[j].strip()
            if re.search(r"(?:^|→|:)\s*Type 0\s*$", says) and "goal." not in says:
                facts.add(m[3])
        if m and m[1]:
            fields.add(m[3])
        k = KIND.match(l)
        if k:
            facts.add(k[1])


def generated(word):
    """A name that Rattle makes: a dash parts what it is made of, and what comes from the source keeps its underscores."""
    parts, out, i = word.split("-"), [], 0
    while i < len(parts):
        for j in range(len(parts), i, -1):
            whole = "_".join(parts[i:j])
            if j > i + 1 and (whole in identifiers or whole in labels):
                out.append(whole)
                i = j
                break
        else:
            if parts[i] == "in" and i + 1 < len(parts) and parts[i + 1] in ("ok", "err", "default"):
                out.append("in_" + parts[i + 1])
                i += 2
            else:
                out.append(parts[i])
                i += 1
    return "-".join(out)


# a definition that would fall on a field of the sources
APART = {"high-records": "high_records_of", "low-records": "low_records_of"}


def own(word):
    if word in APART:
        return APART[word]
    word = re.sub(r"^getD(?=[-_])", "get_or", word)  # the library's word for it is get_or now
    if word in facts:
        return camel(word)
    return (camel(word) if word[:1].isupper() and "-" in word else word.replace("-", "_")).replace("′", "'")


def foreign(text):
    names = set()
    for m in re.finditer(r"(?m)^\s*(?:ghost |pub )?use ([^\s{;]+?)\.?(?:\{([^}]*)\})?(?: as [^\s;]+)?;?$", text):
        path = m[1].split(".")
        if len(path) > 1 and path[0] == "Rattle" and path[1] in OWN:
            continue
        for n in (m[2] or path[-1]).split(","):
            names.add(n.strip().split(" as ")[0])
    return names


def turn(path):
    antt = path.endswith(".antt")
    text = read(path)
    out, keep = [], foreign(text)
    goals = set(re.findall(r"\bgoal\.([^\s(){},;]+)", text))
    for piece, code in code_parts(text, antt):
        if not code:
            out.append(piece)
            continue

        def one(m):
            word = m[0]
            before = piece[: m.start()]
            behind_dot = before.endswith(".") and not before.endswith(" .") and not before.endswith("..")
            if word in keep and not behind_dot:
                return word
            if behind_dot:
                if word in goals and before.endswith("goal."):
                    return generated(word)
                if re.search(r"(?:^|[\s({])(?:use |ghost use )?Rattle\.[\w.+'-]*\.$", before):
                    return word if word in keep else own(word) if word in facts else generated(word)
                if word.replace("-", "_") in labels or word in fields:
                    return word.replace("-", "_").replace("′", "'") if word not in facts else word
                return generated(word)
            if word in goals:
                return generated(word)
            return own(word)

        if antt:
            out.append(NAME.sub(one, piece))
        else:
            out.append(re.sub(r"(?<![\w'])" + NAME.pattern, lambda m: one(m) if "-" in m[0] or "′" in m[0] or (m[0] in facts and m[0][:1].islower() and clause(piece, m)) else m[0], piece))
    return text, "".join(out)


def clause(piece, m):
    """Whether a plain word of a source stands in a clause or a ghost use, where it is a name of specs/."""
    line = piece[piece.rfind("\n", 0, m.start()) + 1 : m.start()]
    return bool(re.match(r"\s*(?:ghost use Rattle|requires|ensures|ghost )", line)) and (("ghost use" in line and "{" in line) or ("ghost use" not in line and "{" in line and not line.rstrip().endswith(".")))


met = collections.defaultdict(lambda: collections.defaultdict(set))
changed = 0
for path in list(walk((".antt", ".rt"))):
    old, new = turn(path)
    a = {w for p, c in code_parts(old, path.endswith(".antt")) if c for w in NAME.findall(p)}
    b = {w for p, c in code_parts(new, path.endswith(".antt")) if c for w in NAME.findall(p)}
    for w in a:
        for v in {own(w), generated(w)}:
            if v != w and v in b:
                met[v][w].add(path)
                if v in a:
                    met[v][v].add(path)
    if old != new:
        changed += 1
        if not DRY:
            with open(path, "w", encoding="utf-8") as f:
                f.write(new)
for v, ws in sorted(met.items()):
    if len(ws) > 1:
        print("fall together:", v, {w: sorted(ps)[:3] for w, ps in ws.items()})
    if v in taken and any("specs" in p for ps in ws.values() for p in ps):
        print("a name of the sources:", v, sorted(taken[v])[:2])
print(changed, "files;", sum(len(ws) for ws in met.values()), "spellings; facts in camel case:", sorted(f for f in facts if camel(f) != f))
