#!/usr/bin/env python3
"""Brings the names of this repository's own definitions and lemmas to snake case: in specs, proofs, clauses, must-fail edits and pages.

usage: tools/respell-names.py            at the top of the repository, once, right after the kit's port.py

Types and modules keep their capitals, names of source, strings and what C sees stay as they are. `a-b` becomes `a_b` and `aB` becomes `a_b`;
where a lemma and a function would fall together, the lemma gets `_lem` behind it. What rattle itself makes for the proof of a function (the
needs of `tie`, the steps of the code behind a dot) is left alone. The pages are changed only within backticks.
"""

import os
import re
import sys

TOKEN = r"[^\s(){}.;,@\"`]+"
KEBAB = re.compile(r"^[A-Za-z⊕][A-Za-z0-9_']*(-[A-Za-z0-9_']+)+$")
CAMEL = re.compile(r"^[a-z][a-z0-9_']*([A-Z][A-Za-z0-9_']*)+$")
# Local names that would fall together with a function's, told by hand: file, old name, new name.
LOCAL = {("printer/specs/Back.antt", "tile-bytes"): "tile_list"}


def snake(name):
    name = name.replace("-", "_")
    return re.sub(r"(?<=[a-z0-9])_?([A-Z])", lambda m: "_" + m.group(1).lower(), name) if CAMEL.match(name) else name


def texts(top, ending):
    for folder, below, files in os.walk(top):
        below[:] = sorted(b for b in below if b not in ("out", ".git", "target"))
        for f in sorted(files):
            if f.endswith(ending):
                yield os.path.join(folder, f)


def read(path):
    with open(path, encoding="utf-8") as f:
        return f.read()


def bare(text):
    return re.sub(r"--[^\n]*", "", text)


def is_function_proof(path):
    parts = path.split(os.sep)
    return "proofs" in parts and parts.index("proofs") < len(parts) - 2


# The names that a text of antt defines: by a signature, a field or a constructor, by let, and by the arguments of functions.
def defined(path, text):
    found = set()
    for line in bare(text).split("\n"):
        m = re.match(r"\s*(?:(?:abbrev|pub|unfoldable|private) )*(" + TOKEN + r")\s+:\s(.*)", line)
        if m and not m.group(2).startswith("tie."):
            found.add(m.group(1))
        for m in re.finditer(r"\blet (" + TOKEN + r")\s+[:=]\s", line):
            found.add(m.group(1))
        for m in re.finditer(r"[({]([^(){}:]+) : ", line):
            found.update(m.group(1).split())
        for m in re.finditer(r"λ ((?:" + TOKEN + r"\s+)*" + TOKEN + r")\.", line):
            found.update(m.group(1).split())
    for m in re.finditer(r"^\s*(?:pub )?use [^\n]* as (" + TOKEN + r")", bare(text), re.M):
        found.add(m.group(1))
    if not is_function_proof(path):
        found.update(re.findall(TOKEN, re.sub(r'"[^"\n]*"', "", bare(text))))
    return {n for n in found if KEBAB.match(n) or CAMEL.match(n)} - imported(text, False)


# The names that a text takes from this repository's crates, or from the kit.
def imported(text, own):
    names = set()
    for m in re.finditer(r"^\s*(?:pub )?use ([^\s{]+)\.\{([^}]*)\}", bare(text), re.M):
        parts = m.group(1).split(".")
        if (parts[0] == "Rattle" and parts[1] in OWN_CRATES) == own:
            names.update(n for word in m.group(2).split(",") for n in word.split())
    return names


def turned(text, names):
    return re.sub(TOKEN, lambda m: names.get(m.group(0), m.group(0)), text)


def ticked(text, names):
    return re.sub(r"`([^`\n]+)`", lambda m: "`" + turned(m.group(1), names) + "`", text)


def turned_antt(text, names):
    out = []
    for line in text.split("\n"):
        at = line.find("--")
        code, comment = (line, "") if at < 0 else (line[:at], line[at:])
        out.append(turned(code, names) + ticked(comment, names))
    return "\n".join(out)


# The clauses and ghost imports of source; all else but ticked names in comments stays.
def turned_source(text, names):
    out, i = [], 0
    for m in re.finditer(r"^[ \t]*(?:pub )?ghost use [^;]*;|\b(?:requires|ensures)\*?[^{\n]*\{|ghost [a-z_]+: \{", text, re.M):
        if m.start() < i:
            continue
        end = m.end()
        if text[end - 1] == "{":
            depth = 1
            while depth:
                depth += {"{": 1, "}": -1}.get(text[end], 0)
                end += 1
        out.append(text[i : m.start()])
        out.append(turned(text[m.start() : end], names))
        i = end
    out.append(text[i:])
    lines = []
    for line in "".join(out).split("\n"):
        at = line.find("//")
        lines.append(line if at < 0 else line[:at] + ticked(line[at:], names))
    return "\n".join(lines)


top = sys.argv[1] if len(sys.argv) > 1 else "."
crates = os.path.join(top, "crates")
OWN_CRATES = set(os.listdir(crates))
local, everywhere = {}, set()
for path in texts(crates, ".antt"):
    names = defined(path, read(path))
    if is_function_proof(path):
        local[path] = names
    else:
        everywhere |= names
every = everywhere.union(*local.values())
new = {name: snake(name) for name in sorted(every)}
functions = {snake(n): n for n in every if CAMEL.match(n)}
for name in sorted(every):
    if KEBAB.match(name) and not CAMEL.match(name) and new[name] in functions and functions[new[name]] != name:
        new[name] += "_lem"
rest = {}
for name, other in new.items():
    rest.setdefault(other, []).append(name)
for other, olds in sorted(rest.items()):
    if len(olds) > 1:
        sys.exit(f"{olds} fall together as {other}")

changed = 0
for path in texts(top, (".antt", ".rt", ".edit", ".md")):
    text = read(path)
    short = os.path.relpath(path, crates)
    if path.endswith(".antt"):
        names = new
        if is_function_proof(path):
            allowed = local[path] | imported(text, True)
            names = {n: new[n] for n in allowed if n in new}
        names = names | {n: to for (f, n), to in LOCAL.items() if f == short}
        then = turned_antt(text, names)
    elif path.endswith(".rt"):
        then = turned_source(text, new)
    elif path.endswith(".edit"):
        then = "\n".join(turned(line, new) if line.startswith(("old:", "new:")) and "b\"" not in line else ticked(line, new) for line in text.split("\n"))
    else:
        then = ticked(text, new)
    if then != text:
        with open(path, "w", encoding="utf-8") as f:
            f.write(then)
        changed += 1
print(f"{len(new)} names, {changed} files")
