#!/usr/bin/env python3
"""Brings this repository's own definitions and lemmas to Rattle's spelling, after port.py: run once, at the top.

Words are in snake case, types and records in upper camel case. Functions of src/, exported C names, strings, inputs and
outputs keep their names, and so do names that come from a library or that Rattle makes. `respell.py --map` prints the table.
"""
import os
import re
import sys

PART = r"[^\s(){}\[\].,;`\"«»]"
TOKEN = re.compile(PART + "+")
WORD = re.compile(r"^\+?[A-Za-z][\w'₀-₉ₘₛₗᵢⱼ]*(-[\w'₀-₉ₘₛₗ]+)*$")
GENERATED = re.compile(r"\.(Statement|Tie|Reads|Lts|Code|Kinds|Met|Symbol|declared|contracts|Goals|Given)(\.|$)")
# Names that would otherwise fall together with another name in reach of them, and what they are called instead.
INSTEAD = {}


def files(*ends):
    for folder, dirs, names in os.walk("crates"):
        dirs[:] = sorted(d for d in dirs if d not in ("out",))
        for n in sorted(names):
            if n.endswith(ends):
                yield os.path.join(folder, n)


def read(path):
    with open(path, encoding="utf-8") as f:
        return f.read()


def crates():
    return {l.split(":")[0].split()[0] for l in read("crates.txt").splitlines() if l.strip() and not l.startswith("#")}


def bare(text):
    return re.sub(r"--.*", "", text)


HEAD = re.compile(r"^(\s*)((?:pub |abbrev |unfoldable |record |data )*)(" + PART + r"+)((?: \{[^}]*\}| \([^)]*\))*) :(?:\s+(.*))?$")


def declared():
    """Each name that a file of specs/ or proofs/ declares: whether it is a type."""
    types, all_names = set(), set()
    for p in files(".antt"):
        lines = bare(read(p)).split("\n")
        for k, l in enumerate(lines):
            m = re.match(r"\s*(?:pub )?(?:record|data) (" + PART + "+)", l)
            if m:
                types.add(m.group(1))
                all_names.add(m.group(1))
            m = HEAD.match(l)
            if not m or m.group(3) in ("let", "in"):
                continue
            kind, name, told = m.group(2), m.group(3), m.group(5) or ""
            j = k + 1
            while j < len(lines) and lines[j].startswith(m.group(1) + "    ") and not HEAD.match(lines[j]):
                told += " " + lines[j].strip()
                j += 1
            all_names.add(name)
            result = told.split("→")[-1].strip()
            if re.search(r"\b(record|data)\b", kind) or re.match(r"Type \d( where)?$", result):
                types.add(name)
    return types, all_names


def camel(name):
    return "".join(w[:1].upper() + w[1:] for w in re.split("[-_]", name))


def snake(name):
    if name == "its-D":
        return "its_D"
    name = name.replace("-", "_")
    return re.sub(r"(?<=[a-z0-9])([A-Z])", lambda m: "_" + m.group(1).lower(), name)


def new_name(name, types):
    if name in INSTEAD:
        return INSTEAD[name]
    if not WORD.match(name):
        return name
    if name[0].isupper():
        return camel(name) if name in types else name.replace("-", "_")
    return snake(name)


def from_libraries(text, own):
    """The names that a file takes from elsewhere: from a library, or from a module that Rattle makes."""
    found = set()
    for m in re.finditer(r"\buse\s+(" + PART + r"+(?:\." + PART + r"+)*)\.\{([^}]*)\}", text):
        module = m.group(1)
        crate = re.match(r"Rattle\.(\w+)", module)
        if crate and crate.group(1) in own and not GENERATED.search(module):
            continue
        for w in m.group(2).split(","):
            w = w.strip().split(" as ")[-1].strip().strip("«»")
            if w:
                found.add(w)
    return found


def turn_tokens(text, table, keep, walk):
    out, at = [], 0
    for m in TOKEN.finditer(text):
        t = m.group(0)
        out.append(text[at : m.start()])
        at = m.end()
        dotted = m.start() > 0 and text[m.start() - 1] == "." and m.start() > 1 and not text[m.start() - 2].isspace()
        if t in keep and not dotted:
            out.append(t)
        elif t in table:
            out.append(table[t])
        elif "-" in t and WORD.match(t) and t[0].islower() and not dotted:
            out.append(snake(t))
        elif "-" in t and WORD.match(t) and t[0].islower() and walk:
            out.append(snake(t))
        else:
            out.append(t)
    out.append(text[at:])
    return "".join(out)


def turn_antt(text, table, own, walk):
    keep = from_libraries(text, own)
    done = []
    for line in text.split("\n"):
        cut = line.find("--")
        cut = -1 if cut > 0 and not line[cut - 1].isspace() else cut
        code, told = (line, "") if cut < 0 else (line[:cut], line[cut:])
        if re.match(r"\s*(pub )?use ", code):
            code = turn_use(code, table, own)
        else:
            code = "".join(part if i % 2 else turn_tokens(part, table, keep, walk) for i, part in enumerate(re.split(r'("(?:[^"\\]|\\.)*")', code)))
        done.append(code + turn_comment(told, table, keep))
    return "\n".join(done)


def turn_use(line, table, own):
    m = re.search(r"\buse\s+(" + PART + r"+(?:\." + PART + r"+)*)(\.\{([^}]*)\}|.*);?$", line)
    if not m:
        return line
    crate = re.match(r"Rattle\.(\w+)", m.group(1))
    if not crate or crate.group(1) not in own or GENERATED.search(m.group(1)) or m.group(3) is None:
        return line
    inner = turn_tokens(m.group(3), table, set(), True)
    inner = re.sub(r"«([A-Za-z]\w*)»", r"\1", inner)
    return line[: m.start(3)] + inner + line[m.end(3) :]


def turn_comment(text, table, keep=()):
    """In a comment, names in backticks."""
    return re.sub(r"`([^`]*)`", lambda m: "`" + turn_tokens(m.group(1), {k: v for k, v in table.items() if k not in keep}, {w for w in TOKEN.findall(m.group(1)) if w not in table}, False) + "`", text)


def turn_rt(text, table, own):
    done, depth, clause = [], 0, False
    for line in text.split("\n"):
        cut = re.search(r"(^|\s)//", line)
        code, told = (line, "") if not cut else (line[: cut.start()], line[cut.start() :])
        if "ghost use" in code:
            code = turn_use(code, table, own)
        elif clause or re.match(r"\s*(pub )?(requires|ensures|ghost)\b", code):
            clause = True
            keep = {w for w in TOKEN.findall(code) if w not in table}
            code = turn_tokens(code, table, keep, False)
            code = re.sub(r"«([A-Za-z]\w*)»", r"\1", code)
            depth += code.count("{") - code.count("}")
            if depth <= 0:
                clause, depth = False, 0
        done.append(code + turn_comment(told, table))
    return "\n".join(done)


def main():
    own = crates()
    types, names = declared()
    table = {}
    for n in sorted(names):
        if WORD.match(n):
            to = new_name(n, types)
            if to != n:
                table[n] = to
    if "--map" in sys.argv:
        for n in sorted(table):
            print(n, table[n])
        return
    for p in files(".antt", ".rt"):
        text = read(p)
        new = turn_antt(text, table, own, p.endswith("Proof.antt")) if p.endswith(".antt") else turn_rt(text, table, own)
        if new != text:
            with open(p, "w", encoding="utf-8") as f:
                f.write(new)


main()
