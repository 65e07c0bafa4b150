"""Lists the functions of src/ whose bodies are alike but for names, types and numbers: python3 tools/alike.py, at the top of a checkout.

A body that comes to 30 characters or fewer once its names are one letter says too little to be alike.
"""
import re
import subprocess

WORDS = {"if", "else", "return", "let", "mut", "for", "in", "match", "while"}
TOKEN = re.compile(r"\d+|[A-Za-z_][A-Za-z_0-9]*(::[A-Za-z_0-9]+)*")
HEAD = re.compile(r'^(\s*)(?:pub(?:\(crate\))? )?(?:extern "C" )?fn (\w+)')


def functions(path):
    """The name and the body of each function of a file."""
    lines = open(path).read().split("\n")
    at = 0
    while at < len(lines):
        head = HEAD.match(lines[at])
        if head:
            indent = head.group(1)
            first = at
            while not (lines[first].startswith(indent + "{") or lines[first].rstrip().endswith("{")):
                first += 1
            at = first
            while not lines[at].startswith(indent + "}"):
                at += 1
            body = [line for line in lines[first + 1 : at] if not line.strip().startswith("//")]
            yield head.group(2), " ".join(body)
        at += 1


def shape(body):
    """The body with x for each name and number."""
    plain = TOKEN.sub(lambda word: word.group(0) if word.group(0) in WORDS else "x", body)
    return re.sub(r"\s+", " ", plain)


groups = {}
listed = subprocess.run(["git", "ls-files", "crates/*/src/*.rt"], capture_output=True, text=True, check=True)
for path in listed.stdout.split():
    for name, body in functions(path):
        if len(shape(body)) > 30:
            groups.setdefault(shape(body), []).append(path.split("/")[1] + " " + name)
alike = [places for places in groups.values() if len(places) > 1]
for places in alike:
    print(" ~ ".join(places))
print(len(alike), "groups")
