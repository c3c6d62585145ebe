#!/usr/bin/env python3
"""Brings the names of this repository's own definitions and lemmas to the spelling of today's Rattle.

usage: tools/respell.py [ROOT]        after port.py has run there, once

Types and facts are in camel case, all other names in snake case: `Sides-win` becomes `SidesWin`, `certificate-bytes`
becomes `certificate_bytes`. Names that Rattle makes (goals and steps) and names of the library stay as they are. A new name
that another definition of the same file, or an import of it, has already is reported, and nothing is written.
"""
import os
import re
import sys

TOKEN = re.compile(r"[^\s(){}\[\];,.\"@`⌜⌝]+")
SIGNED = re.compile(
    r"^\s*(?:(?:abbrev|unfoldable|pub|data|record)\s+)*"
    r"([^\s(){}:|]+)(?:\s*[({][^:]*?:.*?[)}])*\s*:(?:\s|$)"
)
GOAL = re.compile(r":\s*goal\.")
# goals, which Rattle names; a name of the library; a lemma that would have its function's name
MADE = re.compile(r"^(returns|loop|invariant|decreases|overflow)-|-requires")
LIBRARY = {"zero-add"}
APART = {"strategies-agree": "strategies_agree_lem"}


def files(root, ends):
    for top in ("crates", "planted"):
        for folder, dirs, names in os.walk(os.path.join(root, top)):
            dirs[:] = sorted(d for d in dirs if d not in ("out", "target"))
            for name in sorted(names):
                if name.endswith(ends):
                    yield os.path.join(folder, name)


def read(path):
    with open(path, encoding="utf-8") as f:
        return f.read()


def spelled(name):
    """The name in today's spelling."""
    if name[0].isupper():
        return "".join(part[0].upper() + part[1:] for part in name.split("-") if part)
    name = name.replace("getD", "get_or").replace("-", "_").replace("′", "'")
    return re.sub(r"(?<=[a-z])([A-Z])(?=[a-z])", lambda m: "_" + m.group(1).lower(), name)


def defined(text):
    """The names that a file of definitions or lemmas gives, but for the goals, which Rattle names."""
    for line in text.split("\n"):
        m = SIGNED.match(line)
        if m and not line.lstrip().startswith("--") and not GOAL.search(line):
            yield m.group(1)


def main():
    root = sys.argv[1] if len(sys.argv) > 1 else "."
    names = {}
    for path in files(root, ".antt"):
        for name in defined(read(path)):
            if re.search(r"[^\W\d_]", name) and not re.search(r"[◌_]", name[:1]) and spelled(name) != name:
                names[name] = spelled(name)
    names = {old: new for old, new in names.items() if not MADE.search(old) and old not in LIBRARY}
    names.update(APART)

    def turn(text):
        return TOKEN.sub(lambda m: names.get(m.group(0), m.group(0)), text)

    clash = []
    out = {}
    for path in files(root, (".antt", ".rt", ".edit")):
        text = read(path)
        tokens = set(TOKEN.findall(text))
        for old in sorted(tokens & set(names)):
            if names[old] in tokens:
                clash.append(f"{path}: {old} and {names[old]}")
        out[path] = (text, turn(text))
    pages = [os.path.join(root, "README.md")] + [os.path.join(root, "docs", n) for n in sorted(os.listdir(os.path.join(root, "docs")))]
    for path in pages:
        if path.endswith(".md") and os.path.basename(path) not in ("PORT.md",):
            text = read(path)
            out[path] = (text, re.sub(r"`[^`\n]+`", lambda m: turn(m.group(0)), text))
    for line in clash:
        print("falls together?", line)
    if "--dry" in sys.argv:
        for old, new in sorted(names.items()):
            print(f"{old} -> {new}")
        return
    changed = 0
    for path, (old, new) in out.items():
        if new != old:
            changed += 1
            with open(path, "w", encoding="utf-8") as f:
                f.write(new)
    print(f"{len(names)} names, {changed} files")


main()
