#!/usr/bin/env python3
"""Brings the names of definitions and lemmas in specs/ and proofs/ to one spelling: words in snake case, facts and types in upper camel
case. Names of Rust items, of the library and of what Rattle generates stay.

usage: tools/respell.py [--list]      at the top of the repository; --list only prints old and new names
"""

import os
import re
import sys

DELIMITERS = r"\s(){}\[\],;.\"«»"
TOKEN = re.compile(rf"[^{DELIMITERS}]+")
SIGNATURE = re.compile(rf"^\s*(?:(?:abbrev|unfoldable|pub|record|data|ruleset)\s+)*([^{DELIMITERS}:λ]+)(?:\s+[({{].*?)?\s*:(?!:)")
OF_A_GOAL = re.compile(r":\s*(goal|need|given)\.")
IMPORT = re.compile(r"^\s*(?:ghost\s+)?(?:pub\s+)?use\s+([^\s{;]+)\.\{([^}]*)\}")
LIBRARIES = ("Rattle.std.", "mathlib.", "Prim.", "native.", "lib.", "borrow.", "denote.", "Rattle.core.")
OTHER = {"nth-getD": "nth_get_or", "bit-or": "bit_bit_or", "Byte-columns": "HasByteColumns"}
FUNCTION = re.compile(r"^\s*(?:pub\s+)?(?:unsafe\s+)?fn\s+(\w+)", re.M)


def files(root, *endings):
    for folder, dirs, names in os.walk(os.path.join(root, "crates")):
        dirs[:] = sorted(d for d in dirs if d != "out")
        for name in sorted(names):
            if name.endswith(endings):
                yield os.path.join(folder, name)


def respelled(name):
    if name in OTHER:
        return OTHER[name]
    if "-" not in name:
        return name
    if name[0].isupper():
        return "".join(part[:1].upper() + part[1:] for part in name.split("-"))
    return name.replace("-", "_")


def functions(root):
    found = set()
    for path in files(root, ".rt"):
        with open(path, encoding="utf-8") as it:
            found.update(FUNCTION.findall(it.read()))
    return found


def renamed(root):
    """Each old name with its new one; a lemma that would have a Rust function's name is told from it by its ending."""
    taken = functions(root)
    names = {}
    for name in declared(root):
        new = respelled(name)
        if new in taken and new != "add_live":
            new += "_lem"
        if "-" in name and new != name:
            names[name] = new
    return names


def of_a_function(path):
    return "/proofs/" in path and os.path.basename(os.path.dirname(path)) != "proofs"


def declared(root):
    found = set()
    for path in files(root, ".antt"):
        goals = of_a_function(path)
        with open(path, encoding="utf-8") as text:
            for line in text:
                if line.lstrip().startswith("--") or (goals and OF_A_GOAL.search(line)):
                    continue
                at = SIGNATURE.match(line)
                if at:
                    found.add(at.group(1))
    return found


def imported(text):
    """What a file takes from a library: these names are not ours."""
    taken = set()
    for line in text.splitlines():
        at = IMPORT.match(line)
        if at and at.group(1).startswith(LIBRARIES):
            for item in at.group(2).split(","):
                taken.add(item.split(" as ")[-1].strip())
                taken.add(item.split(" as ")[0].strip())
    return taken


def turn_line(line, names, taken, rust, goals):
    """Turns a line; in Rust, what stands in a string is left as it is."""
    parts = re.split(r'("(?:[^"\\]|\\.)*")', line) if rust else [line]
    for i in range(0, len(parts), 2):
        parts[i] = TOKEN.sub(lambda t: names[t.group(0)] if t.group(0) in names and t.group(0) not in taken and not (goals and generated(t)) else t.group(0), parts[i])
    return "".join(parts)


def generated(token):
    """A step of what is known at a goal (c.x-y), or a goal's own name (goal.x-y)."""
    before = token.string[: token.start()]
    return re.search(r"(?<![\w'-])(c|w|l|goal|need|given)\.$", before) is not None


def main(argv):
    names = renamed(".")
    if argv == ["--list"]:
        for old in sorted(names):
            print(old, names[old])
        return 0
    if argv:
        print(__doc__)
        return 2
    for path in files(".", ".antt", ".rt", ".edit"):
        with open(path, encoding="utf-8") as it:
            text = it.read()
        taken = imported(text)
        turned = "".join(turn_line(line, names, taken, path.endswith((".rt", ".edit")), of_a_function(path)) for line in text.splitlines(keepends=True))
        if turned != text:
            with open(path, "w", encoding="utf-8") as it:
                it.write(turned)
    print(f"respell: {len(names)} names")
    return 0


if __name__ == "__main__":
    raise SystemExit(main(sys.argv[1:]))
