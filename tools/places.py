#!/usr/bin/env python3
"""Lists the places in crates/*/src that docs/DESIGN-PASS.md counts, point by point.

    tools/places.py [COMMIT]      the places of the working tree, or of a commit
    tools/places.py --counts [..] how many each pattern finds
"""
import re
import subprocess
import sys

PATTERNS = [
    # point, what it finds, pattern (over a whole file)
    ("1", "an enum of the shape of Option or Result", r"pub enum (?:Fed|Searched)\b"),
    ("1", "None handed on by hand", r"let Some\([^)]*\) =[^;]*?else \{\s*return None;\s*\};|None => \{\s*return None;\s*\}"),
    ("1", "a number that stands for none", r"; `?\w+`? (?:if|for) [^.\n]*(?:none|no room|no table)|`rows` if none|for none or for|needed: 0"),
    ("1", "a flag with values beside it", r"turned: bool"),
    ("1", "a number for a kind", r"const (?:NOTHING|EMPTY|RANGE|SEQUENCE|UNION|INTERSECTION|COMPLEMENT|STAR): u8"),
    ("1", "a number where nothing is given", r"\(\) -> u8\n"),
    ("2", "columns and tables of a system by themselves", r"pub column: &'a \[u32\]|pub (?:left_rows|right_rows|fronts|backs|rows): usize"),
    ("2", "a step of its own for each of two", r"pub fn (?:union|intersection)\(|pub fn (?:join|renew)\(\n|struct Longer|fn (?:is_table|is_inside)\("),
    ("3", "a loop that counts by hand", r"(?m)^\s*(?:'\w+: )?(?:while (?!let|self\.|reader|sys)[^{]*|loop) \{"),
    ("3", "a loop over indices", r"(?m)^\s*for \w+ in [^{]*\.\.[^{]*\{"),
    ("4", "a conversion or printing by hand", r"impl(?:<[^>]*>)? (?:fmt::Display|From<[^{]*>) for \w+|fn phrase\(|\{ 1 \} else \{ 0 \}|\{ 0 \} else \{ 1 \}"),
    ("5", "a table, its columns and its rows", r"requires(?: \w+)? \{ Inside columns rows \w+\.now \}"),
    ("5", "the bytes' columns, again", r"\{ HasByteColumns [^}]*\}|requires columns \{ Columns columns"),
    ("5", "lent memory, area by area", r"requires room \{ Rooms [^}]*\}|requires(?: \w+)? \{ length heads\.old ≡ 4096 \}|requires links \{"),
    ("5", "what is known of a list, again", r"requires plan \{ Planned [^}]*\}|requires (?:ends|tables) \{ length list\.now"),
    ("6", "lists side by side", r"ends: &(?:mut )?\[u32\], tables: &(?:mut )?\[u32\]|keys: &(?:mut )?\[u32\],\s+size: usize"),
    ("7", "a switch on which step to run", r"match self\.join \{|_ => unreachable\(\),"),
]


def sources(commit):
    if commit is None:
        names = subprocess.run(["git", "ls-files", "crates/*/src/*.rt"], text=True, capture_output=True, check=True).stdout.split()
        return {name: open(name, encoding="utf-8").read() for name in names}
    names = subprocess.run(["git", "ls-tree", "-r", "--name-only", commit, "crates"], text=True, capture_output=True, check=True).stdout.split()
    names = [name for name in names if "/src/" in name and name.endswith(".rt")]
    return {name: subprocess.run(["git", "show", f"{commit}:{name}"], text=True, capture_output=True, check=True).stdout for name in names}


def main():
    words = [word for word in sys.argv[1:] if word != "--counts"]
    files = sources(words[0] if words else None)
    for point, what, pattern in PATTERNS:
        found = []
        for name, text in sorted(files.items()):
            for match in re.finditer(pattern, text):
                line = text.count("\n", 0, match.start() + len(match.group()) - len(match.group().lstrip())) + 1
                found.append(f"{name}:{line}")
        print(f"{point}  {len(found):3}  {what}")
        if "--counts" not in sys.argv:
            for place in found:
                print(f"        {place}")


main()
