#!/usr/bin/env python3
"""Names of goals and of what is known at them (goal.x, c.x, l.x, and imports from Goals) keep the spelling of the source: where the source
has `copy_from_slice`, `c.copy-from-slice` becomes `c.copy_from_slice`.

usage: tools/respell_goals.py CRATE..      at the top of the repository
"""

import os
import re
import sys

MADE = ("in_default", "type_inv", "invariant_of", "in_ok", "in_err", "overflow_add", "overflow_sub", "overflow_mul", "overflow_cast", "overflow_shl", "overflow_shr", "overflow_step", "offset_bounds", "slice_bounds", "nonzero_rem", "nonzero_div")


def source_names(crate):
    names = set(MADE)
    for folder, _, files in os.walk(os.path.join("crates", crate, "src")):
        for name in files:
            with open(os.path.join(folder, name), encoding="utf-8") as it:
                names.update(n for n in re.findall(r"\b\w+", it.read()) if "_" in n)
    return sorted(names, key=len, reverse=True)


def turn(token, names):
    for name in names:
        token = re.sub(rf"(?<![\w'])(?<!\w-\w){re.escape(name.replace('_', '-'))}(?![\w'])", name, token)
    return token


def main(argv):
    for crate in argv:
        names = source_names(crate)
        top = os.path.join("crates", crate, "proofs")
        for folder, _, files in os.walk(top):
            if folder == top:
                continue
            for name in files:
                path = os.path.join(folder, name)
                with open(path, encoding="utf-8") as it:
                    text = it.read()
                asked = set(re.findall(r"(?<![\w'.-])goal\.([^\s(){}\[\],;.]+)", text))
                for items in re.findall(r"\.(?:Goals|Given)\.\{([^}]*)\}", text):
                    asked.update(i.split(" as ")[0].strip() for i in items.split(","))
                new = re.sub(r"(?m)(?<=[\w')])(\.)([^\s(){}\[\],;.]+)", lambda m: m.group(1) + turn(m.group(2), names), text)
                for old in asked:
                    if turn(old, names) != old:
                        new = re.sub(rf"(?<![\w'-]){re.escape(old)}(?![\w'-])", turn(old, names), new)
                if new != text:
                    with open(path, "w", encoding="utf-8") as it:
                        it.write(new)
                    print(path)
    return 0


if __name__ == "__main__":
    raise SystemExit(main(sys.argv[1:]))
