#!/usr/bin/env python3
"""Writes the names of goals and steps in a crate's proof files as today's check spells them.

In a crate's folder, once its sources are read: `rt check --generated FOLDER --old-names`, then
`goalnames.py FOLDER/names.json`. A name of a proof file that differs from one of the check's in dashes and
underscores alone becomes that one.
"""
import json
import re
import sys
from pathlib import Path

NAME = re.compile(r"[A-Za-z_][A-Za-z0-9_']*(?:-[A-Za-z0-9_']+)+")
WORDS = re.compile(r"[A-Za-z_][A-Za-z0-9_'-]*")
ALWAYS = ["type_inv", "well_formed", "from_residual", "ref_ptr", "ghost_name", "in_default", "known_told", "struct_known"]


def strings(value):
    if isinstance(value, str):
        yield value
    elif isinstance(value, dict):
        for key, inner in value.items():
            yield key
            yield from strings(inner)
    elif isinstance(value, list):
        for inner in value:
            yield from strings(inner)


def plain(name):
    return name.replace("_", "-")


def vocabulary(value):
    names = {}
    for text in list(strings(value)) + ALWAYS:
        for word in WORDS.findall(text):
            names.setdefault(plain(word), set()).add(word)
            # what follows a place's kind names the step itself
            step = re.sub(r"^(After|In|Then|Else|Joined|At-match)[-_]", "", word)
            names.setdefault(plain(step), set()).add(step)
            if word.startswith("In_") or word.startswith("In-"):
                low = "i" + word[1:]
                names.setdefault(plain(low), set()).add(low)
            if word.startswith("Then-") or word.startswith("Else-"):
                names.setdefault(plain("if-" + word[5:]), set()).add("if-" + word[5:])
    return names


def own(crate):
    """What the crate's own files declare stays."""
    found = set()
    for path in list(crate.glob("specs/*.antt")) + list(crate.glob("proofs/*.antt")):
        found |= set(re.findall(r"^\s*(?:pub )?([\w'-]+) :", path.read_text(), re.M))
    return found


def main():
    crate = Path(".")
    data = json.load(open(sys.argv[1]))
    every = vocabulary(data)
    kept = own(crate)
    left = set()
    for path in sorted(crate.glob("proofs/*/**/*.antt")):
        parts = ".".join(path.relative_to("proofs").parent.parts)
        here = vocabulary([v for k, v in data.items() if k.endswith(f"-proofs.{parts}.Lts")] or [])

        def turned(m):
            name = m.group(0)
            for names in (here, every):
                fits = names.get(plain(name), set())
                if name in kept and name not in fits:
                    return name
                if name in fits or len(fits) == 1:
                    return name if name in fits else next(iter(fits))
            if name not in every.get(plain(name), {name}):
                left.add(f"{path}: {name}: {sorted(every[plain(name)])}")
            return name

        text = path.read_text()
        new = NAME.sub(turned, text)
        if new != text:
            path.write_text(new)
            print(path)
    for line in sorted(left):
        print("left:", line)


if __name__ == "__main__":
    main()
