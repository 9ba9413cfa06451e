#!/usr/bin/env python3
"""Brings the repository's own definitions and lemmas to one spelling: words in snake case, types in camel case.

Run once, at the top, after the kit's own script. It reads which names specs/ and proofs/ declare, and writes
each anew wherever it stands: in .antt files, in the ghost parts of .rt files and in must-fail edits. Names of
functions, strings, inputs and outputs stay. It prints names that would fall together with others, and leaves
these as they are unless the table below says what they become.
"""
import re
import sys
from pathlib import Path

TOP = Path(sys.argv[1] if len(sys.argv) > 1 else ".")
WORD = re.compile(r"[A-Za-z_][A-Za-z0-9_'′]*(?:-[A-Za-z0-9_'′]+)*")
# A declaration: at the head of a line, perhaps indented, perhaps public.
DECLARED = re.compile(r"^\s*(?:pub )?(?:abbrev |unfoldable |opaque |private )*(?:pub )?([A-Za-z][\w'′-]*) :(?: |$)")
KIND = re.compile(r"^\s*(?:abbrev |unfoldable |opaque )*(?:pub )?(?:abbrev |unfoldable )*(?:data|record|ruleset) ([A-Za-z][\w'′-]*)")
# Lemmas whose names would fall together with a definition's get another by hand.
BY_HAND: dict[str, str] = {
    "after-take": "sound_after_take",
    "all-spoke": "all_have_spoken",
    "answered-in": "answered_in_part",
    "caught-up": "caught_up_again",
    "entered_all": "sound_entered_all",
    "give-of": "give_of_sent",
    "give-view": "give_viewed",
    "inUse": "names_in_use",
    "is-of": "is_of_line",
    "kept_in": "kept_in_place",
    "local-view": "local_viewed",
    "made-new": "made_new_object",
    "msg-in": "msg_in_sent",
    "names_in": "names_in_place",
    "note-in": "note_in_sent",
    "note-seen": "note_seen_sent",
    "shift-view": "shift_viewed",
    "take-view": "take_viewed",
    "with-desk": "sound_with_desk",
    "with-heap": "sound_with_heap",
    "with-list": "sound_with_list",
    "with-stamps": "sound_with_stamps",
    "with_part": "sound_with_part",
}
# Definitions that get the name of the function which they describe: code and clauses keep these apart.
AS_THE_FUNCTION = set(
    "atHouse calm-byte deliverAt goesTo gotAt heardFrom isCalm isDigit isOther isSpace isStirred join-all metFrom "
    "nextFor objectsIn referencesOf saysCalm seenFrom wentOn withObjects".split()
)


def snake(name: str) -> str:
    name = name.replace("′", "'").replace("-", "_")
    if name[0].isupper():
        head, *rest = name.split("_")
        return head + "".join(part[:1].upper() + part[1:] for part in rest)
    return re.sub(r"(?<=[a-z0-9'])([A-Z])", lambda m: "_" + m.group(1).lower(), name)


def files(pattern: str):
    return [p for p in sorted(TOP.glob(pattern)) if "/out/" not in str(p)]


def own_names() -> dict[str, str]:
    names = {}
    for path in files("crates/*/specs/*.antt") + files("crates/*/proofs/*.antt"):
        for line in path.read_text().split("\n"):
            found = DECLARED.match(line) or KIND.match(line)
            if not found:
                continue
            name = found.group(1)
            if name in BY_HAND or snake(name) != name:
                names[name] = BY_HAND.get(name, snake(name))
    return names


def imported() -> set[str]:
    """Names that come from the kit's libraries."""
    own = {p.name for p in (TOP / "crates").iterdir()}
    found = set()
    for path in files("crates/**/*.antt") + files("crates/**/*.rt"):
        for line in path.read_text().split("\n"):
            m = re.match(r"\s*(?:ghost )?use ([\w.]+)\.\{(.*)\}", line)
            if m and m.group(1).removeprefix("Rattle.").split(".")[0] not in own:
                found |= set(WORD.findall(m.group(2)))
    return found


def main():
    names = own_names()
    foreign = imported()
    used = set()
    everything = files("crates/**/*.antt") + files("crates/**/*.rt") + files("crates/*/must-fail/*.edit")
    for path in everything:
        used |= set(WORD.findall(path.read_text()))
    made: dict[str, str] = {}
    for old, new in sorted(names.items()):
        if old in foreign:
            print(f"left: {old}: a library's name too")
        elif new in used and new not in names and old not in AS_THE_FUNCTION:
            print(f"left: {old}: falls together with {new}")
        elif new in made.values():
            print(f"left: {old}: another becomes {new}")
        else:
            made[old] = new
    for path in everything:
        text = path.read_text()
        turned = WORD.sub(lambda m: made.get(m.group(0), m.group(0)), text)
        if turned != text:
            path.write_text(turned)
    print(f"{len(made)} names")


if __name__ == "__main__":
    main()
