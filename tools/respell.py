#!/usr/bin/env python3
"""Spells the repository's own definitions and lemmas as today's Rattle does: words in snake case, and a dash only between
the names that a lemma's name joins. Run once, after the kit's port.py, at the top of the repository.

What is declared in specs/, and what proofs/ declares with `abbrev`, `unfoldable`, `record` or `data` (fields and
constructors too), gets underscores for its dashes and its humps. A lemma keeps its dashes, and in its name each word that
is so renamed is spelled anew. Types keep their capitals. Functions of src/, and names that Rattle makes of them, stay.

usage: respell.py [--list]      --list prints old and new, and writes nothing
"""
import glob
import os
import re
import sys

WORD = re.compile(r'[^\s(){}.;,@"«»\[\]`]+')
DECLARED = re.compile(
    r'^(?P<indent> *)(?P<words>(?:abbrev |unfoldable |pub |record |data )*)'
    r'(?P<name>[^\s(){}.;,@"«»:]+)(?: *[\{\(][^\n]*?[\}\)])* :(?: |$)'
)
HEAD = re.compile(r"^(?:pub |abbrev )*(?:record|data) ")
# Two names that would fall together: the one that is less used gets another word.
OTHERWISE = {
    "keptDepth": "kept_depth_of",  # beside kept_depth of theory's Certificate
    "labelFrom": "label_listed",  # beside label_from of theory's Slots
    "pageIn": "page_in_place",  # beside page_in of table's Rules
    "rule-at": "rule_in_words",  # beside rule_at of table's Words
    "rule-words": "written_rule",  # beside rule_words of table's Words
    "spoiler-at": "spoiler_at_place",  # beside spoiler_at of table's Words
    "with-rule": "program_with_rule",  # beside with_rule of table's Words
    "allRight": "all_are_right",  # beside the lemma all_right of file_calls
    "placeAt": "place_numbered",  # beside the lemma place_at of file_blocks
}
# Files of specs/ that have the name of a module that Rattle makes.
MOVED = {"calls": ("Contracts", "Ends"), "checklist_meaning": ("Contracts", "Ends")}


def snake(name):
    if name[:1].isupper():
        return name if "-" not in name else name.replace("-", "_")
    humps = re.sub(r"(?<=[a-z0-9])([A-Z])", lambda m: "_" + m[1].lower(), name)
    return humps.replace("-", "_").replace("′", "'")


def declarations():
    """Each declared name: is it a word, or a lemma alone?"""
    words, lemmas = {}, {}
    for path in sorted(glob.glob("crates/*/specs/*.antt") + glob.glob("crates/*/proofs/*.antt")):
        stated = "/specs/" in path
        block = False
        with open(path, encoding="utf-8") as file:
            for line in file:
                if re.match(r"^\S", line):
                    block = bool(HEAD.match(line))
                m = DECLARED.match(line.rstrip("\n"))
                if not m:
                    continue
                kinds = m["words"].split()
                word = stated or block or any(k in kinds for k in ("abbrev", "unfoldable", "record", "data"))
                (words if word else lemmas).setdefault(m["name"], path)
    return words, lemmas


def table():
    words, lemmas = declarations()
    new = {}
    for name in words:
        if "-" in name or re.match(r"[a-z]\w*[A-Z]", name) or "′" in name:
            if snake(name) != name:
                new[name] = OTHERWISE.get(name, snake(name))
    dashed = sorted((n for n in new if "-" in n), key=len, reverse=True)
    for name in lemmas:
        if name in new or name in words:
            continue
        parts = name
        for old in dashed:
            parts = re.sub(rf"(?<![^-]){re.escape(old)}(?![^-])", new[old], parts)
        parts = "-".join(snake(p) if p[:1].islower() else p for p in parts.split("-"))
        if parts != name:
            new[name] = OTHERWISE.get(name, parts)
    return new


def turned(text, new):
    return WORD.sub(lambda m: new.get(m[0], m[0]), text)


def files():
    for path in sorted(glob.glob("crates/*/**/*", recursive=True)):
        if path.endswith((".antt", ".rt")) and "/out/" not in path:
            yield path


def main():
    new = table()
    if "--list" in sys.argv:
        for old in sorted(new):
            print(old, new[old])
        return
    for path in files():
        with open(path, encoding="utf-8") as file:
            text = file.read()
        after = turned(text, new)
        for crate, (old, other) in MOVED.items():
            after = after.replace(f"Rattle.{crate}.specs.{old}", f"Rattle.{crate}.specs.{other}")
            if path == f"crates/{crate}/specs/Lib.antt":
                after = after.replace(f"pub mod {old}", f"pub mod {other}")
        if after != text:
            with open(path, "w", encoding="utf-8") as file:
                file.write(after)
    for crate, (old, other) in MOVED.items():
        os.rename(f"crates/{crate}/specs/{old}.antt", f"crates/{crate}/specs/{other}.antt")


main()
