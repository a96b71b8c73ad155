#!/usr/bin/env python3
"""Brings this repository's own definitions and lemmas to the spelling of today's Rattle; run once, after port.py, at the top.

Words are in snake case. A dash stays only where it joins two names: a lemma on `length` and `append` is `length-append`.
Types, modules and facts keep their capitals; Rust functions, constants, strings, inputs and outputs keep their names.
The names are read from the declarations of specs/ and proofs/ (not from the answers of Proof.antt, which Rattle names).
Texts of must-fail edits and names between backticks in the pages follow. Prints each renaming; stops where two would fall together.
"""
import os
import re
import sys

NAME = r"[^\s(){}\[\];,.@\"`λ←→:=]+"
DECLARED = re.compile(r"^[ ]*(?:abbrev |unfoldable )?(?:pub )?(?:record |data )?(" + NAME + r")(?= [^\n]*:|\n? *:)", re.M)
SEVERAL = re.compile(r"^[ ]*(?:pub )?((?:" + NAME + r" ){2,}): ", re.M)
# words of the library that our lemmas' names join
JOINED = set("""length append set take drop replicate map reverse sum add sub mul le lt get_or getD sums sets subset
superset all none le eq trees tree""".split())


# where the plain spelling would fall together with a definition: lemmas get `_lem`, the facts of a record of tests say "is"
OTHERWISE = {
    "enter-conflict": "enter_conflict_lem",
    "enter-relax": "enter_relax_lem",
    "may-be-true": "may_be_true_lem",
    "must-be-true": "must_be_true_lem",
    "names-too-much": "names_too_much_lem",
    "unknown-kind": "unknown_kind_lem",
    "no-head": "no_head_lem",
    "out-of-sequence": "out_of_sequence_lem",
    "too_many_rows": "too_many_rows_lem",
    "wrong-length": "wrong_length_lem",
    "out_of_range": "out_of_range_lem",
    "named-twice": "named_twice_lem",
    "not-zero": "not_zero_lem",
    "whole_by": "whole_by_lem",
    "encode-order": "encode_order_lem",
    "encode-rows": "encode_rows_lem",
    "head_first": "head_is_first",
    "in-sequence": "is_in_sequence",
    "in-range": "is_in_range",
    "no-repeat": "repeats_none",
    "order-in-range": "order_is_in_range",
    "head_bytes": "head_is_bytes",
}
# a field and a definition that no text confuses: the field is only read behind a dot, and its record does not use the definition after it
APART = {"can_stand", "conflict_one_by_one", "relaxation_one_by_one", "no_room", "no_record", "values_back"}


def files(*endings):
    for folder, dirs, names in os.walk("."):
        dirs[:] = sorted(d for d in dirs if d not in ("out", ".git", "target"))
        for name in sorted(names):
            if name.endswith(endings):
                yield os.path.join(folder, name)


def read(path):
    with open(path, encoding="utf-8") as file:
        return file.read()


def snake(word):
    """camelCase to snake_case; a word that begins with a capital keeps it."""
    if not word or not word[0].islower():
        return word
    word = re.sub(r"getD\b", "get_or", word)
    return re.sub(r"(?<=[a-z0-9])([A-Z])", lambda m: "_" + m.group(1), word).lower() if re.search(r"[a-z0-9][A-Z]", word) else word


def declared():
    found = {}
    for path in files(".antt"):
        if "/crates/" not in path or path.endswith("Proof.antt"):
            continue
        text = re.sub(r"--.*", "", read(path))
        for m in DECLARED.finditer(text):
            found.setdefault(m.group(1), set()).add(path)
        for m in SEVERAL.finditer(text):
            for name in m.group(1).split():
                found.setdefault(name, set()).add(path)
    return found


def fields():
    """The names that stand in the block of a record: a dash joins no names there."""
    found = set()
    for path in files(".antt"):
        if "/crates/" not in path or path.endswith("Proof.antt"):
            continue
        depth = None
        for line in re.sub(r"--.*", "", read(path)).split("\n"):
            if not line.strip():
                continue
            indent = len(line) - len(line.lstrip())
            if depth is not None and indent <= depth:
                depth = None
            if depth is not None:
                m = re.match(r" *(?:pub )?((?:" + NAME + r" )+):", line)
                found.update(m.group(1).split() if m else [])
            elif re.match(r" *(?:pub )?record .*where\s*$", line):
                depth = indent
    return found


def respelled(name, words, joined=True):
    parts = [snake(part) for part in name.split("-")]
    if joined and len(parts) == 2 and all(part in words for part in parts):
        return "-".join(parts)
    return "_".join(parts)


def renamings(found):
    inside = fields()
    words = JOINED | {snake(n) for n in found if "-" not in n and n not in inside and any("/specs/" in p for p in found[n])}
    new = {}
    for name in sorted(found):
        if name in OTHERWISE:
            new[name] = OTHERWISE[name]
            continue
        if not re.match(r"[a-zA-Z]", name) or not re.search(r"-|[a-z0-9][A-Z]", name):
            continue
        if name[0].isupper() and "-" not in name:
            continue
        to = respelled(name, words, name not in inside)
        if to != name:
            new[name] = to
    return new


def together(found, new):
    seen = {}
    bad = []
    for name in found:
        seen.setdefault(new.get(name, name), set()).add(name)
    for to, names in sorted(seen.items()):
        if len(names) > 1 and to not in APART:
            bad.append((to, sorted(names)))
    return bad


def turn(text, new, known=frozenset()):
    """Each name as it is spelled now; `known`: the names that are declared, for texts that port.py does not turn."""

    def one(m):
        name = m.group(0)
        if name in new:
            return new[name]
        plain = "_".join(snake(part) for part in name.split("-"))
        return plain if name not in known and plain in known else name

    return re.sub(NAME, one, text)


def main():
    found = declared()
    new = renamings(found)
    bad = together(found, new)
    for to, names in bad:
        print(f"fall together: {', '.join(names)} -> {to}", file=sys.stderr)
    if bad and "--anyhow" not in sys.argv:
        raise SystemExit(1)
    known = {new.get(name, name) for name in found}
    for path in files(".antt", ".rt", ".edit"):
        if "/crates/" not in path:
            continue
        text = read(path)
        to = turn(text, new, known if path.endswith(".edit") else frozenset())
        if to != text:
            with open(path, "w", encoding="utf-8") as file:
                file.write(to)
    for path in files(".md"):
        text = read(path)
        to = re.sub(r"`[^`\n]+`", lambda m: turn(m.group(0), new, known), text)
        if to != text:
            with open(path, "w", encoding="utf-8") as file:
                file.write(to)
    for name in sorted(new):
        print(f"{name} -> {new[name]}")


if __name__ == "__main__":
    main()
