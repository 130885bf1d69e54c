#!/usr/bin/env python3
"""Brings the repository's own names in specs/, proofs/ and clauses to one spelling: types and facts in upper camel case, all else in snake case.

usage: respell.py [FOLDER]      FOLDER has crates/ and is as the kit's port script left it; the present folder if none is named

It first gives each crate that is named as a library of the kit another name (CRATES).

It then goes by text. It reads which names the .antt files of the crates define (definitions, lemmas, fields, constructors) and turns each wherever it
stands as a word of its own: in .antt files, and in the `ghost use` lines and clauses of .rt files. Names of goals, which the check makes, and
the names of Rust code stay. Two names that would fall together are told apart in APART.
"""

import os
import re
import sys

WORD = re.compile(r"[^\s(){}\[\];,.:λ⌜⌝`\"|]+|[\s(){}\[\];,.:λ⌜⌝`\"|]")
SIGNATURE = re.compile(r"^( *)((?:abbrev |unfoldable )?(?:pub )?)([^\s(){}]+) :(?= )(.*(?:\n\1 +\S.*)*)", re.M)
TYPE = re.compile(r"^pub (?:data|record) (\S+)(.*(?:\n(?: +.*|\s*))*)", re.M)
MEMBER = re.compile(r"^  (?:pub )?([^\s(){}]+) :", re.M)
CLAUSE = re.compile(r"^\s*(?:requires|ensures|ghost|invariant)\b")

# names that would fall together: a lemma beside the definition that it speaks of
APART = {
    "none-active": "none_active_lem",
    "tells-now": "tells_now_lem",
    "leaves-it": "leaves_it_lem",
    "on-from": "on_from_lem",
    "at-end": "at_end_lem",
    "goes_on": "goes_on_lem",
    "listed_by": "listed_by_lem",
}

# crates that are named as a library of the kit, and their names here
CRATES = {"base64": "base64_codec"}


def rename_crates(folder):
    for old, new in CRATES.items():
        if not os.path.isdir(os.path.join(folder, "crates", old)):
            continue
        os.rename(os.path.join(folder, "crates", old), os.path.join(folder, "crates", new))
        listed = os.path.join(folder, "crates.txt")
        text = open(listed).read()
        open(listed, "w").write(re.sub(rf"\b{old}\b", new, text))
        for path in antt_files(folder):
            text = open(path).read()
            turned = re.sub(rf"\bRattle\.{old}\.", f"Rattle.{new}.", text)
            if path.endswith(".rt"):
                turned = re.sub(rf"(\buse |[^\w:]){old}::", rf"\g<1>{new}::", turned)
            if turned != text:
                open(path, "w").write(turned)


def antt_files(folder):
    for path, _, names in os.walk(os.path.join(folder, "crates")):
        if f"{os.sep}out" not in path:
            yield from (os.path.join(path, n) for n in sorted(names) if n.endswith((".antt", ".rt")))


def defined(text):
    """Each name that a file defines, whether it is a type or a fact, and whether it is a field or a constructor."""
    for m in SIGNATURE.finditer(text):
        deep, marks, name, kind = m.groups()
        if deep and not (marks or re.search(r"^module ", text, re.M)):
            continue
        if name in ("let", "--", "λ") or re.match(r"\s*goal\.", kind) or re.match(r"\s*given\.", kind):
            continue
        yield name, bool(re.search(r"Type 0\s*$", kind)), False
    for m in TYPE.finditer(text):
        yield m[1], True, False
        for field in MEMBER.finditer(m[2]):
            yield field[1], False, True


def snake(name):
    name = name.replace("getD", "get_or")
    name = re.sub(r"([a-z0-9])([A-Z])", lambda m: m[1] + "_" + m[2].lower(), name)
    return name.replace("-", "_")


def camel(name):
    return "".join(w[:1].upper() + w[1:] for w in re.split("[-_]", name))


def spellings(folder):
    new, members, kept = {}, set(), set()
    for path in antt_files(folder):
        if not path.endswith(".antt"):
            continue
        for name, is_type, is_member in defined(open(path).read()):
            if is_member:
                members.add(name)
            to = APART.get(name) or (camel(name) if is_type else snake(name))
            if name.startswith("invariant-") or not re.match(r"[A-Za-z]", name):
                continue
            if name in new and is_type is False and new[name] == camel(name) != snake(name):
                continue
            new[name] = to
            if to == name:
                kept.add(name)
    return {a: b for a, b in new.items() if a != b}, members, kept


def turn(text, new, members, path_only=True):
    out, before = [], ""
    for w in WORD.findall(text):
        if w in new and not (before.endswith(".") and w not in members and not re.search(r"Rattle\.[\w.]*\.$", before)):
            out.append(new[w])
        else:
            out.append(w)
        before = (before + w)[-200:]
    return "".join(out)


def turn_rust(text, new, members):
    """Turns the `ghost use` lines and the clauses of a source file, up to the brace that closes each."""
    lines, deep = [], 0
    for line in text.split("\n"):
        if deep > 0 or CLAUSE.match(line):
            deep += line.count("{") - line.count("}")
            lines.append(turn(line, new, members))
        else:
            deep = 0
            lines.append(line)
    return "\n".join(lines)


def main():
    folder = sys.argv[1] if len(sys.argv) > 1 else "."
    rename_crates(folder)
    new, members, kept = spellings(folder)
    back = {}
    for old, to in new.items():
        back.setdefault(to, []).append(old)
    for to, olds in sorted(back.items()):
        if len(olds) > 1 or (to in kept and to not in new):
            print(f"falls together: {to}: {', '.join(olds)}{' and itself' if to in kept else ''}")
    for path in antt_files(folder):
        text = open(path).read()
        turned = turn_rust(text, new, members) if path.endswith(".rt") else turn(text, new, members)
        if turned != text:
            open(path, "w").write(turned)
    print(f"{len(new)} names turned")


main()
