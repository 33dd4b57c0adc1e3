#!/usr/bin/env python3
"""Brings the repository's own definitions and lemmas to snake case: a dash or a capital inside a name becomes an underscore.
Types and facts come to camel case.

usage: python3 tools/respell_names.py [FOLDER] [--dry]

It reads which names the files below crates/*/specs and crates/*/proofs define (or bring in under another name by `as`),
leaves out the names of goals, and turns each of them wherever it stands as a whole word: in specs, proofs, contracts and
must-fail edits. Functions, strings and comments of .rt files stay. It stops, and writes nothing, where two names would
fall together. Run once, after the scripts of the kit."""
import os
import re
import sys

WORD = re.compile(r"[^\s(){}\[\],;:.\"⌜⌝]+")
DEFINED = re.compile(r"^\s*(?:(?:abbrev|pub|unfoldable|data|record) )*([^\s(){}\[\],;:.]+)(?: \{[^}]*\}| \([^)]*\))* :(?: ([^\n]*))?$", re.M)
KIND = re.compile(r"^\s*(?:pub )?(?:record|data) ([^\s(){}\[\],;:.]+)", re.M)
BROUGHT = re.compile(r"\bas ([^\s(){}\[\],;:.]+)(?=[,}])")
# Names that would fall together with another in one file.
OTHERWISE = {"plannedFor": "planned_number", "lot-of": "same_lot"}
FIELD = re.compile(r"^  +pub ([^\s(){}\[\],;:.]+) : ", re.M)


def files(top):
    for folder, dirs, names in os.walk(os.path.join(top, "crates")):
        dirs[:] = sorted(d for d in dirs if d != "out")
        for name in sorted(names):
            if name.endswith((".rt", ".antt", ".edit")):
                yield os.path.join(folder, name)


def read(path):
    with open(path, encoding="utf-8") as f:
        return f.read()


def snake(name):
    if name in OTHERWISE:
        return OTHERWISE[name]
    name = name.replace("-", "_")
    if name[0].isupper() and "_" not in name:
        return name
    return re.sub(r"(?<=[a-z0-9])([A-Z])", lambda m: "_" + m[1], name).lower()


def camel(name):
    return "".join(part[0].upper() + part[1:] for part in name.split("-"))


def candidates(top):
    """Each old name with its new one, and the names that are fields of records."""
    turned, fields = {}, set()
    for path in files(top):
        if not path.endswith(".antt"):
            text = read(path)
            uses = "\n".join(line for line in text.split("\n") if line.startswith("ghost use "))
            for m in BROUGHT.finditer(uses):
                if snake(m[1]) != m[1]:
                    turned[m[1]] = snake(m[1])
            continue
        text = read(path)
        fields.update(m[1] for m in FIELD.finditer(text))
        for m in DEFINED.finditer(text):
            of = m[2] or ""
            if of.startswith(("goal.", "need.")) or not re.fullmatch(r"[A-Za-z][\w'-]*", m[1]):
                continue
            if re.search(r"Type 0\)*( where)?\s*$", of):
                if "-" in m[1]:
                    turned[m[1]] = camel(m[1])
            elif ("-" in m[1] or m[1][0].islower()) and snake(m[1]) != m[1]:
                turned[m[1]] = snake(m[1])
        for m in KIND.finditer(text):
            if "-" in m[1]:
                turned[m[1]] = camel(m[1])
        for line in text.split("\n"):
            if line.startswith("use "):
                for m in BROUGHT.finditer(line):
                    if "-" in m[1] or m[1][0].islower():
                        if snake(m[1]) != m[1]:
                            turned[m[1]] = snake(m[1])
    return turned, fields


def spans(text, rust):
    """The parts of a text in which words are turned: of a .rt file not its strings and comments."""
    if not rust:
        return [(0, len(text))]
    out, at = [], 0
    for m in re.finditer(r"//[^\n]*|b?\"(?:\\.|[^\"\\])*\"", text):
        out.append((at, m.start()))
        at = m.end()
    out.append((at, len(text)))
    return out


def turn(text, rust, turned, fields):
    out, at, seen = [], 0, set()
    for a, b in spans(text, rust):
        for m in WORD.finditer(text, a, b):
            word = m[0]
            if word not in turned:
                continue
            if m.start() and text[m.start() - 1] == "." and word not in fields:
                seen.add(text[max(0, m.start() - 30):m.end()])
                continue
            out.append(text[at:m.start()])
            out.append(turned[word])
            at = m.end()
    out.append(text[at:])
    return "".join(out), seen


def main():
    words = [a for a in sys.argv[1:] if not a.startswith("--")]
    top, dry = words[0] if words else ".", "--dry" in sys.argv
    turned, fields = candidates(top)
    faults = []
    changed = {}
    for path in files(top):
        text = read(path)
        words_here = {m[0] for a, b in spans(text, path.endswith(".rt")) for m in WORD.finditer(text, a, b)}
        for old in words_here & turned.keys():
            if turned[old] in words_here:
                faults.append(f"{path}: {old} stands beside {turned[old]}")
            for other in words_here & turned.keys():
                if other < old and turned[other] == turned[old]:
                    faults.append(f"{path}: {other} and {old} both become {turned[old]}")
        new, seen = turn(text, path.endswith(".rt"), turned, fields)
        for place in sorted(seen):
            print(f"left: {path}: {place!r}")
        if new != text:
            changed[path] = new
    for fault in faults:
        print("falls together: " + fault)
    print(f"{len(turned)} names, {len(changed)} files, {len(faults)} that fall together")
    if faults and "--anyway" not in sys.argv:
        return 1
    if not dry:
        for path, text in changed.items():
            with open(path, "w", encoding="utf-8") as f:
                f.write(text)
    return 0


sys.exit(main())
