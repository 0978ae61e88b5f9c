#!/usr/bin/env python3
"""Brings the repository's own definitions and lemmas to snake case, once, after the kit's port.py: `tools/respell.py` at the top of the repository.

It renames what files of specs/ and proofs/ define: `coneTable` and `cone-table` become `cone_table`, a type `Demand-1` becomes `Demand1`. Where a
lemma would get its function's name it gets `_lem` (KEEP says where two names may meet). Goals of generated statements keep their names.
Functions of src/, exported C names, strings, inputs and outputs are not touched.
"""
import collections
import os
import re
import sys

# A definition at any depth, or a record's field: its name and the type's first word.
DEFINES = re.compile(r"^\s*(?:(?:pub|abbrev|unfoldable|private) )*([^\s:(){}.,;]+)\s*:(?:\s+(\S+)|$)")
DECLARES = re.compile(r"^\s*(?:abbrev )?(?:pub )?(?:data|record|ruleset)\s+(?:pub )?([^\s:(){}]+)")
# What a name is made of.
TOKEN = re.compile(r"[^\s(){}\[\],;.:\"`|«»@]+")
STRING = re.compile(r'"(?:[^"\\]|\\.)*"')


# Lemmas that have their function's name already, and the files that speak of them.
LEMMAS = {
    "is_leaf": ("flow/proofs/Rounded.antt", "flow/proofs/rounds/put_leaf/Proof.antt"),
    "is_member": ("storage/proofs/Entries.antt", "judging/proofs/Feeding.antt", "walking/proofs/Gatherings.antt", "walking/proofs/Placing.antt", "walking/proofs/WalkRoles.antt"),
    "no_line": ("keeping/proofs/One.antt",),
}


def files(root, endings):
    for folder, dirs, names in os.walk(os.path.join(root, "crates")):
        dirs[:] = sorted(d for d in dirs if d != "out")
        for name in sorted(names):
            if name.endswith(endings):
                yield os.path.join(folder, name)


def read(path):
    with open(path, encoding="utf-8") as f:
        return f.read()


def defined(root):
    """The names that the repository's own files define, and those of goals."""
    own, goals = set(), set()
    for path in files(root, (".antt",)):
        proof = path.endswith("/Proof.antt")
        for line in read(path).splitlines():
            if line.lstrip().startswith("--"):
                continue
            m = DEFINES.match(line)
            if m:
                of_goal = proof and ((m.group(2) or "").lstrip("(").startswith("tie.") or m.group(1).endswith("_spec"))
                (goals if of_goal else own).add(m.group(1))
            m = DECLARES.match(line)
            if m:
                own.add(m.group(1))
    return own - goals, goals


def snake(name):
    if name[:1].isupper():
        # A type: its numbers and words join without a dash; a lemma about it keeps the dash.
        return re.sub(r"-([0-9a-z]+)", lambda m: m.group(1).capitalize(), name) if name.startswith("Demand-") else name
    name = re.sub(r"(?<=[a-z0-9])([A-Z])", lambda m: "_" + m.group(1).lower(), name)
    return re.sub(r"(?<=[^-])-(?=[^-])", "_", name)


def table(own, goals):
    """Old name to new."""
    groups = collections.defaultdict(list)
    for name in own:
        groups[snake(name)].append(name)
    renamed = {}
    for new, olds in groups.items():
        # The function comes first: in camel case, else in snake case already.
        first = next((o for o in olds if re.search(r"[a-z0-9][A-Z]", o)), None) or (new if new in olds else olds[0])
        for old in olds:
            renamed[old] = new if old in (first, new) else new + "_lem"
    return {old: new for old, new in renamed.items() if old != new}


def turned(text, names):
    def token(m):
        word = m.group(0)
        # A member of the kit's that has a name of ours.
        if word == "not-nil" and m.string[: m.start()].endswith("Memᴰ."):
            return word
        return names.get(word, word)

    parts, at = [], 0
    for m in STRING.finditer(text):
        parts += [TOKEN.sub(token, text[at : m.start()]), m.group(0)]
        at = m.end()
    return "".join(parts + [TOKEN.sub(token, text[at:])])


def main(root):
    own, goals = defined(root)
    names = table(own, goals)
    kit = set()
    for path in files(root, (".antt", ".rt")):
        for m in re.finditer(r"(?m)^\s*(?:ghost )?use (?!Rattle\.(?!std\.))[\w.']+\.\{([^}]*)\}", read(path)):
            kit |= {w.split(" as ")[0].strip() for w in m.group(1).split(",")}
    for name in sorted(kit & set(names)):
        print(f"of the kit too, left: {name}")
        del names[name]
    if "--table" in sys.argv:
        for old, new in sorted(names.items()):
            print(f"{old}\t{new}")
        return
    met = 0
    for path in files(root, (".antt", ".rt", ".edit")):
        text = read(path)
        here = dict(names)
        for lemma, places in LEMMAS.items():
            if any(path.endswith("/" + place) for place in places):
                here[lemma] = lemma + "_lem"
        words = collections.defaultdict(set)
        for m in TOKEN.finditer(text):
            words[here.get(m.group(0), m.group(0))].add(m.group(0))
        for new, olds in sorted(words.items()):
            if len(olds) > 1:
                met += 1
                print(f"{path}: {' and '.join(sorted(olds))} fall together as {new}")
        new = turned(text, here)
        if new != text and "--try" not in sys.argv:
            with open(path, "w", encoding="utf-8") as f:
                f.write(new)
    print(f"respell: {len(names)} names; {met} fall together")


main(next((a for a in sys.argv[1:] if not a.startswith("--")), "."))
