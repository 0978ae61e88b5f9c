#!/usr/bin/env python3
"""Counts, and with -v lists, the places in src/ that docs/DESIGN-PASS.md speaks of: `tools/places.py [-v] [POINT..] [--dir DIR]`.

1 own enums, and runs of number constants   2 functions alike but for names, types and numbers   3 loops that are no `for`
4 matches that only turn a value into a bool or a number, and fields compared in place of values
5 requires that stand in three contracts or more, and three parameters or more that travel together in three functions or more
6 a slice with its length beside it   7 matches on which step to run: none is found by a program, so it lists closures and fn types
8 answers, their lines, and lemmas
"""
import argparse, collections, itertools, os, re, subprocess

ap = argparse.ArgumentParser(description=__doc__, formatter_class=argparse.RawDescriptionHelpFormatter)
ap.add_argument("points", nargs="*", type=int)
ap.add_argument("-v", action="store_true")
ap.add_argument("--dir", default=".")
a = ap.parse_args()

FN = re.compile(r"^(?P<in>[ ]*)(?:pub(?:\([a-z]+\))? )?fn (?P<name>\w+)(?P<rest>.*)$")


def sources():
    for crate in sorted(os.listdir(os.path.join(a.dir, "crates"))):
        base = os.path.join(a.dir, "crates", crate, "src")
        for folder, _, names in sorted(os.walk(base)):
            for name in sorted(names):
                if name.endswith(".rt"):
                    path = os.path.join(folder, name)
                    yield os.path.relpath(path, a.dir), open(path, encoding="utf-8").read()


def functions():
    """(place, name, head, body): the head has parameters and clauses, the body is between the last pair of braces."""
    for path, text in sources():
        lines = re.sub(r"//[^\n]*", "", text).split("\n")
        i = 0
        while i < len(lines):
            m = FN.match(lines[i])
            if not m:
                i += 1
                continue
            indent, j = m["in"], i
            while lines[j].rstrip() != indent + "}" and not (j == i and lines[j].rstrip().endswith("}")):
                j += 1
            whole = lines[i : j + 1]
            if len(whole) == 1:
                cut = whole[0].index("{")
                head, body = whole[0][:cut], whole[0][cut:]
            else:
                opens = [k for k, line in enumerate(whole) if line.rstrip() == indent + "{" or (line.rstrip().endswith("{") and not line.strip().startswith(("requires", "ensures")))]
                k = opens[0]
                head, body = "\n".join(whole[: k + 1]), "\n".join(whole[k + 1 : -1])
            yield f"{path}:{i + 1}", m["name"], head, body
            i = j + 1


WORD = re.compile(r"[A-Za-z_]\w*|\d+|[^\s\w]")
KEPT = set("if else match while for in loop return let mut as break true false".split())


def shape(body):
    """The body with its names numbered in the order that they come in, and its numbers left out."""
    seen, out = {}, []
    for token in WORD.findall(body):
        if token in KEPT:
            out.append(token)
        elif token[0].isdigit():
            out.append("0")
        elif token[0].isalpha() or token[0] == "_":
            out.append("n%d" % seen.setdefault(token, len(seen)))
        else:
            out.append(token)
    return tuple(out)


def parameters(head):
    inside = head[head.index("(") + 1 :]
    depth, text = 1, ""
    for ch in inside:
        depth += (ch in "([<{") - (ch in ")]>}")
        if depth == 0:
            break
        text += ch
    return [tuple(p.strip() for p in part.split(":", 1)) for part in re.split(r",\s*(?![^\[<(]*[\]>)])", text) if ":" in part]


def point1():
    for path, text in sources():
        for m in re.finditer(r"^\s*(?:pub )?enum (\w+)(?:<[^>]*>)? \{(.*?)^\}", text, re.S | re.M):
            yield f"{path}: enum {m[1]} {{ {' '.join(m[2].split())} }}"
        run = re.findall(r"^(?:pub )?const (\w+): u8 = \d+;", text, re.M)
        if len(run) > 3:
            yield f"{path}: numbers for kinds: {' '.join(run)}"
        for m in re.finditer(r"^(?:pub )?fn (\w+)\([^)]*\) -> \((?:bool, \w+|\w+, bool)\)", text, re.M):
            yield f"{path}: {m[1]} answers a flag with a value"


def point2():
    alike = collections.defaultdict(list)
    for place, name, _, body in functions():
        s = shape(body)
        if len(s) >= 12:
            alike[s].append(f"{place} {name}")
    for group in alike.values():
        if len(group) > 1:
            yield " ~ ".join(group)


def point3():
    for path, text in sources():
        for n, line in enumerate(text.split("\n"), 1):
            if re.match(r"\s*(while|loop)\b", line):
                yield f"{path}:{n} {line.strip()}"


def point4():
    for place, name, head, body in functions():
        flat = " ".join(body.split())
        if re.fullmatch(r"match \w+ \{ (?:[\w:]+(?:\([^)]*\))? => (?:true|false|\d+|[A-Z_]+|[\w.]+(?: as u64)?|\w+\(\w+\)), )+\}", flat):
            yield f"{place} {name}: a match that only turns a value into another"
        for m in re.finditer(r"\w+\.(?:id|depth|leaves) (?:==|!=|<|<=|>|>=) \w+\.(?:id|depth|leaves)\b", flat):
            yield f"{place} {name}: {m[0]}"


def point5():
    clauses = collections.defaultdict(list)
    taken = {}
    for place, name, head, _ in functions():
        for m in re.finditer(r"requires(?: \w+)? \{(.*?)\}\s*(?=requires|ensures|\{|$)", head, re.S):
            clauses[" ".join(m[1].split())].append(f"{place} {name}")
        taken[f"{place} {name}"] = frozenset(p[0].replace("mut ", "") for p in parameters(head))
    for text, where in sorted(clauses.items(), key=lambda kv: -len(kv[1])):
        if len(where) > 2:
            yield f"{len(where)} contracts require {{ {text} }}: " + "; ".join(w.split()[1] for w in where)
    # A group counts once, at its largest: all names that two functions share, where three functions or more take them all.
    groups = {x & y for x, y in itertools.combinations(set(taken.values()), 2) if len(x & y) > 2}
    support = {g: sum(g <= t for t in taken.values()) for g in groups}
    largest = [g for g in groups if support[g] > 2 and not any(g < h and support[h] > 2 for h in groups)]
    for g in sorted(largest, key=lambda g: (-support[g], sorted(g))):
        yield f"{support[g]} functions take {', '.join(sorted(g))}"


def point6():
    for place, name, head, _ in functions():
        ps = parameters(head)
        for (x, t), (y, u) in zip(ps, ps[1:]):
            if re.match(r"&(mut )?\[", t) and (u == "CutSize" or (u == "usize" and y in ("size", "many", "count", "number", "length", "definitions", "nodes", "upto"))):
                yield f"{place} {name}: {x}: {t}, {y}: {u}"


def point7():
    for path, text in sources():
        for n, line in enumerate(text.split("\n"), 1):
            if re.search(r"\bdyn\b|\bfn\(|: \[fn|impl Fn", line):
                yield f"{path}:{n} {line.strip()}"


def point8():
    answers = lines = lemmas = 0
    for folder, _, names in os.walk(os.path.join(a.dir, "crates")):
        if "/proofs" not in folder or "/out/" in folder:
            continue
        for name in names:
            if not name.endswith(".antt"):
                continue
            text = open(os.path.join(folder, name), encoding="utf-8").read()
            lines += text.count("\n")
            if name == "Answers.antt":
                answers += len(re.findall(r"^pub \S+ : goal\.", text, re.M))
            elif name not in ("Invariants.antt", "Lib.antt"):
                lemmas += len(re.findall(r"^(?:pub |abbrev |unfoldable )*[^\s:]+ :", text, re.M))
    yield f"{answers} answers"
    yield f"{lemmas} lemmas and definitions beside them"
    yield f"{lines} lines of proofs/"


for point in a.points or range(1, 9):
    found = list(globals()[f"point{point}"]())
    print(f"point {point}: {len(found)}")
    if a.v:
        for line in found:
            print("  " + line)
