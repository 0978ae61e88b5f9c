#!/usr/bin/env python3
"""Turns the proofs of one crate from Proof.antt over `tie` into Invariants.antt and Answers.antt: `tools/answers.py CRATE`.

`rt check --generated FOLDER --old-names` gives each goal's and step's old and new name; the crates below have to be proved.
An answer that was a plain search is dropped: the check tries that by itself. What it drops stands in /tmp/answers-dropped/CRATE.
"""
import json
import os
import re
import subprocess
import sys

ROOT = subprocess.run(["git", "rev-parse", "--show-toplevel"], capture_output=True, text=True).stdout.strip()
HEAD = re.compile(r"^((?:abbrev |pub |unfoldable )*)([^\s:(){}]+)\s*:\s*(.*)", re.S)
PLAIN = re.compile(r"^(search rules|omega arith|grind arith|search \(rules, refl\))$")


def norm(name):
    return name.replace("_", "-")


def blocks(text):
    """The top-level blocks of a file: lists of lines; a comment goes with what follows."""
    out, block = [], []
    for line in text.splitlines():
        if line.strip() == "":
            if block:
                block.append("")
            continue
        if line[0] not in " })]":
            # A new item begins, but for a clause of the one before or its unfolding line.
            if block:
                first = next((b for b in block if b and not b.startswith("--")), None)
                m = first and re.match(r"(?:abbrev |pub |unfoldable )*([^\s:(){}]+)\s*:", first)
                same = first is None or (m and (line.split(" ")[0] == m.group(1) or line.startswith("unfolding ")))
                if not same:
                    out.append(block)
                    block = []
        block.append(line)
    if block:
        out.append(block)
    for b in out:
        while b and b[-1] == "":
            b.pop()
    return out


def uses(block):
    return block[0].startswith("use ")


class Names:
    def __init__(self, entry):
        self.needs = {norm(o): n for o, n in entry["needs"]}
        self.steps = {}
        self.negated = set()
        self.callee = {}
        self.params = entry["params"]
        self.after = {}
        parents = {p[0]: p for p in entry["places"]}
        for place in entry["places"]:
            old, new = place[2]
            if not old:
                continue
            k = norm(old)
            self.steps[k] = new
            if place[3]:
                self.callee[k] = place[3]
            if ["true", "true-raw"] in place[4] or ["false", "false-raw"] in place[4]:
                self.negated.add(new)
            if place[3] is None and new == old + "-1" and "known" not in old:
                # What a call left in a variable.
                up = parents.get(place[1])
                while up and not up[3]:
                    up = parents.get(up[1])
                if up:
                    self.after[k] = (up[2][1], old)
        # Fields of an arm: step and path of old to the arm's field.
        self.arms = {}
        for arm in entry["arms"]:
            if arm:
                for field, step, path in arm[2]:
                    self.arms.setdefault((norm(step),) + tuple(path), (arm[0], field))
        self.pre = entry["pre"]["fields"] if entry["pre"] else None
        self.asked = {n: f for n, f in entry["asked"].items()}
        self.loops = [(l[0][0], l[0][1], l[1]) for l in entry["loops"]]
        self.changed = entry["changed"]
        self.typed = {}
        for row in entry["typed"]:
            for var, step in row:
                self.typed.setdefault(norm(step), set()).add(var)


def goal_name(names, g):
    for k in (norm(g), norm(re.sub(r"^overflow-", "", g)), norm(re.sub(r"^slice-bounds-", "part-", g)), norm(re.sub(r"^nonzero-", "", g))):
        if k in names.needs:
            return names.needs[k]
    return None


def nested(path, fields):
    """A path into right-nested pairs, `1.1.0`, as one of the fields, and what is left of it."""
    n = 0
    while n < len(path) and path[n] == "1" and n < len(fields) - 1:
        n += 1
    if n == len(fields) - 1:
        return fields[n], path[n:]
    if n < len(path) and path[n] == "0":
        return fields[n], path[n + 1 :]
    return None, path


def steps_turned(text, names):
    """Paths: no `.before`, and each step under its new name."""
    lower = {k.lower(): k for k in names.steps}
    dotted = r"(?<![\w'.-])[^\W\d][\w'-]*(?:\.[\w'-]+)+"
    text = re.sub(dotted, lambda m: ".".join(p for p in m.group(0).split(".") if p != "before"), text)
    # A place is `c` itself now.
    while True:
        m = re.search(r"let ([\w'-]+) = c\s+in\s*", text)
        if not m:
            break
        rest = text[m.end():]
        rest = re.sub(r"(?<![\w'.-])" + re.escape(m.group(1)) + r"(?![\w'-])", "c", rest)
        text = text[: m.start()] + rest

    # A part of a step or of what is required, under a short name.
    while True:
        m = re.search(r"let ([\w'-]+) = (c\.(?:(?:requires|pre)(?:\.\d+)+|[\w'-]+\.given|[\w'-]+\.(?:auto|kept)(?:\.\d+)*|[\w'-]+\.ensures|(?!args|requires|pre|loop)[\w'-]+))\s+in\s*", text)
        if not m:
            break
        rest = text[m.end():]
        rest = re.sub(r"(?<![\w'.-])" + re.escape(m.group(1)) + r"(?![\w'-])(?!\s*=[^=])", m.group(2), rest)
        text = text[: m.start()] + rest

    def path(m):
        parts = m.group(0).split(".")
        if parts[0] != "c":
            return m.group(0)
        rest = parts[1:]
        if len(rest) > 1 and re.match(r"if\d*$|.*test\d*$", rest[0]):
            rest[1] = {"taken": "true", "left": "false"}.get(rest[1], rest[1])
        if len(rest) > 1 and norm(rest[0]) in names.callee and rest[1] == "kept":
            rest[1] = "auto"
        k = norm(rest[0])
        k = k if k in names.steps else lower.get(k.lower(), lower.get(k[:-4], k) if k.endswith("-lem") else k)
        for n in range(len(rest), 1, -1):
            arm = names.arms.get((k,) + tuple(rest[1:n]))
            if arm:
                return ".".join(["c", arm[0], arm[1]] + rest[n:])
        if k in names.after:
            call, var = names.after[k]
            return ".".join(["c", call, "new", var] + [p for p in rest[1:] if p not in ("now", "new")])
        if k in names.steps:
            new = names.steps[k]
            if "_known" in new and rest[1:2] == ["given"] and len(names.typed.get(k, ())) == 1:
                return ".".join(["c", "type_inv", next(iter(names.typed[k]))] + rest[2:])
            callee = names.callee.get(k)
            if rest[1:2] == ["ensures"] and len(ENSURES.get(callee, ())) > 1:
                field, left = nested(rest[2:], ENSURES[callee])
                if field:
                    return ".".join(["c", new, "ensures", field] + left)
            if rest[1:2] in (["auto"], ["last"], ["new"]) and rest[2:] and rest[2].isdigit() and names.params.get(callee):
                field, left = nested(rest[2:], names.params[callee] + [""])
                if field:
                    return ".".join(["c", new, "auto" if rest[1] == "auto" else "new", field] + left)
            return ".".join(["c", new] + rest[1:])
        if rest[0] in ("requires", "pre"):
            if names.pre and len(rest) > 1 and rest[1].isdigit():
                field, left = nested(rest[1:], names.pre)
                if field:
                    return ".".join(["c", "requires", field] + left)
            return ".".join(["c", "requires"] + rest[1:])
        # What the spelling of own names did to a word of this file.
        if rest[0] == "good":
            rest[0] = "well_formed"
        return ".".join(["c"] + rest)

    text = re.sub(dotted, path, text)
    # The fact of a negated test is said of what is negated.
    for step in names.negated:
        fact = r"(c\." + re.escape(step) + r")\.(true|false)(?![\w-])"
        text = re.sub(r"\(not-(?:true|false)\s+(?:_|\([^()]*\)|[^\s()]+)\s+" + fact + r"\)", r"\1.@\2", text)
        text = re.sub(r"not-(?:true|false)\s+(?:_|\([^()]*\)|[^\s()]+)\s+" + fact, r"\1.@\2", text)
        text = re.sub(fact, r"(ap not \1.\2)", text)
        text = text.replace(".@", ".")
    # What the function requires, by name.
    for m in reversed(list(re.finditer(r"let ([\w'-]+) = c\.requires\s+in", text))):
        if names.pre:
            def field_of(mm):
                parts = mm.group(0).split(".")
                field, left = nested(parts[1:], names.pre)
                return ".".join([parts[0], field] + left) if field else mm.group(0)
            tail = re.sub(r"(?<![\w'.-])" + re.escape(m.group(1)) + r"(?:\.\d+)+", field_of, text[m.end():])
            text = text[: m.end()] + tail
    return text


def split_top(text):
    """The parts of a tuple's text between its top-level commas."""
    parts, depth, at = [], 0, 0
    for i, ch in enumerate(text):
        if ch in "([{":
            depth += 1
        elif ch in ")]}":
            depth -= 1
        elif ch == "," and depth == 0:
            parts.append(text[at:i])
            at = i + 1
    last = text[at:]
    if last.strip():
        parts.append(last)
    return [p.strip() for p in parts]


TACTICS = ("omega", "grind", "simp", "search", "rw", "cc", "first_of")


def recorded(text, fields):
    """A tuple at the end of an answer as the record that is asked now."""
    t = text.rstrip()
    tail = ""
    while t.endswith(")"):
        # The bracket that ends here.
        depth, i = 0, len(t) - 1
        while i >= 0:
            if t[i] in ")]}":
                depth += 1
            elif t[i] in "([{":
                depth -= 1
                if depth == 0:
                    break
            i -= 1
        if re.search(r"(?<![\w'.-])(" + "|".join(TACTICS) + r")\s*$", t[:i]):
            break
        parts = split_top(t[i + 1 : -1])
        # Right-nested pairs.
        while 1 < len(parts) < len(fields) and parts[-1].startswith("(") and parts[-1].endswith(")") and len(split_top(parts[-1][1:-1])) > 1:
            parts = parts[:-1] + split_top(parts[-1][1:-1])
        if len(parts) == len(fields):
            return t[:i] + "record { " + "; ".join(f"{f} = {p}" for f, p in zip(fields, parts)) + " }" + tail
        if len(parts) == 1 and t[i + 1 : -1].rstrip().endswith(")"):
            t, tail = t[:-1].rstrip(), ")" + tail
            continue
        break
    return text


def wrapped(text, fields):
    """An answer that is a lemma's right-nested pairs, as the record that is asked now."""
    cut, depth = text.index("=") + 1, 0
    for m in re.finditer(r"[()\[\]{}]|(?<![\w'.-])in(?![\w'-])", text):
        if m.group(0) in "([{":
            depth += 1
        elif m.group(0) in ")]}":
            depth -= 1
        elif depth == 0:
            cut = m.end()
    last = text[cut:]
    head = re.match(r"\s*([^\s(){}]+)", last)
    if not head or head.group(1) in TACTICS + ("record", "λ", "elim", "let", "c", "absurd") or head.group(1).startswith("c."):
        return text
    paths = ["1." * i + "0" for i in range(len(fields) - 1)] + [".".join(["1"] * (len(fields) - 1))]
    fitted = "; ".join(f"{f} = asked.{q}" for f, q in zip(fields, paths))
    return text[:cut] + f" let asked ={last} in record {{ {fitted} }}"


def clauses_of(crate):
    """The names of each function's `requires`, of a crate's sources: by path, as `drawing::bytes::small_at`."""
    out = {}
    src = os.path.join(ROOT, "crates", crate, "src")
    for folder, dirs, names in os.walk(src):
        for f in names:
            if not f.endswith(".rt"):
                continue
            module = os.path.relpath(os.path.join(folder, f), src)[:-3].replace("/", "::")
            module = crate + ("" if module in ("lib", "main") else "::" + module)
            text = open(os.path.join(folder, f), encoding="utf-8").read()
            for m in re.finditer(r"(?m)^\s*(?:pub )?fn (\w+)(.*?)^\s*\{", text, re.S):
                out[f"{module}::{m.group(1)}"] = re.findall(r"(?m)^\s*requires (\w+) \{", m.group(2))
                ENSURES[f"{module}::{m.group(1)}"] = re.findall(r"(?m)^\s*ensures (\w+) \{", m.group(2))
    return out


def asked_fields(names, goal, table):
    for callee in names.params:
        short = callee.split("::")[-1]
        if re.match(re.escape(short) + r"-(?:[\w']+-)?requires(-|$)", goal) and table.get(callee):
            return table[callee]
    return None


def convert(folder, crate, path, entry, dropped):
    text = open(os.path.join(folder, "Proof.antt"), encoding="utf-8").read()
    if "tie.close" not in text:
        return "by hand"
    names = Names(entry)
    module = f"Rattle.{crate}.proofs." + path.replace("/", ".")
    head, imports, invariants, answers, others = [], [], [], [], []
    bs = blocks(text)
    notes = []
    for b in bs:
        if b[0].startswith("--") and all(x.startswith("--") for x in b if x):
            head += b
            continue
        while b and b[0].startswith("--") and len(b) > 1 and b is bs[0]:
            head.append(b.pop(0))
        body = [x for x in b]
        k = next(i for i, x in enumerate(body) if not x.startswith("--"))
        if body[k].startswith("use "):
            head += body[:k]
            for chunk in re.split(r"\n(?=use )", "\n".join(body[k:])):
                if "Tie as tie" in chunk or "Statement.{statement}" in chunk:
                    continue
                imports.append(chunk)
            continue
        whole = "\n".join(body)
        m = HEAD.match("\n".join(body[k:]))
        if not m:
            notes.append("not read: " + body[k])
            others.append((None, whole))
            continue
        mods, name, rest = m.groups()
        if name.endswith("_spec") and "tie.close" in whole:
            continue
        t = re.match(r"tie\.(invariant|decreases)-([\w'-]+)", rest)
        if t:
            invariants.append((t.group(1), t.group(2), name, "\n".join(body[:k]), rest[t.end():].lstrip("\n")))
            continue
        t = re.match(r"\(?tie\.Need-([\w'-]+)([^\n]*(?:\n[ ]+[^\n]*)*?)(?=\n(?:unfolding|\S))", rest)
        if t:
            new = goal_name(names, t.group(1))
            tail = rest[t.end():].lstrip("\n")
            if new is None:
                notes.append(f"no goal: {t.group(1)}")
                dropped.append(f"-- {folder}: no goal for {t.group(1)}\n{whole}\n")
                continue
            answers.append((new, name, "\n".join(body[:k]), tail))
            continue
        others.append((name, whole))
    # Invariants.
    inv_out = []
    inv_names = {}
    for kind, loop, name, comment, tail in invariants:
        found = None
        for (old, new, vars), changed in zip(names.loops, names.changed):
            if norm(old) == norm(loop):
                found = (new, vars, changed)
        if not found:
            notes.append(f"no loop: {loop}")
            dropped.append(f"-- {folder}: no loop {loop}\n{tail}\n")
            continue
        new, vars, changed = found
        m = re.match(re.escape(name) + r"((?:\s+[\w'₀-]+)*)\s*=\s*(.*)", tail[tail.index(name):] if name in tail else tail, re.S)
        unfolding = tail[: tail.index(name)] if name in tail else ""
        if not m:
            notes.append(f"invariant not read: {name}")
            dropped.append(f"-- {folder}\n{tail}\n")
            continue
        args, body = m.group(1).split(), m.group(2)
        want = [("initial." + v if c else v) for v, c in zip(vars, changed)] + [v for v, c in zip(vars, changed) if c]
        if len(args) != len(want):
            notes.append(f"{name}: {len(args)} arguments, {len(want)} wanted: {args} {want}")
            dropped.append(f"-- {folder}: arguments {args} {want}\n{tail}\n")
            continue
        table = dict(zip(args, want))

        def var(mm, table=table):
            w = mm.group(0)
            return "l." + table[w] if w in table else w

        body = re.sub(r"(?<![\w'.-])[^\W\d][\w'₀-]*", var, body)
        inv_out.append(f"{comment + chr(10) if comment else ''}abbrev pub {kind}-{new} : goal.{kind}-{new}\n{unfolding}{kind}-{new} l = {body}")
        inv_names[name] = f"{kind}-{new}"
    # Answers.
    ans_out = []
    for new, name, comment, tail in answers:
        pure = re.match(r"^" + re.escape(name) + r" c(?: κs)? = (.*)$", tail, re.S)
        if pure and PLAIN.match(pure.group(1).strip()):
            dropped.append(f"-- {path}\npub {new} : goal.{new}\n{new} c = {pure.group(1)}\n")
            continue
        turned = steps_turned(tail, names)
        fields = names.asked.get(new) or asked_fields(names, new, REQUIRES)
        if re.match(r"returns(-|$)", new):
            fields = ENSURES.get(crate + "::" + path.replace("/", "::"))
        if fields and len(fields) > 1:
            before = turned
            turned = recorded(turned, fields)
            if turned == before:
                turned = wrapped(turned, fields)
        turned = re.sub(r"(?m)^" + re.escape(name) + r" c κs(?= )", f"{new} c", turned)
        turned = re.sub(r"(?m)^" + re.escape(name) + r"(?= )", new, turned)
        ans_out.append(f"{comment + chr(10) if comment else ''}pub {new} : goal.{new}\n{turned}")
    other_inv, other_ans = [], []
    inv_text = "\n".join(inv_out)
    for name, whole in others:
        (other_inv if name and re.search(r"(?<![\w'-])" + re.escape(name) + r"(?![\w'-])", inv_text) else other_ans).append((name, whole))
    imports_text = "\n".join(imports)

    def used_imports(text):
        keep = []
        for chunk in imports:
            m = re.match(r"use ([^{]*)\{([^}]*)\}(.*)", chunk, re.S)
            if not m:
                keep.append(chunk)
                continue
            items = [w.strip() for w in m.group(2).split(",") if w.strip()]
            good = []
            for w in items:
                n = w.split(" as ")[-1].strip()
                if "◌" in n:
                    parts = [p for p in n.split("◌") if p]
                    hit = all(re.search(r"(?<!\S)\(?" + re.escape(p) + r"\)?(?!\S)|" + re.escape(p), text) for p in parts)
                else:
                    hit = re.search(r"(?<![\w'-])" + re.escape(n) + r"(?![\w'-])", text)
                if hit:
                    good.append(w)
            if good:
                keep.append(f"use {m.group(1)}{{{', '.join(good)}}}")
        return "\n".join(keep)

    if inv_out:
        t = "\n\n".join([w for _, w in other_inv] + inv_out)
        with open(os.path.join(folder, "Invariants.antt"), "w", encoding="utf-8") as f:
            f.write("\n".join(head) + ("\n" if head else "") + used_imports(t) + f"\nuse {module}.Given as goal\n\n" + t + "\n")
    if ans_out:
        t = "\n\n".join([w for _, w in other_ans] + ans_out)
        if "(ap not c." in t:
            for line, word in (("use mathlib.Core.Path.{ap}", "ap"), ("use mathlib.Core.Bool.{not}", "not")):
                if not re.search(r"\{[^}]*(?<![\w'-])" + word + r"(?![\w'-])[^}]*\}", "\n".join(x for x in used_imports(t).split("\n") if "Core" in x)):
                    imports.append(line)
        for old, new in inv_names.items():
            t = re.sub(r"(?<![\w'.-])" + re.escape(old) + r"(?![\w'-])", new, t)
        with open(os.path.join(folder, "Answers.antt"), "w", encoding="utf-8") as f:
            f.write("\n".join(head) + ("\n" if head else "") + used_imports(t) + f"\nuse {module}.Goals as goal\n\n" + t + "\n")
    os.remove(os.path.join(folder, "Proof.antt"))
    return "; ".join(notes) or None


REQUIRES, ENSURES = {}, {}


def main(crate):
    for other in os.listdir(os.path.join(ROOT, "crates")):
        REQUIRES.update(clauses_of(other))
    base = os.path.join(ROOT, "crates", crate)
    to = f"/tmp/names-{os.getpid()}"
    subprocess.run(["rt", "check", "--generated", to, "--old-names"], cwd=base, capture_output=True)
    table = json.load(open(os.path.join(to, "names.json")))
    proofs = os.path.join(base, "proofs")
    dropped = []
    for folder, dirs, files in sorted(os.walk(proofs)):
        if "Proof.antt" not in files:
            continue
        path = os.path.relpath(folder, proofs)
        key = f"Rattle-{crate}-proofs.{path.replace('/', '.')}.Lts"
        if key not in table:
            print(f"{path}: no names")
            continue
        said = convert(folder, crate, path, table[key], dropped)
        if said:
            print(f"{path}: {said}")
    os.makedirs("/tmp/answers-dropped", exist_ok=True)
    with open(f"/tmp/answers-dropped/{crate}", "a") as f:
        f.write("\n".join(dropped))


main(sys.argv[1])
