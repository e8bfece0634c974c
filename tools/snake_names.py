#!/usr/bin/env python3
"""Brings the names of the crates' own definitions, lemmas, constructors, fields and bound variables to snake case.

usage: python3 tools/snake_names.py [FOLDER]      in a tree that the kit's port.py has turned; run once

What is renamed: words of specs/ and proofs/ that the crates declare or bind themselves and that are written with a dash or with a
capital inside, as `number-drop` and `hasRoom`, wherever a clause, a definition, a lemma, a must-fail edit or a `ghost use` names
them. What keeps its spelling: types, modules and facts (a capital in front), the names of src/, exported names, strings, and every
name that a file imports from the kit or that a generated module has. In comments only what stands in backticks is renamed. It says
where two names of one file would fall together.
"""
import collections
import glob
import os
import re
import sys

TOKEN = re.compile(r"[^\s(){}\[\],;:.`\"←→λ∀∃\\]+")
DASHED = re.compile(r"^[a-z][A-Za-z0-9_]*(-[A-Za-z0-9_]+)+[0-9₀-₉']*$")
CAMEL = re.compile(r"^[a-z][a-z0-9_]*[A-Z][A-Za-z0-9_]*[₀-₉']*$")
DECLARED = re.compile(r"^\s*(?:(?:abbrev|unfoldable|pub|data|record|mutual)\s+)*([^\s:(){},;]+)(?:\s+[({].*?[)}])*\s*:(?:\s|$)")
USE = re.compile(r"(?:ghost )?use ([A-Za-z_][^\s{]*?)(?:\.\{([^}]*)\}|\s+as\s+(\S+?))?;?\s*$")
GOAL = re.compile(r"^(?:pub |abbrev |unfoldable )*([^\s:(){},;]+)\s*:\s*(?:tie|goal)\.")


# Names that would fall together with a definition's or with a word of the kit: a lemma gets `_lem`, a worked case `_case`.
APART = {
    "starts-hole": "starts_hole_lem",
    "bit-or": "bit_bit_or",
    "bit-and": "bit_bit_and",
    "loaded-map": "loaded_map_case",
    "loaded-buffer": "loaded_buffer_case",
    "eight-step": "eight_step_lem",
    "byte_step": "byte_step_lem",
    "narrow_step": "narrow_step_lem",
    "file-line": "file_line_case",
    "hole-line": "hole_line_case",
    "refused-line": "refused_line_case",
    "request-frame": "request_frame_case",
    "request-answer": "request_answer_case",
    "piece-agrees": "piece_agrees_lem",
    "handed-on": "handed_on_lem",
    "head-told": "head_told_lem",
    "in-table": "in_table_lem",
    "flags-allowed": "flags_allowed_lem",
    "by-id": "by_id_lem",
}


def snake(name, generated=False):
    if name in APART and not generated:
        return APART[name]
    name = re.sub(r"(?<=[a-z0-9])([A-Z])", lambda m: "_" + m.group(1).lower(), name)
    return name.replace("-", "_")


def to_turn(name):
    return bool(DASHED.match(name) or CAMEL.match(name))


def own_crates(root):
    return {os.path.basename(os.path.dirname(p)) for p in glob.glob(os.path.join(root, "crates", "*", "src"))}


def imports(text, crates):
    """What a file imports: names of the kit, and names of its own crates."""
    kit, own, aliases = set(), set(), set()
    for line in text.splitlines():
        m = USE.match(line.strip())
        if not m:
            continue
        path, names, alias = m.groups()
        ours = re.match(r"Rattle\.(\w+)\.(specs|proofs)\b", path)
        ours = bool(ours and ours.group(1) in crates and ".declared" not in path)
        if alias:
            aliases.add(alias)
        for n in (names or "").split(","):
            n = n.strip().split(" as ")[-1].strip()
            if n:
                (own if ours else kit).add(n)
    return kit, own, aliases


def walked(path):
    """A file of one function's proof, whose goals have the names that the check gives them."""
    return os.path.basename(path) in ("Proof.antt", "Answers.antt", "Invariants.antt")


def code_parts(text, rust):
    """The text in parts: (is code, part). Comments and strings are no code."""
    pat = re.compile(r'(//[^\n]*|"(?:[^"\\]|\\.)*")' if rust else r"(?m)(--[ \n][^\n]*|^--$)")
    last = 0
    for m in pat.finditer(text):
        yield True, text[last:m.start()]
        yield False, m.group(0)
        last = m.end()
    yield True, text[last:]


def main(root):
    crates = own_crates(root)
    proofs = sorted(glob.glob(os.path.join(root, "crates", "*", "specs", "**", "*.antt"), recursive=True) + glob.glob(os.path.join(root, "crates", "*", "proofs", "**", "*.antt"), recursive=True))
    sources = sorted(glob.glob(os.path.join(root, "crates", "*", "src", "**", "*.rt"), recursive=True))
    edits = sorted(glob.glob(os.path.join(root, "crates", "*", "must-fail", "*.edit")))
    texts = {p: open(p, encoding="utf-8").read() for p in proofs + sources + edits}

    own = set()
    for p in proofs:
        goals = {m.group(1) for m in map(GOAL.match, texts[p].splitlines()) if m} if walked(p) else set()
        for line in texts[p].splitlines():
            m = DECLARED.match(line)
            if m and to_turn(m.group(1)) and m.group(1) not in goals and not m.group(1).endswith("-spec"):
                own.add(m.group(1))
            # constructors of data, fields and binders that stand inside a line are found by their use below

    fallen = []
    for p in proofs + sources:
        text = texts[p]
        kit, mine, aliases = imports(text, crates)
        rust = p.endswith(".rt")
        goals = {m.group(1) for m in map(GOAL.match, text.splitlines()) if m} if walked(p) else set()
        made = collections.defaultdict(set)

        def turn(m, part):
            w = m.group(0)
            before = part[:m.start()]
            dotted = before.endswith(".")
            if not to_turn(w) and not (w in APART and not rust and os.sep + "remainder" + os.sep in p and not dotted):
                made[w].add(w)
                return w
            if w in kit or w in goals or (w.endswith("-spec") and walked(p)):
                made[w].add(w)
                return w
            if dotted:
                head = re.search(r"([^\s(){}\[\],;:.]+)\.$", before)
                if (head and head.group(1) in aliases) or w not in own:
                    return w
            elif w not in own and (rust or walked(p)):
                return w
            new = snake(w, generated=dotted and walked(p))
            made[new].add(w)
            return new

        out = []
        for code, part in code_parts(text, rust):
            if code:
                lines = part.splitlines(keepends=True)
                done = []
                for line in lines:
                    m = USE.match(line.strip())
                    path = m.group(1) if m else None
                    if m and not re.match(r"Rattle\.(\w+)\.(specs|proofs)\b", path):
                        done.append(line)
                    else:
                        done.append(TOKEN.sub(lambda k: turn(k, line), line))
                out.append("".join(done))
            elif part.startswith('"'):
                out.append(part)
            else:
                out.append(re.sub(r"`[^`]*`", lambda q: TOKEN.sub(lambda k: snake(k.group(0)) if k.group(0) in own else k.group(0), q.group(0)), part))
        new = "".join(out)
        for k, v in made.items():
            if len(v) > 1 and any(to_turn(x) for x in v):
                fallen.append((p, k, sorted(v)))
            if k in kit and any(x != k for x in v):
                fallen.append((p, k, "a name of the kit"))
        if new != text:
            open(p, "w", encoding="utf-8").write(new)

    for p in edits:
        text = texts[p]
        new = "\n".join(TOKEN.sub(lambda k: snake(k.group(0)) if to_turn(k.group(0)) else k.group(0), l) if re.match(r"(old|new):", l) else l for l in text.split("\n"))
        if new != text:
            open(p, "w", encoding="utf-8").write(new)

    for p, k, v in fallen:
        print(f"{os.path.relpath(p, root)}: `{k}` is written for {v}")
    print(f"{len(own)} names of the crates are in snake case now, {len(fallen)} places to look at")


if __name__ == "__main__":
    main(sys.argv[1] if len(sys.argv) > 1 else ".")
