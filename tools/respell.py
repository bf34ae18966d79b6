#!/usr/bin/env python3
"""Brings the repository's own names to the library's spelling, once: functions, lemmas and fields in snake case, types in
camel case; and in the proof of a function the names that the source gives keep the source's spelling.

usage: python3 tools/respell.py          at the top of the repository

A name is one of ours where a file of specs/ or proofs/ declares it. Names that the check makes (goals, steps, fields of
steps) are not ours: they are found by where they stand, behind `goal.`, `c.`, `l.` or `w.`, or as the goal that an answer
declares. Names whose dash stands before an operator stay, and so do strings, comments of the source, inputs and outputs.
It prints each new spelling that was a name before.
"""

import os
import re
import sys

WORD = r"[^\s(){}\[\],;.\"`|]+"
DECLARED = re.compile(r"^\s*(?:(?:abbrev|unfoldable)\s+)?(?:pub\s+)?(?:(?:data|record)\s+)?(" + WORD + r")\s+(?::|\(|\{)")
KEPT = {"IsPermutation-swap", "drop-set-lt"}
# Where the plain spelling is another's already.
OTHERS = {"bit-and": "bit_of_and", "bit-or": "bit_of_or", "read-on": "reads_on", "distinct-getD": "distinct_get_or"}


def files(ending):
    for folder, dirs, names in os.walk("crates"):
        dirs[:] = sorted(d for d in dirs if d != "out")
        for name in sorted(names):
            if name.endswith(ending):
                yield os.path.join(folder, name)


def read(path):
    with open(path, encoding="utf-8") as f:
        return f.read()


def write(path, text):
    with open(path, "w", encoding="utf-8") as f:
        f.write(text)


def snake(name):
    name = re.sub(r"(?<=[a-z])([A-Z])", lambda m: "_" + m.group(1).lower(), name)
    return re.sub(r"-(?=[^\W_])", "_", name)


def camel(name):
    parts = name.split("-")
    return "".join(p[:1].upper() + p[1:] for p in parts)


def answers(path):
    """Whether a file answers goals: only there do generated names stand."""
    return path.endswith(("Answers.antt", "Invariants.antt", "Proof.antt"))


def declared():
    names = set()
    for path in files(".antt"):
        for line in read(path).split("\n"):
            m = DECLARED.match(line)
            if m and ": goal." not in line and not line.lstrip().startswith(("use ", "--", "let ", "module ")):
                name = m.group(1)
                if "-" in name or re.match(r"[a-z]+[A-Z]", name):
                    names.add(name)
    return names - KEPT


def turned(name):
    return OTHERS.get(name) or (camel(name) if name[:1].isupper() else snake(name))


def identifiers():
    """By crate, the source's names that have an underscore, the longest first."""
    found = {}
    common = set()
    for path in files(".rt"):
        crate = path.split(os.sep)[1]
        names = set(re.findall(r"\b[A-Za-z][A-Za-z0-9]*(?:_[A-Za-z0-9]+)+\b", "\n".join(l for l in read(path).split("\n") if "ghost use" not in l)))
        found.setdefault(crate, set()).update(names)
        common |= {n for n in re.findall(r"\bfn (\w+_\w+)", read(path))}
    common |= {"In_default", "In_ok", "In_err", "is_err", "is_ok", "is_some", "is_none", "overflow_add", "overflow_sub", "overflow_mul", "overflow_shl", "overflow_shr", "overflow_cast", "overflow_step", "nonzero_div", "nonzero_rem", "offset_bounds", "slice_bounds", "invariant_of", "yielded_by", "in_default", "in_err", "in_ok", "from_residual", "copy_from_slice", "as_slice", "as_mut_slice", "iter_mut", "is_empty", "get_mut", "trailing_zeros", "leading_zeros", "swap_remove", "saturating_sub", "write_all", "push_str", "as_str", "as_bytes", "split_at"}
    return {c: sorted(n | common, key=lambda x: -len(x)) for c, n in found.items()}


def keep(token, names):
    """A generated name with the source's names in it as the source spells them."""
    for name in names:
        dashed = name.replace("_", "-")
        token = re.sub(r"(?<![^\-·+])" + re.escape(dashed) + r"(?![^\-·'+])", name, token)
    return token


def respell_proof(text, new, names):
    goals = set(re.findall(r"^(?:abbrev\s+)?(?:pub\s+)?(" + WORD + r")\s*:\s*(?:goal|given|need)\.", text, re.M))
    for m in re.finditer(r"Goals\.\{([^}]*)\}", text):
        goals |= set(re.split(r",\s*", m.group(1))) - set(new)
    out = []
    at = 0
    for m in re.finditer(WORD, text):
        out.append(text[at:m.start()])
        at = m.end()
        token = m.group(0)
        before = text[max(0, m.start() - 300):m.start()]
        chain = re.search(r"[^\s(){}\[\],;]*$", before).group(0)
        generated = token in goals or re.match(r"(?:[cwlg]|goal)\.", chain) is not None
        if "-" in token and generated and not (token in new and chain.count(".") > 1 and keep(token, names) == token and is_field(token)):
            token = keep(token, names)
        elif "-" in token and re.search(r"Goals\.\{[^}]*$", before):
            token = keep(token, names)
        elif "-" in token and re.match(r"(?:then|else|in)-", token) and token not in new:
            token = keep(token, names)
        elif token in new:
            token = new[token]
        out.append(token)
    out.append(text[at:])
    return "".join(out)


FIELDS = set()


def is_field(token):
    return token in FIELDS


def fields():
    for path in files(".antt"):
        inside = False
        for line in read(path).split("\n"):
            if re.match(r"^\s*(?:pub\s+)?record\b", line):
                inside = True
            elif inside and not line.startswith(" "):
                inside = False
            m = DECLARED.match(line)
            if inside and m:
                FIELDS.add(m.group(1))


def respell(text, new):
    return re.sub(WORD, lambda m: new.get(m.group(0), m.group(0)), text)


def respell_source(text, new):
    lines = []
    for line in text.split("\n"):
        if line.lstrip().startswith("//"):
            lines.append(line)
            continue
        parts = re.split(r'("(?:[^"\\]|\\.)*")', line)
        lines.append("".join(p if i % 2 else respell(p, new) for i, p in enumerate(parts)))
    return "\n".join(lines)


def main():
    if not os.path.isdir("crates"):
        sys.exit("respell: run it at the top of the repository")
    fields()
    new = {n: turned(n) for n in declared()}
    new = {a: b for a, b in new.items() if a != b}
    seen = set()
    for path in list(files(".antt")) + list(files(".rt")):
        seen |= set(re.findall(WORD, read(path)))
    targets = {}
    for a, b in sorted(new.items()):
        if b in seen:
            print(f"respell: {a} becomes {b}, which is a name already")
        if b in targets:
            print(f"respell: {a} and {targets[b]} both become {b}")
        targets[b] = a
    names = identifiers()
    for path in files(".antt"):
        text = read(path)
        crate = path.split(os.sep)[1]
        write(path, respell_proof(text, new, names.get(crate, [])) if answers(path) else respell(text, new))
    for path in files(".rt"):
        write(path, respell_source(read(path), new))
    for folder in (".", "docs"):
        for name in sorted(os.listdir(folder)):
            if name.endswith(".md") and not name.startswith("PORT"):
                path = os.path.join(folder, name)
                write(path, re.sub(r"`[^`\n]+`", lambda m: respell(m.group(0), new), read(path)))
    print(f"respell: {len(new)} names")


main()
