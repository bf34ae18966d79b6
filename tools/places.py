#!/usr/bin/env python3
"""Lists the places in src/ that docs/DESIGN-PASS.md counts, point by point, at a commit.

    python3 tools/places.py COMMIT [POINT..]

A place is a line that a pattern below finds, or a signature, joined to one line. The patterns find what may be a
place; which of the lines are one is said on the page.
"""
import re
import subprocess
import sys

LINES = {
    "1a enums": r"^\s*(pub )?enum ",
    "1b a refusal in an Option": r"Option<(\w+::)?\w*Refusal>|Option<Fault>",
    "1c a flag beside a value": r"\((u8|u16|u64|usize), bool\)|^\s+(pub )?(direct|live|changes|open|changed|agrees): \w+,",
    "1d a number for a kind or a refusal": r"-> (Option<)?\(?u8\b|^\s+(pub )?(number|what|refusal): (u8|u32|usize)|\b(heading|turn|number): (u8|usize)\b|Refused\(u8\)",
    "3a index loops": r"\bfor \w+ in [\w:]*\d*\w*\.\.",
    "3b while and loop": r"\bwhile |\bloop \{",
    "3c for with a body that a method has": r"\bfor .* in .*\{$",
    "4a equality, order": r"fn (same\w*|is_same\w*|turns|of)\b",
    "4b conversion": r"fn (number\w*|numbered|\w*_of|as_\w+|in_figures|to_\w+|action|cell|target|\w+_fault|fault_\w+|open_number|column_of|mark_of|mark_in|coordinate|label|read_label)\b",
    "4c copying": r"fn copy\w*\b",
    "4d printing": r"fn (name|told|costs|course|changed|refused|loop_refused|counted|toured|bends|\w*sentence|\w+_text|print\w*|put_fault|put_refusal)\b",
    "7 tables of functions, dyn, fn pointers": r"\bdyn\b|: fn\(|\bBox<",
}

TOGETHER = {
    "5a rows, cols": r"\brows: usize\b.*\bcols: usize\b",
    "5b entries, waiting": r"\bentries: (&mut \[Entry\]|usize).*\bwaiting: (&mut \[(u32|Waiter)\]|usize)",
    "5c start, target": r"\bstart: Cell\b.*\btarget: Cell\b",
    "5d cell, heading": r"\b(cell|from|at): Cell\b.*\b(heading|towards|arrival|slant): (Heading|u8|usize)\b",
    "5e heap, size, rate, price, moments, tally": r"\bprice: Price\b",
    "6a a list and a length or a place in it": r": &mut \[[^\]]*\](; \w+\])?,\s*(at|len|hole|count|place)\b|: &\[[^\]]*\],\s*(len|count)\b",
    "6b a count of what was written": r"-> (Result<)?usize\b",
}


def show(commit, path):
    return subprocess.run(["git", "show", f"{commit}:{path}"], capture_output=True, text=True, check=True).stdout


def files(commit):
    out = subprocess.run(["git", "ls-tree", "-r", "--name-only", commit, "crates"], capture_output=True, text=True, check=True).stdout
    return [p for p in out.split("\n") if "/src/" in p and p.endswith(".rt")]


def signatures(text):
    """Each `fn` or struct with what stands in its first brackets, on one line."""
    for m in re.finditer(r"^( *)(pub(\(crate\))? )?((unsafe\(no_mangle\) )?extern \"C\" )?(fn|struct) \w+", text, re.M):
        end = re.compile(r"\n\s*(requires|ensures|\{)|\{\n|;\n").search(text, m.end())
        stop = end.start() if end else len(text)
        if m.group(6) == "struct":
            stop = text.find("\n}", m.end())
        yield text.count("\n", 0, m.start()) + 1, re.sub(r"\s+", " ", text[m.start():stop]).strip()


def twins(commit, paths):
    """Names of functions and of types that stand in more than one crate or impl."""
    at = {}
    for p in paths:
        for i, line in enumerate(show(commit, p).split("\n"), 1):
            m = re.match(r"\s*(pub(\(crate\))? )?(extern \"C\" )?(fn|enum|struct|const) (\w+)", line)
            if m:
                at.setdefault((m.group(4), m.group(5)), []).append(f"{p}:{i}")
    for (kind, name), places in sorted(at.items()):
        if len(places) > 1:
            yield f"{kind} {name}", places


def main():
    commit = sys.argv[1]
    wanted = sys.argv[2:]
    paths = files(commit)
    found = {}
    for p in paths:
        text = show(commit, p)
        for name, pattern in LINES.items():
            for i, line in enumerate(text.split("\n"), 1):
                if not line.strip().startswith("//") and not line.strip().startswith("ghost") and re.search(pattern, line):
                    found.setdefault(name, []).append(f"{p}:{i}: {line.strip()}")
        for line, signature in signatures(text):
            for name, pattern in TOGETHER.items():
                if re.search(pattern, signature):
                    found.setdefault(name, []).append(f"{p}:{line}: {signature[:160]}")
    for name, places in twins(commit, paths):
        found.setdefault("2 names that stand more than once", []).append(name + "  " + "  ".join(places))
    for name in sorted(found):
        if not wanted or any(name.startswith(w) for w in wanted):
            print(f"{name}: {len(found[name])}")
            if wanted:
                for place in found[name]:
                    print("    " + place)


main()
