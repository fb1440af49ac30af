#!/usr/bin/env python3
"""Brings the repository's own definitions and lemmas to today's spelling: words in snake case, facts and types in camel case.

usage: respell.py [--list]

Run once, at the top of the repository, right after the kit's port.py. It reads the names that specs/ and the lemma files of proofs/ declare, and turns
them in specs/, proofs/, the clauses of src/, the must-fail edits, and the backticked words of README.md and docs/. Names of src/, strings, inputs and
outputs stay. --list prints the names and what they become, and changes nothing.
"""
import collections
import glob
import os
import re
import sys

# Names that would fall together with another one of the repository, or whose kind asks for more than other letters.
SPECIAL = {
    "A5h": "a5h",
    "Stopped": "stopped",
    "Operational": "operational",
    "PreOperational": "pre_operational",
    "preOperational": "pre_operational_core",
    "Both-as": "BothAs",
    "no_sub": "no_sub_lem",
    "is-nan": "is_nan_lem",
    "of-fields": "of_fields_lem",
}
# The same, in one file and those that take the name from there.
IN_FILES = {
    "crates/laws/proofs/OneValue.antt": {"At": "held_at"},
    "crates/reading/proofs/Twos.antt": {"Less": "less_one", "Read": "read_back"},
    "crates/reading/proofs/Patterns.antt": {"Exponent": "exponent_of", "Fraction": "fraction_of", "Negative": "is_negative"},
    "crates/settings/proofs/Alike.antt": {"four_bytes": "four_bytes_lem"},
    "crates/records/proofs/Fields.antt": {"with-c": "with_record_c", "with-a": "with_record_a"},
}
# NMT states and this number are turned where they are imported from model alone: variants of src/ have such names too.
FROM_MODEL = {"A5h", "Stopped", "Operational", "PreOperational"}

TOKEN = re.compile(r"[^\s(){}\[\],;.«»`]+")
DECLARED = re.compile(r"^(?:(?:abbrev|unfoldable|pub|data|record|ruleset) )*([^\s:(){}.]+) ?(?:[:({]|.*:)")
FIELD = re.compile(r"^  (?:pub )?([^\s:(){}.]+) : ")


def files(*patterns):
    return sorted(f for p in patterns for f in glob.glob(p, recursive=True))


def lemma_files():
    return [f for f in files("crates/*/specs/**/*.antt", "crates/*/proofs/**/*.antt") if not f.endswith("/Proof.antt")]


def declared():
    """The declared names, each with the files that declare it."""
    names = collections.defaultdict(set)
    for f in lemma_files():
        for line in open(f, encoding="utf-8"):
            if line.startswith(("--", "use ", "pub use", "mod ", "pub mod", "unfolding")):
                continue
            m = FIELD.match(line) if line.startswith(" ") else DECLARED.match(line)
            if m:
                names[m.group(1)].add(f)
    return names


def snake(name):
    return re.sub(r"([a-z0-9])([A-Z])", r"\1_\2", name.replace("-", "_")).lower()


def renamings():
    names = declared()
    turned = {}
    for name in names:
        if name in SPECIAL:
            turned[name] = SPECIAL[name]
        elif not name[0].isupper() and re.fullmatch(r"[A-Za-z0-9_'-]+", name) and snake(name) != name:
            turned[name] = snake(name)
    by_new = collections.defaultdict(list)
    for name in names:
        by_new[turned.get(name, name)].append(name)
    # a lemma that would have its function's name
    for new, olds in by_new.items():
        for old in olds if len(olds) > 1 else []:
            if "-" in old and old not in SPECIAL:
                turned[old] = new + "_lem"
    return turned


def turn(text, table):
    return TOKEN.sub(lambda m: table.get(m.group(0), m.group(0)), text)


def table_for(path, text, table):
    t = dict(table)
    for name in FROM_MODEL:
        if not re.search(r"specs\.(Parts|Validity)\.\{[^}]*\b" + name + r"\b", text) and not path.endswith(("model/specs/Parts.antt", "model/specs/Validity.antt")):
            t.pop(name, None)
    for line in re.findall(r"^(?:pub )?use (?!Rattle\.)(.*)$", text, re.M):
        for name in TOKEN.findall(line):
            t.pop(name, None)
    for owner, special in IN_FILES.items():
        module = owner.split("/")[-1][:-5]
        taken = re.search(r"proofs\." + module + r"\.\{([^}]*)\}", text) if "/" + owner.split("/")[1] + "/" in path else None
        for name, new in special.items():
            if path == owner or (taken and name in re.split(r"[,\s]+", taken.group(1))):
                t[name] = new
            elif name in t and name not in SPECIAL and len(declared_in(name)) == 1:
                t.pop(name)
    return t


NAMES = {}


def declared_in(name):
    if not NAMES:
        NAMES.update(declared())
    return NAMES.get(name, set())


def turn_source(text, table):
    """Source: the ghost use lines, the clauses, and what comments quote."""
    out, depth, inside = [], 0, False
    for line in text.split("\n"):
        starts = re.match(r"\s*(ghost use|pub ghost use|requires\*?|ensures\*?|ghost)\b", line)
        if starts or inside:
            out.append(turn(line, table))
            depth = (depth if inside else 0) + line.count("{") - line.count("}")
            inside = depth > 0
        else:
            out.append(turn(line, {k: v for k, v in table.items() if re.search(r"[a-z][A-Z]", k) and k[0].islower()}))
    return "\n".join(out)


def main():
    table = renamings()
    if "--list" in sys.argv:
        for old in sorted(table):
            print(old, table[old])
        return
    if not any(re.match(r"[a-z]+[A-Z]", name) and any("/specs/" in f for f in where) for name, where in declared().items()):
        sys.exit("respell: it has run here already")
    declared_in("")
    todo = []
    for f in files("crates/*/specs/**/*.antt", "crates/*/proofs/**/*.antt", "crates/*/src/**/*.rt", "crates/*/must-fail/*.edit", "README.md", "docs/*.md"):
        text = open(f, encoding="utf-8").read()
        t = table_for(f, text, table)
        if f.endswith(".rt"):
            new = turn_source(text, t)
        elif f.endswith(".md"):
            new = re.sub(r"`[^`\n]*`", lambda m: turn(m.group(0), {k: v for k, v in t.items() if "-" in k or re.search(r"[a-z][A-Z]", k)}), text)
        elif f.endswith(".edit"):
            new = "\n".join(turn(l, t) if l.startswith(("old:", "new:")) else l for l in text.split("\n"))
        else:
            spoken = {k: v for k, v in t.items() if k not in FROM_MODEL}
            new = "\n".join(turn(l, spoken if l.startswith("--") else t) for l in text.split("\n"))
        if new != text:
            todo.append((f, new))
    for f, new in todo:
        with open(f, "w", encoding="utf-8") as out:
            out.write(new)
    print(f"respell: {len(table)} names, {len(todo)} files")


if __name__ == "__main__":
    os.chdir(os.path.join(os.path.dirname(os.path.abspath(__file__)), ".."))
    main()
