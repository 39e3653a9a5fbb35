#!/usr/bin/env python3
"""Brings this repository's own definitions and lemmas to the spelling of today's Rattle.

usage: python3 tools/respell.py            at the top of the repository, once, after the toolchain's port.py

Words are in snake case: a definition in lower camel case, as `sheetRefusal`, becomes `sheet_refusal`, and a dash becomes `_`, as in `no-terminal`. A dash stays
where it joins two definitions, as in `length-tabulate`. Types, modules and constructors keep their spelling, and so do functions of src/, their parameters, exported
names, strings, inputs and outputs. Names of the library are not touched, nor what one Proof.antt alone defines. The must-fail edits and the pages follow: in
edits the operators and paths of clauses are turned too, since no script of the toolchain reads them.

The script stops before it writes anything where a new name is in use already.
"""

import os
import re
import subprocess
import sys

IDENT = r"[^\s(){}\[\].,;:λ→×∷⌜⌝\"@≡◌]+"
DEFINITION = re.compile(r"^\s*(?:(?:pub|abbrev|unfoldable|private|mutual)\s+)*(" + IDENT + r"(?:\s+" + IDENT + r")*)\s*:\s")
KEYWORDS = {"use", "let", "open", "module", "mod", "import", "in", "rw", "record", "data", "syntax", "elim", "unfolding", "infix", "infixl", "infixr"}
# Lemmas that bear the new name of a definition already: the files where each becomes `NAME_lem`.
LEMMAS = {
    "entry_in": ["crates/entries/proofs/Entries.antt", "crates/evaluation/proofs/Entries.antt"],
    "head_bytes": ["crates/making/proofs/Finishing.antt"],
    "is_one": ["crates/terms/proofs/Automaton/Bits.antt"],
    "kind_fits": ["crates/terms/proofs/Form/Fields.antt", "crates/terms/proofs/Form/Bytes.antt"],
    "node_stays": ["crates/cleaning/proofs/Sifting.antt"],
    "open_step": ["crates/blackboard_terms/proofs/Open.antt", "crates/blackboard_terms/proofs/Fit.antt", "crates/blackboard_terms/proofs/Sheet.antt", "crates/transitions/proofs/Node.antt", "crates/transitions/proofs/step/step_open/Proof.antt"],
    "rule_fits": ["crates/entries/proofs/OfRule.antt", "crates/terms/proofs/Form/Fields.antt"],
    "slot_of": ["crates/writing/proofs/write/+write_part_write_rule_write_slots/Proof/Measure.antt"],
    "size_number": ["crates/mark_line/proofs/Sized.antt"],
}
# Names that the rules below would spell wrongly, or as another name.
SPECIAL = {"getD-behind": "get_or-behind", "nodes-of": "rule_nodes", "side-of": "side_of_lem"}
# Fields of different records that become one word.
SHARED = {"automaton_passes"}
LIBRARY = {"length", "take", "drop", "append", "get_or", "getD", "set", "replicate", "map", "reverse", "sum", "any", "all"}
# A token of a proof file or a clause.
TOKEN = re.compile(r"[^\s(){}\[\].,;`\"]+")


def files(*endings):
    listed = subprocess.run(["git", "ls-files", "-co", "--exclude-standard"], capture_output=True, text=True, check=True).stdout.splitlines()
    return [p for p in listed if p.endswith(endings) and os.path.isfile(p)]


def read(path):
    with open(path, encoding="utf-8") as f:
        return f.read()


def defined_in(path):
    names = set()
    for line in read(path).splitlines():
        words = line.split()
        if not words or words[0].startswith("--") or words[0] in KEYWORDS:
            continue
        m = DEFINITION.match(line)
        if m:
            names.update(n for n in m.group(1).split() if n not in KEYWORDS)
    return names


def snake(name):
    return re.sub(r"(?<=[a-z0-9])([A-Z])", lambda m: "_" + m.group(1).lower(), name)


def new_name(name, definitions):
    """The name in today's spelling."""
    if name in SPECIAL:
        return SPECIAL[name]
    parts = name.split("-")
    told = [snake(p) if re.match(r"[a-zδμ]", p) else p for p in parts]
    if len(parts) == 2 and all(p in definitions or p in LIBRARY for p in parts):
        return "-".join(told)
    return "_".join(told)


def renaming():
    """Each name that changes, with its new one. A lemma that would take a definition's name ends in `_lem`."""
    antt = [p for p in files(".antt") if p.startswith("crates/")]
    shared = [p for p in antt if os.path.basename(p) != "Proof.antt"]
    names = set().union(*(defined_in(p) for p in shared))
    definitions = set().union(*(defined_in(p) for p in shared if "/specs/" in p))
    table = {}
    for name in sorted(names):
        if re.match(r"[a-zδμ]", name) and not re.fullmatch(r"[a-z]'?", name):
            new = new_name(name, definitions)
            if new != name:
                table[name] = new
    taken = {table.get(n, n) for n in definitions}
    for name, new in table.items():
        if name not in definitions and new in taken:
            table[name] = new + "_lem"
    return table, antt, shared


def collisions(table, antt, shared):
    """New names that are in use, or that two names share."""
    tokens = {}
    for p in shared:
        if p.endswith(".antt"):
            text = re.sub(r"(?m)^\s*--.*$", "", read(p))
            for t in re.findall(r"(?<![\w.'-])[^\s(){}\[\].,;`\"]+", text):
                tokens.setdefault(t, set()).add(p)
    bad, back = [], {}
    for name, new in table.items():
        if new in back and new not in SHARED:
            bad.append(f"{name} and {back[new]} both become {new}")
        back[new] = name
        where = tokens.get(new, set()) - set(LEMMAS.get(new, []))
        if where:
            bad.append(f"{name} becomes {new}, which stands in {sorted(where)[0]}")
    return bad


def turned(text, table):
    return TOKEN.sub(lambda m: table.get(m.group(0), m.group(0)), text)


def turned_lemmas(path, text):
    for name, where in LEMMAS.items():
        if path in where:
            text = re.sub(r"(?<![\w.'-])" + name + r"(?![\w'-])", name + "_lem", text)
    return text


def by_the_toolchain(text, names):
    """Own definitions and lemmas that the toolchain's script has turned already, where an edit or a page still has the old name."""

    def new(m):
        told = snake(m.group(0)) if re.match(r"[a-z]\w*[A-Z]", m.group(0)) else m.group(0).replace("-", "_")
        return told if told in names and m.group(0) not in names else m.group(0)

    return TOKEN.sub(new, text)


def turned_edit(text, table, names):
    """An edit: its lines old and new in the new spelling; in clauses the operators and paths too."""
    out = []
    for line in text.split("\n"):
        m = re.match(r"(old|new): ?(.*)", line, re.S)
        if not m:
            out.append(line)
            continue
        body = by_the_toolchain(turned(m.group(2), table), names)
        body = re.sub(r"Rattle·(\w+)·(specs|proofs)\.\2(?![\w'-])", r"Rattle.\1.\2", body)
        body = re.sub(r"Rattle·(\w+)\.", r"Rattle.\1.", body)
        body = re.sub(r"(?<![\w'-])getD(?![\w'-])", "get_or", body).replace("′", "'")
        body = re.sub(r"(?<=[\w')]) \.(?=[a-zA-Z0-9])", ".", body)
        body = re.sub(r"\(([a-z][\w'-]*(?: [\w']+)+)\.([a-z][\w-]*)\)", r"(\1).\2", body)
        body = re.sub(r"(?<=[ (])\(([a-z]\w*'?(?:\.[a-z\d][\w-]*)+)\)", r"\1", body)
        body = re.sub(r"now \((\w+)\.entry\)", r"\1.old", body)
        body = re.sub(r"now \((\w+)\.exit\)", r"\1.new", body)
        out.append(f"{m.group(1)}: {body}")
    return "\n".join(out)


def turned_page(text, table, names):
    """A page: names between backquotes."""
    return re.sub(r"`[^`\n]+`", lambda m: by_the_toolchain(turned(m.group(0), table), names), text)


def write(path, text):
    if text != read(path):
        with open(path, "w", encoding="utf-8") as f:
            f.write(text)


def main():
    table, antt, shared = renaming()
    if "--list" in sys.argv:
        print("\n".join(f"{a} {b}" for a, b in sorted(table.items())))
    bad = collisions(table, antt, shared)
    if bad:
        print("\n".join(bad), file=sys.stderr)
    if bad or "--list" in sys.argv:
        return 1
    names = set().union(*(defined_in(p) for p in shared)) | set(table.values())
    for p in antt:
        write(p, turned(turned_lemmas(p, read(p)), table))
    for p in files(".rt"):
        write(p, turned(read(p), {a: b for a, b in table.items() if re.match(r"[a-z]\w*[A-Z]", a)}))
    for p in files(".edit"):
        write(p, turned_edit(read(p), table, names))
    for p in files(".md"):
        write(p, turned_page(read(p), table, names))
    return 0


if __name__ == "__main__":
    raise SystemExit(main())
