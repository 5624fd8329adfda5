#!/usr/bin/env python3
"""Count, in crates/*/src, the places that docs/DESIGN-PASS.md speaks of: python3 tools/forms.py [POINT ..] prints each place."""
import collections
import pathlib
import re
import sys

ROOT = pathlib.Path(__file__).resolve().parent.parent
SOURCES = sorted(ROOT.glob("crates/*/src/**/*.rt"))


def lines(pattern):
    """Each line of code that has the pattern, with its file and number."""
    for path in SOURCES:
        for number, line in enumerate(path.read_text().splitlines(), 1):
            code = line.split("//")[0]
            if re.search(pattern, code):
                yield f"{path.relative_to(ROOT)}:{number}: {line.strip()}"


def functions():
    """Each function: file, name, the text of its signature, the text of its clauses, and its body."""
    head = re.compile(r"^( *)(?:pub(?:\(\w+\))? )?(?:extern \"C\" )?fn (\w+)", re.M)
    for path in SOURCES:
        text = re.sub(r"//.*", "", path.read_text())
        for found in head.finditer(text):
            indent = found[1]
            body = re.search(r"\n" + indent + r"\{\n(.*?)\n" + indent + r"\}", text[found.start():], re.S)
            one = re.search(r"\{\n(.*?)\n" + indent + r"\}", text[found.start():], re.S)
            use = body or one
            if use:
                before = text[found.start():found.start() + use.start()]
                yield path.relative_to(ROOT), found[2], before, use[1]


def shaped():
    """Functions whose bodies are the same but for names and numbers, where they have two statements or more."""
    groups = collections.defaultdict(list)
    for path, name, _, body in functions():
        shape = re.sub(r"\b\d\w*|\b[A-Za-z_]\w*", "x", re.sub(r"\s+", " ", body))
        if len(shape) > 40:
            groups[shape].append(f"{path}: {name}")
    for names in groups.values():
        if len(names) > 1:
            yield ", ".join(names)


def repeated_facts():
    """Parts of clauses that stand, but for names of variables, in three contracts of a crate or more."""
    facts = collections.defaultdict(set)
    for path, name, before, _ in functions():
        for clause in re.findall(r"\b(?:requires|ensures)\b[\w ]*\{(.*?)\}(?=\s*(?:requires|ensures|$))", before, re.S):
            for part in clause.split("×"):
                fact = re.sub(r"\s+", " ", part).strip(" ()")
                word = re.match(r"[A-Z]\w+", fact)
                facts[f"{path.parts[1]}: {word[0] + ' ..' if word else fact}"].add(name)
    for fact, names in sorted(facts.items()):
        if len(names) > 2:
            yield f"{fact} ({len(names)})"


def parameters():
    """Two or more parameters, by name and type, that three functions of a crate or more take side by side."""
    pairs = collections.defaultdict(set)
    for path, name, before, _ in functions():
        inside = re.search(r"\((.*?)\)\s*(?:->|$|requires|ensures|where)", re.sub(r"\s+", " ", before))
        if inside:
            taken = [p.strip() for p in re.split(r",(?![^\[<(]*[\]>)])", inside[1]) if ":" in p]
            for one, other in zip(taken, taken[1:]):
                pairs[f"{path.parts[1]}: {one}, {other}"].add(name)
    for pair, names in sorted(pairs.items()):
        if len(names) > 2:
            yield f"{pair} ({len(names)})"


POINTS = {
    "1 enums": lambda: lines(r"^\s*(pub )?enum "),
    "1 flags and numbers beside values": lambda: lines(r"^\s*(pub )?(present|bad|more|fits?|number): (bool|u32),"),
    "1 answers that are a number of none": lambda: lines(r"fn \w*(refusal|refuse|number|kind|first_other)\w*(<.*>)?\(.*-> u(8|16|32|64)\b"),
    "1 kinds and operations as numbers": lambda: lines(r"\b(kind|next|operation|group): u(8|32|64)\b"),
    "2 functions alike but for names and numbers": shaped,
    "3 loops by while": lambda: lines(r"^\s*('\w+: )?while "),
    "3 loops over a range": lambda: lines(r"^\s*('\w+: )?for \w+ in [^.]*\.\."),
    "4 own functions that convert, compare, copy or print": lambda: lines(
        r"fn (wide|byte|flag_byte|clip|kind_of|kind_number|letter_of|larger|least|together|begins_with|text_len|same|copy|within|room|value|number_of\w*)\b"),
    "5 facts in three contracts": repeated_facts,
    "5 parameters side by side in three functions": parameters,
    "6 buffers with a length beside": lambda: lines(r"&(mut )?\w+\[\.\.(len|k|n)\]"),
    "6 arrays side by side": lambda: lines(r"^\s*(pub )?(at|width): Columns,|^\s*(pub )?(file|chunk|word): \["),
    "7 switches on a step": lambda: lines(r"match (op|operation|group)\b"),
}


def main():
    for point, places in POINTS.items():
        if not sys.argv[1:] or point[0] in sys.argv[1:]:
            found = list(places())
            print(f"== {point}: {len(found)}")
            if sys.argv[1:]:
                print("\n".join(found))


main()
