#!/usr/bin/env python3
"""Brings the repository's own definitions and lemmas to the spelling of today's Rattle: words in snake case.

usage: python3 tools/respell.py        once, at the top, right after port.py ran

What is renamed: each name in lower camel case or with dashes that an .antt file of crates/ declares (a definition, a lemma, a
constructor, a field, a local name, a module's short name), and nothing that the kit declares. Where a lemma or field would get
the name of a definition, it gets _lem after it (TWICE has those that are already written so). Functions, structs and fields of src/,
strings, comments of the source and exported names stay. In comments, a name in lower camel case is renamed, and one with dashes only
between backticks.
"""

import collections
import glob
import re

W = r"[^\s(){}.;,@\"«»\[\]\\|:]+"
# A file, a name that is in snake case already, and what it becomes, since a definition of that file gets its name.
TWICE = [
    ("crates/correspondence/proofs/*.antt", "cut_off", "ended_cut_off"),
    ("crates/correspondence/specs/Meaning.antt", "item_count", "item_count_lem"),
    ("crates/correspondence/proofs/*.antt", "item_count", "item_count_lem"),
    ("crates/correspondence/proofs/Moved.antt", "no_name", "is_no_name"),
    ("crates/value_check/proofs/Reading.antt", "no_name", "no_name_lem"),
    ("crates/correspondence/proofs/KindByKind.antt", "put_item", "put_item_lem"),
    ("crates/correspondence/proofs/KindByKind.antt", "put_local", "put_local_lem"),
    ("crates/turn/proofs/Steps.antt", "put_item", "put_item_lem"),
    ("crates/turn/proofs/Steps.antt", "put_local", "put_local_lem"),
    ("crates/run/proofs/Runs.antt", "rest_in", "rest_in_lem"),
    ("crates/accept/specs/HeaderPassed.antt", "size_ok", "size_ok_lem"),
    ("crates/accept/proofs/Verdicts.antt", "size_ok", "size_ok_lem"),
    ("crates/order_check/proofs/LineOrder.antt", "stay_rows", "stay_rows_lem"),
    ("crates/text_size/proofs/Formulas.antt", "test_word", "test_word_lem"),
    ("crates/delivered/specs/Delivered.antt", "pub listing_text", "pub listing_text_spec"),
    ("crates/delivered/proofs/Delivered.antt", "listing_text =", "listing_text_spec ="),
]
# Names with dashes that get another name than the rule's.
OTHERS = {"smt-text": "smt_text_spec", "formula-text": "formula_text_lem", "term-text": "term_text_lem"}


# Names that are declared several on a line.
MORE = ["aVariable", "aConstant", "aChoice", "aNegation", "noText"]


def snake(name):
    return re.sub(r"([a-z0-9])([A-Z])", r"\1_\2", name).replace("-", "_").lower()


def turnable(name):
    return bool(re.fullmatch(r"[a-z][\w'\-]*", name)) and ("-" in name or name != name.lower())


def read(path):
    with open(path, encoding="utf-8", newline="") as it:
        return it.read()


def declared(path, text):
    """The names that a file declares, and those of them that are definitions."""
    names, definitions = set(), set()
    for line in text.split("\n"):
        if re.match(r"\s*--", line):
            continue
        m = re.match(r"\s*(?:pub )?use .* as (" + W + r")\s*$", line)
        if m:
            names.add(m.group(1))
        if re.match(r"\s*(pub )?(use|mod) ", line) or ": tie." in line:
            continue
        m = re.match(r"(\s*)((?:abbrev|unfoldable|opaque) )?(?:pub )?(" + W + r")\s*(?:[({].*)?:(?:\s|$)", line)
        if m:
            names.add(m.group(3))
            if m.group(2) or not m.group(1) and "-" not in m.group(3) and m.group(3) != m.group(3).lower():
                definitions.add(m.group(3))
        for m in re.finditer(r"\blet (" + W + r")\s*[:=]", line):
            names.add(m.group(1))
        for m in re.finditer(r"[({]([^\s(){}.;,@\"«»\[\]\\|:][^(){}.;,@\"«»\[\]\\|:]*):\s", line):
            names.update(m.group(1).split())
        for m in re.finditer(r"λ([^(){}.;,@\"«»\[\]\\|:]*)\.", line):
            names.update(m.group(1).split())
    return names, definitions


def of_the_kit(texts):
    names = set()
    for text in texts:
        for m in re.finditer(r"use ([\w.']+)\.\{([^}]*)\}", text):
            if not re.match(r"Rattle\.(?!std\b|core\b|std_)", m.group(1)):
                names.update(it.strip().split(" as ")[0] for it in m.group(2).split(","))
    return names


def main():
    antt = sorted(glob.glob("crates/*/**/*.antt", recursive=True))
    source = sorted(glob.glob("crates/*/src/**/*.rt", recursive=True))
    texts = {path: read(path) for path in antt + source}
    kit = of_the_kit(texts.values())
    names, definitions = set(MORE), set(MORE)
    for path in antt:
        more, these = declared(path, texts[path])
        names |= more
        definitions |= these
    turned = {it: snake(it) for it in names if turnable(it) and it not in kit and not it.endswith("-spec")}
    taken = {snake(it) for it in definitions}
    for name in turned:
        if "-" in name and turned[name] in taken:
            turned[name] += "_lem"
    turned.update((a, b) for a, b in OTHERS.items() if a in turned)
    by_name = collections.defaultdict(set)
    for old, new in turned.items():
        by_name[new].add(old)
    for new, olds in sorted(by_name.items()):
        if len(olds) > 1 or new in names - set(turned) and new in taken:
            print(f"fall together: {new}: {' '.join(sorted(olds))}{' and itself' if new in names else ''}")

    step = re.compile(r"\.(ensures|result|new|old|requires|true|false|is|invariant|auto|branch|initial|now)\b")
    twice = [(set(glob.glob(where)), old, to) for where, old, to in TWICE]
    token = re.compile(r"--[^\n]*|//[^\n]*|\"(?:[^\"\\\n]|\\.)*\"|" + W)

    def written(text, walk):
        def one(m):
            it = m.group(0)
            if it.startswith(("--", "//")):
                it = re.sub(r"`[^`\n]*`", lambda n: re.sub(W, lambda o: turned.get(o.group(0), o.group(0)), n.group(0)), it)
                return re.sub(r"(?<![\w'\-])[a-z][a-z0-9]*[A-Z][\w']*", lambda n: turned.get(n.group(0), n.group(0)), it)
            if it.startswith('"') or it not in turned:
                return it
            # A step of a function's proof, which has the name of what is called there.
            if walk and text[m.start() - 1] == "." and step.match(text, m.end()):
                return it
            return turned[it]

        return token.sub(one, text)

    for path, text in texts.items():
        new = text
        for where, old, to in twice:
            if path in where:
                new = re.sub(r"(?<![\w'\-])" + old + r"(?![\w'\-])", to, new)
        new = written(new, path.endswith("/Proof.antt"))
        if new != text:
            with open(path, "w", encoding="utf-8", newline="") as it:
                it.write(new)
    with open("tools/respelled.txt", "w", encoding="utf-8") as it:
        it.write("".join(f"{a} {b}\n" for a, b in sorted(turned.items())))


main()
