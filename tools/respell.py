#!/usr/bin/env python3
"""Brings this repository's own definitions and lemmas to the spelling of today's Rattle: words in snake case, types and modules in
camel case. It ran once, after the kit's port.py, in the commit that docs/PORT.md names.

usage: tools/respell.py [--list]        at the top of the repository

A name is respelled where specs/ or proofs/ define it; what Rattle generates (the goals of a function, its steps) is not touched,
nor is anything in src/ outside of clauses and comments. --list prints each old and new name and changes nothing.
"""
import glob
import json
import os
import re
import sys

WORD = r"[^\s(){}\[\].,;@\"`:|]+"
DEFINED = re.compile(r"^(\s*)((?:(?:abbrev|unfoldable|pub|transparent|opaque)\s+)*)(" + WORD + r")\s+:(?:\s|$)")
GENERATED = re.compile(r"^\s*(?:(?:abbrev|pub)\s+)*" + WORD + r"\s+:\s+(?:tie|goal)\.")

# Two names that would fall together with another one, or read badly; the rest follow the rule in `snake`.
SPECIAL = {
    # the definition that `go_on` meets; Twins has a case of that name
    "goOn": "go_on_of",
    # the Rust's word; the setting is called newton_tol
    "newtonTol": "newton_tol_val",
    # a case of Exchange beside the test `is_refused`
    "is-refused": "is_refused_call",
    # lemmas that would have their definition's name
    "factoring-told": "factoring_told_lem",
    "first-from": "first_from_lem",
    "form-read": "form_read_lem",
    "is-nan": "is_nan_lem",
    "is-rejected": "is_rejected_lem",
    "jacobian-stored": "jacobian_stored_lem",
    "pivot-outside": "pivot_outside_lem",
    "places-within": "places_within_lem",
    "products-turn": "products_turn_lem",
    "solution-told": "solution_told_lem",
    "start-asked": "start_asked_lem",
    "stage-by-rows": "stage_by_rows_lem",
    "start-line": "start_line_lem",
}

# The same where port.py had already respelled the lemma, and only in that file.
SPECIAL_IN = {
    "crates/roots/specs/laws/Patterns.antt": {"units_of": "units_of_lem"},
    "crates/job/specs/laws/PackedLaws.antt": {"head_read": "head_read_lem"},
    "crates/listing/proofs/answer/answer_line/Proof.antt": {"step_line": "step_line_lem"},
    "crates/render/specs/laws/PastLaws.antt": {"first_past": "first_past_lem"},
}


def snake(name):
    """absOf -> abs_of, is-number -> is_number, lu-is-LU stays in its capitals; a type keeps its own spelling."""
    if name in SPECIAL:
        return SPECIAL[name]
    parts = []
    for part in name.split("-"):
        if part[:1].isupper():
            parts.append(part)
            continue
        parts.append(re.sub(r"(?<=[a-z0-9])[A-Z]", lambda m: "_" + m.group(0).lower(), part))
    out = parts[0]
    for before, after in zip(parts, parts[1:]):
        joined_to_a_type = before[:1].isupper() or after[:1].isupper()
        out += ("-" if joined_to_a_type else "_") + after
    return out


def ours():
    return sorted(p for kind in ("specs", "proofs") for p in glob.glob(f"crates/*/{kind}/**/*.antt", recursive=True))


def names():
    found = {}
    for path in ours():
        with open(path, encoding="utf-8") as f:
            lines = f.read().split("\n")
        for line in lines:
            if line.lstrip().startswith("--") or GENERATED.match(line):
                continue
            m = DEFINED.match(line)
            if m and re.match(r"[A-Za-z]", m.group(3)):
                found.setdefault(m.group(3), path)
            for word in re.findall(r"(?<![^\s(){}\[\].,;@|λ])[a-z][a-z0-9]*[A-Z][A-Za-z0-9]*(?![^\s(){}\[\].,;@'|])", line):
                found.setdefault(word, path)
    return {n: snake(n) for n in found if snake(n) != n}


# Facts of one crate that were spelled as values.
FACTS = {"roots": {"placed": "IsPlaced", "settled": "IsSettled"}}


def facts(path, text, mark):
    """The facts of the file's crate as types, outside of comments, where the same word is an English one."""
    own = FACTS.get(path.split("/")[1])
    if not own:
        return text
    word = re.compile(BOUND + "(" + "|".join(own) + ")" + AFTER)
    out = []
    for line in text.split("\n"):
        head, found, comment = line.partition(mark)
        out.append(word.sub(lambda m: own[m.group(1)], head) + found + comment)
    return "\n".join(out)


BOUND = r"(?<![^\s(){}\[\].,;@\"`:|λ←])"
AFTER = r"(?![^\s(){}\[\].,;@\"`:|])"


def replacer(table):
    alternatives = "|".join(re.escape(n) for n in sorted(table, key=len, reverse=True))
    word = re.compile(BOUND + "(" + alternatives + ")" + AFTER)
    return lambda text: word.sub(lambda m: table[m.group(1)], text)


def main():
    table = names()
    if "--list" in sys.argv:
        for old in sorted(table):
            print(old, table[old])
        return
    antt = replacer(table)
    special = {path: replacer({**table, **here}) for path, here in SPECIAL_IN.items()}
    camel = replacer({o: n for o, n in table.items() if "-" not in o})
    for path in ours():
        rewrite(path, lambda text: facts(path, choice(same_alias(special.get(path, antt)(text))), "-- "))
    for path in glob.glob("crates/*/src/**/*.rt", recursive=True):
        rewrite(path, lambda text: facts(path, source(text, antt), "// "))
    for path in glob.glob("crates/*/must-fail/*.edit"):
        rewrite(path, lambda text: edit(text, antt))
    for path in ["README.md"] + glob.glob("docs/*.md"):
        rewrite(path, lambda text: page(text, antt, camel))


# A name that a `ghost use` brings under another one.
CAMEL = re.compile(r"(?<![\w.])[a-z][a-z0-9]*[A-Z]\w*")


def source(text, antt):
    """Clauses, imports and comments; code and strings not at all."""
    out, depth = [], 0
    for line in text.split("\n"):
        bare = line.lstrip()
        if bare.startswith("//"):
            out.append(antt(line))
        elif bare.startswith("ghost ") or re.match(r"(requires|ensures|invariant|decreases)\b", bare) or depth > 0:
            if depth == 0:
                depth = line.count("{") - line.count("}")
            else:
                depth += line.count("{") - line.count("}")
            out.append(choice(CAMEL.sub(lambda m: snake(m.group(0)), antt(line))))
        else:
            head, mark, comment = line.partition(" // ")
            out.append(head + mark + antt(comment))
    return "\n".join(out)


# The shut choice of loops/specs/Choice.antt: the library has an `if◌then◌else◌` of its own, which unfolds, and a name of the library's
# stands for nothing else.
CHOICE = re.compile(r"(?<![\w.'\-])if(?![\w'\-])")


def choice(text):
    """`if b then x else y` of loops as `when b then x else y`, outside of comments."""
    out = []
    for line in text.split("\n"):
        head, mark, comment = line.partition("-- ") if "-- " in line else (line, "", "")
        out.append(CHOICE.sub("when", head) + mark + comment)
    return "\n".join(out)


def same_alias(text):
    return re.sub(r"(?m)^(?:pub )?use .*$", lambda line: re.sub(r"\b(\w+) as \1\b", r"\1", line.group(0)), text)


# What port.py does to a line of specs/, for the lines of an edit, which it leaves.
AS_PORTED = [
    (r"(?<=[\w)»]) \.(?=[a-z«0-9])", "."),
    (r"«(\w+)»", r"\1"),
    (r"(?<![\w◌])_(&&|\|\||\+|-|<|≤|≡|\+\+|∷)_(?![\w◌])", "◌\\1◌"),
    (r"\bgetD\b", "get_or"),
    (r"(?<![\w.])([a-z][a-z0-9]*[A-Z][A-Za-z0-9]*)(?![\w])", lambda m: snake(m.group(1))),
    (r"\(([a-z]\w*(?:\.[a-z]\w*)+)\)", r"\1"),
    (r"(?<=Ieee\.)([a-z]\w*)", lambda m: snake(m.group(1))),
]


def edit(text, antt):
    """The lines of a must-fail edit of specs/; an edit of src/ stands as it was."""
    if not re.search(r"^file: specs/", text, re.M):
        return text
    out = []
    for line in text.split("\n"):
        if line.startswith(("old: ", "new: ")):
            line = antt(line)
            for pattern, by in AS_PORTED:
                line = line[:5] + re.sub(pattern, by, line[5:])
            line = choice(line)
        out.append(line)
    return "\n".join(out)


def page(text, antt, camel):
    """In a page: names in `backquotes` or in an indented listing, and those that no English word is spelled like."""
    text = re.sub(r"`[^`\n]+`", lambda m: "`" + antt(m.group(0)[1:-1]) + "`", text)
    return "\n".join(antt(line) if line.startswith("    ") else camel(line) for line in text.split("\n"))


def rewrite(path, turn):
    with open(path, encoding="utf-8") as f:
        before = f.read()
    after = turn(before)
    if after != before:
        with open(path, "w", encoding="utf-8") as f:
            f.write(after)


if __name__ == "__main__":
    main()
