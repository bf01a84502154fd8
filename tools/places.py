#!/usr/bin/env python3
"""Counts in crates/*/src the places that docs/DESIGN-PASS.md speaks of, point by point.

    python3 tools/places.py [COMMIT] [--list POINT]

Without a commit the checkout as it stands. It goes by text: what it finds is a place to read, and what it cannot find by text (two functions
that say one thing in other words) the page names by hand."""
import argparse
import difflib
import itertools
import re
import subprocess
import tarfile
import tempfile
from collections import Counter, defaultdict
from pathlib import Path

ROOT = Path(__file__).resolve().parents[1]
ITEM = re.compile(r"^( *)(?:pub(?:\(\w+\))? )?(?:const )?(fn|enum|struct) (\w+)", re.M)


def uncommented(text):
    return re.sub(r"//[^\n]*", "", text)


def items(root):
    """Each fn, enum and struct of src/: where it is, its kind and name, and its text up to the brace that ends it."""
    for path in sorted(root.glob("crates/*/src/**/*.rt")):
        text = uncommented(path.read_text())
        for found in ITEM.finditer(text):
            end = text.find(f"\n{found[1]}}}", found.start())
            line_end = text.find("\n", found.start())
            if found[2] == "struct" and ";" in text[found.start():line_end]:
                end = line_end
            if end >= 0:
                yield f"{path.parts[-3]}/{path.name}: {found[3]}", found[2], text[found.start():end + len(found[1]) + 2]


def body(text):
    at = re.search(r"^ *\{", text, re.M) or re.search(r"\{$", text, re.M)
    return text[at.start():] if at else ""


def head(text):
    return text[:len(text) - len(body(text))]


def variants(text):
    inside = text[text.find("{") + 1:text.rfind("}")]
    flat = re.sub(r"\{[^{}]*\}", "()", inside)
    return [part.strip() for part in re.split(r",(?![^()]*\))", flat) if part.strip()]


def shaped(things):
    """1: enums of the shape of Option or Result: a value or an end, or one word for done beside words for why not."""
    results = "\n".join(head(text) for _, kind, text in things if kind == "fn")
    for where, kind, text in things:
        if kind == "enum":
            cases = variants(text)
            bare = [case for case in cases if "(" not in case]
            name = where.split()[-1]
            used = re.search(rf"-> (?:Self|{name})\b", results) or len(cases) == 2
            pair = len(cases) == 2 and len(bare) < 2
            refusing = any(re.match(r"Refuse", case) for case in cases) and len(cases) <= 3
            told = 2 < len(cases) + 1 <= 6 and used and re.search(r"WrongSize|WrongLength|TooMany\b|Outside|Full\b", text)
            if pair or refusing or told:
                yield where


def flags(things):
    """1: fields that are a flag."""
    for where, kind, text in things:
        if kind == "struct":
            for field in re.findall(r"(\w+): bool", text):
                yield f"{where}.{field}"


def numbered(things):
    """1: numbers for kinds or refusals: a match from cases to numbers or from numbers to cases, a variant with a number for a refusal."""
    for where, kind, text in things:
        if kind == "fn" and len(re.findall(r"(?:\) |\} |\w )=> \d+,|^\s*\d+ => \w", text, re.M)) > 1:
            yield where
        if kind == "enum" and re.search(r"(?:Refused|NoJob)\(u64\)", text):
            yield where


def twins(things):
    """2: pairs of functions whose bodies are the same but for names, numbers and types."""
    plain = []
    for where, kind, text in things:
        code = body(text)
        if kind == "fn" and len(code.splitlines()) > 4:
            names = {}
            words = re.findall(r"\w+|[^\w\s]", code)
            plain.append((where, [names.setdefault(w, f"n{len(names)}") if re.match(r"\w", w) and w not in KEPT else w for w in words]))
    for (a, x), (b, y) in itertools.combinations(plain, 2):
        if 0.8 < len(x) / len(y) < 1.25:
            match = difflib.SequenceMatcher(None, x, y, autojunk=False)
            if match.quick_ratio() > 0.93 and match.ratio() > 0.93:
                yield f"{a} / {b.split('/', 1)[0]}: {b.split()[-1]}"


KEPT = {"if", "else", "for", "in", "while", "match", "return", "let", "mut", "true", "false", "as"}


def counted(things):
    """3: loops that count: a while, and a for over numbers that only serve as places."""
    for where, kind, text in things:
        if kind == "fn":
            code = body(text)
            for _ in re.findall(r"\bwhile\b(?! let)", code):
                yield where
            for name, block in re.findall(r"for (\w+) in [^{]*\.\.[^{]*\{(.*)", code, re.S):
                if name != "_" and re.search(rf"\[[^\]]*\b{name}\b", block):
                    yield where


def handwritten(things):
    """4: tests, conversions and copies written out: a match to true and false, cases to numbers, a struct copied field by field."""
    for where, kind, text in things:
        if kind == "fn":
            code = body(text)
            arms = re.findall(r"=> ([^\n,]+),", code)
            if len(arms) > 1 and set(arms) <= {"true", "false"}:
                yield where
            copies = re.findall(r"let (\w+) = \w+\.\1;", code) + re.findall(r"\b(\w+): \w+\.\1,", code)
            if len(copies) > 3:
                yield where


def repeated(things):
    """5: a fact that stands in the contracts of three or more functions of a crate."""
    facts = defaultdict(set)
    for where, kind, text in things:
        if kind == "fn":
            for clause in re.findall(r"requires(?: \w+)? \{(.*)\}", head(text)):
                for fact in re.split(r" × ", re.sub(r"[()]", "", clause)):
                    facts[where.split("/")[0], re.sub(r"\.(old|now|new)\b", "", fact.strip())].add(where)
    for (crate, fact), places in sorted(facts.items()):
        if len(places) > 2:
            yield f"{crate}: {fact} ({len(places)} functions)"


def together(things):
    """5: two parameters that travel together through five or more functions of a crate."""
    pairs = defaultdict(set)
    for where, kind, text in things:
        if kind == "fn":
            params = re.findall(r"(\w+): ([^,()]+(?:\([^)]*\))?)", head(text).split("requires")[0].split("ensures")[0].split("->")[0])
            for pair in itertools.combinations([f"{name}: {kind_.strip()}" for name, kind_ in params], 2):
                pairs[where.split("/")[0], pair].add(where)
    for (crate, pair), places in sorted(pairs.items()):
        if len(places) > 4:
            yield f"{crate}: {', '.join(pair)} ({len(places)} functions)"


def buffers(things):
    """6: a slice or an array with a length or a place beside it."""
    for where, kind, text in things:
        if kind == "fn" and re.search(r"\b\w+: &(?:mut )?\[\w+\]", head(text)) and re.search(r"\b(?:place|count|at|len|length): (?:usize|Place)", head(text)):
            yield where


def switched(things):
    """7: a switch on a number or a case that picks which function runs."""
    for where, kind, text in things:
        if kind == "fn":
            calls = re.findall(r"^\s+(?:\w+ \| )*[\w:]+(?:\([^)]*\))? => (?:\w+::)*[a-z]\w*\(", body(text), re.M)
            if len(calls) > 2:
                yield where


POINTS = [("1 shaped like Option or Result", shaped), ("1 flags", flags), ("1 numbers for kinds", numbered), ("2 twins", twins), ("3 counted loops", counted),
          ("4 written by hand", handwritten), ("5 facts repeated", repeated), ("5 parameters together", together), ("6 buffers with a length", buffers),
          ("7 switches", switched)]


def answers(root):
    """8: answers and lemmas in proofs/."""
    told = sum(len(re.findall(r"^pub ", path.read_text(), re.M)) for path in root.glob("crates/*/proofs/**/Answers.antt"))
    lemmas = sum(len(re.findall(r"^ *(?:pub )?[^\s:]+ :", path.read_text(), re.M)) for path in root.glob("crates/*/proofs/**/*.antt") if path.name not in ("Answers.antt", "Invariants.antt"))
    return told, lemmas


def main():
    asked = argparse.ArgumentParser(description=__doc__.split("\n")[0])
    asked.add_argument("commit", nargs="?")
    asked.add_argument("--list", metavar="POINT", help="the places of the points that begin so, one a line")
    given = asked.parse_args()
    with tempfile.TemporaryDirectory() as folder:
        root = ROOT
        if given.commit:
            root = Path(folder)
            packed = subprocess.Popen(["git", "-C", str(ROOT), "archive", given.commit, "crates"], stdout=subprocess.PIPE)
            tarfile.open(fileobj=packed.stdout, mode="r|").extractall(root)
        things = list(items(root))
        for name, find in POINTS:
            places = list(find(things))
            crates = Counter(re.split("[/:]", place)[0] for place in places)
            print(f"{name}: {len(places)} ({', '.join(f'{crate} {n}' for crate, n in crates.items())})")
            if given.list and name.startswith(given.list):
                print(*(f"    {place}" for place in places), sep="\n")
        print("8 answers, and lemmas beside them: {}, {}".format(*answers(root)))


if __name__ == "__main__":
    main()
