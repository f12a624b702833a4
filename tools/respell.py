#!/usr/bin/env python3
"""Brings the repository's own definitions and lemmas to one spelling: words in snake case, types in camel case.

Run once, at the top of a checkout in the older spelling, after the kit's own port script (of a commit that has no tools/, from
another checkout). It reads which names specs/ and proofs/ define, and writes each of them anew wherever it stands: in .antt
files, in .rt files and must-fail edits but for their strings, and between backquotes in pages. Names that a proof gets from the
kit (goals, lemmas of its library) are left. respell.json has the names whose plain respelling stands for something else; some are
of work that had not landed. Where nothing is in the older spelling it does nothing. With --dry it only says what would fall together.
"""
import collections
import glob
import json
import os
import re
import sys

WORD = r"[^\W\d_][\w']*(?:-[\w']+)*"
TOKEN = re.compile(r"(?<![\w'-])" + WORD)
PATH = re.compile(r"(?<![\w'-])" + WORD + r"(?:\." + WORD + r")*")
DEFINED = re.compile(r"^\s*(?:(?:unfoldable|abbrev|pub|record|data|let)\s+)*((?:" + WORD + r"\s+)*" + WORD + r")\s*:(?!=)")
HEADED = re.compile(r"^\s*(?:pub\s+)?(?:record|data)\s+(" + WORD + r")")
GOALS = ("Answers.antt", "Invariants.antt", "Proof.antt")
CRATES = {os.path.basename(os.path.dirname(d)) for d in glob.glob("crates/*/")}
FUNCTIONS = set()
KEPT = {"pub", "unfoldable", "abbrev", "record", "data", "let", "where"}

# Names whose plain respelling stands for something else already.
OTHERWISE = json.load(open(os.path.join(os.path.dirname(os.path.abspath(__file__)), "respell.json")))


def own_files(pattern):
    return sorted(f for f in glob.glob(pattern, recursive=True) if "/out/" not in f)


def is_old(name):
    if "-" in name:
        return True
    return re.match(r"^[a-z][a-z0-9_']*[A-Z]", name) is not None


def respelt(name):
    if name in OTHERWISE:
        return OTHERWISE[name]
    parts = []
    for piece in name.split("-"):
        parts += [p for p in re.sub(r"(?<=[a-z0-9'])(?=[A-Z])", "_", piece).split("_") if p]
    if name[0].isupper():
        return "".join(p[0].upper() + p[1:] for p in parts)
    return "_".join(p.lower() for p in parts)


def defined(files):
    names = collections.defaultdict(set)
    for f in files:
        if os.path.basename(f) in GOALS:
            continue
        for line in open(f, encoding="utf8"):
            if line.lstrip().startswith("--"):
                continue
            m = DEFINED.match(line)
            for n in m.group(1).split() if m else []:
                if n not in KEPT:
                    names[n].add(f)
            m = HEADED.match(line)
            if m:
                names[m.group(1)].add(f)
    return names


def not_own(path):
    """Is a path, as mathlib.Core.List.append-nil, of something that this repository does not hold."""
    parts = path.split(".")
    if parts[0] == "Rattle":
        return len(parts) > 1 and parts[1] not in CRATES
    return parts[0] in ("mathlib", "Prim", "lib", "native", "borrow")


def imported(text):
    """Names that a file brings in from elsewhere than this repository."""
    names = set()
    for path, inside in re.findall(r"^\s*(?:ghost |pub )*use ([\w.'-]+)\.\{([^}]*)\}", text, re.M):
        if not_own(path):
            names |= set(re.findall(WORD, inside))
    return names


def aliases(text):
    """Names under which a file brings in another, as in {digits as digitsAt}."""
    return {name for name in re.findall(r"\bas (" + WORD + r")(?=[,}\n])", text) if is_old(name)}


def turn(text, names, goals=False):
    """Writes the names anew. In files of goals a member that is named after a function, as c.seg-at, is the kit's."""
    names = names - imported(text) | aliases(text)

    def one(m):
        path = m.group(0)
        if not_own(path):
            return path
        parts = path.split(".")
        for i, part in enumerate(parts):
            made = goals and (i > 0 or m.start() > 0 and text[m.start() - 1] == ".") and part.replace("-", "_") in FUNCTIONS
            if part in names and not made:
                parts[i] = respelt(part)
        return ".".join(parts)

    return PATH.sub(one, text)


def turn_rust(text, names):
    pieces = re.split(r'("(?:[^"\\\n]|\\.)*")', text)
    names = names - imported(text) | aliases(text)
    return "".join(p if i % 2 else turn(p, names) for i, p in enumerate(pieces))


def turn_page(text, names):
    return re.sub(r"`[^`\n]*`", lambda m: turn(m.group(0), names), text)


def main():
    dry = "--dry" in sys.argv
    antt = own_files("crates/*/specs/**/*.antt") + own_files("crates/*/proofs/**/*.antt")
    where = defined(antt)
    lemmas = {n for n in where if is_old(n) or n in OTHERWISE}
    names = {n for n in lemmas if is_old(n)}
    if not names:
        print("respell: nothing is in the older spelling")
        return
    for f in own_files("crates/*/src/**/*.rt"):
        FUNCTIONS.update(re.findall(r"\bfn (\w+)", open(f, encoding="utf8").read()))
    texts = {f: open(f, encoding="utf8").read() for f in antt}
    if dry:
        report(lemmas, texts, where)
        return
    for f in antt:
        write(f, texts[f], turn(texts[f], lemmas, os.path.basename(f) in GOALS))
    for f in own_files("crates/*/src/**/*.rt"):
        text = open(f, encoding="utf8").read()
        write(f, text, turn_rust(text, names))
    for f in own_files("crates/*/must-fail/*.edit"):
        text = open(f, encoding="utf8").read()
        write(f, text, turn_rust(text, names))
    for f in own_files("docs/*.md") + ["README.md"]:
        text = open(f, encoding="utf8").read()
        write(f, text, turn_page(text, names))


def write(f, before, after):
    if before != after:
        open(f, "w", encoding="utf8").write(after)


def report(names, texts, where):
    print(len(names), "names")
    falls = collections.defaultdict(set)
    for n in names:
        falls[respelt(n)].add(n)
    for new, olds in sorted(falls.items()):
        if len(olds) > 1:
            print("together:", new, sorted(olds))
    seen = collections.defaultdict(lambda: collections.defaultdict(list))
    for f, text in texts.items():
        words = set(TOKEN.findall(text))
        for n in words & names:
            if respelt(n) in words:
                seen[n][respelt(n)].append(f)
    for n in sorted(seen):
        for new, fs in seen[n].items():
            print("there:", n, "->", new, fs[:4])
    for n in sorted(names):
        if respelt(n) in FUNCTIONS and n != respelt(n):
            print("function:", n, "->", respelt(n), sorted(where[n])[:3])


if __name__ == "__main__":
    main()
