#!/usr/bin/env python3
"""Brings this repository's own definitions and lemmas to the spelling of today's Rattle: words in snake case, a dash only between two names.

usage: tools/respell.py [--pages]      at the top of the repository, once, after port.py (docs/PORT.md)

Types and modules keep their capitals, and whatever src/ declares keeps its name. Text in strings stays. With --pages the same names are respelled
between backquotes of the pages in docs/ and README.md instead. tools/respelled.tsv has the names, old and new; where it is missing the script makes it
anew from the sources, and stops where two names would fall together.
"""
import glob
import os
import re
import sys

# Words that stand for functions, tests and operators of the library, between which a dash stays.
LIBRARY = set(
    "length take drop append reverse map sum set replicate get_or cond not and or imp add sub mul div mod pow zero suc lt le eq mem T leb ltb eqb nil cons "
    "upto min max capped_sub".split()
)
FIXED = {"getD-map-upto": "get_or-map-upto"}
NAME = r"[^\W\d◌][\w'◌⇒-]*"
DECLARED = re.compile(r"^\s*(?:(?:abbrev|unfoldable|pub|data|record|axiom|ruleset|pattern)\s+)*(◌?" + NAME + r"◌?)(?=\s*(?::|=|\(|\{))", re.M)
IMPORTED = re.compile(r"^(?:ghost )?use [^;{]*\{([^}]*)\}", re.M)
USE = re.compile(r"^(?:ghost )?use ([^;{]*)\.\{([^}]*)\}", re.M)
FIELD = re.compile(r"^ +(?:pub )?([a-z]\w*): ", re.M)
TOKEN = re.compile(r'"(?:\\.|[^"\\])*"|◌?' + NAME + r"◌?")


def files(*patterns):
    return sorted(p for q in patterns for p in glob.glob(q, recursive=True) if "/out/" not in p)


def read(path):
    with open(path, encoding="utf-8") as f:
        return f.read()


def snake(word):
    return re.sub(r"(?<=[a-z0-9])([A-Z]+)", lambda m: "_" + m[1].lower(), word)


def is_camel(word):
    return bool(re.match(r"^◌?[a-z]", word)) and bool(re.search(r"[a-z0-9][A-Z]", word))


def parts(word, names):
    """A name of words joined by dashes: a dash stays between two names."""
    words = [snake(w) if is_camel(w) else w for w in word.split("-")]
    text = words[0]
    for before, after in zip(words, words[1:]):
        head = text.rsplit("-", 1)[-1]
        text += ("-" if head in names and after.rstrip("'") in names else "_") + after
    return text


def library(paths):
    """The names that are imported from other modules than this repository's."""
    own = {os.path.basename(p) for p in glob.glob("crates/*")}
    uses = [m for p in paths for m in USE.findall(read(p))]
    return {n for module, names in uses if module.split(".")[:1] != ["Rattle"] or module.split(".")[1] not in own for n in re.split(r"[,\s]+", names)}


def renamed():
    own = files("crates/*/specs/**/*.antt", "crates/*/proofs/*.antt")
    declared = {n for p in own for n in DECLARED.findall(read(p))}
    names = LIBRARY | {snake(n) for p in files("crates/*/specs/**/*.antt") for n in DECLARED.findall(read(p))}
    everywhere = files("crates/**/*.antt", "crates/*/src/**/*.rt")
    used = {t for p in everywhere for t in TOKEN.findall(read(p)) if not t.startswith('"')}
    # What a name could fall together with; a function of src/ lies in a module of its own.
    theirs = {n for p in everywhere if p.endswith(".antt") for n in DECLARED.findall(read(p))}
    theirs |= {n for p in everywhere for names_used in IMPORTED.findall(read(p)) for n in re.split(r"[,\s]+", names_used)}
    theirs -= {n for p in everywhere if p.endswith(".rt") for n in FIELD.findall(read(p))}
    table = {}
    for word in sorted(used - library(everywhere) - {"kB", "qN", "sN", "sA"}):
        new = FIXED.get(word) or (parts(word, names) if word in declared and "-" in word and not word.startswith("◌") else snake(word) if is_camel(word) else word)
        if new != word:
            table[word] = new
    lemmas = {n for p in files("crates/*/proofs/*.antt") for n in DECLARED.findall(read(p))}
    taken, fallen = {}, []
    for word, new in sorted(table.items(), key=lambda x: ("-" in x[0], x)):
        if new in theirs or new in taken:
            kept = snake(word)
            if "-" in word and kept not in theirs and kept not in taken:
                new = kept
            elif "-" in word and kept == word:
                del table[word]
                continue
            elif new in lemmas:
                table[new] = new + "_lem"  # a lemma that would have its function's name
            else:
                fallen.append(f"{word} and {taken.get(new, new)}")
        table[word] = new
        taken[new] = word
    if fallen:
        sys.exit("respell: these fall together: " + "; ".join(fallen))
    # An operator is written without its places.
    for word, new in list(table.items()):
        if word.startswith("◌"):
            table[word.strip("◌")] = new.strip("◌")
    return table


def turn(text, table):
    return TOKEN.sub(lambda m: table.get(m[0], m[0]), text)


TABLE = os.path.join(os.path.dirname(os.path.abspath(__file__)), "respelled.tsv")


def names():
    """The table beside this script, or where there is none the one that the sources ask for, which is then kept."""
    if os.path.exists(TABLE):
        return dict(line.split("\t") for line in read(TABLE).splitlines())
    table = renamed()
    with open(TABLE, "w", encoding="utf-8") as f:
        f.writelines(f"{a}\t{b}\n" for a, b in sorted(table.items()))
    return table


def main():
    table, changed = names(), 0
    pages = sys.argv[1:] == ["--pages"]
    # A function of src/ keeps its name, also where a lemma elsewhere loses it.
    source = {a: b for a, b in table.items() if is_camel(a) or "-" in a or "◌" in a}
    for path in files("README.md", "docs/*.md", "docs/orders/*.md") if pages else files("crates/**/*.antt", "crates/*/src/**/*.rt", "crates/*/must-fail/*.edit"):
        text = read(path)
        new = re.sub(r"`[^`\n]*`", lambda m: turn(m[0], table), text) if pages else turn(text, source if path.endswith(".rt") else table)
        if new != text:
            with open(path, "w", encoding="utf-8") as f:
                f.write(new)
            changed += 1
    print(f"respell: {len(table)} names, {changed} files changed")


main()
