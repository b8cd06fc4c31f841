#!/usr/bin/env python3
"""Brings the repository's own antt names to snake case: definitions, lemmas and fields of records.

usage: respell.py            at the top of the repository, once, after the kit's port.py

    kindNamed, all-answered, bytes-in beside bytesIn  ->  kind_named, all_answered, bytes_in_lem beside bytes_in

A name of several words that is declared in specs/ or proofs/ gets its words joined by '_'. Where a definition and a lemma fall
together, the lemma gets '_lem'. 'length-' in front of a name keeps its dash, since it joins two names. Names of types, of the
library and of Rattle's generated modules stay. Names in back quotes in comments follow. The table is printed.
"""
import collections
import glob
import os
import re
import sys

W = r'[^\s(){}.,;:\[\]"«»@\\`]+'
CRATES = sorted(os.listdir("crates"))
OURS = "|".join(CRATES)


def read(path):
    with open(path, encoding="utf-8") as it:
        return it.read()


ANTT = sorted(f for part in ("specs", "proofs") for f in glob.glob(f"crates/*/{part}/**/*.antt", recursive=True))
SOURCE = sorted(glob.glob("crates/*/src/**/*.rt", recursive=True))
TEXT = {f: read(f) for f in ANTT + SOURCE}

# Names that come from a library: never ours to rename.
library = set()
for f, t in TEXT.items():
    for m in re.finditer(r"(?m)^\s*(?:pub |ghost )?use (?!Rattle\.(?:%s)\b)\S*?\.\{([^}]*)\}" % OURS, t):
        library |= {it.split(" as ")[0].strip() for it in m[1].split(",")}

declared = collections.defaultdict(set)
fields = set()
HEAD = re.compile(r"(?m)^( *)((?:(?:abbrev|pub|unfoldable|opaque|record|data) )*)(%s)((?: \{[^}]*\}| \([^()]*(?:\([^()]*\)[^()]*)*\))*) : " % W)
for f in ANTT:
    record = None
    for line in TEXT[f].split("\n"):
        m = HEAD.match(line)
        indent = len(line) - len(line.lstrip())
        if record is not None and line.strip() and indent <= record:
            record = None
        if not m:
            continue
        if record is not None:
            fields.add(m[3])
        elif "Proof.antt" not in f or m[3].endswith("-spec") or m[1] == "":
            declared[m[3]].add(f)
        if "record" in m[2].split():
            record = indent

several = lambda n: "◌" not in n and ("-" in n or re.search(r"[a-z0-9][A-Z]", n)) and n[0].islower()


def snake(n):
    n = re.sub(r"([a-z0-9])([A-Z])", lambda m: m[1] + "_" + m[2].lower(), n)
    head, n = ("length-", n[7:]) if n.startswith("length-") else ("", n)
    return head + n.replace("-", "_")


# What is declared in a walk of the code alone is named after a goal of it, and the walk is written anew.
walks = {n for n, of in declared.items() if all(f.endswith("/Proof.antt") for f in of) and not n.endswith("-spec")}
names = {n for n in declared if several(n) and n not in library and n not in walks}
names |= {n for n in fields if several(n) and n not in library}
taken = {n for n in [*declared, *fields] if not several(n)} | {n for n in library}
constants = set(re.findall(r"(?m)^\s*pub const (\w+)", "\n".join(TEXT[f] for f in SOURCE)))

table = {}
# a lemma that the kit's script gave the name that a definition gets: the lemma gets '_lem', where a file declares or imports it
lemmas = {}
by_new = collections.defaultdict(list)
for n in sorted(names):
    by_new[snake(n)].append(n)
for new, olds in by_new.items():
    # a definition in mixed case comes before a lemma with dashes
    olds.sort(key=lambda n: "-" in n)
    if "-" not in olds[0] and new in taken and new not in library:
        if new in declared:
            lemmas[new] = new + "_lem"
            taken.add(new + "_lem")
        taken.discard(new)
    used = set(taken)
    for at, n in enumerate(olds):
        it = new
        while it in used or it in constants or (at and it == new):
            it += "_lem"
        used.add(it)
        table[n] = it

if "--table" in sys.argv:
    for n, it in sorted({**table, **lemmas}.items()):
        print(n, it)
    sys.exit()

assert len(set(table.values())) == len(table), [k for k, v in collections.Counter(table.values()).items() if v > 1]

TOKEN = re.compile(r"//[^\n]*|--[^\n]*|\"(?:[^\"\\\n]|\\.)*\"|«[^»]*»|%s" % W)


def respelled(text, antt):
    cited = ",".join(re.findall(r"(?m)^\s*(?:pub )?use Rattle\.(?:%s)\b\S*?\.\{([^}]*)\}" % OURS, text))
    here = {it.strip() for it in cited.split(",")} | {m[3] for m in HEAD.finditer(text)}

    def one(m):
        word, at = m[0], m.start()
        if word.startswith(("--", "//")):
            return re.sub(r"`(%s)`" % W, lambda it: "`" + table.get(it[1], it[1]) + "`", word)
        if antt and word in lemmas and word in here and not (at and text[at - 1] == "."):
            return lemmas[word]
        if word.startswith(('"', "«")) or word not in table:
            return word
        if at and text[at - 1] == ".":
            # behind a dot stands a field, or a part of a module's path
            return table[word] if word in fields and text[at - 2 : at - 1] != " " else word
        return table[word]

    return TOKEN.sub(one, text)


for f in ANTT + SOURCE:
    new = respelled(TEXT[f], f.endswith(".antt"))
    if new != TEXT[f]:
        with open(f, "w", encoding="utf-8") as it:
            it.write(new)
print(len(table), "names")
