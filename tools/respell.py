#!/usr/bin/env python3
"""Brings the names of this repository's definitions and lemmas to today's spelling.

usage: python3 tools/respell.py        at the top of the repository, once, right after port.py

Words become snake case: hasBit is has_bit, told-bound is told_bound. Types, modules and facts keep their capital. Where a definition and a
lemma on it would get one name, the lemma gets `_lem`. Functions, constants and labels of src/, strings, inputs and outputs keep their names.
Turned are specs/, proofs/, the clauses and imports of src/, the edits of must-fail/, and the names in back quotes of the pages.
"""

import glob
import os
import re
import shutil

# A name may not begin or end inside another.
WORD = r"[A-Za-z_\u0370-\u03ff\u2113][A-Za-z0-9_'\u0370-\u03ff\u2080-\u2089]*(?:-[A-Za-z0-9_'\u0370-\u03ff\u2080-\u2089]+)*"
TOKEN = re.compile(WORD)

# Lemmas that would get the name of the definition that they speak of.
LEMMAS = {
    "slots-whole", "claim-words", "no-claim", "sound-part", "head-words", "few-active", "few-waiting", "active-row", "waiting-fits",
    "value-fits", "waiting-row", "active-fits", "limit-fits", "figures-fit", "active-by", "alone-fits", "waiting-by", "on-part", "on-disk",
    "claim-code", "granted-at-once", "told-by", "next-on", "raise-by", "raise-of", "grant-answer", "proper-kind", "carried-by", "cost-by",
    "bars-at", "meet-from", "start-by", "written-by", "by_value", "all_true", "told_of", "lets_by", "gap_by",
}
# Names of the library that this repository also gives to laws of its own: turned where the file declares the name or has it from here.
SHARED = {
    "all-at", "count-is", "decode-encode", "encode-decode", "first-none", "length-encode", "length-lines", "length-padded", "left-fits",
    "next-end", "none-fits", "order-of", "or-none", "out-is", "pairs-last", "read-last", "remove-last", "signed-fits", "size-zero", "state-is", "below-zero",
    "total-is", "turn-fits", "value-is", "zero-fits",
}


def read(path):
    with open(path, encoding="utf-8") as f:
        return f.read()


def write(path, text):
    with open(path, "w", encoding="utf-8") as f:
        f.write(text)


def bare(text):
    return re.sub(r"--[^\n]*", "", text)


def library():
    """The words of the kit: they keep their spelling."""
    kit = os.path.dirname(os.path.dirname(os.path.realpath(shutil.which("rt"))))
    found = set()
    for path in glob.glob(kit + "/rattle/**/*.antt", recursive=True):
        found.update(TOKEN.findall(bare(read(path))))
    return found


def snake(name):
    if name in LEMMAS:
        return name.replace("-", "_") + "_lem"
    name = re.sub(r"([a-z0-9])([A-Z])", lambda m: m.group(1) + "_" + m.group(2).lower(), name)
    return name.replace("-", "_")


def own_names():
    """What the definitions and the shared lemmas of this repository declare, use and bind, and the library does not have."""
    kit = library()
    names = set()
    for path in glob.glob("crates/*/specs/*.antt") + glob.glob("crates/*/proofs/*.antt"):
        for name in TOKEN.findall(bare(read(path))):
            if name[0].islower() and name not in kit and snake(name) != name:
                names.add(name)
    # What an import of src/ calls otherwise.
    for path in glob.glob("crates/*/src/*.rt"):
        names.update(n for n in re.findall(r" as ([a-z]+[A-Z]\w*)", read(path)))
    return names | LEMMAS


def shared_here(text):
    """The names of SHARED that this file declares, or imports from a crate of this repository."""
    crates = "|".join(os.path.basename(p) for p in glob.glob("crates/*"))
    here = set()
    for name in SHARED:
        word = re.escape(name)
        declared = re.search(r"(?m)^ *(?:unfoldable |abbrev )?(?:pub )?" + word + r" :", text)
        imported = re.search(r"use Rattle\.(?:" + crates + r")\.[^;\n]*[{ ,]" + word + r"[ ,}]", text)
        if declared or imported:
            here.add(name)
    return here


def main():
    names = own_names()

    def turned(text, extra=frozenset(), only=None):
        def one(m):
            name = m.group(0)
            if name in names or name in extra:
                if only is None or only(name):
                    return snake(name)
            return name

        return TOKEN.sub(one, text)

    for path in glob.glob("crates/*/specs/**/*.antt", recursive=True) + glob.glob("crates/*/proofs/**/*.antt", recursive=True):
        text = read(path)
        extra = shared_here(text)
        lines = []
        for line in text.split("\n"):
            code, dash, comment = line.partition("-- ") if "-- " in line else (line, "", "")
            # In a comment a word with a dash may be plain English: names there are those with a capital inside.
            comment = turned(comment, extra, lambda n: "-" not in n)
            lines.append(turned(code, extra) + dash + comment)
        write(path, "\n".join(lines))

    for path in glob.glob("crates/*/src/*.rt"):
        lines = []
        for line in read(path).split("\n"):
            ghost = re.match(r"\s*(ghost use|requires|ensures|ghost )", line)
            lines.append(turned(line) if ghost else turned(line, only=lambda n: re.search("[a-z0-9][A-Z]", n) is not None))
        write(path, "\n".join(lines))

    for path in glob.glob("crates/*/must-fail/*.edit"):
        lines = []
        for line in read(path).split("\n"):
            lines.append(turned(line) if re.match(r"(old|new):", line) else line)
        write(path, "\n".join(lines))

    # The pages also name what port.py has turned already: a name is turned there if it now stands in the code.
    now = set()
    for path in glob.glob("crates/*/specs/*.antt") + glob.glob("crates/*/proofs/*.antt"):
        now.update(TOKEN.findall(bare(read(path))))

    def on_page(m):
        return TOKEN.sub(lambda w: snake(w.group(0)) if snake(w.group(0)) in now and w.group(0)[0].islower() else w.group(0), m.group(0))

    for path in glob.glob("docs/*.md") + ["README.md"]:
        write(path, re.sub(r"`[^`\n]+`", on_page, read(path)))


main()
