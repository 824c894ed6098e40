#!/usr/bin/env python3
"""Respells the repository's own definitions and lemmas: words in snake case, types in upper camel case.

usage: python3 tools/respell_names.py [--dry]     at the top of the repository

A definition, lemma, record field, constructor or named parameter of specs/*.antt or proofs/*.antt that is spelled with a
hyphen is respelled everywhere: in specs/, in proofs/, in the clauses and ghost lines of src/, in the must-fail edits, and
where a comment quotes it.
Names that the checker makes (goals such as loop-place-preserved) stand only in the folders of proofs/ and keep theirs;
names of the code and strings keep theirs too. The run stops, and changes nothing, where two names would fall together.
"""
import collections
import glob
import re
import sys

TOKEN = r"[^\s(){}\[\],;.λ⌜⌝«»:∀→\"`]+"
WORD = re.compile(TOKEN)
# hyphenated names whose new spelling needs a word in place of an operator, or would otherwise fall together with another
SPECIAL = {
    "ids-++": "ids_append",
    "entry-++": "entry_append",
    "slot-of-++": "slot_of_append",
    "puts-++": "puts_append",
    "bit-or": "bit_of_or",
    "count-listed": "listed_count",
}
# new names that also stand elsewhere, looked through by hand: the two are never one name in one scope
# (a lemma and a module or a function of another crate, or a record's field and the code's field that it mirrors)
APART = {"an_id", "first_score", "probe_at", "seen_line", "told_apart", "topic_at", "weight_at"}


def declared(text):
    for line in text.split("\n"):
        line = re.sub(r"--.*", "", line)
        m = re.match(r"^(?:(?:unfoldable|abbrev|opaque)\s+)*(?:pub\s+)?(?:(?:record|data)\s+)?(" + TOKEN + r")\s*(?=[:({])", line)
        if m:
            yield m.group(1)
        m = re.match(r"^\s+(?:pub\s+)?(" + TOKEN + r"(?:\s+" + TOKEN + r")*)\s+:(?:\s|$)", line)
        if m:
            yield from m.group(1).split()
        for g in re.findall(r"[({]((?:" + TOKEN + r"\s+)*" + TOKEN + r")\s+:\s", line):
            yield from g.split()


def respelled(name):
    if name in SPECIAL:
        return SPECIAL[name]
    name = name.replace("′", "'")
    if name[0].isupper():
        return "".join(w[:1].upper() + w[1:] for w in name.split("-"))
    return name.replace("-", "_")


def code_and_comment(line, mark):
    at = line.find(mark)
    return (line, "") if at < 0 else (line[:at], line[at:])


def in_code(line, names):
    """The line with its names respelled, strings left as they are."""
    parts = re.split(r'("(?:[^"\\]|\\.)*")', line)
    return "".join(p if i % 2 else WORD.sub(lambda m: names.get(m.group(0), m.group(0)), p) for i, p in enumerate(parts))


def main():
    lemmas = sorted(glob.glob("crates/*/specs/*.antt") + glob.glob("crates/*/proofs/*.antt"))
    every = sorted(glob.glob("crates/*/specs/**/*.antt", recursive=True) + glob.glob("crates/*/proofs/**/*.antt", recursive=True))
    sources = sorted(glob.glob("crates/*/src/**/*.rt", recursive=True))
    edits = sorted(glob.glob("crates/*/must-fail/*.edit"))
    names = {}
    for f in lemmas:
        for n in declared(open(f, encoding="utf-8").read()):
            if ("-" in n and re.search(r"[^\W_]-|-[^\W_]", n)) or "′" in n:
                names[n] = respelled(n)
    made = collections.defaultdict(set)
    for old, new in names.items():
        made[new].add(old)
    known = collections.defaultdict(set)
    for f in every + sources:
        mark = "--" if f.endswith(".antt") else "//"
        for line in open(f, encoding="utf-8"):
            for t in WORD.findall(code_and_comment(line.rstrip("\n"), mark)[0]):
                known[t].add(f)
    clash = [(new, olds) for new, olds in made.items() if len(olds) > 1]
    clash += [(new, sorted(known[new])[:4]) for new in made if new in known and new not in APART]
    for new, where in sorted(clash, key=str):
        print("falls together:", new, where)
    if "--dry" in sys.argv:
        print(len(names), "names")
        return
    if clash:
        sys.exit("nothing was changed")
    for f in every + sources + edits:
        old = open(f, encoding="utf-8").read()
        mark = "--" if f.endswith(".antt") else "//"
        out = []
        for line in old.split("\n"):
            code, comment = code_and_comment(line, mark)
            # an alias of a clause: a middle dot is no part of a name today
            code = re.sub(r"\bsaid·([a-z-]+)", lambda m: "said_" + m.group(1).replace("-", "_"), code).replace("at-least as said_", "at_least as said_")
            quoted = re.split(r"(`[^`]*`)", comment)
            out.append(in_code(code, names) + "".join(in_code(q, names) if i % 2 else q for i, q in enumerate(quoted)))
        new = "\n".join(out)
        if new != old:
            open(f, "w", encoding="utf-8").write(new)
    print(len(names), "names respelled")


main()
