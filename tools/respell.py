#!/usr/bin/env python3
"""Spells the definitions and lemmas of this repository in snake case, as today's Rattle spells names: bits_before and bits-before are bits_before.

usage: tools/respell.py [--check]

It turns the names that the files of specs/ and proofs/ declare, wherever they stand: in those files, in contracts and comments of src/, in
must-fail edits, and in documents. Types and modules, which begin with a capital, keep their spelling, and so do the names that Rattle makes,
functions of src/, and strings. A name stays, and a line says so, where its new spelling stands for something else in a file that has it.
It was run once, after the scripts that turned the repository to today's Rattle (docs/PORT.md). --check writes nothing.
"""
import collections, glob, os, re, sys

os.chdir(os.path.dirname(os.path.dirname(os.path.abspath(__file__))))
NAME = r"[^\s(){}.;,@\"«»\[\]\\:]+"
DECLARED = re.compile(rf"(?m)^\s*(?:(?:abbrev|unfoldable|pub|private|ruleset)\s+)*({NAME})(?: \{{[^{{}}\n]*\}})* :(?=\s)")
# Names that Rattle makes, or asks a proof file for.
MADE = re.compile(r"(invariant|decreases)-|.*-(spec|requires|init|preserved|smaller)(-\d+)?$|Need-|tie$|returns(-\d+)?$")
# Names of the library, too.
KIT = {"and-true", "and-false", "not-true", "not-false"}
NOT_NAMES = {"--", "->"}


def spelt(name):
    words = re.sub(r"(?<=[a-z0-9])[A-Z]", lambda m: "_" + m[0].lower(), name)
    return re.sub(r"(?<=[^\W_])-(?=[^\W_])", "_", words)


def files():
    texts = glob.glob("crates/*/specs/**/*.antt", recursive=True) + glob.glob("crates/*/proofs/**/*.antt", recursive=True)
    return sorted(texts), sorted(glob.glob("crates/*/src/**/*.rt", recursive=True)), sorted(glob.glob("crates/*/must-fail/*.edit"))


def read(path):
    with open(path, encoding="utf-8") as f:
        return f.read()


def declared(texts):
    """The names to turn, each with its new spelling."""
    found = {}
    for path in texts:
        for m in DECLARED.finditer(read(path)):
            name = m[1]
            if name in NOT_NAMES | KIT or name[:1].isupper() or MADE.match(name) or not re.match(r"[a-z]", name):
                continue
            new = spelt(name)
            if new != name:
                found[name] = new
    return found


# Lemmas and fields of records that would have a definition's name: where they stand, and what they are called.
LEMMAS = [
    ("ac3/proofs/", "in-turn", "same_in_turn"),
    ("ac3/specs/", "in-turn", "same_in_turn"),
    ("ac3/proofs/", "part-at", "part_at_lem"),
    ("ac3/proofs/", "has_part", "has_part_lem"),
    ("ac3/proofs/", "same_answer", "same_answer_lem"),
    ("bits/proofs/", "same_bits", "same_bits_lem"),
    ("edits/proofs/", "is_free", "is_free_lem"),
    ("ferrysprig/specs/", "in-turn", "same_in_turn"),
    ("ferrysprig/proofs/", "in-turn", "same_in_turn"),
    ("fields/proofs/fill/", "field_at", "field_at_contract"),
    ("fields/proofs/rows_of/", "row_of", "row_of_contract"),
    ("index/proofs/", "no_fields", "no_fields_lem"),
    ("index/proofs/", "no_room", "no_room_lem"),
    ("lister/proofs/", "rows-from", "rows_from_lem"),
    ("mantissas/proofs/", "open_after", "open_after_lem"),
    ("rows/proofs/", "is_name", "is_name_lem"),
    ("salvage/", "no_fields", "lacks_fields"),
    ("salvage/", "no_output", "lacks_output"),
    ("salvage/", "no_entry", "lacks_entry"),
    ("salvage/", "no-entry", "lacks_entry"),
    ("index/", "no-entry", "lacks_entry"),
    ("syntax/", "is-short", "is_too_short"),
    ("ac3/", "no-summary", "without_summary"),
    ("ferrysprig/", "no-summary", "without_summary"),
    ("ac3/", "slot-bits", "bits_of_slots"),
    ("ferrysprig/", "slot-bits", "bits_of_slots"),
]


TOKEN = re.compile(rf"\"(?:[^\"\\\n]|\\.)*\"|{NAME}")


def tokens(text, source):
    """What stands for something by itself: in proof files what stands behind no dot, in sources the parameters of functions."""
    if source:
        return set(re.findall(r"[(,]\s*(?:mut )?(\w+): ", text))
    text = re.sub(r"--[^\n]*", "", text)
    return set(m[0] for m in TOKEN.finditer(text) if not m[0].startswith('"') and text[m.start() - 1 : m.start()] != ".")


def turned(text, names):
    """The text with its names turned."""

    def turn(m):
        word = m[0]
        if word.startswith('"'):
            return word
        before = text[max(0, m.start() - 40) : m.start()]
        path = re.search(r"\buse [^\s{]*$", before)  # a module's path has the names of functions
        if path or before.endswith(("tie.", "Tie.")):
            return word
        return names.get(word, word)

    return TOKEN.sub(turn, text)


def main():
    check = "--check" in sys.argv
    texts, sources, edits = files()
    for path in texts:
        text = read(path)
        new = text
        for place, old, lemma in LEMMAS:
            if path.startswith("crates/" + place):
                new = turned(new, {old: lemma})
        if new != text and not check:
            with open(path, "w", encoding="utf-8") as f:
                f.write(new)
    names = declared(texts)
    stay = {}
    by_new = collections.defaultdict(set)
    for old, new in names.items():
        by_new[new].add(old)
    # A lemma that would have its function's name ends in _lem.
    for new, olds in by_new.items():
        if len(olds) > 1:
            for old in olds:
                if "-" in old:
                    names[old] = new + "_lem"
    have = {path: tokens(read(path), False) for path in texts}
    for path in sources:
        text = read(path)
        have[path] = tokens(text, True)
        for old in set(names) & set(TOKEN.findall(text)):
            if names[old] in have[path]:
                stay[old] = f"{path} has a parameter {names[old]}"
    for path in texts:
        for old in have[path] & set(names):
            if names[old] in have[path]:
                stay[old] = f"{path} has {names[old]} too"
    for old, why in sorted(stay.items()):
        print(f"left: {old}: {why}")
        del names[old]
    changed = 0
    documents = sorted(glob.glob("docs/*.md")) + ["README.md", "CONTRIBUTING.md"] + glob.glob("tools/*.py")
    for path in texts + sources + edits + documents:
        text = read(path)
        known = names
        if path in documents:  # in prose a word with a dash may be English
            known = {old: new for old, new in names.items() if re.search("[a-z][A-Z]", old)}
            new = re.sub(r"\b[a-z]\w*[A-Z]\w*\b", lambda m: known.get(m[0], m[0]), text)
        else:
            new = turned(text, known)
        if new != text:
            changed += 1
            if not check:
                with open(path, "w", encoding="utf-8") as f:
                    f.write(new)
    print(f"{len(names)} names turned, {len(stay)} left, {changed} files")


main()
