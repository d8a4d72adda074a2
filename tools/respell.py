#!/usr/bin/env python3
"""Spells the repository's own definitions and lemmas as today's Rattle spells names.

usage: python3 tools/respell.py [FOLDER]

To be run once, behind the kit's own port script, in a repository whose names were joined by dashes: `day-before`
becomes `day_before`, and a fact or a type, as `Last-before`, becomes `LastBefore`. A lemma that is named by the left side of
its equation keeps the dash between the two names, as `length-image`: those stand in JOINED. Names of the code, names that
Rattle makes (the goals of a proof), texts and comments stay as they are.
"""

import glob
import os
import re
import sys

# lemmas named by a function and what it is applied to
JOINED = {
    "given-some", "given-none", "blocks-of-more", "blocks-of-end", "blocks-of-cut", "take-first", "encoded-push",
    "last-tag-push", "Legal-push", "listed-tag", "encoded-bound-push", "listed-length", "parsed-encoded", "parsed-zeros",
    "blank-zeros", "scanned-zeros", "scanned-encoded", "take-closed", "check-closed", "checks-closed", "parsed-zero",
    "length-padded", "fields-of-padded", "padded-push", "check-padded", "closed-bytes", "fields-of-short", "fields-of-end",
    "fields-of-more", "fields-from-short", "fields-from-end", "fields-from-more", "weighted-sum-more", "count-in-length",
    "count-in-push", "apart-push", "names-push", "totals-push", "kept-some", "kept-none", "length-case-block",
    "fields-case-block", "length-cases-in", "length-image", "image-push", "length-written", "blocks-written", "take-length",
    "alter-suc", "first-place", "alter-place", "any-more", "any-map", "nth-map", "first-map", "alter-map", "map-alter",
    "all-alter", "length-alter", "padded-none", "padded-more", "take-padded", "length-block-of", "length-joined",
    "decoded-none", "real-only-some",
}

NAME = r"[A-Za-z_][\w'\u2115-]*"
DEFINED = re.compile(
    r"^\s*(?:(?:abbrev|unfoldable) )?(?:pub )?(?:(?:abbrev|unfoldable|record|data) )?(" + NAME + r")(?:\s+[({].*)?\s*:(?!:)\s"
)
TOKEN = re.compile(r"(?<![\w'\u25cc-])" + NAME + r"(?![\w'\u25cc-])")
# names that Rattle makes for the goals of a proof
MADE = re.compile(r"^(returns|invariant|loop|overflow|slice-bounds|decreases|ghost)\b|-requires(-|$)")


def defined(files):
    """The names with a dash that the files define."""
    names = set()
    for file in files:
        with open(file, encoding="utf-8") as f:
            for line in f:
                m = DEFINED.match(line)
                if m and "-" in m.group(1) and not MADE.search(m.group(1)):
                    names.add(m.group(1))
    return names


def spelled(name, names):
    """Today's spelling of a name."""
    if name in JOINED:
        parts = name.split("-")
        for cut in range(len(parts) - 1, 0, -1):
            left, right = "-".join(parts[:cut]), "-".join(parts[cut:])
            if cut == 1 or left in names:
                return "%s-%s" % (spelled(left, names) if "-" in left else left, right.replace("-", "_"))
    if name[0].isupper():
        return "".join(part[:1].upper() + part[1:] for part in name.split("-"))
    return name.replace("-", "_")


def turned(text, table):
    return TOKEN.sub(lambda m: table.get(m.group(0), m.group(0)), text)


def turned_proofs(text, table):
    """A file of specs/ or proofs/: all but its comments."""
    lines = []
    for line in text.split("\n"):
        code, mark, comment = line.partition("-- ")
        lines.append(turned(code, table) + mark + comment)
    return "\n".join(lines)


CLAUSE = re.compile(r"^\s*(ghost use |(?:requires|ensures)\*?(?: \w+)? \{|ghost \w+(?: =|:)? \{)")


def turned_source(text, table):
    """A source: its ghost imports and its clauses, which may go over several lines."""
    lines, depth = [], 0
    for line in text.split("\n"):
        start = depth == 0 and CLAUSE.match(line)
        if depth > 0 or start:
            depth += line.count("{") - line.count("}")
            line = turned(line, table)
        lines.append(line)
    return "\n".join(lines)


def main(root):
    specs = glob.glob(os.path.join(root, "crates/*/specs/*.antt"))
    proofs = glob.glob(os.path.join(root, "crates/*/proofs/**/*.antt"), recursive=True)
    sources = glob.glob(os.path.join(root, "crates/*/src/**/*.rt"), recursive=True)
    names = defined(specs + proofs)
    table = {name: spelled(name, names) for name in names}
    for file in specs + proofs + sources:
        with open(file, encoding="utf-8") as f:
            old = f.read()
        new = turned_source(old, table) if file.endswith(".rt") else turned_proofs(old, table)
        if new != old:
            with open(file, "w", encoding="utf-8") as f:
                f.write(new)
    by_new = {}
    for name, new in table.items():
        by_new.setdefault(new, set()).add(name)
    for new, olds in sorted(by_new.items()):
        if len(olds) > 1:
            print("falls together: %s: %s" % (new, ", ".join(sorted(olds))))
    print("%d names" % len(table))


if __name__ == "__main__":
    main(sys.argv[1] if len(sys.argv) > 1 else ".")
