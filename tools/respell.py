#!/usr/bin/env python3
"""Brings the repository's own definitions, fields, variants and lemmas to snake case, and its decisions (names that
end in ?) to names that begin with dec_. Run once, at the top, after the toolchain's own script.

usage: python3 tools/respell.py [--list]

It reads which names the files of specs/ and the lemma files of proofs/ declare, and rewrites whole words in .antt
files, in the clauses and ghost lines of .rt files, in must-fail edits and between backquotes in pages. Functions of
src/, exported names and strings stay. With --list it changes nothing and prints each name, old and new.
"""

import glob
import re
import sys

WORD = re.compile(r"[^\s(){}\[\];,.:\u25cc\"`|\u2261]+")
DECLARED = re.compile(
    r"^\s*(?:(?:abbrev|unfoldable|pub|record|data|ruleset)\s+)*(?:\{[^}]*\}\s*)?"
    r"([^\s(){}:;=,.\u03bb\u25cc\"]+)\s*(?::|=|\()"
)
# Variants that stand on one line.
SEVERAL = re.compile(r"^  ((?:[A-Za-z][A-Za-z0-9_'-]* )+): ")
PLAIN = re.compile(r"^[A-Za-z][A-Za-z0-9_'\u2080-\u2089?-]*$")
# Names that the toolchain's script has turned in code and proofs already; pages and edits still have the old ones.
TURNED = """
    add-at add-start agrees-at all-noted all-yes and-left and-none and-right at-count at-fact at-field at-top
    atStart before-here below-of by-row byteOf bytesOf callAt callOf callsOf clear-none clear-spec countFor
    countOf edgesAt either-up entails-trans enum-told factOf field-put fill-spec first-alike first-byte first-of
    firstOr flagsOf follows-both follows-on fresh-keeps from-start front-fits front-rest head-at head-read
    in-bounds in-order inWords is-field is-open itemsOf kindOf lengthOf lent-none lists-agree make-spec
    never-both never-done next-row no-field no-items no-line no-one no-pairs no-row no-step no-steps none-before
    none-left none-made none-more none-open none-said none-yet not-back not-lower not-start not-top not-yes
    not-yet noted-more number-lt numberOf one-left one-more one-way only-no opens-row pair-of pairs-first
    part-length part-placed pass-on passed-over placeOf plain-row product-small put-back put-one put-then
    read-back read-count read-spec read-table read-whole restOf row-below row-first row-in row-is row-lt
    row-reads rowBy rowOf rows-end rows-in rows-start rowsTo run-spec runs-same same-count same-first
    same-length same-none sizeOf small-at small-bytes small-of some-below some-bytes spread-none spread-same
    square-above stands-of steps-of sum-bound take-spec taken-in told-same too-short truthOf wide-is wide-row
    widthOf write-read write-spec written-from written-one
"""
# Words that a file of the repository declares beside a library's of the same spelling.
OTHERS = {"add-zero", "length-append", "zero-add"}

# A name that is also a word of comments.
ENGLISH = {"non-member"}


def lemma_files():
    found = glob.glob("crates/*/specs/*.antt") + glob.glob("crates/*/proofs/*.antt")
    return sorted(f for f in found if not f.endswith("/Lib.antt"))


def snake(name):
    """The new spelling of a name that begins with a small letter, or of a lemma on a numbered problem."""
    asks = name.endswith("?")
    if asks:
        name = name[:-1]
    name = re.sub(r"([A-Z])([A-Z][a-z])", r"\1-\2", name)
    name = re.sub(r"([a-z0-9])([A-Z])", r"\1-\2", name)
    name = name.replace("-", "_")
    name = "".join(c.lower() for c in name)
    return "dec_" + name if asks else name


# Names that would fall together with another's new spelling, and a type.
CHOSEN = {
    "Made-so-far": "MadeSoFar",
    "all_yes": "mark_all_yes",
    "at-start": "start_where_allowed",
    "bad-verdict": "bad_verdict_ends",
    "facts-said": "said_of_facts",
    "hierarchy-left": "hierarchy_left_owed",
    "isOpen": "open_count",
    "ladder-left": "ladder_left_owed",
    "no-such-class": "no_such_class_owed",
    "once-begun": "begun_where_allowed",
    "stage-behind": "stage_behind_field",
    "write-left": "write_left_owed",
}


def new_name(name):
    return CHOSEN.get(name) or snake(name)


def is_old(name):
    if name in CHOSEN:
        return True
    if not PLAIN.match(name) or name in OTHERS:
        return False
    if name[0].isupper() and "-" not in name:
        return False
    return new_name(name) != name


def declared():
    names = {}
    for f in lemma_files():
        for line in open(f, encoding="utf-8"):
            if line.startswith("use ") or line.lstrip().startswith("--"):
                continue
            found = SEVERAL.match(line) or DECLARED.match(line)
            for name in found.group(1).split() if found else []:
                if is_old(name):
                    names.setdefault(name, set()).add(f)
    return names


def turn(text, names):
    return "".join(turn_line(line, names) for line in text.splitlines(keepends=True))


def turn_line(line, names):
    english = ENGLISH if line.lstrip().startswith("--") else ()
    return WORD.sub(lambda m: m.group(0) if m.group(0) in english else names.get(m.group(0), m.group(0)), line)


def turn_code(text, names):
    """Clauses and ghost lines alone: a line of code or of a comment has no such word."""
    out = []
    for line in text.splitlines(keepends=True):
        s = line.strip()
        if s.startswith("//") or '"' in s:
            out.append(line)
        else:
            out.append(turn(line, names))
    return "".join(out)


def turn_page(text, names):
    return re.sub(r"`[^`\n]+`", lambda m: turn(m.group(0), names), text)


def main():
    names = {old: new_name(old) for old in declared()}
    if "--list" in sys.argv:
        for old in sorted(names):
            print(old, names[old])
        return
    for f in glob.glob("crates/*/**/*.antt", recursive=True):
        write(f, turn, names)
    for f in glob.glob("crates/*/src/**/*.rt", recursive=True):
        write(f, turn_code, names)
    names |= {old: snake(old) for old in TURNED.split()}
    for f in glob.glob("crates/*/must-fail/*.edit"):
        write(f, turn, names)
    for f in ["README.md"] + glob.glob("docs/**/*.md", recursive=True) + glob.glob("*/README.md"):
        write(f, turn_page, names)


def write(f, how, names):
    with open(f, encoding="utf-8") as old:
        text = old.read()
    new = how(text, names)
    if new != text:
        with open(f, "w", encoding="utf-8") as to:
            to.write(new)


main()
