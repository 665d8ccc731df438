#!/usr/bin/env python3
"""Spells this repository's own definitions and lemmas as today's Rattle does: words in snake case, a dash only where it
joins two names. Run once, at the top, right after port.py; functions of src/, exported C names and texts keep theirs.

    tools/snake_case.py [--dry]    --dry prints the names, and what would fall together, and changes nothing
"""
import collections
import glob
import re
import sys

# words of the library that a dash joins to a name
LIBRARY = set("append drop length zero one suc le lt eq add sub mul take map set nil cons some none get_or".split())
# names that would fall together with another of ours, or with a field of a struct in src/
BY_HAND = {
    "byPart": "sheet_by_part",
    "former-answer": "former_answer_lem",
    "getD-padded": "get_or-padded",
    "is-line": "is_line_lem",
    "last_line": "last_line_lem",
    "lines-of": "lines_of_lem",
    "noRib": "no_rib_lines",
    "put-in": "put_in_lem",
    "rib-refused": "rib_refused_lem",
    "rib-width": "rib_width_most",
    "without-plate": "without_plate_lem",
    "writtenOut": "written_plates",
    "designStress": "design_stress_of",
    "reactionDiameter": "reaction_diameter_of",
    "effectiveWidth": "effective_width_of",
    "operatingLoad": "operating_load_of",
    "seatingLoad": "seating_load_of",
    "flangeLoad": "flange_load_of",
    "edgeThickness": "edge_thickness_of",
}
DELIM = r"\s(){}\[\];,\"`"
SKIP = re.compile(r"tie\.|[ ]statement\b")


def antt():
    return sorted(
        glob.glob("crates/*/specs/**/*.antt", recursive=True)
        + glob.glob("crates/*/proofs/**/*.antt", recursive=True)
    )


def declared():
    own, terms = collections.defaultdict(set), set()
    line = re.compile(
        r"^[ ]*((?:(?:abbrev|unfoldable|pub) )*)(record |data |)([^\s:(){}=.,;]+)((?: [({][^\n]*)?) ?:(?: |$)(.*)$", re.M
    )
    for f in antt():
        text = re.sub(r"--[^\n]*", "", open(f).read())
        for m in line.finditer(text):
            name = m.group(3)
            if SKIP.search(m.group(5)) or name.startswith("+"):
                continue
            own[name].add(f)
            if "abbrev" in m.group(1) or "unfoldable" in m.group(1):
                terms.add(name)
    return own, terms


def snake(word):
    if word in BY_HAND:
        return BY_HAND[word]
    return re.sub(r"(?<=[a-z0-9])([A-Z])", lambda m: "_" + m.group(1).lower(), word)


def spelled(name, terms):
    if name in BY_HAND:
        return BY_HAND[name]
    parts = [snake(p) if p[:1].islower() else p for p in name.split("-")]
    out, last = parts[0], parts[0]
    for p in parts[1:]:
        joins = last in terms and (p in terms or p in LIBRARY)
        out, last = (out + "-" + p, p) if joins else (out + "_" + p, last + "_" + p)
    return out


def main():
    own, terms = declared()
    terms = {snake(t) if t[:1].islower() else t for t in terms}
    new = {n: spelled(n, terms) for n in own if n[:1].islower()}
    new = {n: s for n, s in new.items() if n != s}
    old_of = collections.defaultdict(set)
    for n in own:
        old_of[new.get(n, n)].add(n)
    clash = {s: ns for s, ns in old_of.items() if len(ns) > 1}
    if "--dry" in sys.argv:
        for n in sorted(new):
            print(n, "->", new[n])
        for s, ns in clash.items():
            print("falls together:", s, {n: sorted(own[n]) for n in ns})
        return 0
    if clash:
        print("fall together:", clash)
        return 1
    token = re.compile(r"(?<![^%s.])([^%s.]+)" % (DELIM, DELIM))
    paths = antt() + sorted(glob.glob("crates/*/src/**/*.rt", recursive=True))
    for f in paths:
        text = open(f).read()
        turned = token.sub(lambda m: new.get(m.group(1), m.group(1)), text)
        if turned != text:
            open(f, "w").write(turned)
    return 0


sys.exit(main())
