#!/usr/bin/env python3
"""Brings the names that specs/ and proofs/ declare to snake case: definitions, lemmas, fields and constructors.

usage: python3 tools/snake_names.py [FOLDER]     the folder that has crates/ (this one if none is given)

camelCase and dashes become words joined by '_'. Types and modules keep their capitals, and names that the prover makes
(goals, invariants, measures) keep their dashes. A second run changes nothing.
"""
import re
import sys
from collections import defaultdict
from pathlib import Path

WORD = r"[A-Za-z◌_][\w'◌-]*"
DECLARED = re.compile(rf"^(\s*)(?:abbrev |unfoldable )?(?:pub )?({WORD}) *:(?! *goal\.)")
HEAD = re.compile(rf"^(?:pub )?(data|record) ({WORD})")

# Names that would fall together with another of the same crate: a lemma about a definition is called after it.
APART = {
    "flag-text": "flag_text_lem",
    "state-text": "state_text_lem",
    "step-text": "step_text_lem",
    "three-of": "three_of_lem",
    "by-text": "by_text_lem",
    "make-state": "make_state_lem",
    "make-step": "make_step_lem",
    "byFits": "fits_by",
}


def snake(name):
    words = re.sub(r"([a-z0-9])([A-Z])", lambda m: m[1] + "_" + m[2].lower(), name)
    return words.replace("-", "_")


def declared(text):
    """(name, is it a field or a constructor) of each declaration."""
    inside = False
    for line in text.splitlines():
        if HEAD.match(line):
            inside = True
            continue
        if line and not line[0].isspace():
            inside = False
        found = DECLARED.match(line)
        if found:
            yield found[2], inside and bool(found[1])


def main():
    top = Path(sys.argv[1] if len(sys.argv) > 1 else ".")
    ghost = sorted(p for d in ("specs", "proofs") for p in top.glob(f"crates/*/{d}/**/*.antt"))
    code = sorted(top.glob("crates/*/src/**/*.rt")) + sorted(top.glob("crates/*/must-fail/*.edit"))
    lemmas, fields, all_names = set(), set(), defaultdict(set)
    for path in ghost:
        for name, is_field in declared(path.read_text()):
            all_names[path.parts[-len(path.relative_to(top).parts) + 1]].add(name)
            if name[0].islower() and snake(name) != name:
                (fields if is_field else lemmas).add(name)
    to = {name: APART.get(name, snake(name)) for name in lemmas | fields}
    for crate, names in sorted(all_names.items()):
        fallen = defaultdict(set)
        for name in names:
            fallen[to.get(name, name)].add(name)
        for new, olds in sorted(fallen.items()):
            if len(olds) > 1:
                print(f"fall together in {crate}: {', '.join(sorted(olds))} as {new}")
    token = re.compile(rf"(?<![\w'◌-])(\.?)({WORD})")

    def turn(found):
        dot, name = found[1], found[2]
        known = name in fields or (name in lemmas and not dot)
        return dot + (to[name] if known else name)

    count = 0
    for path in ghost + code:
        was = path.read_text()
        now = "".join(
            line if line.startswith("file:") else token.sub(turn, line) for line in was.splitlines(keepends=True)
        )
        if now != was:
            path.write_text(now)
            count += 1
    print(f"{len(to)} names, {count} files")


main()
