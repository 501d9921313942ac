#!/usr/bin/env python3
"""Compares the program with a reader of its own on random chart texts, many of them damaged.

Build the program first (rt run in crates/overview), then: python3 tests/compare_reader.py [pairs] [seed]
The reader below is written from docs/FORMAT.md alone, by regular expressions, and emptiness is decided by sets of the
states that steps lead to. Not part of the gate.
"""
import random
import re
import subprocess
import sys
import tempfile
from collections import Counter
from pathlib import Path

PROGRAM = Path(__file__).resolve().parent.parent / "crates/overview/out/overview"
NUMBER = r"(0|[1-9][0-9]?)"
STATE = re.compile(NUMBER + r" ([>.]) ([*.])")
STEP = re.compile(NUMBER + r" ([a-z#]) " + NUMBER)
BYTES = b"\n 0123456789abpqz>*.#letrsfomyA\r\t~\x00\xff"


def led_to(steps, states):
    """The states that one step or more lead to from these."""
    found = set()
    fresh = set(states)
    while fresh:
        fresh = {q for p, q in steps if p in fresh} - found
        found |= fresh
    return found


def is_empty(starts, marks, steps):
    """No marked state that can be reached leads back to itself."""
    reached = starts | led_to(steps, starts)
    return not any(q in led_to(steps, {q}) for q in marks & reached)


def read(text):
    """(number, line) of the refusal, or (0, states, letters, whether it takes no word)."""
    if len(text) > 8192:
        return 1, 0
    *lines, rest = text.decode("latin1").split("\n")
    letters = states = 0
    starts, marks, steps = set(), set(), set()
    part = "title"
    for at, line in enumerate(lines, 1):
        if part == "title":
            if line != "letters":
                return 1, at
            part = "count"
        elif part == "count":
            if not re.fullmatch(NUMBER, line):
                return 1, at
            letters = int(line)
            if not 1 <= letters <= 16:
                return 2, at
            part = "columns"
        elif part == "columns":
            if line != "state start mark":
                return 1, at
            part = "states"
        elif part == "states" and line == "from by to":
            if states == 0:
                return 2, at
            part = "steps"
        elif part == "states":
            found = STATE.fullmatch(line)
            if not found:
                return 1, at
            if int(found[1]) != states or states == 32:
                return 2, at
            if found[2] == ">":
                starts.add(states)
            if found[3] == "*":
                marks.add(states)
            states += 1
        else:
            found = STEP.fullmatch(line)
            if not found:
                return 1, at
            known = found[2] == "#" or ord(found[2]) - ord("a") < letters
            if max(int(found[1]), int(found[3])) >= states or not known:
                return 2, at
            steps.add((int(found[1]), int(found[3])))
    if rest or part != "steps":
        return 1, len(lines) + 1
    return 0, states, letters, "yes" if is_empty(starts, marks, steps) else "no"


def sample(rng):
    """A text near the limits or small, and damaged two times in five."""
    letters = rng.choice([0, 1, 15, 16, 17]) if rng.random() < 0.3 else rng.randint(1, 16)
    states = rng.choice([1, 31, 32, 33]) if rng.random() < 0.3 else rng.randint(1, 8)

    def state():
        return rng.randint(0, states - (rng.random() < 0.95))

    def letter():
        if rng.random() < 0.2:
            return "#"
        return chr(ord("a") + min(25, rng.randint(0, max(0, letters - (rng.random() < 0.95)))))

    text = [f"letters\n{letters}\nstate start mark\n"]
    text += [f"{q} {rng.choice('>.')} {rng.choice('*.')}\n" for q in range(states)]
    text += ["from by to\n"]
    text += [f"{state()} {letter()} {state()}\n" for _ in range(rng.randint(0, 16))]
    damaged = bytearray("".join(text).encode())
    for _ in range(rng.choice([0, 0, 0, 1, 2])):
        at = rng.randrange(len(damaged) + 1)
        kind = rng.random()
        if kind < 0.6:
            damaged[at : at + (kind < 0.35)] = bytes([rng.choice(BYTES)])
        elif kind < 0.85:
            del damaged[at : at + 1]
        elif kind < 0.95:
            del damaged[at:]
        else:
            damaged[at:at] = damaged[: rng.randint(1, 40)]
    return bytes(damaged)


def expected(duty, rule):
    answers = {"duty": read(duty), "rule": read(rule)}
    for side, answer in answers.items():
        if answer[0]:
            return f"refused at place\n{answer[0]} {side} {answer[1]}\n"
    rows = [f"{side} {states} {letters} {empty}\n" for side, (_, states, letters, empty) in answers.items()]
    return "chart states letters empty\n" + "".join(rows)


def main():
    pairs = int(sys.argv[1]) if len(sys.argv) > 1 else 2000
    rng = random.Random(int(sys.argv[2]) if len(sys.argv) > 2 else 1)
    seen = Counter()
    with tempfile.TemporaryDirectory() as folder:
        for _ in range(pairs):
            duty, rule = sample(rng), sample(rng)
            Path(folder, "duty.chart").write_bytes(duty)
            Path(folder, "rule.chart").write_bytes(rule)
            said = subprocess.run([PROGRAM], cwd=folder, capture_output=True, check=True).stdout.decode()
            if said != expected(duty, rule):
                sys.exit(f"differs on\n{duty!r}\n{rule!r}\nexpected\n{expected(duty, rule)}said\n{said}")
            row = said.split("\n")[1].split()
            seen[row[0]] += 1
            if row[0] == "duty":
                seen[row[-1]] += 1
    print(
        f"{pairs} pairs agree: {seen['1']} refused by 1, {seen['2']} by 2, {seen['duty']} read, "
        f"of which the duty takes no word in {seen['yes']} and some in {seen['no']}"
    )


main()
