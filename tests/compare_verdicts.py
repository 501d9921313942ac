#!/usr/bin/env python3
"""Compares the program's verdicts on random pairs of charts with verdicts that are found without ranks.

Build the program first (rt run in crates/containment), then: python3 tests/compare_verdicts.py [pairs] [seed]

The *effect* of a finite word on a chart tells between which states runs over the word lead, and between which past a marked
state. A chart has finitely many effects, and that of a word follows from those of its letters; so all that words have on the
two charts are found by adding letters. Each repeating word has a stem and a loop such that going round the loop once more
changes neither the loop's effects nor the states that the stem leads to (Ramsey's way). Then a chart takes the word exactly
if the loop leads from one of these states to itself past a marked one. So the verdict is exact. It is tested as well: by all
short words, and by the word that stands against each break; whether a chart takes a word is there decided over the places of
the loop.

The nodes of the ranked graph are counted by the sets and tuples of ranked_graph.py. Not part of the gate.
"""
import itertools
import random
import subprocess
import sys
import tempfile
from collections import Counter
from pathlib import Path

import ranked_graph
from ranked_graph import Chart

PROGRAM = Path(__file__).resolve().parent.parent / "crates/containment/out/containment"
MOST_NODES = 512
MOST_RULE_STATES = 6


# Verdicts by effects


def letter_effect(chart, letter):
    """For each state, (q, False) where a step leads to q, and (q, True) too where q is marked."""
    return tuple(
        frozenset((q, seen) for x, l, q in chart.steps if (x, l) == (p, letter) for seen in {False, q in chart.marks})
        for p in range(chart.states)
    )


def compose(first, second):
    return tuple(frozenset((r, x or y) for q, x in row for r, y in second[q]) for row in first)


def after(states, effect):
    return frozenset(q for p in states for q, _ in effect[p])


def marked_laps(effect):
    """The states that lead to themselves past a marked state."""
    return {p for p, row in enumerate(effect) if (p, True) in row}


def closure(firsts, letters, longer):
    """What the first ones become by letters, each with a shortest word: firsts and letters are pairs of word and value."""
    words = {}
    queue = list(firsts)
    for word, value in queue:
        if value not in words:
            words[value] = word
            queue += [(word + letter, longer(value, effects)) for letter, effects in letters]
    return words


def differing_word(duty, rule):
    """A stem and a loop that the duty takes and the rule does not, or nothing if there are none."""
    letters = [((i,), (letter_effect(duty, i), letter_effect(rule, i))) for i in range(duty.letters)]
    loops = closure(letters, letters, lambda x, y: (compose(x[0], y[0]), compose(x[1], y[1])))
    starts = [((), (frozenset(duty.starts), frozenset(rule.starts)))]
    stems = closure(starts, letters, lambda x, y: (after(x[0], y[0]), after(x[1], y[1])))
    for (of_duty, of_rule), loop in loops.items():
        laps = marked_laps(of_duty)
        if not laps or compose(of_duty, of_duty) != of_duty or compose(of_rule, of_rule) != of_rule:
            continue
        for (duty_at, rule_at), stem in stems.items():
            settled = after(duty_at, of_duty) == duty_at and after(rule_at, of_rule) == rule_at
            if settled and duty_at & laps and not rule_at & marked_laps(of_rule):
                return stem, loop
    return None


# Words one by one


def led_from(edges, goal):
    """The nodes that one edge or more lead from to the goal."""
    before = {}
    for x, y in edges:
        before.setdefault(y, []).append(x)
    found = set()
    queue = list(goal)
    for y in queue:
        fresh = [x for x in before.get(y, []) if x not in found]
        found.update(fresh)
        queue += fresh
    return found


def endless(chart, loop):
    """The states from which a run over the loop for ever passes marked states without end.

    A state at a place of the loop stays for as long as it leads to a marked one that stays."""
    edges = [
        ((p, at), (q, (at + 1) % len(loop))) for at, letter in enumerate(loop) for p, l, q in chart.steps if l == letter
    ]
    stay = {x for x, _ in edges}
    while True:
        fewer = led_from(edges, [x for x in stay if x[0] in chart.marks])
        if fewer == stay:
            return {p for p, at in stay if at == 0}
        stay = fewer


def reached(chart, stem):
    states = set(chart.starts)
    for letter in stem:
        states = {q for p, l, q in chart.steps if p in states and l == letter}
    return states


def takes(chart, stem, loop):
    return bool(reached(chart, stem) & endless(chart, loop))


def takes_nothing(chart):
    edges = [(p, q) for p, _, q in chart.steps]
    on_cycles = {p for p in chart.marks if p in led_from(edges, {p})}
    return not chart.starts & (on_cycles | led_from(edges, on_cycles))


def short_words(letters):
    """All words of one letter to four, as far as there are at most 16 of a length."""
    lengths = [n for n in range(1, 5) if letters**n <= 16]
    return [word for n in lengths for word in itertools.product(range(letters), repeat=n)]


def short_difference(duty, rule):
    """A short stem and a short loop that the duty takes and the rule does not, or nothing."""
    words = short_words(duty.letters)
    ends = [(stem, reached(duty, stem), reached(rule, stem)) for stem in [()] + words]
    for loop in words:
        of_duty, of_rule = endless(duty, loop), endless(rule, loop)
        for stem, duty_at, rule_at in ends:
            if duty_at & of_duty and not rule_at & of_rule:
                return stem, loop
    return None


# What the program should say


def reachable(duty, rule, most=MOST_NODES):
    """How many nodes of the ranked graph can be reached, or nothing where they are too many."""
    found = set(ranked_graph.starts(duty, rule))
    queue = list(found)
    for node in queue:
        for _, node_after in ranked_graph.successors(duty, rule, node):
            if node_after not in found:
                found.add(node_after)
                queue.append(node_after)
            if len(found) > most:
                return None
    return len(found)


def verdict(duty, rule):
    """`break` or `keep`, tested by words one by one."""
    word = differing_word(duty, rule)
    if word is None:
        assert short_difference(duty, rule) is None, (duty, rule)
        return "keep"
    assert takes(duty, *word) and not takes(rule, *word), (duty, rule, word)
    return "break"


def refused(number, place="bench", line=0):
    return f"refused at place\n{number} {place} {line}\n"


def expected(duty, rule):
    if duty.letters != rule.letters:
        return refused(5)
    if rule.states > MOST_RULE_STATES:
        return refused(6)
    nodes = reachable(duty, rule)
    if nodes is None:
        return refused(13)
    return f"verdict nodes\n{verdict(duty, rule)} {nodes}\n"


# Random pairs


def some(rng, items, chance):
    return frozenset(x for x in items if rng.random() < chance)


def random_chart(rng, states, letters, least=0.4, most=1.6):
    """A chart that has, of a state and a letter, between `least` and `most` steps in the mean."""
    every = range(states)
    chance = rng.uniform(least, most) / states
    steps = some(rng, itertools.product(every, range(letters), every), chance)
    starts = {0} if rng.random() < 0.6 else some(rng, every, 0.5)
    return Chart(states, letters, frozenset(starts), some(rng, every, rng.uniform(0.2, 0.9)), steps)


def near(rng, chart):
    """The chart with some steps, starts and marks left out, and perhaps a step added."""
    steps = some(rng, sorted(chart.steps), 0.85)
    if rng.random() < 0.6:
        steps |= {(rng.randrange(chart.states), rng.randrange(chart.letters), rng.randrange(chart.states))}
    starts, marks = some(rng, sorted(chart.starts), 0.9), some(rng, sorted(chart.marks), 0.9)
    return Chart(chart.states, chart.letters, starts, marks, steps)


def small(rng):
    letters = rng.choice([1, 2, 2])
    rule = random_chart(rng, rng.randint(1, 3), letters)
    return (near(rng, rule) if rng.random() < 0.4 else random_chart(rng, rng.randint(1, 4), letters)), rule


def deep(rng):
    """A rule of more states, with few steps."""
    letters = rng.choice([1, 2, 2])
    return random_chart(rng, rng.randint(1, 3), letters, 0.4, 1.2), random_chart(rng, rng.randint(4, 6), letters, 0.3, 1.0)


def wide(rng):
    """A duty of many states."""
    return random_chart(rng, rng.randint(5, 32), 1), random_chart(rng, rng.randint(1, 2), 1)


def many_letters(rng):
    letters = rng.randint(3, 16)
    rule = random_chart(rng, rng.randint(1, 2), letters)
    return (near(rng, rule) if rng.random() < 0.4 else random_chart(rng, rng.randint(1, 2), letters)), rule


def letters_differ(rng):
    of_duty, of_rule = rng.sample(range(1, 17), 2)
    return random_chart(rng, rng.randint(1, 4), of_duty), random_chart(rng, rng.randint(1, 8), of_rule)


def rule_too_large(rng):
    letters = rng.choice([1, 2, 2])
    states = rng.choice([7, 7, 8, rng.randint(9, 32)])
    return random_chart(rng, rng.randint(1, 4), letters), random_chart(rng, states, letters)


KINDS = {small: 60, deep: 14, wide: 8, many_letters: 8, letters_differ: 5, rule_too_large: 5}


def random_pair(rng):
    """A pair of one of these kinds; most of those whose duty takes no word are drawn again."""
    while True:
        (kind,) = rng.choices(list(KINDS), list(KINDS.values()))
        duty, rule = kind(rng)
        if rng.random() < 0.15 or not takes_nothing(duty):
            return duty, rule


def fixed_pairs():
    """Pairs whose ranked graphs have exactly as many nodes as are allowed, and pairs with one more, both with 3 states."""

    def chart(marks, steps):
        return Chart(3, 2, {0}, marks, {(int(p), "ab".index(letter), int(q)) for p, letter, q in steps.split()})

    pairs = [
        (chart({2}, "0a1 0a2 0b0 0b2 1b0 2a1"), chart({1, 2}, "0a1 0b0 0b2 1a1 1b1 2b0 2b1")),
        (chart({1, 2}, "0a0 0b1 0b2 1b2 2a0 2a1 2b2"), chart({0}, "0a1 0a2 1a2 1b1 2a2 2b0")),
        (chart({2}, "0a0 0a1 0b2 1b0 2a0 2b1"), chart({0, 1, 2}, "0a2 0b0 1a0 1a2 1b0 1b1 2a1 2a2 2b1")),
        (chart({0, 2}, "0a1 1a2 1b1 2b1"), chart({1}, "0a2 1a0 1a2 1b1 1b2 2a0 2a1 2a2")),
    ]
    counts = [reachable(*pair, MOST_NODES + 1) for pair in pairs]
    assert counts == [MOST_NODES, MOST_NODES, MOST_NODES + 1, MOST_NODES + 1], counts
    return pairs


# Texts and the program


def text(rng, chart):
    """The chart's text, its step lines in any order, some of them twice, and `#` for every letter where that can stand."""
    states = [f"{q} {'.>'[q in chart.starts]} {'.*'[q in chart.marks]}\n" for q in range(chart.states)]
    by_ends = {}
    for p, letter, q in sorted(chart.steps):
        by_ends.setdefault((p, q), []).append("abcdefghijklmnop"[letter])
    steps = []
    for (p, q), letters in by_ends.items():
        together = len(letters) == chart.letters and rng.random() < 0.5
        steps += [f"{p} {letter} {q}\n" for letter in ("#" if together else letters)]
    steps += [line for line in steps if rng.random() < 0.05]
    rng.shuffle(steps)
    return "".join([f"letters\n{chart.letters}\nstate start mark\n", *states, "from by to\n", *steps])


def spoil(rng, written):
    """The text made unreadable, with the number and the line of its refusal."""
    lines = written.splitlines(keepends=True)
    kind = rng.randrange(3)
    if kind == 0:
        return "", (1, 1)
    if kind == 1:
        return "".join([lines[0], "17\n", *lines[2:]]), (2, 2)
    return written[:-1], (1, len(lines))


def texts_and_answer(rng, duty, rule, spoilt):
    """The two texts, each spoilt with this chance, and what the program should say of them."""
    texts, answer = [], None
    for side, chart in [("duty", duty), ("rule", rule)]:
        written = text(rng, chart)
        if rng.random() < spoilt:
            written, (number, line) = spoil(rng, written)
            answer = answer or refused(number, side, line)
        texts.append(written)
    return *texts, answer or expected(duty, rule)


def said(folder, duty, rule):
    Path(folder, "duty.chart").write_text(duty)
    Path(folder, "rule.chart").write_text(rule)
    return subprocess.run([PROGRAM], cwd=folder, capture_output=True, check=True).stdout.decode()


def main():
    pairs = int(sys.argv[1]) if len(sys.argv) > 1 else 3000
    rng = random.Random(int(sys.argv[2]) if len(sys.argv) > 2 else 1)
    seen = Counter()
    with tempfile.TemporaryDirectory() as folder:
        fixed = ((*pair, 0) for pair in fixed_pairs())
        drawn = ((*random_pair(rng), 0.02) for _ in range(pairs))
        for duty, rule, spoilt in itertools.chain(fixed, drawn):
            *texts, answer = texts_and_answer(rng, duty, rule, spoilt)
            row = answer.split("\n")[1].split()
            seen["pairs"] += 1
            seen[row[0]] += 1
            found = said(folder, *texts)
            if found != answer:
                seen["disagree"] += 1
                if seen["disagree"] <= 5:
                    print(f"differs on\n{texts[0]}\nand\n{texts[1]}\nexpected\n{answer}said\n{found}")
    print(f"{seen['pairs']} pairs: {seen['break']} breaks, {seen['keep']} keeps; refused by", end="")
    print(",".join(f" {number} {seen[number]}" for number in ["1", "2", "5", "6", "13"]), end="")
    print(f"; {seen['disagree']} disagree")
    sys.exit(seen["disagree"] > 0)


if __name__ == "__main__":
    main()
