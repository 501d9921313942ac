#!/usr/bin/env python3
"""Builds ranked graphs apart from the repository's definitions, and compares.

First with the answers that the tests in crates/ranked_tests expect: of each node where its edges lead by each letter, whether
it is marked and on a cycle, and a measure, and the starts for rules of one, two and six states. Then on random pairs of charts:
what the graph tells against what runs over short words tell; pairs whose graphs have more than 3,000 nodes are left out. Not
part of the gate.

    python3 tests/ranked_graph.py [pairs] [seed]
"""
import ast
import itertools
import random
import re
import sys
from collections import namedtuple
from pathlib import Path

TESTS = Path(__file__).resolve().parent.parent / "crates/ranked_tests/src"

Chart = namedtuple("Chart", "states letters starts marks steps")
Node = namedtuple("Node", "duty ranks owed turn")


def number(node):
    ranks = sum((0 if r is None else r + 1) << (12 + 4 * q) for q, r in enumerate(node.ranks))
    return node.duty + (node.turn << 5) + sum(64 << q for q in node.owed) + ranks


def starts(duty, rule):
    ranks = tuple(2 * rule.states if q in rule.starts else None for q in range(rule.states))
    return [Node(state, ranks, frozenset(), 0) for state in sorted(duty.starts)]


def successors(duty, rule, node):
    for letter in range(duty.letters):
        choices = []
        for q in range(rule.states):
            before = [r for p, r in enumerate(node.ranks) if r is not None and (p, letter, q) in rule.steps]
            if before:
                choices.append([r for r in range(min(before) + 1) if r % 2 == 0 or q not in rule.marks])
            else:
                choices.append([None])
        for ranks in itertools.product(*choices):
            owed = {q for q, r in enumerate(ranks) if r is not None and r % 2 == 0}
            if node.owed:
                owed &= {q for p, l, q in rule.steps if l == letter and p in node.owed}
            turn = int(bool(node.owed)) if node.turn else int(node.duty in duty.marks)
            for state, by, after in sorted(duty.steps):
                if state == node.duty and by == letter:
                    yield letter, Node(after, ranks, frozenset(owed), turn)


def graph(duty, rule, most=3000):
    """Each node that can be reached, breadth first, with its edges; or nothing where they are too many."""
    edges = {}
    nodes = starts(duty, rule)
    for node in nodes:
        if node in edges:
            continue
        edges[node] = list(successors(duty, rule, node))
        nodes += [n for _, n in edges[node] if n not in edges]
        if len(edges) > most:
            return None
    return edges


def is_marked(node):
    return node.turn == 1 and not node.owed


def path(edges, sources, to):
    """The letters of a shortest path of one edge or more from a source, or nothing."""
    found = {}
    queue = [(s, None) for s in sources]
    for node, _ in queue:
        for letter, after in edges[node]:
            if after not in found:
                found[after] = (node, letter)
                queue.append((after, node))
    if to not in found:
        return None
    letters, at = [], to
    while True:
        at, letter = found[at]
        letters.append(letter)
        if at in sources:
            return letters[::-1]


def marked_cycle(edges, first):
    """A word that leads to a marked node and round it again, or nothing."""
    for node in edges:
        if is_marked(node):
            loop = path(edges, [node], node)
            if loop is not None:
                stem = [] if node in first else path(edges, first, node)
                return stem, loop
    return None


def measures(edges):
    """The greatest number of marked nodes on a walk, where no marked node lies on a cycle."""
    measure = {node: 0 for node in edges}
    changed = True
    while changed:
        changed = False
        for node in edges:
            best = int(is_marked(node)) + max((measure[n] for _, n in edges[node]), default=0)
            if best > measure[node]:
                measure[node], changed = best, True
    return measure


def takes(chart, stem, loop):
    """Whether some run over the word passes marked states without end: a lap of the loop relates the states at its ends."""

    def read(relation, letters):
        for letter in letters:
            relation = {
                (p, after, seen or after in chart.marks)
                for p, q, seen in relation
                for (x, l, after) in chart.steps
                if x == q and l == letter
            }
        return relation

    reached = {q for _, q, _ in read({(p, p, False) for p in chart.starts}, stem)}
    lap = read({(q, q, False) for q in range(chart.states)}, loop)
    laps = set(lap)
    while True:
        more = laps | {(p, s, x or y) for p, q, x in laps for r, s, y in lap if q == r}
        if more == laps:
            break
        laps = more
    from_start = reached | {q for p, q, _ in laps if p in reached}
    return any((q, q, True) in laps for q in from_start)


def rows(duty, edges):
    """Of each node its number, and those of its successors by each letter."""
    letters = range(duty.letters)
    return {number(n): [sorted({number(m) for by, m in edges[n] if by == l}) for l in letters] for n in edges}


def told(duty, rule):
    """A ranked graph as the tests write it."""
    edges = graph(duty, rule)
    order = sorted(edges, key=number)
    witnesses = [n for n in order if is_marked(n) and path(edges, [n], n) is not None]
    measure = {} if witnesses else measures(edges)
    return {
        "starts": [number(n) for n in starts(duty, rule)],
        "rows": rows(duty, edges),
        "marked": [number(n) for n in order if is_marked(n)],
        "witnesses": [number(n) for n in witnesses],
        "measures": [measure[n] for n in order if n in measure],
    }


NODE = re.compile(r"(?:node!)?\((\d+): \[([^\]]*)\](?: owed (\w+))?( turn)?\)")


def number_written(found):
    """The number of a node that the tests write as (duty: [ranks] owed set turn)."""
    duty, ranks, owed, turn = found.groups()
    ranks = tuple(None if r == "-" else int(r) for r in ranks.split())
    owed = frozenset(q for q in range(len(ranks)) if int(owed or "0", 0) >> q & 1)
    return str(number(Node(int(duty), ranks, owed, int(turn is not None))))


def rows_written(found):
    """The pairs of a table that the tests write as node => [next, ..] [next, ..]; .."""
    pairs = [row.split("=>") for row in found.group(1).split(";") if row.strip()]
    return "[%s]" % ", ".join(f"({node}, [{successors.replace('] [', '], [')}])" for node, successors in pairs)


def constants(name):
    """The constants of a file of tests, by name."""
    text = re.sub(r"\s+", " ", re.sub(r"//.*", "", (TESTS / name).read_text()))
    text = re.sub(r"rows!\[(.*?;) \]", rows_written, NODE.sub(number_written, text)).replace("&", "")
    found = {}
    for constant, value in re.findall(r"const (\w+): (?:Whole|\[\(u8, Node\); \d+\]) = (?:Whole )?(.*?);", text):
        found[constant] = ast.literal_eval(re.sub(r"(\w+):", r'"\1":', value))
    return found


def whole(constant):
    return constant | {"rows": dict(constant["rows"])}


def random_chart(random_source, states, letters):
    def some(items, chance):
        return frozenset(x for x in items if random_source.random() < chance)

    every = range(states)
    steps = some(itertools.product(every, range(letters), every), 0.45)
    return Chart(states, letters, some(every, 0.6), some(every, 0.4), steps)


def compare(pairs, seed):
    random_source = random.Random(seed)
    words = [
        (stem, loop)
        for n in range(4)
        for k in range(1, 4)
        for stem in itertools.product(range(2), repeat=n)
        for loop in itertools.product(range(2), repeat=k)
    ]
    counts = {True: 0, False: 0}
    while sum(counts.values()) < pairs:
        duty = random_chart(random_source, random_source.choice([1, 2, 3]), 2)
        rule = random_chart(random_source, random_source.choice([1, 2, 3]), 2)
        edges = graph(duty, rule)
        if edges is None:
            continue
        cycle = marked_cycle(edges, starts(duty, rule))
        if cycle is not None:
            assert takes(duty, *cycle) and not takes(rule, *cycle), (duty, rule, cycle)
        else:
            for word in words:
                assert takes(rule, *word) or not takes(duty, *word), (duty, rule, word)
        counts[cycle is None] += 1
    print(f"{pairs} random pairs agree: {counts[True]} contained, {counts[False]} not")


def main():
    a, b = 0, 1
    marked_loop = Chart(1, 1, {0}, {0}, {(0, a, 0)})
    unmarked_loop = Chart(1, 1, {0}, set(), {(0, a, 0)})
    every_second = Chart(2, 1, {0}, {1}, {(0, a, 1), (1, a, 0)})
    duty = Chart(2, 2, {0}, {1}, {(0, a, 1), (0, b, 0), (0, b, 1), (1, b, 1)})
    rule = Chart(2, 2, {0}, {1}, {(0, b, 1), (1, a, 0), (1, a, 1), (1, b, 1)})
    by_letters = [Chart(2, 2, {0, 1}, {marked}, {(0, a, 0), (1, b, 1)}) for marked in range(2)]
    no_start = Chart(1, 1, set(), set(), {(0, a, 0)})
    still = {n: Chart(n, 1, {0}, set(), set()) for n in (1, 2, 6)}
    pairs = {
        "MARKED_AND_UNMARKED": (marked_loop, unmarked_loop),
        "EVERY_SECOND": (marked_loop, every_second),
        "CHOICES": (duty, rule),
        "STILL_RULE": (marked_loop, still[1]),
        "STARTLESS_RULE": (marked_loop, no_start),
        "STILL_DUTY": (still[1], unmarked_loop),
        "STARTLESS_DUTY": (no_start, unmarked_loop),
        "BY_LETTERS": tuple(by_letters),
    }
    expected = constants("wholes.rt") | constants("kinds.rt")
    for name, pair in pairs.items():
        assert told(*pair) == whole(expected[name]), name
    found = [(n, number(node)) for n, rule in still.items() for node in starts(marked_loop, rule)]
    assert found == expected["STARTS"]
    print(f"the {len(pairs)} graphs that are tested agree, and the starts for {len(still)} rules")
    arguments = [int(x) for x in sys.argv[1:]] + [200, 1][len(sys.argv) - 1 :]
    compare(*arguments)


if __name__ == "__main__":
    main()
