#!/usr/bin/env python3
"""Compares the search with ranked_graph.py on random pairs: nodes, edges, and whether a marked node lies on a cycle.

Build the search first, then: python3 baseline/check.py [pairs] [seed]
"""
import random
import subprocess
import sys
import tempfile
from pathlib import Path

HERE = Path(__file__).resolve().parent
sys.path.insert(0, str(HERE.parent / "tests"))
import compare_verdicts
import ranked_graph


def expected(duty, rule):
    """The line that the search should print but for its time, or nothing where the graph is not for it or too large."""
    if duty.letters != rule.letters or rule.states > compare_verdicts.MOST_RULE_STATES:
        return None
    if compare_verdicts.reachable(duty, rule, 3000) is None:
        return None
    edges = ranked_graph.graph(duty, rule)
    cycle = ranked_graph.marked_cycle(edges, ranked_graph.starts(duty, rule)) is not None
    return [str(len(edges)), str(sum(map(len, edges.values()))), "yes" if cycle else "no"]


def said(folder, rng, duty, rule):
    for name, chart in [("duty.chart", duty), ("rule.chart", rule)]:
        Path(folder, name).write_text(compare_verdicts.text(rng, chart))
    lines = subprocess.run([HERE / "search"], cwd=folder, capture_output=True, check=True).stdout.decode().splitlines()
    return lines[1].split()[:3]


def main():
    pairs = int(sys.argv[1]) if len(sys.argv) > 1 else 100
    rng = random.Random(int(sys.argv[2]) if len(sys.argv) > 2 else 1)
    seen = {"yes": 0, "no": 0}
    with tempfile.TemporaryDirectory() as folder:
        while sum(seen.values()) < pairs:
            duty, rule = compare_verdicts.random_pair(rng)
            line = expected(duty, rule)
            if line is not None:
                found = said(folder, rng, duty, rule)
                if found != line:
                    sys.exit(f"differs on\n{duty}\n{rule}\nexpected {line}, said {found}")
                seen[line[2]] += 1
    print(f"{pairs} pairs agree: {seen['yes']} with a marked cycle, {seen['no']} without")


main()
