#!/usr/bin/env python3
"""Compares what benches answer and leave, on random pairs of charts and random slips, with what is worked out here.

Build the program first (rt run in crates/trials), then: python3 tests/compare_slips.py [pairs] [seed]

The verdicts are found without ranks (compare_verdicts.py); the nodes, their edges and their measures by sets and tuples
(ranked_graph.py). The rules of slips are tested here over those nodes; a number is read as a node bit by bit, as
docs/FORMAT.md tells it.

First every pair is judged, and the slip is inspected and released. Then the judged slips, slips that are made here, and both
of them damaged, are put and inspected. Last come random calls on small pairs, with tables of any length, of which the
caller changes some records. Each answer, each state and each table is compared. Not part of the gate.
"""
import random
import subprocess
import sys
from collections import Counter, namedtuple
from pathlib import Path

import ranked_graph
from compare_verdicts import MOST_NODES, MOST_RULE_STATES, random_pair, reachable, verdict
from ranked_graph import Node, is_marked, number

PROGRAM = Path(__file__).resolve().parent.parent / "crates/trials/out/trials"

Record = namedtuple("Record", "node letter measure")
Slip = namedtuple("Slip", "kind stem records")
Case = namedtuple("Case", "graph room calls")
RULES = {"keep": (1, 2, 3), "break": (1, 2, 3, 4)}


# The ranked graph of a pair, and the rules of slips over it


class Ranked:
    """A pair with its ranked graph. What is asked more than once is kept."""

    def __init__(self, duty, rule):
        self.duty, self.rule = duty, rule
        self.refusal = None
        if duty.letters != rule.letters:
            self.refusal = "refused 5 0"
        elif rule.states > MOST_RULE_STATES:
            self.refusal = "refused 6 0"
        few = self.refusal is None and reachable(duty, rule) is not None
        self.edges = ranked_graph.graph(duty, rule, MOST_NODES) if few else None
        self.firsts = {number(node) for node in ranked_graph.starts(duty, rule)} if not self.refusal else set()
        self.known = {}
        self.answer = None

    def count(self):
        """How many nodes can be reached, or nothing where they are too many to be counted here."""
        return None if self.edges is None else len(self.edges)

    def verdict(self):
        if self.answer is None:
            self.answer = verdict(self.duty, self.rule)
        return self.answer

    def node(self, v):
        """The node of this number, or nothing."""
        states = range(self.rule.states)
        ranks = tuple((v >> (12 + 4 * q)) % 16 for q in states)
        node = Node(
            v % 32,
            tuple(r - 1 if r else None for r in ranks),
            frozenset(q for q in states if v >> (6 + q) & 1),
            v >> 5 & 1,
        )
        even = {q for q in states if node.ranks[q] is not None and node.ranks[q] % 2 == 0}
        odd = {q for q in states if node.ranks[q] is not None and node.ranks[q] % 2 == 1}
        good = (
            node.duty < self.duty.states
            and all(r is None or r <= 2 * self.rule.states for r in node.ranks)
            and not odd & set(self.rule.marks)
            and node.owed <= even
            and number(node) == v
        )
        return node if good else None

    def told(self, v):
        """Of a number that is a node: whether it is marked, and its edges, each as a letter and a number. Else nothing."""
        if v not in self.known:
            node = self.node(v)
            after = node and {(letter, number(n)) for letter, n in ranked_graph.successors(self.duty, self.rule, node)}
            self.known[v] = node and (is_marked(node), after)
        return self.known[v]

    def fits(self, slip, room):
        stems = 1 if slip.kind == "keep" else len(slip.records)
        return len(slip.records) <= 2 * room and slip.stem < stems

    def breach(self, slip):
        """The place and the number of the first rule that the slip breaks, or nothing."""
        return (self.keep_breach if slip.kind == "keep" else self.break_breach)(slip)

    def keep_breach(self, slip):
        least = {}
        for node, _, measure in slip.records:
            least[node] = min(measure, least.get(node, measure))
        for place, (v, letter, measure) in enumerate(slip.records):
            if self.told(v) is None or letter != 0:
                return place, 1
            marked, after = self.told(v)
            if any(w not in least or least[w] + marked > measure for _, w in after):
                return place, 2
        return None if self.firsts <= set(least) else (len(slip.records), 3)

    def break_breach(self, slip):
        _, stem, records = slip
        for place, (v, letter, measure) in enumerate(records):
            if self.told(v) is None or letter >= self.duty.letters or measure != 0:
                return place, 1
            if place == 0 and v not in self.firsts:
                return place, 2
            following = records[place + 1] if place + 1 < len(records) else records[stem]
            if (letter, following.node) not in self.told(v)[1]:
                return place, 3
        return None if any(self.told(r.node)[0] for r in records[stem:]) else (len(records), 4)

    def keep_records(self):
        """What judge leaves for keep, in any order."""
        return {Record(number(n), 0, m) for n, m in ranked_graph.measures(self.edges).items()}

    def made(self, rng):
        """A slip that meets the rules, made without the program."""
        if self.verdict() == "keep":
            records = [r._replace(measure=3 * r.measure + 1) for r in self.keep_records()]
            return Slip("keep", 0, tuple(sorted(records, key=lambda _: rng.random())))
        stem, loop = ranked_graph.marked_cycle(self.edges, ranked_graph.starts(self.duty, self.rule))
        word = list(stem) + list(loop)
        paths = self.paths(word, len(stem))
        return Slip("break", len(stem), tuple(Record(v, letter, 0) for v, letter in zip(paths, word)))

    def paths(self, word, stem):
        """Nodes along the word from a start on, of which one at the loop place comes back past a marked one."""
        rows = [{v: None for v in self.firsts}]
        for letter in word[:stem]:
            rows.append({w: v for v in rows[-1] for by, w in self.told(v)[1] if by == letter})
        for at in rows[stem]:
            laps = [{(at, False): None}]
            for letter in word[stem:]:
                laps.append(
                    {
                        (w, seen or self.told(v)[0]): (v, seen)
                        for v, seen in laps[-1]
                        for by, w in self.told(v)[1]
                        if by == letter
                    }
                )
            if (at, True) in laps[-1]:
                around, here = [], (at, True)
                for row in laps[:0:-1]:
                    here = row[here]
                    around.append(here[0])
                before, v = [], at
                for row in rows[stem:0:-1]:
                    v = row[v]
                    before.append(v)
                return before[::-1] + around[::-1]
        raise AssertionError("no path along the word")


# What a bench should answer


def used(count):
    return [Record(place, 200, 77) for place in range(count)]


def words(records):
    return "".join(f" {r.node} {r.letter} {r.measure}" for r in records)


def read(text):
    found = [int(x) for x in text.split()]
    return [Record(*found[i : i + 3]) for i in range(0, len(found), 3)]


class Differs(Exception):
    pass


class Bench:
    """The state, as `empty` or a name and a form, and the table. A judged slip is taken over from the program, once it is
    seen to be one that may be left."""

    def __init__(self, case, seen):
        self.graph, self.room, self.seen = case.graph, case.room, seen
        self.state, self.form, self.judged = "empty", None, None
        self.table = used(2 * case.room + 1)
        self.lent = 2 * case.room, case.room

    def state_text(self):
        return self.state if self.form is None else f"{self.state} {self.form[0]} {self.form[1]} {self.form[2]}"

    def slip(self):
        kind, count, stem = self.form
        return Slip(kind, stem, tuple(self.table[:count]))

    def leave(self, state, form):
        self.state, self.form = state, form

    def sized(self):
        return min(self.lent[0], len(self.table)) == 2 * self.room

    def compare(self, call, line):
        said, _, state = line.partition("; ")
        if call[0] == "judge":
            wanted = self.judge(state)
        elif call[0] == "table":
            wanted = self.show(said)
        else:
            wanted = getattr(self, call[0])(*call[1:])
        if (said, state) != (wanted, self.state_text()):
            raise Differs(f"{call[0]} should answer {wanted}; {self.state_text()} and answered {line}")

    def judge(self, state):
        if not self.sized() or min(self.lent[1], self.room + 1) != self.room:
            return self.refuse("7 0")
        if self.state != "empty":
            return self.refuse("10 0")
        nodes = self.graph.count()
        if nodes is None or nodes > self.room:
            return self.refuse("13 0")
        kind = self.graph.verdict()
        form = state.split()
        if form[:2] != ["drafted", kind]:
            raise Differs(f"judge should draft {kind} and left {state}")
        self.judged = kind
        self.leave("drafted", (kind, int(form[2]), int(form[3])) if kind == "break" else (kind, nodes, 0))
        self.seen[f"judged {kind}"] += 1
        return f"{kind} {nodes}"

    def show(self, said):
        if self.judged:
            table, count = read(said.removeprefix("done")), self.form[1]
            slip = Slip(self.judged, self.form[2], tuple(table[:count]))
            if not self.graph.fits(slip, self.room) or self.graph.breach(slip):
                raise Differs(f"judge left {slip}")
            if self.judged == "keep" and set(slip.records) != self.graph.keep_records():
                raise Differs(f"judge left {slip}")
            self.table[:count] = slip.records
            self.judged = None
        return "done" + words(self.table)

    def put(self, slip):
        if not self.sized():
            return self.refuse("7 0")
        if self.state != "empty":
            return self.refuse("10 0")
        if not self.graph.fits(slip, self.room):
            return self.refuse("9 0")
        self.table[: len(slip.records)] = slip.records
        self.leave("drafted", (slip.kind, len(slip.records), slip.stem))
        return "done"

    def inspect(self):
        if not self.sized():
            return self.refuse("7 0")
        if self.state == "empty":
            return self.refuse("11 0")
        breach = self.graph.breach(self.slip())
        if breach:
            self.leave("drafted", self.form)
            self.seen[f"{self.form[0]} {breach[1]}"] += 1
            return f"refused 14 {breach[0]} {self.form[0]} {breach[1]}"
        self.leave("passed", self.form)
        self.seen[f"passed {self.form[0]}"] += 1
        return "done"

    def release(self):
        if not self.sized():
            return self.refuse("7 0")
        if self.state == "empty":
            return self.refuse("11 0")
        if self.state == "drafted":
            return self.refuse("12 0")
        kind, stem, records = self.slip()
        self.seen["released"] += 1
        return "done" + words(records if kind == "keep" else records[stem:])

    def clear(self):
        self.leave("empty", None)
        return "done"

    def lend(self, slips, nodes):
        self.lent = slips, nodes
        return "done"

    def set(self, place, record):
        self.table[place] = record
        return "done"

    def refuse(self, number):
        self.seen["refused " + number.split()[0]] += 1
        return "refused " + number


# The program


def bits(states):
    return sum(1 << q for q in states)


def chart_line(chart):
    rows = [
        bits(q for q in range(chart.states) if (p, letter, q) in chart.steps)
        for p in range(chart.states)
        for letter in range(chart.letters)
    ]
    return " ".join(map(str, [chart.states, chart.letters, bits(chart.starts), bits(chart.marks), *rows]))


def call_line(call):
    name, *rest = call
    if name == "put":
        (slip,) = rest
        return f"put {['keep', 'break'].index(slip.kind)} {slip.stem}{words(slip.records)}"
    if name == "set":
        return f"set {rest[0]}{words(rest[1:])}"
    return " ".join([name, *map(str, rest)])


def run(cases, seen):
    """What the program says of each case, compared. The answers are handed back, by lines."""
    text = "\n".join(
        f"duty {chart_line(case.graph.duty)}\nrule {chart_line(case.graph.rule)}\nroom {case.room}\n"
        + "".join(call_line(call) + "\n" for call in case.calls)
        for case in cases
    )
    lines = subprocess.run([PROGRAM], input=text, capture_output=True, check=True, text=True).stdout.splitlines()
    answers, at = [], 0
    for case in cases:
        made = case.graph.refusal or ("made" if 1 <= case.room <= 65536 else "refused 7 0")
        calls = case.calls if made == "made" else []
        count = 1 + len(calls)
        part = lines[at : at + count]
        at += count
        answers.append(part)
        try:
            if not part or part[0] != made:
                raise Differs(f"should be {made} and is {part[:1]}")
            bench = Bench(case, seen)
            for call, line in zip(calls, part[1:], strict=True):
                seen["calls"] += 1
                bench.compare(call, line)
        except Differs as error:
            seen["disagree"] += 1
            if seen["disagree"] <= 5:
                print(f"{error}\non {case.graph.duty}\nand {case.graph.rule}\nroom {case.room}")
                print("\n".join(f"  {call_line(c)[:400]} -> {a[:400]}" for c, a in zip(calls, part[1:])))
        seen[made] += 1
    assert at == len(lines), (at, len(lines))
    return answers


# Cases


JUDGED = [("judge",), ("table",), ("inspect",), ("release",), ("inspect",), ("table",)]


def judged_case(rng, graph):
    nodes = graph.count()
    if nodes is None:
        room = rng.choice([1, MOST_NODES, rng.randint(1, MOST_NODES)])
    else:
        room = max(nodes, 1) + rng.choice([0, 0, 0, 1, rng.randint(0, 30), -1])
    return Case(graph, room if rng.random() < 0.98 else rng.choice([0, 65537]), JUDGED)


def judged_slip(case, lines):
    """The slip that was judged, and has passed, or nothing."""
    if len(lines) < 4 or not lines[3].startswith("done"):
        return None
    kind, count, stem = lines[3].split("; ")[1].split()[1:]
    return Slip(kind, int(stem), tuple(read(lines[2].split(";")[0].removeprefix("done"))[: int(count)]))


def change_node(rng, graph, r):
    """One part of the number is changed, or one bit, or it is another node's, or nearly the same."""
    q = rng.randrange(graph.rule.states)
    low, size = rng.choice([(0, 5), (5, 1), (6 + q, 1), (12 + 4 * q, 4), (12 + 4 * q, 4), (rng.randrange(64), 1)])
    kind = rng.randrange(4)
    if kind == 0 and graph.edges:
        return r._replace(node=number(rng.choice(list(graph.edges))))
    if kind == 1:
        return r._replace(node=r.node + rng.choice([-1, 1, 32, 64, 4096]) & 2**64 - 1)
    part = r.node >> low & 2**size - 1
    return r._replace(node=r.node ^ (part ^ rng.randrange(2**size)) << low)


def change_letter(rng, graph, r):
    return r._replace(letter=rng.choice([0, r.letter ^ 1, graph.duty.letters, graph.duty.letters - 1, 255]))


def change_measure(rng, graph, r):
    more = min(r.measure + 1, 2**32 - 1)
    return r._replace(measure=rng.choice([0, more, max(r.measure, 1) - 1, rng.randrange(4), 2**32 - 1]))


def walk(rng, graph):
    """A break slip along a walk from a start, by marked nodes where it can, up to the first node that comes again; or nothing
    where it comes to an end."""
    nodes, letters = [rng.choice(sorted(graph.firsts))], []
    while graph.told(nodes[-1])[1]:
        ways = sorted(graph.told(nodes[-1])[1])
        marked = [(letter, w) for letter, w in ways if graph.told(w)[0] and w not in nodes]
        letter, after = rng.choice(marked or ways)
        letters.append(letter)
        if after in nodes:
            return Slip("break", nodes.index(after), tuple(Record(v, l, 0) for v, l in zip(nodes, letters)))
        nodes.append(after)
    return None


WAYS = {"node": 2, "letter": 1, "measure": 1, "drop": 2, "double": 1, "swap": 1, "loop": 1, "kind": 1, "shuffle": 1, "unroll": 1}
WAYS |= {"cut": 1, "starts": 1, "walk": 2, "stranger": 2}


def changed(rng, graph, slip):
    """The slip with one thing changed."""
    kind, stem, records = slip[0], slip[1], list(slip[2])
    places = range(len(records))
    (way,) = rng.choices(list(WAYS), list(WAYS.values()))
    if way in ("node", "letter", "measure") and records:
        at = rng.choice(places)
        change = {"node": change_node, "letter": change_letter, "measure": change_measure}[way]
        records[at] = change(rng, graph, records[at])
    elif way == "drop" and records:
        del records[rng.choice(places)]
    elif way == "double" and records:
        records.insert(rng.randint(0, len(records)), rng.choice(records))
    elif way == "swap" and records:
        i, j = rng.choice(places), rng.choice(places)
        records[i], records[j] = records[j], records[i]
    elif way == "loop":
        stem = rng.choice([0, stem + 1, max(stem, 1) - 1, max(len(records), 1) - 1, len(records), 2**40])
    elif way == "kind" and rng.random() < 0.3:
        kind = "break" if kind == "keep" else "keep"
        stem = rng.choice([0, stem])
    elif way == "shuffle" and kind == "keep":
        rng.shuffle(records)
    elif way == "unroll" and kind == "break" and stem < len(records):
        records += records[stem:]
        stem += rng.choice([0, (len(records) - stem) // 2])
    elif way == "cut":
        records = records[: rng.randint(0, len(records))]
        stem = min(stem, max(len(records), 1) - 1)
    elif way == "starts":
        records = [r for r in records if r.node not in graph.firsts]
    elif way == "stranger" and records:
        records.insert(rng.choice([0, rng.randint(0, len(records))]), change_node(rng, graph, rng.choice(records)))
    elif way == "walk" and graph.firsts:
        return walk(rng, graph) or slip
    return Slip(kind, stem, tuple(records))


def damaged(rng, graph, slip):
    for _ in range(rng.choice([0, 1, 1, 1, 2, 3])):
        slip = changed(rng, graph, slip)
    return slip


def tight_room(rng, slips):
    """A room whose slip table has, or just has not, place for most of these."""
    most = max(len(slip.records) for slip in slips)
    return max(1, rng.choice([most // 2, (most + 1) // 2, most, most + 1]))


def put_case(rng, graph, slips):
    room = tight_room(rng, slips)
    calls = []
    for slip in slips:
        calls += [("put", slip), ("inspect",), ("release",)]
        if graph.fits(slip, room) and slip.records and rng.random() < 0.3:
            at = rng.randrange(len(slip.records))
            change = rng.choice([change_node, change_letter, change_measure])
            calls += [("set", at, change(rng, graph, slip.records[at])), ("inspect",), ("release",)]
            calls += [("set", at, slip.records[at]), ("release",), ("inspect",), ("release",)]
        if rng.random() < 0.2:
            calls.append(("table",))
        calls.append(("clear",))
    return Case(graph, room, calls)


CALLS = {"judge": 2, "put": 2, "inspect": 3, "release": 2, "clear": 1, "lend": 1, "set": 1, "table": 1}


def random_calls(rng, graph, slip):
    """Calls in any order. The table is looked at after each judge, and where records are changed these are records of the slip
    or like them."""
    room = rng.choice([max(graph.count(), 1), max(graph.count(), 1), tight_room(rng, [slip])])
    calls = []
    for _ in range(rng.randint(6, 24)):
        (name,) = rng.choices(list(CALLS), list(CALLS.values()))
        if name == "put":
            calls.append((name, damaged(rng, graph, slip)))
        elif name == "lend":
            right = (2 * room, room)
            wrong = (2 * room + rng.choice([-1, 0, 1]), room + rng.choice([-1, 0, 1]))
            calls += [(name, *wrong), (rng.choice(["judge", "inspect", "release"]),), ("table",)]
            if rng.random() < 0.8:
                calls.append((name, *right))
        elif name == "set" and slip.records:
            at = rng.randrange(min(2 * room, len(slip.records)))
            record = slip.records[at]
            if rng.random() < 0.5:
                record = changed(rng, graph, Slip(slip.kind, 0, (record,))).records[:1]
                record = record[0] if record else slip.records[0]
            calls.append((name, at, record))
        else:
            calls.append((name,) if name != "set" else ("clear",))
        if name == "judge":
            calls.append(("table",))
    return Case(graph, room, calls)


def report(seen, pairs):
    row = lambda names: ", ".join(f"{name} {seen[name]}" for name in names)
    print(f"{pairs} pairs, {seen['calls']} calls on {seen['made']} benches; judged: {row(['judged keep', 'judged break'])}")
    print(f"no bench: {row(['refused 5 0', 'refused 6 0', 'refused 7 0'])}")
    print(f"inspected: {row(['passed keep', 'passed break'])}; released {seen['released']}")
    print("broken rules: " + row(f"{kind} {rule}" for kind, rules in RULES.items() for rule in rules))
    print("refused by: " + ", ".join(f"{n}: {seen[f'refused {n}']}" for n in (7, 9, 10, 11, 12, 13)))
    missing = [f"{kind} {rule}" for kind, rules in RULES.items() for rule in rules if not seen[f"{kind} {rule}"]]
    print(f"never broken: {missing or 'none'}; {seen['disagree']} disagree")
    return not missing


def main():
    pairs = int(sys.argv[1]) if len(sys.argv) > 1 else 3000
    rng = random.Random(int(sys.argv[2]) if len(sys.argv) > 2 else 1)
    seen = Counter()
    graphs = [Ranked(*random_pair(rng)) for _ in range(pairs)]
    judged = [judged_case(rng, graph) for graph in graphs]
    slips = [judged_slip(case, lines) for case, lines in zip(judged, run(judged, seen))]
    puts = []
    for graph, slip in zip(graphs, slips):
        if slip is not None:
            own = graph.made(rng)
            assert graph.breach(own) is None, (graph.duty, graph.rule, own)
            kinds = [slip, slip, slip, own]
            puts.append(put_case(rng, graph, [slip, own] + [damaged(rng, graph, rng.choice(kinds)) for _ in range(8)]))
    run(puts, seen)
    mixed = []
    for graph, slip in zip(graphs, slips):
        if slip is not None and graph.count() <= 60:
            mixed.append(random_calls(rng, graph, slip))
    run(mixed, seen)
    hit = report(seen, pairs)
    sys.exit(seen["disagree"] > 0 or not hit)


if __name__ == "__main__":
    main()
