//! The ranked graph of two charts by plain Rust and the standard library's hash map, to compare times with.
//!
//! Reads well-formed duty.chart and rule.chart from the current folder, searches the graph several times, and prints the
//! numbers of reachable nodes and of their edges, whether a reachable marked node lies on a cycle, and the median time of a
//! search in microseconds. Any number of nodes below 2^32 will do; whatever is wrong with the texts ends it with a message.

use std::collections::HashMap;
use std::fs;
use std::iter;
use std::time::{Duration, Instant};

/// Sets of states are bits. The states that p steps to by letter i are `rows[p * letters + i]`.
pub struct Chart {
    pub states: usize,
    pub letters: usize,
    pub starts: u32,
    pub marks: u32,
    pub rows: Vec<u32>,
}

#[derive(Debug, PartialEq)]
pub struct Found {
    pub nodes: usize,
    pub edges: usize,
    pub marked_cycle: bool,
}

fn has(set: u32, state: usize) -> bool {
    set >> state & 1 == 1
}

fn members(mut set: u32) -> impl Iterator<Item = usize> {
    iter::from_fn(move || {
        let state = set.trailing_zeros() as usize;
        set &= set.wrapping_sub(1);
        (state < 32).then_some(state)
    })
}

/// The chart that a well-formed text tells.
pub fn read(text: &str) -> Chart {
    let number = |word: &str| word.parse::<usize>().expect("a number");
    let (head, steps) = text.split_once("from by to\n").expect("a line `from by to`");
    let head: Vec<&str> = head.lines().collect();
    let letters = number(head[1]);
    let states = head.len() - 3;
    let mut chart = Chart { states, letters, starts: 0, marks: 0, rows: vec![0; states * letters] };
    for (state, line) in head[3..].iter().enumerate() {
        chart.starts |= (line.contains('>') as u32) << state;
        chart.marks |= (line.contains('*') as u32) << state;
    }
    for line in steps.lines() {
        let words: Vec<&str> = line.split(' ').collect();
        let by = match words[1] {
            "#" => 0..letters,
            letter => {
                let i = (letter.as_bytes()[0] - b'a') as usize;
                i..i + 1
            }
        };
        for i in by {
            chart.rows[number(words[0]) * letters + i] |= 1 << number(words[2]);
        }
    }
    chart
}

// What a node holds, from the lowest bit on: the duty's state (5 bits), the turn, the owed set (6 bits), and four bits for
// each state of the rule with its rank and one more, or 0 for none.
const TURN: u64 = 1 << 5;
const OWED: usize = 6;
const RANKS: usize = 12;

fn held(node: u64, q: usize) -> u64 {
    node >> (RANKS + 4 * q) & 15
}

fn owed(node: u64) -> u32 {
    (node >> OWED & 63) as u32
}

fn is_marked(node: u64) -> bool {
    node & TURN != 0 && owed(node) == 0
}

pub fn starts(duty: &Chart, rule: &Chart) -> Vec<u64> {
    let top = 2 * rule.states as u64;
    let ranks: u64 = members(rule.starts).map(|q| (top + 1) << (RANKS + 4 * q)).sum();
    members(duty.starts).map(|state| ranks | state as u64).collect()
}

/// Adds where the edges of the node lead, one entry for each edge.
pub fn successors(duty: &Chart, rule: &Chart, node: u64, found: &mut Vec<u64>) {
    let state = (node & 31) as usize;
    let turns = if node & TURN != 0 { owed(node) != 0 } else { has(duty.marks, state) };
    let turn = if turns { TURN } else { 0 };
    for letter in 0..duty.letters {
        let after = duty.rows[state * duty.letters + letter];
        if after == 0 {
            continue;
        }
        // of each state of the rule the most that it may hold, and whether it may be owed
        let mut most = [0; 6];
        let mut may_be_owed = if owed(node) == 0 { 63 } else { 0 };
        for p in (0..rule.states).filter(|&p| held(node, p) > 0) {
            let row = rule.rows[p * rule.letters + letter];
            for q in members(row) {
                most[q] = if most[q] == 0 { held(node, p) } else { held(node, p).min(most[q]) };
            }
            if has(owed(node), p) {
                may_be_owed |= row;
            }
        }
        let choice = Choice { after, most, may_be_owed, marks: rule.marks, states: rule.states };
        choice.nodes(0, turn, found);
    }
}

/// What a letter leaves to be chosen.
struct Choice {
    after: u32,
    most: [u64; 6],
    may_be_owed: u32,
    marks: u32,
    states: usize,
}

impl Choice {
    /// Adds each node that has the bits chosen so far, for the rule's states below q.
    fn nodes(&self, q: usize, chosen: u64, found: &mut Vec<u64>) {
        if q == self.states {
            found.extend(members(self.after).map(|state| chosen | state as u64));
            return;
        }
        if self.most[q] == 0 {
            self.nodes(q + 1, chosen, found);
        }
        for held in 1..=self.most[q] {
            let even = held % 2 == 1;
            if even || !has(self.marks, q) {
                let owes = (even && has(self.may_be_owed, q)) as u64;
                self.nodes(q + 1, chosen | held << (RANKS + 4 * q) | owes << (OWED + q), found);
            }
        }
    }
}

/// A node that is being explored: its place, and where the edges that it still has to follow stand.
struct Frame {
    place: u32,
    from: usize,
    next: usize,
}

/// Tarjan's search for strongly connected components, by a stack of frames. A place is the number that a node was found by.
struct Search<'a> {
    duty: &'a Chart,
    rule: &'a Chart,
    places: HashMap<u64, u32>,
    low: Vec<u32>,
    done: Vec<bool>,
    open: Vec<(u64, u32)>,
    frames: Vec<Frame>,
    ends: Vec<u64>,
    edges: usize,
    marked_cycle: bool,
}

impl Search<'_> {
    /// The node's place, and whether it was found just now.
    fn place(&mut self, node: u64) -> (u32, bool) {
        let next = self.low.len() as u32;
        let place = *self.places.entry(node).or_insert(next);
        (place, place == next)
    }

    fn enter(&mut self, node: u64, place: u32) {
        self.low.push(place);
        self.done.push(false);
        self.open.push((node, place));
        let from = self.ends.len();
        successors(self.duty, self.rule, node, &mut self.ends);
        self.edges += self.ends.len() - from;
        self.frames.push(Frame { place, from, next: from });
    }

    fn leave(&mut self) {
        let frame = self.frames.pop().expect("a frame");
        self.ends.truncate(frame.from);
        let low = self.low[frame.place as usize];
        if let Some(before) = self.frames.last() {
            let low_before = &mut self.low[before.place as usize];
            *low_before = low.min(*low_before);
        }
        if low == frame.place {
            let from = self.open.iter().rposition(|&(_, place)| place == low).expect("an open place");
            let component = self.open.split_off(from);
            // a marked node does not lead to itself, since the turn is cleared there
            self.marked_cycle |= component.len() > 1 && component.iter().any(|&(node, _)| is_marked(node));
            for (_, place) in component {
                self.done[place as usize] = true;
            }
        }
    }

    fn explore(&mut self, start: u64) {
        let (place, is_new) = self.place(start);
        if !is_new {
            return;
        }
        self.enter(start, place);
        while let Some(frame) = self.frames.last_mut() {
            if frame.next == self.ends.len() {
                self.leave();
                continue;
            }
            let node = self.ends[frame.next];
            let low = frame.place as usize;
            frame.next += 1;
            let (place, is_new) = self.place(node);
            if is_new {
                self.enter(node, place);
            } else if !self.done[place as usize] {
                self.low[low] = self.low[low].min(place);
            }
        }
    }
}

pub fn search(duty: &Chart, rule: &Chart) -> Found {
    let mut search = Search {
        duty,
        rule,
        places: HashMap::new(),
        low: vec![],
        done: vec![],
        open: vec![],
        frames: vec![],
        ends: vec![],
        edges: 0,
        marked_cycle: false,
    };
    for start in starts(duty, rule) {
        search.explore(start);
    }
    Found { nodes: search.low.len(), edges: search.edges, marked_cycle: search.marked_cycle }
}

/// What is found, and the median time of an odd number of searches: at least five, more while half a second has not passed.
fn timed(duty: &Chart, rule: &Chart) -> (Found, Duration) {
    let found = search(duty, rule);
    let began = Instant::now();
    let mut times = vec![];
    while times.len() < 5 || times.len() % 2 == 0 || times.len() < 1001 && began.elapsed().as_millis() < 500 {
        let from = Instant::now();
        let again = search(duty, rule);
        times.push(from.elapsed());
        assert_eq!(found, again);
    }
    times.sort();
    let median = times[times.len() / 2];
    (found, median)
}

fn main() {
    let [duty, rule] = ["duty.chart", "rule.chart"].map(|name| read(&fs::read_to_string(name).expect(name)));
    assert!(rule.states <= 6 && rule.letters == duty.letters, "a rule of at most 6 states and with the duty's letters");
    let (found, time) = timed(&duty, &rule);
    let cycle = if found.marked_cycle { "yes" } else { "no" };
    println!("nodes edges marked-cycle microseconds");
    println!("{} {} {} {:.1}", found.nodes, found.edges, cycle, time.as_nanos() as f64 / 1000.0);
}
