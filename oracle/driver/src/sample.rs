//! The stored sample: requests in words for tests/c/replay.c, and the
//! answers, one a line. The same on every run.

use crate::answers::{Answers, set_words, text_request};
use crate::generate;
use crate::question::{Question, ask, text};
use crate::side::{Answer, Side, symbol_words};
use crate::table::{Sym, table_b};
use std::collections::BTreeMap;

/// Kinds of cases with their first seed, number of seeds, and questions kept
/// of each case.
const KINDS: [(&str, u64, u64, usize); 6] = [
    ("classic", 1, 28, 12),
    ("random", 101, 24, 12),
    ("bent", 201, 24, 12),
    ("arbitrary", 301, 24, 12),
    ("wide", 401, 4, 24),
    ("damaged", 501, 120, 2),
];
/// The same of traces and edges added.
const TRACES: [(&str, u64, u64, usize); 5] = [
    ("classic", 1_001, 27, 5),
    ("random", 1_101, 16, 5),
    ("bent", 1_201, 16, 5),
    ("arbitrary", 1_301, 16, 5),
    ("graph", 1_401, 10, 6),
];
/// A table above this number of words is asked only `check` and two more.
const LARGE: usize = 4_000;
/// One above this number is not traced.
const TRACED: usize = 300;

pub struct Sample {
    pub requests: Vec<u16>,
    pub answers: String,
    pub seeds: String,
    /// How many questions about conflicts of each sort.
    pub asked: BTreeMap<String, u32>,
}

/// Words lent where nothing else is said.
const GRAPH: u16 = 8_193;
const SCRATCH: u16 = 32_000;

fn traces(q: &Question) -> bool {
    matches!(
        q,
        Question::Shift(..) | Question::Reduce(..) | Question::Add(..)
    )
}

fn joins(q: &Question) -> bool {
    matches!(q, Question::FirstJoined(..) | Question::BackJoined(..))
}

/// Those that the sample has in a part of its own.
fn rewrites(q: &Question) -> bool {
    matches!(
        q,
        Question::Respell(..)
            | Question::Compact
            | Question::Build(..)
            | Question::ReadYacc(..)
            | Question::WriteYacc(..)
    )
}

/// Op and further words of a question.
fn request(q: &Question) -> Option<(u16, Vec<u16>)> {
    Some(match q {
        Question::Check => (1, vec![]),
        Question::First0(s) => (2, symbol_words(s)),
        Question::First1(s, l) => (3, [set_words(*l), symbol_words(s)].concat()),
        Question::Back(state, s) => (4, [vec![*state], symbol_words(s)].concat()),
        Question::Shift(state, i) => (5, vec![*state, i.0, i.1, GRAPH, SCRATCH]),
        Question::Reduce(state, i) => (6, vec![*state, i.0, i.1, GRAPH, SCRATCH]),
        Question::Add(e, graph) => (7, [&e[..], &[GRAPH], graph].concat()),
        Question::Item(i) => (15, vec![i.0, i.1]),
        Question::FirstJoined(xs, ys) => (16, [&[xs.len() as u16], &xs[..], ys].concat()),
        Question::BackJoined(state, xs, ys) => {
            (17, [&[*state, xs.len() as u16], &xs[..], ys].concat())
        }
        Question::Respell(words) => (18, vec![*words]),
        Question::Compact => (19, vec![]),
        Question::Build(start, lent) => {
            let lent = lent.map(|words| words.min(u16::MAX as usize) as u16);
            (20, [&[*start], &lent[..]].concat())
        }
        Question::ReadYacc(text, lent) => (21, text_request(text, *lent).1),
        Question::WriteYacc(bytes) => (22, vec![*bytes as u16]),
        _ => return None,
    })
}

pub struct Maker<'a> {
    pub answers: Answers<'a>,
    pub out: Sample,
}

impl Maker<'_> {
    /// A request, unless the side does not answer it.
    pub fn put(&mut self, op: u16, table: &[u16], more: &[u16]) -> Option<Answer> {
        let answer = self.answers.answer(op, table, more)?;
        let w = &mut self.out.requests;
        w.extend([op, table.len() as u16, (table.len() >> 16) as u16]);
        w.extend(table);
        w.push(more.len() as u16);
        w.extend(more);
        self.out.answers += &text(&answer);
        self.out.answers += "\n";
        Some(answer)
    }

    pub fn ask(&mut self, table: &[u16], q: &Question) {
        // A text stands in place of a table.
        let text = match q {
            Question::ReadYacc(text, lent) => Some(text_request(text, *lent).0),
            _ => None,
        };
        if let Some((op, more)) = request(q) {
            self.put(op, text.as_deref().unwrap_or(table), &more);
        }
    }

    pub fn check(&mut self, table: &[u16]) {
        self.ask(table, &Question::Check);
    }

    /// A side's answer that is not stored.
    pub fn told(&mut self, table: &[u16], q: &Question) -> Option<Answer> {
        ask(self.answers.side, table, q)
    }
}

/// The marked questions of FIRST and walking back, and lists, states and sets
/// out of range.
fn on_b(m: &mut Maker) {
    let b = table_b();
    let e: Sym = (0, 0);
    let plus: Sym = (1, 0);
    let lists: [&[Sym]; 8] = [
        &[],
        &[e],
        &[plus],
        &[(1, 1)],
        &[e, plus, e],
        &[(2, 0)],
        &[(0, 1)],
        &[e, (1, 2)],
    ];
    for s in lists {
        m.ask(&b, &Question::First0(s.to_vec()));
        for set in [0, 1, 4, 7, 8, 1 << 63, u64::MAX] {
            m.ask(&b, &Question::First1(s.to_vec(), set));
        }
        for state in [0, 1, 2, 3, 4, 127, 128, 65_535] {
            m.ask(&b, &Question::Back(state, s.to_vec()));
        }
    }
    m.put(2, &b, &[0]);
    m.put(2, &b, &[0, 0, 1]);
    m.put(3, &b, &[1, 0, 0, 0, 0]);
    m.put(3, &b, &[8, 0, 0, 0, 0, 0, 1]);
    m.put(4, &b, &[3, 0]);
    m.put(4, &b, &[4, 0]);
    m.put(4, &b, &[3, 0, 0, 1]);
    m.put(2, &[0, 0, 1, 0], &[0]);
}

/// Table B and records past it up to a number of words.
fn padded(words: usize, fill: u16) -> Vec<u16> {
    let mut t = table_b();
    t.resize(words, fill);
    t
}

/// Refusals 1 and 2: lengths and counts.
fn lengths(m: &mut Maker) {
    let b = table_b();
    for words in [0, 1, 2, 3, 4, 5, 8, 92, 93, 94, 95, 96] {
        m.check(&b[..words]);
    }
    for words in [97, 98, 99, 100] {
        m.check(&padded(words, 65_535));
    }
    m.check(&padded(32_768, 65_535));
    m.check(&padded(32_772, 65_535));
    m.check(&vec![0; 32_768]);
    m.check(&[0, 0, 1, 0]);
    m.check(&[1, 0, 1, 0]);
    // One nonterminal and one state, no production: the shortest table.
    let short = [1, 0, 1, 0, 0, 0, 0, 0, 0, 0, 0, 0];
    for words in [4, 8, 9, 11, 12] {
        m.check(&short[..words]);
    }
    for (at, word) in [
        (0, 33),
        (1, 63),
        (1, 64),
        (2, 129),
        (3, 1),
        (3, 129),
        (0, 65_535),
    ] {
        let mut t = short.to_vec();
        t[at] = word;
        m.check(&t);
    }
    // Each count at its end, over zeros; productions are then in no chain.
    for (n, t, s, p) in [
        (32, 63, 128, 0),
        (32, 63, 128, 128),
        (33, 63, 128, 0),
        (32, 64, 128, 0),
    ] {
        let mut table = vec![0; 4 * (1 + n + s + p)];
        table[..4].copy_from_slice(&[n as u16, t as u16, s as u16, p as u16]);
        m.check(&table);
        m.check(&table[..table.len() - 4]);
    }
    for k in 0..4 {
        for word in [0, 1, 2, 3, 5, 32, 63, 64, 128, 129, 65_535] {
            let mut t = b.clone();
            t[k] = word;
            m.check(&t);
        }
    }
}

/// Refusals 3 to 8: the inputs of docs/RULES.md, then every word of every record of
/// table B with several values, then two of them at once.
fn damage(m: &mut Maker) {
    let b = table_b();
    let mut with = |changes: &[(usize, u16)]| {
        let mut t = b.clone();
        for &(at, word) in changes {
            t[at] = word;
        }
        m.check(&t);
    };
    for change in [(48, 12), (24, 0), (74, 4)] {
        with(&[change]);
    }
    for at in 4..b.len() {
        for word in [
            0,
            1,
            b[at].wrapping_add(1),
            (at / 4) as u16,
            (b.len() / 4) as u16,
        ] {
            if word != b[at] {
                with(&[(at, word)]);
            }
        }
    }
    for at in 4..b.len() {
        with(&[(at, 65_535)]);
        // A higher number lower down, and the other way round.
        with(&[(at, 2), (7, 1)]);
        with(&[(at, 2), (74, 4)]);
        with(&[(at, 2), (93, 2)]);
    }
    // Refusal 5: 16 symbols and 17, of either production.
    for production in [6, 7] {
        for symbols in [16, 17] {
            let mut t = b.clone();
            t[4 * production + 1] = 24;
            for i in 0..symbols {
                let next = if i + 1 < symbols { 25 + i } else { 0 };
                t.extend([next as u16, 1, 0, 0]);
            }
            m.check(&t);
            // A wrong symbol and a spare word behind it.
            let last = t.len() - 2;
            t[last] = 2;
            m.check(&t);
            t[last] = 1;
            t[last + 1] = 1;
            m.check(&t);
        }
    }
}

/// A refused table is refused before a list, set or state is looked at.
fn refused_first(m: &mut Maker) {
    let b = table_b();
    let changes: [&[(usize, u16)]; 8] = [
        &[(0, 0)],
        &[(48, 12)],
        &[(24, 0)],
        &[(33, 2)],
        &[(74, 4)],
        &[(7, 1)],
        &[(7, 1), (74, 4)],
        &[(33, 2), (24, 0)],
    ];
    for change in changes {
        let mut t = b.clone();
        for &(at, word) in change {
            t[at] = word;
        }
        for s in [vec![], vec![(0, 0)], vec![(2, 9)]] {
            m.ask(&t, &Question::First0(s.clone()));
            m.ask(&t, &Question::First1(s.clone(), 1));
            m.ask(&t, &Question::First1(s.clone(), u64::MAX));
            m.ask(&t, &Question::Back(0, s.clone()));
            m.ask(&t, &Question::Back(9, s));
        }
        m.put(2, &t, &[0]);
    }
    m.ask(&b[..95], &Question::First1(vec![(0, 0)], 1));
    m.ask(&b[..95], &Question::Back(0, vec![(0, 0)]));
}

/// S → a X, X without productions: FIRST of S is {a}, of X nothing.
fn no_productions(m: &mut Maker) {
    let t = [
        [2, 1, 1, 1],
        [4, 0, 0, 0],
        [0, 0, 0, 0],
        [0, 0, 0, 0],
        [0, 5, 0, 0],
        [6, 1, 0, 0],
        [0, 0, 1, 0],
    ]
    .concat();
    m.check(&t);
    for s in [vec![(0, 0)], vec![(0, 1)], vec![(0, 1), (0, 0)], vec![]] {
        m.ask(&t, &Question::First0(s.clone()));
        m.ask(&t, &Question::First1(s.clone(), 3));
        m.ask(&t, &Question::Back(0, s));
    }
}

/// Both traces of every item of B from every state, and numbers out of range.
fn traces_on_b(m: &mut Maker) {
    let b = table_b();
    let items = [
        (0, 0),
        (0, 1),
        (0, 2),
        (0, 3),
        (1, 0),
        (1, 1),
        (0, 4),
        (1, 2),
        (2, 0),
        (65_535, 0),
        (0, 65_535),
    ];
    for state in [0, 1, 2, 3, 4, 65_535] {
        for item in items {
            m.ask(&b, &Question::Shift(state, item));
            m.ask(&b, &Question::Reduce(state, item));
        }
    }
}

/// Fewer or more words lent than a call asks for: 9 goes before 11, a refused
/// table before both.
fn lent(m: &mut Maker) {
    let b = table_b();
    let mut bad = table_b();
    bad[48] = 12;
    let short = [
        (0, 0),
        (8_192, 32_000),
        (8_193, 31_999),
        (8_192, 31_999),
        (0, 32_008),
        (8_200, 0),
    ];
    for (graph, scratch) in short {
        for op in [5, 6] {
            m.put(op, &b, &[3, 0, 1, graph, scratch]);
            m.put(op, &b, &[4, 0, 1, graph, scratch]);
            m.put(op, &b, &[3, 0, 4, graph, scratch]);
            m.put(op, &bad, &[4, 0, 1, graph, scratch]);
        }
    }
    let edge = [0, 0, 0, 1, 0, 1, 0, 1];
    for graph in [0, 1, 8_192] {
        let mut add = |table: &[u16], edge: [u16; 8], front: &[u16]| {
            m.put(7, table, &[&edge[..], &[graph], front].concat());
        };
        add(&b, edge, &[0]);
        // A graph that is too short is not looked at.
        add(&b, edge, &[1_025]);
        add(&b, [0, 1, 0, 1, 0, 1, 0, 1], &[0]);
        add(&bad, edge, &[0]);
    }
    m.put(5, &b, &[3, 0, 1, 8_200, 32_008]);
    m.put(6, &b, &[3, 0, 3, 8_200, 32_008]);
    m.put(7, &b, &[&edge[..], &[8_200, 0]].concat());
}

/// Edges added to graphs over B, good and bad.
fn edges_added(m: &mut Maker) {
    let b = table_b();
    let shift = m.told(&b, &Question::Shift(3, (0, 1))).unwrap();
    let graph: Vec<u16> = shift[1..].iter().map(|&w| w as u16).collect();
    let first: [u16; 8] = graph[1..9].try_into().unwrap();
    let mut twice = graph.clone();
    twice[0] += 1;
    twice.extend(first);
    let graphs = [&[0][..], &graph, &twice, &[1_025], &[65_535], &[1]];
    for words in graphs {
        let words = words.to_vec();
        m.ask(&b, &Question::Add(first, words.clone()));
        for at in 0..8 {
            for word in [0, 1, 2, 3, 65_535] {
                let mut e = first;
                e[at] = word;
                // Other graphs with a few of these.
                if e != first && (words == graph || word == 3) {
                    m.ask(&b, &Question::Add(e, words.clone()));
                }
            }
        }
    }
    // Every word of a graph changed.
    for at in 0..graph.len() {
        for word in [0, 1, 2, 65_535] {
            let mut words = graph.clone();
            words[at] = word;
            m.ask(&b, &Question::Add([0, 0, 0, 0, 0, 0, 1, 1], words));
        }
    }
}

/// 1,024 edges and 1,025, traced and added; 4,096 pairs nested.
fn limits(m: &mut Maker) {
    for seed in [7, 14, 5] {
        let case = generate::case("limit", seed).unwrap();
        m.out.seeds += &format!("{}\n", case.name);
        let traced = |q: &&Question| matches!(q, Question::Shift(..) | Question::Reduce(..));
        for q in case.questions.iter().filter(traced).take(3) {
            m.ask(&case.table, q);
        }
    }
    // One state, 128 productions with the same 16 symbols.
    let mut t = vec![1, 1, 1, 128, 3, 0, 0, 0, 0, 0, 0, 0];
    for p in 0..128 {
        t.extend([if p < 127 { 4 + p } else { 0 }, 131, 0, 0]);
    }
    for i in 0..16 {
        t.extend([if i < 15 { 132 + i } else { 0 }, 0, 0, 0]);
    }
    let items = (0..128).flat_map(|p| (1..16).map(move |i| (p, i)));
    let mut graph = vec![1_024];
    for (p, i) in items.take(1_024) {
        graph.extend([1, p, i, 0, 0, 0, p, i]);
    }
    // An equal label by its symbols, then a new edge.
    m.ask(&t, &Question::Add([1, 0, 1, 0, 0, 0, 9, 1], graph.clone()));
    m.ask(&t, &Question::Add([1, 0, 1, 0, 0, 0, 9, 2], graph.clone()));
    graph[0] = 1_023;
    graph.truncate(8 * 1_023 + 1);
    m.ask(&t, &Question::Add([1, 0, 1, 0, 0, 0, 9, 2], graph));
}

fn generated(
    m: &mut Maker,
    (kind, seed, count, keep): (&str, u64, u64, usize),
    wanted: impl Fn(&Question) -> bool,
) {
    m.out.seeds += &format!("{kind}: seeds {seed} to {}\n", seed + count - 1);
    for case in (seed..seed + count).filter_map(|s| generate::case(kind, s)) {
        let keep = if case.table.len() > LARGE {
            keep.min(3)
        } else {
            keep
        };
        let asked: Vec<&Question> = (case.questions.iter())
            .filter(|q| request(q).is_some() && wanted(q))
            .collect();
        let traced = asked.iter().any(|q| traces(q));
        if traced && case.table.len() > TRACED && keep < usize::MAX {
            continue;
        }
        // Evenly over the questions, the check first; traces of both sorts.
        let every = asked.len().div_ceil(keep).max(1) | traced as usize;
        for q in asked.iter().step_by(every) {
            m.ask(&case.table, q);
        }
    }
}

fn maker(side: &mut dyn Side) -> Maker<'_> {
    let out = Sample {
        requests: vec![],
        answers: String::new(),
        seeds: String::new(),
        asked: BTreeMap::new(),
    };
    let answers = Answers::new(side);
    Maker { answers, out }
}

/// The stored sample.
pub fn sample(side: &mut dyn Side) -> Sample {
    let mut m = maker(side);
    m.check(&table_b());
    on_b(&mut m);
    lengths(&mut m);
    damage(&mut m);
    refused_first(&mut m);
    no_productions(&mut m);
    for kind in KINDS {
        generated(&mut m, kind, |q| !traces(q) && !joins(q) && !rewrites(q));
    }
    traces_on_b(&mut m);
    lent(&mut m);
    edges_added(&mut m);
    limits(&mut m);
    for kind in TRACES {
        generated(&mut m, kind, traces);
    }
    crate::listings::listings(&mut m);
    crate::conflicts::conflicts(&mut m);
    crate::rules::rules(&mut m);
    crate::layouts::layouts(&mut m);
    crate::builds::builds(&mut m);
    crate::yaccs::yaccs(&mut m);
    m.out
}

/// All questions of some seeds of a kind, for a run that is not stored.
pub fn cases(side: &mut dyn Side, kind: &str, seed: u64, count: u64) -> Sample {
    let mut m = maker(side);
    generated(&mut m, (kind, seed, count, usize::MAX), |_| true);
    crate::conflicts::cases(&mut m, kind, seed, count);
    m.out
}
