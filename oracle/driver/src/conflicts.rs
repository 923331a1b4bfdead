//! Classifying, choosing and observed symbols for the stored sample.

use crate::answers::{judged, observed, set_words};
use crate::generate;
use crate::question::{Case, Question};
use crate::sample::Maker;
use crate::side::*;
use crate::table::*;
use std::collections::BTreeMap;

/// The words that a classification asks for: scratch, both buffers.
const ASKED: [u16; 3] = [8_000, 1_158, 1_158];
/// The words of entries that choosing asks for.
const ENTRIES: u16 = 384;
/// A table above this number of words is not stored if it is generated.
const LARGE: usize = 400;

struct Conflicts<'a, 'b> {
    m: &'a mut Maker<'b>,
    /// How many questions of each sort.
    asked: BTreeMap<String, u32>,
}

impl Conflicts<'_, '_> {
    fn count(&mut self, verb: &str, answer: u32, row: u32) {
        let row = match (verb, answer) {
            ("classify", 0) => format!("{verb} class {row}"),
            (_, 0) => verb.into(),
            (_, n) => format!("{verb} refused {n:02}"),
        };
        *self.asked.entry(row).or_default() += 1;
    }

    /// Op 10.
    fn classify(&mut self, table: &[u16], c: [u16; 5], lent: [u16; 3]) {
        if let Some(stored) = self.m.put(10, table, &[&c[..], &lent].concat()) {
            self.count("classify", stored[0], stored[2]);
        }
    }

    /// Op 11.
    fn choose(&mut self, table: &[u16], c: [u16; 4], set: u64, lent: u16) {
        self.choose_into(table, c, set, [lent, ENTRIES]);
    }

    /// Scratch and entries lent.
    fn choose_into(&mut self, table: &[u16], c: [u16; 4], set: u64, lent: [u16; 2]) {
        let more = [&c[..], &set_words(set), &lent].concat();
        if let Some(stored) = self.m.put(11, table, &more) {
            self.count("choose", stored[0], stored[0]);
        }
    }

    /// Op 12, of any two buffers.
    fn observe(&mut self, action: &[u16], reduce: &[u16]) {
        let more = [&[action.len() as u16], action, reduce].concat();
        self.m.put(12, &[], &more);
        self.count("observed", 0, 0);
    }

    /// A classification lent what it asks for, and its observed symbols: the
    /// part is the side's. Then with words behind the examples, exchanged, and
    /// each one word short.
    fn explain(&mut self, table: &[u16], c: [u16; 5]) {
        self.classify(table, c, ASKED);
        let Some(answer) = self.m.answers.side.classify(table, c) else {
            return;
        };
        let Some(part) = self.m.answers.side.observed(table, c) else {
            return;
        };
        if answer[0] != 0 {
            return;
        }
        let [action, reduce] = judged(&answer).examples;
        assert!(wide(observed(&action, &reduce).1).eq(part[1..].iter().copied()));
        self.observe(&action, &reduce);
        self.observe(
            &[&action[..], &[7; 9]].concat(),
            &[&reduce[..], &[7]].concat(),
        );
        self.observe(&reduce, &action);
        self.observe(&action[..action.len() - 1], &reduce);
        self.observe(&action, &reduce[..reduce.len() - 1]);
    }
}

/// Every conflict of B with its numbers in range, each number out of range, and
/// every set of tokens.
fn on_b(c: &mut Conflicts) {
    let b = table_b();
    for state in 0..4 {
        for production in 0..2 {
            for (action, operand) in [(0, 0), (0, 1), (1, 0), (1, 1)] {
                let four = [state, production, action, operand];
                for token in 0..3 {
                    let full = [state, production, action, operand, token];
                    if state == 3 {
                        c.explain(&b, full);
                    } else {
                        c.classify(&b, full, ASKED);
                    }
                }
                for set in 0..8 {
                    if state == 3 || set == 7 {
                        c.choose(&b, four, set, ASKED[0]);
                    }
                }
            }
        }
    }
    for good in [[3, 0, 0, 0, 0], [3, 0, 1, 1, 0]] {
        for (at, words) in [
            (0, [4, 128, 65_535]),
            (1, [2, 128, 65_535]),
            (2, [2, 3, 65_535]),
            (3, [2, 64, 65_535]),
            (4, [3, 64, 65_535]),
        ] {
            for word in words {
                let mut full = good;
                full[at] = word;
                c.classify(&b, full, ASKED);
                if at < 4 {
                    // With no token too: the other numbers are looked at.
                    for set in [0, 1, 7] {
                        c.choose(&b, full[..4].try_into().unwrap(), set, ASKED[0]);
                    }
                }
            }
        }
        for set in [8, 9, 15, 1 << 32, 1 << 63, u64::MAX] {
            c.choose(&b, good[..4].try_into().unwrap(), set, ASKED[0]);
        }
    }
}

/// Each of six faults or not, with both actions: bad table, a number out of
/// range (state, production, operand in turn), the end token (with a shift 10),
/// each loan one word short.
fn faults(c: &mut Conflicts) {
    for bits in 0..64u16 {
        let has = |k: u16| bits >> k & 1 == 1;
        let mut table = table_b();
        if has(0) {
            table[48] = 12;
        }
        let lent = [0, 1, 2].map(|k| ASKED[k] - has(3 + k as u16) as u16);
        for action in 0..2 {
            for at in [0, 1, 3] {
                let mut full = [3, 0, action, 0, 2 * has(2) as u16];
                if has(1) {
                    full[at] = 9;
                }
                // The same again; of a bad table one number.
                if at > 0 && (!has(1) || has(0)) {
                    continue;
                }
                c.classify(&table, full, lent);
                if !has(4) && !has(5) {
                    let four = full[..4].try_into().unwrap();
                    c.choose(&table, four, 1 << full[4], lent[0]);
                    c.choose(&table, four, 1 << full[4] | 2, lent[0]);
                }
            }
        }
    }
    let b = table_b();
    for full in [[3, 0, 0, 0, 0], [3, 0, 1, 0, 0], [3, 0, 0, 0, 1]] {
        for lent in [
            [0, 0, 0],
            [32_008, 1_160, 1_160],
            [8_001, 1_160, 1_160],
            [32_008, 1_160, 0],
            [32_008, 0, 1_160],
            [0, 1_160, 1_160],
            [7_999, 1_157, 1_157],
        ] {
            c.classify(&b, full, lent);
            c.choose(&b, full[..4].try_into().unwrap(), 0, lent[0]);
            c.choose(&b, full[..4].try_into().unwrap(), 1, lent[0]);
        }
        // Fewer or more words of entries; 9 and 10 go before.
        for entries in [0, 383, 390] {
            for set in [0, 1, 4, 8] {
                let four = full[..4].try_into().unwrap();
                c.choose_into(&b, four, set, [ASKED[0], entries]);
            }
        }
    }
}

/// Buffers by hand: too short for counts, counts and cursors of any size.
fn buffers(c: &mut Conflicts) {
    let example = |symbols: u16, cursor: u16, reductions: u16, from: u16| {
        let words = 2 * symbols + 3 * reductions;
        [
            vec![symbols, cursor, reductions],
            (from..from + words).collect(),
        ]
        .concat()
    };
    let mut lists: Vec<Vec<u16>> = (0..4).map(|n| vec![0; n]).collect();
    for (k, (symbols, cursor, reductions)) in [
        (0, 0, 1),
        (1, 0, 1),
        (1, 1, 1),
        (1, 2, 0),
        (3, 1, 0),
        (3, 2, 2),
        (3, 3, 1),
        (3, 4, 1),
    ]
    .into_iter()
    .enumerate()
    {
        lists.push(example(symbols, cursor, reductions, 100 * (k as u16 + 1)));
    }
    for (at, word) in [
        (0, 4),
        (0, 65_535),
        (1, 65_535),
        (2, 2),
        (2, 65_535),
        (0, 2),
    ] {
        let mut words = example(3, 2, 1, 1_000);
        words[at] = word;
        lists.push(words);
    }
    for a in &lists {
        for b in &lists {
            c.observe(a, b);
        }
    }
    // The longest example.
    let long = example(528, 528, 33, 1);
    let other = example(528, 527, 33, 2_000);
    for (a, b) in [(&long, &other), (&other, &long), (&long, &long)] {
        c.observe(a, b);
        c.observe(a, &b[..1_157]);
    }
}

/// One state with edges to itself, two terminals. Productions 0 and 1 of X are
/// t and t t, the others 16 times X. So many items shift an X behind an X: a
/// trace of production 0 or 1 has one edge more, and an example for each.
/// `starts` items of productions 0 and 1 stand before them.
fn one_state(items: usize, starts: u16) -> Vec<u16> {
    let mut table = Table {
        terminals: 2,
        nonterminals: vec![(0..128).collect()],
        states: vec![State::default()],
        ..Table::default()
    };
    for p in 0..128 {
        let symbols = if p < 2 {
            vec![(1, 0); p as usize + 1]
        } else {
            vec![(0, 0); 16]
        };
        table.productions.push(Production {
            nonterminal: 0,
            symbols,
            span: (p, 2 * p),
        });
    }
    let others = (2..128).flat_map(|p| (1..15).map(move |i| (p, i)));
    let state = &mut table.states[0];
    state.edges = vec![((0, 0), 0), ((1, 0), 0)];
    state.items = (0..starts).map(|p| (p, 0)).collect();
    state.items.extend(others.take(items));
    table.encode(true, || 0).unwrap()
}

/// One state whose traces go past 100,000 trials and past 192 examples: nine
/// nonterminals, each with each, and 193 items that shift the first behind
/// itself. An edge added later goes first: with those items last, example 193
/// is met first, else trial 100,001. Production 0 is t; without its item no
/// token is shifted.
fn both_limits(items_last: bool, shifted: bool) -> Vec<u16> {
    let mut table = Table {
        terminals: 1,
        nonterminals: vec![vec![]; 9],
        states: vec![State::default()],
        ..Table::default()
    };
    let pairs = (0..9).flat_map(|a| (0..9).map(move |b| (a, vec![(0, b)])));
    let others = vec![(0, vec![(0, 0); 16]); 14];
    let all = [(0, vec![(1, 0)])].into_iter();
    let all = all.chain(pairs.filter(|(a, b)| b[0].1 != *a)).chain(others);
    for (p, (nonterminal, symbols)) in (0..).zip(all) {
        table.nonterminals[nonterminal as usize].push(p);
        table.productions.push(Production {
            nonterminal,
            symbols,
            span: (p, p),
        });
    }
    let mut walks: Vec<(u16, u16)> = (1..73).map(|p| (p, 0)).collect();
    let items = (73..87).flat_map(|p| (1..15).map(move |i| (p, i)));
    let mut items: Vec<(u16, u16)> = items.take(193).collect();
    let (first, second) = if items_last {
        (&mut walks, &mut items)
    } else {
        (&mut items, &mut walks)
    };
    let state = &mut table.states[0];
    state.items.extend(shifted.then_some((0, 0)));
    state.items.append(first);
    state.items.append(second);
    state.edges = vec![((0, 0), 0), ((1, 0), 0)];
    table.encode(true, || 0).unwrap()
}

/// A limit and one past it: on the action's side by a shift and by a reduce,
/// on the other alone, and with loans that are short, which goes before.
fn limits(c: &mut Conflicts) {
    // 192 and 193 examples: of one shift item, of a reduction with no shift
    // item; of two shift items together 192 and 194.
    for (items, starts) in [(192, 1), (193, 1), (96, 2), (97, 2), (192, 0), (193, 0)] {
        let table = one_state(items, starts);
        c.classify(&table, [0, 0, 0, 0, 0], ASKED);
        c.classify(&table, [0, 1, 0, 1, 0], ASKED);
        if starts < 2 {
            c.classify(&table, [0, 0, 1, 1, 0], ASKED);
            c.choose(&table, [0, 0, 1, 1], 7, ASKED[0]);
        }
        c.choose(&table, [0, 0, 0, 0], 3, ASKED[0]);
    }
    // 1,024 edges and 1,025. Token 1 has no shift item and begins no suffix, so
    // that the action's side is empty and the other hands out nothing.
    for (items, starts) in [(1_023, 1), (1_024, 1)] {
        let table = one_state(items, starts);
        c.classify(&table, [0, 0, 0, 0, 0], ASKED);
        c.classify(&table, [0, 0, 0, 0, 1], ASKED);
        c.classify(&table, [0, 0, 1, 1, 1], ASKED);
        c.choose(&table, [0, 0, 0, 0], 2, ASKED[0]);
        c.choose(&table, [0, 0, 1, 1], 6, ASKED[0]);
    }
    let past = one_state(1_024, 1);
    for k in 0..3 {
        let mut lent = ASKED;
        lent[k] -= 1;
        c.classify(&past, [0, 0, 0, 0, 1], lent);
    }
    c.choose(&past, [0, 0, 1, 1], 6, ASKED[0] - 1);
    // 100,000 trials and 100,001, with examples or none; token 1 has no shift
    // item.
    for seed in [2, 9, 3, 10] {
        let case = generate::case("limit", seed).unwrap();
        c.m.out.seeds += &format!("conflicts, {}\n", case.name);
        for full in [[0, 0, 0, 0, 0], [0, 0, 1, 0, 1], [0, 0, 0, 0, 1]] {
            c.classify(&case.table, full, ASKED);
        }
        c.choose(&case.table, [0, 0, 0, 0], 2, ASKED[0]);
    }
    for items_last in [true, false] {
        let table = both_limits(items_last, true);
        c.classify(&table, [0, 0, 0, 0, 0], ASKED);
        c.classify(&table, [0, 0, 1, 0, 0], ASKED);
        let table = both_limits(items_last, false);
        c.classify(&table, [0, 0, 0, 0, 0], ASKED);
    }
    let nested = generate::case("limit", 5).unwrap();
    c.classify(&nested.table, [126, 0, 1, 0, 0], ASKED);
    c.classify(&nested.table, [126, 0, 0, 0, 0], ASKED);
}

/// Examples as long as tracing makes them: nonterminals 0 to 30 one inside the
/// other, with 15 nullable symbols behind each.
fn long_examples(c: &mut Conflicts) {
    let mut table = Table {
        terminals: 2,
        nonterminals: vec![vec![]; 32],
        states: vec![State::default()],
        ..Table::default()
    };
    let mut add = |nonterminal: u16, symbols: Vec<Sym>| {
        let p = table.productions.len() as u16;
        table.nonterminals[nonterminal as usize].push(p);
        table.productions.push(Production {
            nonterminal,
            symbols,
            span: (p, p + 1),
        });
        p
    };
    add(0, vec![(1, 0); 16]);
    add(0, vec![(1, 0); 16]);
    let mut items = vec![(0, 0)];
    for n in 1..31 {
        let symbols = [vec![(0, n - 1)], vec![(0, 31); 15]].concat();
        items.push((add(n, symbols), 0));
    }
    let last = add(0, [vec![(1, 1), (0, 30)], vec![(1, 0); 14]].concat());
    items.push((last, 1));
    add(31, vec![]);
    add(31, vec![(1, 0)]);
    table.states[0].items = items;
    table.states[0].edges = (0..32)
        .map(|n| ((0, n), 0))
        .chain([((1, 0), 0), ((1, 1), 0)])
        .collect();
    let table = table.encode(true, || 0).unwrap();
    for full in [[0, 0, 0, 0, 0], [0, 0, 1, 1, 0], [0, 0, 0, 1, 0]] {
        c.explain(&table, full);
    }
    c.choose(&table, [0, 0, 1, 1], 7, ASKED[0]);
    c.choose(&table, [0, 0, 0, 1], 3, ASKED[0]);
}

/// 63 terminals, each a start of Y: of X Y both reductions of X have an example
/// for every token but the end. A shift of any is naive.
fn many_tokens(c: &mut Conflicts) {
    let mut table = Table {
        terminals: 63,
        nonterminals: vec![vec![0], vec![1, 2], (3..66).collect()],
        states: vec![State::default()],
        ..Table::default()
    };
    let lists = [vec![(0, 1), (0, 2)], vec![(1, 0)], vec![(1, 0)]];
    let lists = lists.into_iter().chain((0..63).map(|t| vec![(1, t)]));
    for (p, symbols) in (0..).zip(lists) {
        table.productions.push(Production {
            nonterminal: [0, 1, 1].get(p as usize).copied().unwrap_or(2),
            symbols,
            span: (p, p + 3),
        });
    }
    table.states[0].items = vec![(0, 0)];
    table.states[0].edges = vec![((1, 0), 0), ((0, 1), 0)];
    let table = table.encode(true, || 0).unwrap();
    let all = u64::MAX;
    for set in [
        all,
        all >> 1,
        1 << 63,
        3 << 62,
        1 << 62,
        0,
        1 << 40 | 1 << 13,
    ] {
        for four in [[0, 1, 1, 2], [0, 1, 1, 0], [0, 1, 0, 62], [0, 2, 0, 63]] {
            c.choose(&table, four, set, ASKED[0]);
        }
    }
    for token in [0, 31, 62, 63, 64] {
        c.classify(&table, [0, 1, 1, 2, token], ASKED);
        c.classify(&table, [0, 1, 0, 62, token], ASKED);
    }
}

/// The conflicts of a case, of each class or refusal at most `keep`, and as
/// many choices of each sort; refused and naive ones, the most common, only if
/// `dull`.
fn of_case(c: &mut Conflicts, case: &Case, keep: u32, dull: bool) {
    let mut kept = BTreeMap::<[u32; 2], u32>::new();
    let mut again = |sort: [u32; 2]| {
        let n = kept.entry(sort).or_default();
        *n += 1;
        *n <= keep && (dull || sort[1] != 0)
    };
    for q in &case.questions {
        match *q {
            Question::Classify(full) => {
                let Some(a) = c.m.answers.side.classify(&case.table, full) else {
                    continue;
                };
                if again([a[0], if a[0] == 0 { a[1] } else { 0 }]) {
                    c.explain(&case.table, full);
                }
            }
            Question::Choose(four, set) => {
                let Some(a) = c.m.answers.side.choose(&case.table, four, set) else {
                    continue;
                };
                // By how many are chosen, and the first one's class.
                let first = a.get(3).copied().unwrap_or(0);
                let sort = if a[0] == 0 { a[1].min(3) } else { a[0] };
                if again([100 + sort, first]) {
                    c.choose(&case.table, four, set, ASKED[0]);
                }
            }
            _ => {}
        }
    }
}

fn generated(c: &mut Conflicts, kind: &str, seed: u64, count: u64, keep: u32) {
    c.m.out.seeds += &format!("conflicts, {kind}: seeds {seed} to {}\n", seed + count - 1);
    for s in seed..seed + count {
        match generate::case(kind, s) {
            Some(case) if keep == u32::MAX => of_case(c, &case, keep, true),
            Some(case) if case.table.len() <= LARGE => of_case(c, &case, keep, s % 5 == 1),
            _ => {}
        }
    }
}

fn with(m: &mut Maker<'_>, f: impl FnOnce(&mut Conflicts)) {
    let mut c = Conflicts {
        m,
        asked: BTreeMap::new(),
    };
    f(&mut c);
    let asked = std::mem::take(&mut c.asked);
    for (row, n) in asked {
        *m.out.asked.entry(row).or_default() += n;
    }
}

/// The stored ones.
pub fn conflicts(m: &mut Maker<'_>) {
    with(m, |c| {
        on_b(c);
        faults(c);
        buffers(c);
        limits(c);
        long_examples(c);
        many_tokens(c);
        for (kind, seed, count) in [
            ("classic", 3_001, 81),
            ("random", 3_101, 60),
            ("bent", 3_201, 40),
            ("arbitrary", 3_301, 60),
            ("damaged", 3_501, 80),
        ] {
            generated(c, kind, seed, count, 1);
        }
    });
}

/// A conflict and its observed symbols; the choice among all tokens.
pub fn conflict(m: &mut Maker<'_>, table: &[u16], c: [u16; 5]) {
    with(m, |all| {
        all.explain(table, c);
        let all_tokens = u64::MAX >> (63 - table[1]);
        let four = c[..4].try_into().unwrap();
        all.choose(table, four, all_tokens, ASKED[0]);
        all.choose(table, four, all_tokens >> 1, ASKED[0]);
    });
}

/// All conflicts of some seeds of a kind.
pub fn cases(m: &mut Maker<'_>, kind: &str, seed: u64, count: u64) {
    with(m, |c| generated(c, kind, seed, count, u32::MAX));
}
