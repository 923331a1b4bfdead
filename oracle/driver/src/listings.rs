//! Single calls on a listing and lists of calls, for the stored sample.

use crate::answers::{FRESH, Listing, OUTPUT, Of, words_of};
use crate::generate;
use crate::question::Question;
use crate::sample::Maker;
use crate::side::*;
use crate::table::*;

/// The words that a call asks for: graph, scratch, buffer.
const ASKED: [u16; 3] = [8_193, 32_000, 1_158];

/// The requests.
struct Calls<'a, 'b> {
    m: &'a mut Maker<'b>,
}

impl Of {
    fn words(&self) -> Vec<u16> {
        let set = self.set.unwrap_or(0);
        let mut words = vec![self.start.0, self.start.1, self.set.is_some() as u16];
        words.extend(crate::answers::set_words(set));
        words
    }
}

impl Calls<'_, '_> {
    /// The call after another: scratch as that left it.
    fn next(&mut self, of: &Of, l: Listing) -> Option<(Listing, u32)> {
        let scratch = &self.m.answers.scratch[..ASKED[1] as usize];
        if scratch[scratch.len() - 1] != 0 {
            return self.step(of, l, ASKED, false, &[]);
        }
        let used = scratch.iter().rposition(|&w| w != 0).map_or(0, |at| at + 1);
        let front = scratch[..used].to_vec();
        self.step(of, l, ASKED, true, &front)
    }

    /// Op 8, over scratch of zeros or not behind some words; the listing and
    /// the answer after it.
    fn step(
        &mut self,
        of: &Of,
        l: Listing,
        lent: [u16; 3],
        zeros: bool,
        front: &[u16],
    ) -> Option<(Listing, u32)> {
        let mut more = of.words();
        more.extend([l.count as u16, (l.count >> 16) as u16, l.open as u16]);
        more.extend(lent);
        more.extend([of.graph.len() as u16, zeros as u16]);
        more.extend(&of.graph);
        more.extend(front);
        let answer = self.m.put(8, &of.table, &more)?;
        let next = Listing {
            count: answer[2],
            open: answer[3] == 1,
        };
        Some((next, answer[0]))
    }

    /// A listing from its opening to a call after its end, at most so many
    /// calls.
    fn session(&mut self, of: &Of, calls: usize) {
        let mut last = self.step(of, FRESH, ASKED, false, &[]);
        for _ in 1..calls {
            match last {
                Some((l, 0)) => last = self.next(of, l),
                _ => break,
            }
        }
        if let Some((l, 1..)) = last {
            self.next(of, l);
        }
    }

    /// Op 9.
    fn list(&mut self, of: &Of, lent: [u16; 3], numbers: &[u16]) {
        let mut more = of.words();
        more.extend(lent);
        more.push(numbers.len() as u16);
        more.extend(numbers);
        more.extend(&of.graph);
        self.m.put(9, &of.table, &more);
    }

    /// Op 13.
    fn open(&mut self, of: &Of, lent: u16) {
        let more = [of.words(), vec![lent], of.graph.clone()].concat();
        self.m.put(13, &of.table, &more);
    }

    /// So many calls with what they ask for, and one between that is lent too
    /// little.
    fn run(&mut self, of: &Of, calls: usize) {
        let mut numbers = vec![];
        for k in 0..calls {
            let mut call = ASKED;
            if k == 2 {
                call[k % 3] -= 1;
            }
            numbers.extend(call);
        }
        self.list(of, [8_193, 32_000, OUTPUT as u16], &numbers);
    }
}

fn graph(edges: &[[u16; 8]]) -> Vec<u16> {
    [vec![edges.len() as u16], edges.concat()].concat()
}

/// One production of two symbols, one state; the start item 0 0 with one edge
/// into it.
fn least_of() -> Of {
    let table = [
        [1, 1, 1, 1],
        [3, 0, 0, 0],
        [0, 0, 0, 0],
        [0, 4, 0, 0],
        [5, 1, 0, 0],
        [0, 1, 0, 0],
    ];
    Of {
        table: table.concat(),
        start: (0, 0),
        set: None,
        graph: graph(&[[1, 0, 1, 1, 0, 0, 0, 0]]),
    }
}

/// Each of ten faults or not: bad table, start item or lookahead out of range,
/// bad graph, each loan short, words of no trial, a start that is no node, an
/// ended listing.
fn faults(c: &mut Calls) {
    for bits in 0..1_024u16 {
        let has = |k: u16| bits >> k & 1 == 1;
        // Of a bad table some.
        if has(0) && bits >> 1 & 7 != 0 {
            continue;
        }
        let mut of = least_of();
        of.set = (bits % 3 == 1).then_some(2);
        if has(8) {
            of.start = (0, 2);
        }
        if has(0) {
            of.table[7] = 1;
        }
        if has(1) {
            of.start.1 = 3;
        }
        if has(2) {
            of.set = Some(5);
        }
        if has(3) {
            of.graph[8] = 3;
        }
        let mut lent = ASKED;
        for k in 0..3 {
            lent[k] -= has(4 + k as u16) as u16;
        }
        let l = Listing {
            count: has(7) as u32,
            open: !has(9),
        };
        c.step(&of, l, lent, false, &[]);
    }
    for lent in [[0, 0, 0], [8_200, 32_008, 2_000], [8_200, 32_008, 0]] {
        c.step(&least_of(), FRESH, lent, false, &[]);
    }
}

/// Refusals of a list of calls and of opening, each with each.
fn list_faults(c: &mut Calls) {
    for bits in 0..256u16 {
        let has = |k: u16| bits >> k & 1 == 1;
        // Of a bad table some.
        if has(0) && bits >> 1 & 7 != 0 {
            continue;
        }
        let mut of = least_of();
        of.table[7] = has(0) as u16;
        if has(1) {
            of.start = (0, 2);
        }
        if has(2) {
            of.set = Some(5);
        }
        if has(3) {
            of.graph[8] = 3;
        }
        let mut numbers = [ASKED, ASKED, [8_192, 32_000, 1_158], [8_193, 0, 5]].concat();
        if has(4) {
            numbers.pop();
        }
        let room = 3 * 1_161 + 8 - has(5) as u16;
        let lent = [8_193 - has(6) as u16, 32_000 - has(7) as u16, room];
        c.list(&of, lent, &numbers);
        if !has(4) && !has(5) && !has(7) {
            c.open(&of, lent[0]);
        }
    }
    for numbers in [&[][..], &[0], &[0, 0], &[0, 0, 0], &[8_193, 32_000, 1_158]] {
        for output in [0, 2, 3, 1_160, 1_161, 1_162] {
            c.list(&least_of(), [8_193, 32_000, output], numbers);
        }
    }
}

/// Eight nonterminals; productions of 0 to 3 symbols of the first.
fn eight() -> Vec<u16> {
    let mut table = Table {
        terminals: 2,
        nonterminals: vec![vec![]; 8],
        states: vec![State::default()],
        ..Table::default()
    };
    for p in 0..4u16 {
        table.nonterminals[0].push(p);
        table.productions.push(Production {
            nonterminal: 0,
            symbols: (0..p).map(|k| (1, k % 2)).collect(),
            span: (0, 0),
        });
    }
    table.encode(true, || 0).unwrap()
}

/// A graph by hand. Target None is the start item 0 0, source None another item.
fn hand(edges: &[(Option<u16>, Option<u16>, u16)]) -> Vec<u16> {
    let edges: Vec<[u16; 8]> = (edges.iter())
        .map(|&(from, to, label)| {
            let from = from.map_or([1, 3, 2], |n| [0, n, 0]);
            let to = to.map_or([1, 0, 0], |n| [0, n, 0]);
            let e = [from, to, [label, label / 2, 0]].concat();
            e[..8].try_into().unwrap()
        })
        .collect();
    graph(&edges)
}

fn hand_made() -> Vec<Vec<u16>> {
    let (i, s) = (None, None);
    let n = Some;
    let mut complete = vec![(n(0), s, 1)];
    for a in 0..5 {
        for b in 0..5 {
            complete.push((n(a), n(b), a % 4));
        }
        complete.push((i, n(a), 3));
    }
    let mut over = complete.clone();
    for a in 0..8 {
        for b in 0..8 {
            over.push((n(a), n(b), 2));
        }
    }
    over.sort();
    over.dedup();
    let mut graphs: Vec<Vec<u16>> = [
        // Several paths with shared suffixes.
        &[
            (n(0), s, 1),
            (n(0), s, 2),
            (n(1), n(0), 1),
            (n(2), n(0), 3),
            (i, n(1), 2),
            (i, n(2), 3),
            (i, n(2), 1),
        ][..],
        // Cycles.
        &[
            (n(0), s, 1),
            (n(1), n(0), 2),
            (n(0), n(1), 3),
            (n(0), n(0), 1),
            (i, n(1), 2),
            (i, n(0), 0),
        ],
        // No example: nothing comes from an item.
        &[(n(0), s, 1), (n(1), n(0), 2), (n(0), n(1), 3)],
        &[(i, s, 1), (i, s, 2), (i, n(3), 2)],
        &complete,
        &over,
    ]
    .into_iter()
    .map(hand)
    .collect();
    // The start item only as a source, into itself, and both with others.
    graphs.push(graph(&[[1, 0, 0, 0, 2, 0, 1, 1]]));
    graphs.push(graph(&[[1, 0, 0, 1, 0, 0, 2, 1]]));
    graphs.push(graph(&[
        [1, 0, 0, 1, 0, 0, 2, 1],
        [0, 1, 0, 1, 0, 0, 3, 1],
        [1, 0, 0, 0, 1, 0, 3, 3],
        [1, 2, 1, 1, 0, 0, 2, 2],
    ]));
    graphs
}

fn by_hand(c: &mut Calls) {
    for graph in hand_made() {
        for set in [None, Some(0), Some(1), Some(2), Some(4), Some(7)] {
            let of = Of {
                table: eight(),
                start: (0, 0),
                set,
                graph: graph.clone(),
            };
            if set.is_none() {
                c.session(&of, 6);
            }
            c.run(&of, 12);
        }
    }
}

/// Words that hold a trial or none, under any count.
fn held_words(c: &mut Calls) {
    let graphs = hand_made();
    for graph in [&graphs[0], &graphs[1]] {
        let of = Of {
            table: eight(),
            start: (0, 0),
            set: None,
            graph: graph.clone(),
        };
        let table = decode(&of.table).unwrap();
        let edges = graph_edges(&table, graph).unwrap();
        let Some(listed) = c.m.answers.trials(&of, &edges) else {
            return;
        };
        let mut fronts: Vec<Vec<u16>> = (listed.examples.iter()).map(|e| words_of(&e.1)).collect();
        let last = fronts.len() - 1;
        let first = fronts[0].clone();
        for (at, word) in [
            (0, 0),
            (0, 1),
            (0, 40),
            (0, 65_535),
            (1, 9),
            (1, 65_535),
            (2, 0),
        ] {
            let mut words = first.clone();
            words[at] = word;
            fronts.push(words);
        }
        fronts.push([&first[..], &[1]].concat());
        for (k, front) in fronts.iter().enumerate() {
            let counts: &[u32] = if k == 0 || k == last {
                &[
                    0,
                    1,
                    2,
                    99_996,
                    99_998,
                    99_999,
                    100_000,
                    100_001,
                    4_294_967_295,
                ]
            } else {
                &[0, 5]
            };
            for &count in counts {
                for open in [true, false] {
                    if !open && count > 1 {
                        continue;
                    }
                    let l = Listing { count, open };
                    c.step(&of, l, ASKED, true, front);
                }
            }
        }
    }
}

/// Listings of generated cases.
fn generated(c: &mut Calls, kind: &str, seed: u64, count: u64, keep: usize, calls: usize) {
    c.m.out.seeds += &format!("listings, {kind}: seeds {seed} to {}\n", seed + count - 1);
    for case in (seed..seed + count).filter_map(|s| generate::case(kind, s)) {
        let mut kept = 0;
        for q in &case.questions {
            let (start, set, graph) = match q {
                Question::List(start, set, graph) => (*start, *set, graph.clone()),
                Question::ListTrace(reduce, state, item, set) => {
                    let trace = if *reduce {
                        Question::Reduce(*state, *item)
                    } else {
                        Question::Shift(*state, *item)
                    };
                    match c.m.told(&case.table, &trace) {
                        Some(a) if a[0] == 0 => {
                            (*item, *set, a[1..].iter().map(|&w| w as u16).collect())
                        }
                        _ => continue,
                    }
                }
                _ => continue,
            };
            if kept == keep {
                break;
            }
            if graph.len() > 2_000 && kept > 0 {
                continue;
            }
            kept += 1;
            let table = case.table.clone();
            let of = Of {
                table,
                start,
                set,
                graph,
            };
            if of.graph.len() + of.table.len() < 250 {
                c.session(&of, 2);
            }
            c.run(&of, calls);
        }
    }
}

pub fn listings(m: &mut Maker<'_>) {
    let mut c = Calls { m };
    faults(&mut c);
    list_faults(&mut c);
    by_hand(&mut c);
    held_words(&mut c);
    for seed in [2, 3, 4, 6, 9, 10, 13, 14] {
        generated(&mut c, "limit", seed, 1, 9, 8);
    }
    for (kind, seed, count) in [
        ("classic", 2_001, 14),
        ("random", 2_101, 8),
        ("bent", 2_201, 8),
        ("arbitrary", 2_301, 8),
        ("graph", 2_401, 20),
    ] {
        generated(&mut c, kind, seed, count, 2, 20);
    }
}
