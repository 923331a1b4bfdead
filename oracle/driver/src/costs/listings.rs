//! Listings: whole ones beside the Rust, and single calls of `advance`.

use super::tables::{largest, long_labels};
use super::*;
use crate::port::{END, Listing};
use crate::question::Question;
use crate::rust::Rust;
use crate::side::graph_words;
use crate::table::table_b;

/// What a listing is of.
struct Of<'a> {
    table: &'a [u16],
    edges: &'a [[u16; 8]],
    start: (u16, u16),
    set: Option<u64>,
}

/// The last answer of a listing, how many calls it took, its count.
type Ended = (u16, usize, u32);

impl Of<'_> {
    fn lend(&self, lent: &mut Lent) {
        let words = graph_words(self.edges);
        lent.graph[..words.len()].copy_from_slice(&words);
    }

    /// Opened, and moved on up to its end by the port; each call as `call`
    /// does it. None if it is refused.
    fn port(&self, lent: &mut Lent, mut call: impl FnMut(&mut dyn FnMut())) -> Option<Ended> {
        let Of { table, start, .. } = *self;
        let (mut place, mut calls) = (0, 0);
        let mut listing = Listing::new(table, start, self.set, &lent.graph, &mut place).ok()?;
        let (scratch, [example, _]) = (&mut lent.scratch, &mut lent.examples);
        loop {
            let mut answer = 0;
            call(&mut || {
                answer = listing.advance(table, &lent.graph, scratch, example, &mut place);
            });
            calls += 1;
            if answer != 0 {
                return Some((answer, calls, listing.count));
            }
        }
    }

    /// Time of the port: opening and every call, and where it ended.
    fn port_time(&self, time: Timing) -> Option<(f64, Ended)> {
        let mut lent = Lent::new();
        self.lend(&mut lent);
        let mut ended = None;
        let took = time(&mut || ended = self.port(&mut lent, |advance| advance()));
        Some((took, ended?))
    }

    /// Time of the Rust over a graph made before, and of making the graph from
    /// its words; `calls` as the port's.
    fn rust_time(&self, r: &Rust<'_>, calls: usize, time: Timing) -> [f64; 2] {
        let words = graph_words(self.edges);
        let read = || {
            let edges = words[1..].chunks_exact(8).map(|e| e.try_into().unwrap());
            r.graph(&edges.collect::<Vec<_>>())
        };
        let graph = read();
        let (item, set) = (r.item(self.start), self.set.map(|set| r.token_set(set)));
        let mut examples = 0;
        let rust = time(&mut || {
            examples = 0;
            r.each_example(&graph, item, set.as_ref(), |example| {
                black_box(example);
                examples += 1;
            });
        });
        assert_eq!(examples + 1, calls);
        let made = time(&mut || {
            black_box(read());
        });
        [rust, made]
    }
}

/// One whole listing.
fn listed(name: &str, of: &Of<'_>) {
    let (port, (answer, calls, trials)) = of.port_time(least).unwrap();
    assert_eq!(answer, END);
    let held = held(of.table);
    let [rust, made] = of.rust_time(held.rust(), calls, least);
    drop(held);
    let name = format!("{name} (examples {}, trials {trials})", calls - 1);
    row(&name, rust, made + making(of.table, least), port);
}

/// All listings of a kind's traces, of which none meets a limit, on average.
fn listed_of(kind: &str) {
    let mut means = [Means::default(); 2];
    each_of(kind, |case, held, made| {
        let r = held.rust();
        for q in &case.questions {
            let Question::ListTrace(reduce, state, start, set) = *q else {
                continue;
            };
            let edges = r.edges(&r.backtrace(reduce, (state, start)));
            let of = Of {
                table: &case.table,
                edges: &edges,
                start,
                set,
            };
            let limit = edges.len() > crate::side::MAX_EDGES;
            let port = if limit { None } else { of.port_time(few) };
            if let Some((port, (END, calls, _))) = port {
                let [rust, graph] = of.rust_time(r, calls, few);
                means[set.is_some() as usize].add(rust, graph + made, port);
            }
        }
    });
    means[0].row(&format!("listings of kind {kind}"));
    means[1].row(&format!("listings of kind {kind}, filtered"));
}

/// One call that makes all trials.
fn one_call(name: &str, of: &Of<'_>) {
    let (port, (answer, calls, trials)) = of.port_time(least).unwrap();
    assert_eq!(calls, 1);
    line(&[
        name.to_string(),
        answer.to_string(),
        trials.to_string(),
        format!("{:.2}", port / 1e3),
        format!("{:.0}", trials as f64 / port * 1e6),
    ]);
}

/// Three whole listings: the least and the middle time of a call.
fn calls(name: &str, of: &Of<'_>) {
    let mut place = 0;
    let check = least(&mut || {
        black_box(port::check(of.table, &mut place));
    });
    let mut lent = Lent::new();
    of.lend(&mut lent);
    let (mut times, mut made) = (vec![], 0);
    for _ in 0..3 {
        let ended = of.port(&mut lent, |advance| times.push(micros(timed(advance))));
        made = ended.unwrap().1;
    }
    times.sort_by(f64::total_cmp);
    let (least, middle) = (times[0], times[times.len() / 2]);
    line(&[
        name.to_string(),
        of.table.len().to_string(),
        made.to_string(),
        format!("{check:.1}"),
        format!("{least:.1}"),
        format!("{middle:.1}"),
        format!("{:.0}", 1e6 / middle),
    ]);
}

/// The edges of a trace by the Rust.
fn traced(table: &[u16], reduce: bool, from: Traced) -> Vec<[u16; 8]> {
    let held = held(table);
    let r = held.rust();
    r.edges(&r.backtrace(reduce, from))
}

pub fn costs() {
    let b = table_b();
    let shift = traced(&b, false, (3, (0, 1)));
    let reduce = traced(&b, true, (3, (0, 3)));
    let of_b = |edges, start, set| Of {
        table: &b,
        edges,
        start,
        set,
    };
    beside("whole listing");
    listed("table B, shift", &of_b(&shift, (0, 1), None));
    listed("table B, reduce", &of_b(&reduce, (0, 3), None));
    let name = "table B, reduce, filtered";
    listed(name, &of_b(&reduce, (0, 3), Some(1)));
    for kind in ["classic", "random", "wide"] {
        listed_of(kind);
    }

    let full = case("limit", 0).table;
    let edges = traced(&full, false, (0, (0, 0)));
    let of_full = |table, set| Of {
        table,
        edges: &edges,
        start: (0, 0),
        set,
    };
    let big = largest();
    let of_big = |edges, start, set| Of {
        table: &big,
        edges,
        start,
        set,
    };
    let items: Vec<(u16, u16)> = (0..64).flat_map(|p| (1..17).map(move |i| (p, i))).collect();
    let into: Vec<[u16; 8]> = (items.iter())
        .map(|&(p, i)| [1, p, i, 1, 0, 0, p, i])
        .collect();
    let apart: Vec<[u16; 8]> = (items.iter())
        .map(|&(p, i)| [1, 0, 0, 1, p, i, p, i])
        .collect();
    let mut padded = full.clone();
    padded.resize(32_768, 65_535);
    let over = [
        ("one traced graph, its own table", of_full(&full, None)),
        ("the same, filtered", of_full(&full, Some(2))),
        (
            "the same, records unreached up to 32,768 words",
            of_full(&padded, None),
        ),
        (
            "1,024 items into the start item, largest table",
            of_big(&into, (0, 0), None),
        ),
        ("the same, filtered", of_big(&into, (0, 0), Some(1))),
        (
            "1,024 edges into as many items, largest table",
            of_big(&apart, (0, 1), None),
        ),
        ("1 edge, largest table", of_big(&into[..1], (0, 0), None)),
    ];
    for k in [0, 1, 3, 4, 5] {
        let (name, of) = &over[k];
        listed(&format!("1,024 edges: {name}"), of);
    }
    let [at, past] = [3, 10].map(|seed| case("limit", seed).table);
    let [edges_at, edges_past] = [&at, &past].map(|t| traced(t, false, (0, (0, 0))));
    let no_example = |table, edges| Of {
        table,
        edges,
        start: (0, 0),
        set: None,
    };
    let name = "one call, no example";
    listed(name, &no_example(&at, &edges_at));
    for nullable in [true, false] {
        let (table, edges) = long_labels(nullable);
        let of = Of {
            table: &table,
            edges: &edges,
            start: (0, 16),
            set: Some(1),
        };
        let asked = if nullable { "all" } else { "two" };
        listed(
            &format!("one call, labels of 15 symbols, filtered, {asked} asked"),
            &of,
        );
    }

    head(&["one call", "answer", "trials", "ms", "trials a second"]);
    let name = "100,000 trials, traced, no example";
    one_call(name, &no_example(&at, &edges_at));
    let name = "100,001 trials, traced, no example";
    one_call(name, &no_example(&past, &edges_past));
    // All nonterminals with all: the walk is as deep as it can be.
    let mut each = vec![[0, 0, 0, 1, 0, 0, 0, 0]];
    for a in 0..31 {
        each.extend((0..31).map(|b| [0, a, 0, 0, b, 0, 0, 0]));
    }
    let name = "962 edges, 31 nonterminals each with each, largest table";
    one_call(name, &of_big(&each, (0, 0), None));

    head(&[
        "listing, 1,024 edges",
        "table words",
        "calls",
        "check alone, us",
        "call, least, us",
        "call, middle, us",
        "calls a second (middle)",
    ]);
    for (name, of) in &over {
        calls(name, of);
    }
}
