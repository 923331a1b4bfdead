//! FIRST, walks, traces and edges added.

use super::tables::{first_chain, late_labels, long_edges, ring};
use super::*;
use crate::question::Question;
use crate::side::{graph_words, symbol_words};
use crate::table::{Sym, table_b};
use lalrpop::lr1::first::FirstSets;

fn traced(name: &str, table: &[u16], reduce: bool, from: Traced) {
    let held = held(table);
    let mut lent = Lent::new();
    let r = held.rust();
    let rust = least(&mut || {
        black_box(r.backtrace(reduce, from));
    });
    let port = least(&mut || {
        black_box(lent.trace(reduce, table, from));
    });
    let [refusal, edges] = lent.trace(reduce, table, from);
    let outcome = match refusal {
        0 => format!("{edges} edges"),
        n => format!("refused {n}"),
    };
    let which = if reduce { "reduce" } else { "shift" };
    drop(held);
    let name = format!("{which}: {name} ({outcome})");
    row(&name, rust, making(table, least), port);
}

/// All traces of a kind's cases, a trace on average.
fn traces_of(kind: &str) {
    let mut lent = Lent::new();
    let mut means = Means::default();
    each_of(kind, |case, held, made| {
        let r = held.rust();
        for q in &case.questions {
            let (reduce, from) = match *q {
                Question::Shift(state, item) => (false, (state, item)),
                Question::Reduce(state, item) => (true, (state, item)),
                _ => continue,
            };
            let rust = few(&mut || {
                black_box(r.backtrace(reduce, from));
            });
            let port = few(&mut || {
                black_box(lent.trace(reduce, &case.table, from));
            });
            means.add(rust, made, port);
        }
    });
    means.row(&format!("traces of kind {kind}"));
}

/// One edge that is there: the port checks the lent graph whole at each call.
fn edges_added(name: &str, table: &[u16], edges: &[[u16; 8]]) {
    let held = held(table);
    let r = held.rust();
    let mut words = graph_words(edges);
    words.resize(port::GRAPH_WORDS, 0);
    let last = edges[edges.len() - 1];
    let mut lent = words.clone();
    let (mut place, mut count) = (0, 0);
    let mut add = || port::add_edge(table, last, &mut lent, &mut count, &mut place);
    assert_eq!(add(), 0);
    let port = least(&mut || {
        black_box(add());
    });
    assert!(lent == words && count as usize == edges.len());
    let mut graph = r.graph(edges);
    let rust = least(&mut || r.add_edge(&mut graph, &last));
    let made = least(&mut || {
        black_box(r.graph(edges));
    });
    drop(graph);
    drop(held);
    let name = format!("add_edge: one that is there, to {name}");
    row(&name, rust, made + making(table, least), port);
}

fn walked(name: &str, table: &[u16], state: u16, symbols: &[Sym]) {
    let held = held(table);
    let r = held.rust();
    let list = symbol_words(symbols);
    let rust = least(&mut || {
        black_box(r.trace_back(state, symbols));
    });
    let (mut place, mut low, mut high) = (0, 0, 0);
    let port = least(&mut || {
        black_box(port::trace_back(
            table, state, &list, &mut low, &mut high, &mut place,
        ));
    });
    drop(held);
    let name = format!("trace_back: {name}");
    row(&name, rust, making(table, least), port);
}

fn first(name: &str, table: &[u16], symbols: &[Sym]) {
    let held = held(table);
    let r = held.rust();
    let list = symbol_words(symbols);
    let (mut place, mut set, mut nullable) = (0, 0, false);
    let port = least(&mut || {
        black_box(port::first0(table, &list, &mut set, &mut nullable, &mut place));
    });
    let rust = least(&mut || {
        black_box(r.first0(symbols));
    });
    let sets = least(&mut || {
        black_box(FirstSets::new(r.grammar));
    });
    drop(held);
    let name = format!("first0: {name}");
    row(&name, rust, making(table, least), port);
    let name = format!("{name}, with the Rust's `FirstSets::new`");
    row(&name, rust + sets, 0.0, port);
}

pub fn costs() {
    beside("input");
    let b = table_b();
    first("E on table B", &b, &[(0, 0)]);
    let name = "32 nonterminals, each FIRST from the next";
    first(name, &first_chain(), &[(0, 0)]);
    walked("E + E on table B", &b, 3, &[(0, 0), (1, 0), (0, 0)]);
    let round = ring(&[vec![(1, 0)]], 1).encode(true, || 0).unwrap();
    let name = "1,000 symbols round 128 states";
    walked(name, &round, 5, &[(1, 0); 1_000]);
    let long = long_edges();
    let name = "1 symbol, 8,028 edges shared by 128 states";
    walked(name, &long, 33, &[(1, 1)]);
    walked("1,000 symbols, the same", &long, 33, &[(1, 1); 1_000]);
    traced("table B", &b, false, (3, (0, 1)));
    traced("table B", &b, true, (3, (0, 3)));
    for kind in ["classic", "random", "arbitrary", "wide"] {
        traces_of(kind);
    }
    let edges = case("limit", 0).table;
    traced("1,024 items of one state", &edges, false, (0, (0, 0)));
    let deep = case("limit", 5).table;
    traced("4,096 pairs nested", &deep, true, (127, (0, 0)));
    let name = "beside 8,028 edges shared by 128 states";
    for reduce in [true, false] {
        traced(name, &long, reduce, (32, (0, 1)));
    }
    let heavy = case("heavy", 7).table;
    let name = "7,000 items shared by 128 states, 15-symbol prefixes";
    traced(name, &heavy, false, (0, (1, 15)));
    traced(name, &heavy, true, (0, (0, 1)));
    let (table, labels) = late_labels();
    let name = "1,024 between two nodes, labels alike up to the end";
    edges_added(name, &table, &labels);
    let items: Vec<(u16, u16)> = (0..128).flat_map(|p| (0..8).map(move |i| (p, i))).collect();
    let spread: Vec<[u16; 8]> = (items.iter())
        .map(|&(p, i)| [0, 0, 0, 1, p, i, p, i])
        .collect();
    edges_added("1,024 into 1,024 nodes", &table, &spread);
    let one: Vec<[u16; 8]> = (items.iter())
        .map(|&(p, i)| [1, p, i, 0, 0, 0, p, i])
        .collect();
    edges_added("1,024 from 1,024 items into one node", &table, &one);
}
