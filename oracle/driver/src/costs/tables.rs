//! Tables made to take long.

use crate::table::{Production, State, Sym, Table};

/// Tables of one nonterminal and 128 states, to each of which one edge leads.
pub fn ring(productions: &[Vec<Sym>], terminals: u16) -> Table {
    let mut table = Table {
        terminals,
        nonterminals: vec![(0..productions.len() as u16).collect()],
        ..Table::default()
    };
    for symbols in productions {
        table.productions.push(Production {
            nonterminal: 0,
            symbols: symbols.clone(),
            span: (0, 0),
        });
    }
    for s in 0..128u16 {
        let to = (s + 1) % 128;
        table.states.push(State {
            items: vec![],
            edges: vec![((0, 0), to), ((1, 0), to)],
        });
    }
    table
}

/// All records from `first` to the last of 8,192: a chain with one edge on each
/// of 95 symbols, again and again (the Rust keeps one of each).
fn edge_chain(words: &mut Vec<u16>, first: u16) {
    assert_eq!(words.len(), 4 * first as usize);
    let count = 8_192 - first;
    for k in 0..count {
        let symbol = k % 95;
        let (kind, number) = if symbol < 32 {
            (0, symbol)
        } else {
            (1, symbol - 32)
        };
        let next = if k + 1 < count { first + k + 1 } else { 0 };
        words.extend([next, kind, number, symbol]);
    }
}

/// 8,028 edges in one chain that all 128 states share.
pub fn long_edges() -> Vec<u16> {
    let mut words = vec![32, 63, 128, 1];
    let loose = 1 + 32 + 128 + 1;
    for n in 0..32 {
        words.extend([if n == 0 { 161 } else { 0 }, 0, 0, 0]);
    }
    for _ in 0..128 {
        words.extend([loose + 1, loose + 2, 0, 0]);
    }
    words.extend([0, loose, 0, 0]);
    // The symbol t0, the item behind it, then edges.
    words.extend([0, 1, 0, 0]);
    words.extend([0, 0, 1, 0]);
    edge_chain(&mut words, loose + 2);
    words
}

/// 128 productions with the same 16 symbols, 128 states that share one chain
/// of all other records as edges, over 32,768 words.
pub fn largest() -> Vec<u16> {
    let mut words = vec![32, 63, 128, 128];
    let loose: u16 = 1 + 32 + 128 + 128;
    for n in 0..32 {
        words.extend([if n == 0 { 161 } else { 0 }, 0, 0, 0]);
    }
    for _ in 0..128 {
        words.extend([0, loose + 16, 0, 0]);
    }
    for p in 0..128 {
        words.extend([if p < 127 { 162 + p } else { 0 }, loose, 0, 0]);
    }
    for k in 0..16 {
        words.extend([if k < 15 { loose + k + 1 } else { 0 }, 1, 0, 0]);
    }
    edge_chain(&mut words, loose + 16);
    words
}

/// 1,024 edges between two nodes whose labels differ late: 128 productions of
/// 16 symbols alike but for the last two, at 8 indexes.
pub fn late_labels() -> (Vec<u16>, Vec<[u16; 8]>) {
    let mut productions = vec![];
    for p in 0..128u16 {
        let mut symbols = vec![(1, 0); 14];
        symbols.extend([(1, p / 63), (1, p % 63)]);
        productions.push(symbols);
    }
    let table = ring(&productions, 63).encode(true, || 0).unwrap();
    let edges = (0..8).flat_map(|i| (0..128).map(move |p| [0, 0, 0, 0, 0, 0, p, i]));
    (table, edges.collect())
}

/// N0 is N1, and so on to t0, the last production first, so that FIRST takes as
/// many rounds as there are nonterminals.
pub fn first_chain() -> Vec<u16> {
    let mut table = Table {
        terminals: 1,
        nonterminals: (0..32).map(|n| vec![n]).collect(),
        states: vec![State::default()],
        ..Table::default()
    };
    for n in 0..32u16 {
        table.productions.push(Production {
            nonterminal: n,
            symbols: vec![if n < 31 { (0, n + 1) } else { (1, 0) }],
            span: (0, 0),
        });
    }
    table.encode(true, || 0).unwrap()
}

/// A graph of labels with 15 symbols behind the cursor: into the start item
/// (0, 16) from N0, twice from each nonterminal to the next up to N14, and twice
/// from items into that. N15 and N16, which the labels end in, are nullable or
/// begin with t1.
pub fn long_labels(nullable: bool) -> (Vec<u16>, Vec<[u16; 8]>) {
    let mut table = Table {
        terminals: 2,
        nonterminals: vec![vec![]; 17],
        states: vec![State::default()],
        ..Table::default()
    };
    let behind = |last| [vec![(0, 0)], vec![(0, 15); 14], vec![(0, last)]].concat();
    let short = if nullable { vec![] } else { vec![(1, 1)] };
    let rules = [
        (0, behind(15)),
        (0, behind(16)),
        (15, short.clone()),
        (16, short),
    ];
    for (p, (nonterminal, symbols)) in rules.into_iter().enumerate() {
        table.nonterminals[nonterminal as usize].push(p as u16);
        table.productions.push(Production {
            nonterminal,
            symbols,
            span: (0, 0),
        });
    }
    let mut edges = vec![[0, 0, 0, 1, 0, 16, 0, 16]];
    for n in 0..14 {
        edges.extend([0, 1].map(|p| [0, n + 1, 0, 0, n, 0, p, 0]));
    }
    edges.extend([0, 1].map(|p| [1, p, 0, 0, 14, 0, p, 0]));
    (table.encode(true, || 0).unwrap(), edges)
}
