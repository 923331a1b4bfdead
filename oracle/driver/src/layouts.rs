//! Meanings laid out in any order, and what tells one reading of one spelling and of unused records from another.

use crate::generate::{Rng, arbitrary_table};
use crate::question::{Case, Question};
use crate::rewrites::spelled;
use crate::sample::Maker;
use crate::table::*;
use std::collections::BTreeMap;

/// A chain: the record and the word that hold its first index, and what its
/// records hold behind their next indexes.
type Chain = (usize, usize, Vec<[u16; 3]>);

fn chains(table: &Table) -> Vec<Chain> {
    let first_state = 1 + table.nonterminals.len();
    let first_production = first_state + table.states.len();
    let mut out = vec![];
    for (r, p) in (first_production..).zip(&table.productions) {
        out.push((r, 1, p.symbols.iter().map(|s| [s.0, s.1, 0]).collect()));
    }
    for (r, s) in (first_state..).zip(&table.states) {
        out.push((r, 0, s.items.iter().map(|i| [i.0, i.1, 0]).collect()));
        let edges = s.edges.iter().map(|(on, to)| [on.0, on.1, *to]);
        out.push((r, 1, edges.collect()));
    }
    out
}

/// Record 0 and the areas, no chain of loose records begun.
fn areas(table: &Table) -> Vec<[u16; 4]> {
    let mut bare = table.clone();
    bare.productions.iter_mut().for_each(|p| p.symbols.clear());
    bare.states.fill(State::default());
    bare.encode(false, || 0).unwrap().as_chunks().0.to_vec()
}

/// A table's words with the records of its chains mixed, equal ends of chains
/// shared (also between symbols, items and edges) or not, and unreached records
/// between and behind them or none. None above 8,192 records.
pub fn scattered(rng: &mut Rng, table: &Table) -> Option<Vec<u16>> {
    let (share, gaps) = (!rng.chance(3), !rng.chance(3));
    let mut out = areas(table);
    let mut chains = chains(table);
    // Made last first, the next of any chain: number k of them, from 1, stands
    // k before the end, so a next index is larger than its record's number.
    let mut made: Vec<Option<([u16; 3], usize)>> = vec![];
    let mut known = BTreeMap::new();
    let mut next = vec![0; chains.len()];
    let mut left: Vec<usize> = (0..chains.len())
        .filter(|&c| !chains[c].2.is_empty())
        .collect();
    while !left.is_empty() && made.len() <= 8_192 {
        while gaps && rng.chance(5) {
            made.push(None);
        }
        let turn = rng.below(left.len());
        let c = left[turn];
        let entry = chains[c].2.pop().unwrap();
        match known.get(&(entry, next[c])) {
            Some(&equal) if share && !rng.chance(4) => next[c] = equal,
            _ => {
                made.push(Some((entry, next[c])));
                known.insert((entry, next[c]), made.len());
                next[c] = made.len();
            }
        }
        if chains[c].2.is_empty() {
            left.swap_remove(turn);
        }
    }
    let total = out.len() + made.len();
    if total > 8_192 {
        return None;
    }
    let place = |k: usize| if k == 0 { 0 } else { (total - k) as u16 };
    for ((record, word, _), &k) in chains.iter().zip(&next) {
        out[*record][*word] = place(k);
    }
    for record in made.iter().rev() {
        out.push(match record {
            Some(([a, b, c], k)) => [place(*k), *a, *b, *c],
            None => [0; 4].map(|_| rng.below(65_536) as u16),
        });
    }
    Some(out.concat())
}

/// Two neighbours that differ, exchanged; whether there are such.
fn exchange<T: PartialEq>(list: &mut [T]) -> bool {
    match (1..list.len()).find(|&i| list[i - 1] != list[i]) {
        Some(i) => {
            list.swap(i - 1, i);
            true
        }
        None => false,
    }
}

/// Another meaning: one number more by one, or two neighbours exchanged.
fn changed(rng: &mut Rng, table: &mut Table) {
    let (n, s) = (table.nonterminals.len() as u16, table.states.len() as u16);
    let p = rng.below(table.productions.len().max(1));
    let state = rng.below(s as usize);
    let from = rng.below(9);
    for kind in (from..9).chain(0..from) {
        let production = table.productions.get_mut(p);
        let done = match (kind, production) {
            (0, Some(q)) => {
                q.span.0 ^= 1;
                true
            }
            (1, Some(q)) => {
                q.span.1 = q.span.1.wrapping_add(1);
                true
            }
            (2, Some(q)) if n > 1 => {
                let old = q.nonterminal as usize;
                let new = (old + 1) % n as usize;
                q.nonterminal = new as u16;
                table.nonterminals[old].retain(|&x| x as usize != p);
                table.nonterminals[new].push(p as u16);
                table.nonterminals[new].sort();
                true
            }
            (3, Some(q)) => exchange(&mut q.symbols),
            (4, _) => exchange(&mut table.states[state].items),
            (5, _) => exchange(&mut table.states[state].edges),
            (6, _) if s > 1 => match table.states[state].edges.first_mut() {
                Some(edge) => {
                    edge.1 = (edge.1 + 1) % s;
                    true
                }
                None => false,
            },
            (7, _) => match table.states[state].items.last().copied() {
                Some(last) => {
                    table.states[state].items.push(last);
                    true
                }
                None => false,
            },
            (8, _) if table.terminals < 63 => {
                table.terminals += 1;
                true
            }
            _ => false,
        };
        if done {
            return;
        }
    }
}

/// Of three seeds the first two give one meaning in two layouts, the third
/// another meaning.
fn meaning(seed: u64) -> (Rng, Table) {
    let mut rng = Rng::new(seed / 3 ^ 0x7370_656c);
    let big = rng.chance(9);
    let mut table = arbitrary_table(&mut rng, big);
    let mut rng = Rng::new(seed ^ 0x6c61_7964);
    if seed % 3 == 2 {
        changed(&mut rng, &mut table);
    }
    (rng, table)
}

/// Room for all records, a word less, some more, none, and the largest.
fn rooms(records: usize) -> [u16; 6] {
    let words = 4 * records.min(8_192);
    [words, words - 1, words + 3, words - 4, 0, 32_768].map(|w| w as u16)
}

pub fn case(seed: u64) -> Option<Case> {
    let (mut rng, table) = meaning(seed);
    let words = scattered(&mut rng, &table)?;
    let records = spelled(&table).len();
    Some(Case {
        name: format!("{records} records"),
        table: words,
        questions: [
            &rooms(records).map(Question::Respell)[..],
            &[Question::Compact],
        ]
        .concat(),
    })
}

/// States whose edges are one chain, shared by all of them: from a record on,
/// each of some records.
fn shared_edges(heads: &[u16], edges: usize) -> Vec<u16> {
    let loose = 2 + heads.len();
    let mut out = vec![[1, 1, heads.len() as u16, 0], [0; 4]];
    out.extend(heads.iter().map(|h| [0, loose as u16 + h, 0, 0]));
    for r in loose..loose + edges {
        let next = if r + 1 < loose + edges { r + 1 } else { 0 };
        out.push([next as u16, 1, 0, (r % heads.len()) as u16]);
    }
    out.concat()
}

/// Op 18 of a table, with each room.
fn ask(m: &mut Maker, table: &[u16], rooms: &[u16]) {
    for &words in rooms {
        m.put(18, table, &[words]);
    }
}

fn laid_out(m: &mut Maker) {
    for seed in 0..90 {
        let (mut rng, table) = meaning(seed);
        // The same words for one meaning, others for another.
        let before = spelled(&meaning(seed - seed % 3).1);
        assert_eq!(before == spelled(&table), seed % 3 < 2);
        if let Some(words) = scattered(&mut rng, &table).filter(|w| w.len() < 3_000) {
            let all = rooms(before.len());
            ask(m, &words, &all[..if seed < 12 { 6 } else { 2 }]);
            m.put(19, &words, &[]);
        }
    }
}

/// 8,192 records and 8,193, by one record more and by one that is shared; one
/// chain shared by 128 states.
fn limits(m: &mut Maker) {
    let full = shared_edges(&[0], 8_189);
    ask(m, &full, &[32_768, 32_767, 32_776]);
    let shared = 8_188 - 2;
    let at = shared_edges(&[0, shared as u16 - 2], shared);
    ask(m, &at, &[32_768, 32_776]);
    let past = shared_edges(&[0, shared as u16 - 3], shared);
    ask(m, &past, &[32_768, 32_776]);
    ask(m, &shared_edges(&[0; 128], 8_062), &[32_776]);
    m.put(19, &full, &[]);
    // From the middle on.
    m.put(19, &shared_edges(&[4_000], 8_189), &[]);
}

/// One production, one state; the first records of symbols, items and edges,
/// and the loose records. A record of zeros may be of any kind.
fn three(heads: [u16; 3], loose: &[[u16; 4]]) -> Vec<u16> {
    let [symbols, items, edges] = heads;
    let mut out = vec![
        [1, 1, 1, 1],
        [3, 0, 0, 0],
        [items, edges, 0, 0],
        [0, symbols, 5, 9],
    ];
    out.extend(loose);
    out.concat()
}

/// Nothing reached; a record that is reached in two kinds and in three, by a
/// head and by a next index; all that a chain of every second record leaves.
fn gaps(m: &mut Maker) {
    let unused = [7, 65_535, 4, 8];
    let zero = [0; 4];
    let to = |next| [next, 0, 0, 0];
    for heads in [
        [0; 3],
        [5, 0, 0],
        [0, 5, 0],
        [0, 0, 5],
        [5, 5, 0],
        [5, 0, 5],
        [0, 5, 5],
        [5; 3],
    ] {
        m.put(19, &three(heads, &[unused, zero, unused]), &[]);
        m.put(19, &three(heads, &[unused, to(7), unused, zero]), &[]);
    }
    m.put(
        19,
        &three(
            [4, 6, 8],
            &[to(8), unused, to(8), unused, to(10), unused, zero],
        ),
        &[],
    );
    m.put(19, &three([4, 5, 6], &[zero; 3]), &[]);
    m.put(19, &three([6, 5, 4], &[zero; 4]), &[]);
    m.put(19, &three([0; 3], &[unused; 8_188]), &[]);
    m.put(19, &three([0; 3], &[unused; 8_189]), &[]);
    let every_second = |r: u16| {
        if r % 2 == 0 {
            unused
        } else {
            to(if r < 8_191 { r + 2 } else { 0 })
        }
    };
    let half: Vec<[u16; 4]> = (4..8_192).map(every_second).collect();
    m.put(19, &three([8_185, 5, 5], &half), &[]);
    // States that share a chain, one from its middle on.
    let shared = shared_edges(&[6, 2, 6, 0, 9], 12);
    m.put(19, &shared, &[]);
    m.put(19, &shared_edges(&[6, 4, 6, 8, 9], 12), &[]);
}

pub fn layouts(m: &mut Maker) {
    let b = table_b();
    ask(m, &b, &rooms(24));
    m.put(19, &b, &[]);
    for c in [table_c(), b[..92].to_vec(), vec![], vec![0, 0, 1, 0]] {
        ask(m, &c, &[0, 103, 104, 32_768]);
        m.put(19, &c, &[]);
    }
    for (at, word) in [(48, 12), (24, 0), (33, 2), (74, 4), (7, 1)] {
        let mut t = b.clone();
        t[at] = word;
        ask(m, &t, &[96, 0]);
        m.put(19, &t, &[]);
    }
    laid_out(m);
    limits(m);
    gaps(m);
}
