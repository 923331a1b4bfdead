//! Tables rewritten, read plainly from docs/RULES.md: a table written afresh, and its unused records taken
//! back. Nothing of it is the port's.

use crate::table::*;
use std::collections::{BTreeMap, BTreeSet};

/// The records that a table may have.
const MOST: usize = 8_192;

/// Records under way.
struct Writer(Vec<[u16; 4]>);

impl Writer {
    /// One chain behind all that is written, its records consecutive; its
    /// first, or 0 of an empty one.
    fn chain(&mut self, entries: Vec<[u16; 3]>) -> u16 {
        let first = self.0.len();
        let last = first + entries.len().saturating_sub(1);
        for (at, [a, b, c]) in (first..).zip(&entries) {
            let next = if at < last { at + 1 } else { 0 };
            self.0.push([next as u16, *a, *b, *c]);
        }
        if entries.is_empty() { 0 } else { first as u16 }
    }
}

/// The records of a table written afresh: the areas as docs/RULES.md has them,
/// then symbols by production, items by state, edges by state; nothing shared,
/// nothing unreached.
pub fn spelled(table: &Table) -> Vec<[u16; 4]> {
    let nonterminals = table.nonterminals.len();
    let (states, productions) = (table.states.len(), table.productions.len());
    let first_state = 1 + nonterminals;
    let first_production = first_state + states;
    let mut out = Writer(vec![[0; 4]; first_production + productions]);
    out.0[0] = [
        nonterminals as u16,
        table.terminals,
        states as u16,
        productions as u16,
    ];
    // A nonterminal's productions: a next index is larger than its record's
    // number, so they ascend.
    for n in 0..nonterminals {
        let mut holder = 1 + n;
        for p in 0..productions {
            if table.productions[p].nonterminal as usize == n {
                out.0[holder][0] = (first_production + p) as u16;
                holder = first_production + p;
            }
        }
    }
    for (p, production) in table.productions.iter().enumerate() {
        let symbols = production.symbols.iter().map(|s| [s.0, s.1, 0]);
        let first = out.chain(symbols.collect());
        let record = &mut out.0[first_production + p];
        record[1] = first;
        record[2] = production.span.0;
        record[3] = production.span.1;
    }
    for (s, state) in table.states.iter().enumerate() {
        let items = state.items.iter().map(|i| [i.0, i.1, 0]);
        out.0[first_state + s][0] = out.chain(items.collect());
    }
    for (s, state) in table.states.iter().enumerate() {
        let edges = state.edges.iter().map(|(on, to)| [on.0, on.1, *to]);
        out.0[first_state + s][1] = out.chain(edges.collect());
    }
    out.0
}

/// `respell` into so many words: the records, or the refusal. 17 where they
/// pass 8,192 or the room; a part of a record is no room.
pub fn respell(table: &[u16], words: usize) -> Result<Vec<[u16; 4]>, Refusal> {
    let records = spelled(&decode(table)?);
    let room = words / 4;
    if records.len() > MOST || records.len() > room {
        return refuse(17, 0);
    }
    Ok(records)
}

/// `compact`: the number of records that are left, and all records of the
/// slice; or the refusal.
pub fn compact(table: &[u16]) -> Result<(usize, Vec<[u16; 4]>), Refusal> {
    let meant = decode(table)?;
    let old: &[[u16; 4]] = table.as_chunks().0;
    let first_state = 1 + meant.nonterminals.len();
    let first_production = first_state + meant.states.len();
    let loose = first_production + meant.productions.len();
    // The words that hold a chain's first record: of symbols, items, edges.
    let symbols = (first_production..loose).map(|p| (p, 1));
    let items = (first_state..first_production).map(|s| (s, 0));
    let edges = (first_state..first_production).map(|s| (s, 1));
    let heads: Vec<(usize, usize)> = symbols.chain(items).chain(edges).collect();
    // A record of several chains, or of several kinds, is one record.
    let mut reached = BTreeSet::new();
    for &(r, k) in &heads {
        let mut at = old[r][k];
        while at != 0 {
            reached.insert(at);
            at = old[at as usize][0];
        }
    }
    // New numbers in the present order; 0 stays 0.
    let mut number = BTreeMap::from([(0, 0)]);
    for (new, &r) in (loose..).zip(&reached) {
        number.insert(r, new as u16);
    }
    let mut out = old[..loose].to_vec();
    for &(r, k) in &heads {
        out[r][k] = number[&old[r][k]];
    }
    for &r in &reached {
        let [next, a, b, c] = old[r as usize];
        out.push([number[&next], a, b, c]);
    }
    let left = out.len();
    out.resize(old.len(), [0; 4]);
    Ok((left, out))
}
