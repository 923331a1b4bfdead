//! Building states read plainly: the states of a grammar as the book
//! has them (Aho, Sethi, Ullman), each item with one lookahead. Nothing of it
//! is the port's.

use crate::plain::Firsts;
use crate::rewrites::spelled;
use crate::side::members;
use crate::table::*;
use std::collections::BTreeSet;

/// The words of scratch that are asked for, and left zero.
pub const SCRATCH: usize = 64_000;
/// The states and the records that a table may have.
const STATES: usize = 128;
const RECORDS: usize = 8_192;

/// Production, index, lookahead.
pub type Item = (u16, u16, u16);
pub type Items = BTreeSet<Item>;
type Edges = Vec<(Sym, u16)>;

struct Grammar<'a> {
    table: &'a Table,
    firsts: Firsts,
}

impl Grammar<'_> {
    fn new(table: &Table) -> Grammar<'_> {
        let firsts = Firsts::new(table);
        Grammar { table, firsts }
    }

    fn symbols(&self, p: u16) -> &[Sym] {
        &self.table.productions[p as usize].symbols
    }

    /// The symbol behind the cursor; none of a complete item.
    fn cursor(&self, (p, i, _): Item) -> Option<Sym> {
        self.symbols(p).get(i as usize).copied()
    }

    fn complete(&self, item: Item) -> bool {
        self.cursor(item).is_none()
    }

    /// FIRST(beta a).
    fn ahead(&self, beta: &[Sym], a: u16) -> Vec<u16> {
        let set = self.firsts.first0(beta).followed(1 << a);
        members(set).collect()
    }

    /// For each [A -> alpha . B beta, a], each production B -> gamma and each b
    /// in FIRST(beta a): [B -> . gamma, b]. Where there is no b nothing is added.
    fn closure(&self, kernel: Items) -> Items {
        let mut all = kernel;
        let mut left: Vec<Item> = all.iter().copied().collect();
        // A nonterminal with a lookahead adds the same items each time.
        let mut added = BTreeSet::new();
        while let Some((p, i, a)) = left.pop() {
            let Some((0, nonterminal)) = self.cursor((p, i, a)) else {
                continue;
            };
            let beta = &self.symbols(p)[i as usize + 1..];
            for b in self.ahead(beta, a) {
                if !added.insert((nonterminal, b)) {
                    continue;
                }
                for &q in &self.table.nonterminals[nonterminal as usize] {
                    if all.insert((q, 0, b)) {
                        left.push((q, 0, b));
                    }
                }
            }
        }
        all
    }

    fn goto(&self, state: &Items, on: Sym) -> Items {
        let moved = state.iter().filter(|&&item| self.cursor(item) == Some(on));
        self.closure(moved.map(|&(p, i, a)| (p, i + 1, a)).collect())
    }

    /// The symbols in the order tried.
    fn tried(&self) -> impl Iterator<Item = Sym> + use<> {
        let nonterminals = (0..self.table.nonterminals.len() as u16).map(|n| (0, n));
        nonterminals.chain((0..self.table.terminals).map(|t| (1, t)))
    }

    /// The conflicts of a state, one for each token.
    fn conflicts(&self, number: u16, state: &Items) -> Vec<[u16; 5]> {
        let cursors: BTreeSet<Sym> = state.iter().filter_map(|&i| self.cursor(i)).collect();
        let complete: Vec<Item> = state
            .iter()
            .copied()
            .filter(|&i| self.complete(i))
            .collect();
        let mut out = vec![];
        for &(p, _, a) in &complete {
            if cursors.contains(&(1, a)) {
                out.push([number, p, 0, a, a]);
            }
            for &(q, _, b) in &complete {
                if p < q && a == b {
                    out.push([number, p, 1, q, a]);
                }
            }
        }
        out.sort();
        out
    }
}

/// A state's items as they are written: once, by production, then index.
fn written(state: &Items) -> Vec<(u16, u16)> {
    let pairs: BTreeSet<(u16, u16)> = state.iter().map(|&(p, i, _)| (p, i)).collect();
    pairs.into_iter().collect()
}

/// The states found so far, and the records that they make, edges aside.
struct Search {
    states: Vec<Items>,
    records: usize,
    room: usize,
}

impl Search {
    /// The number of a state that may be known.
    fn number(&mut self, state: Items) -> Result<u16, Refusal> {
        if let Some(known) = self.states.iter().position(|s| *s == state) {
            return Ok(known as u16);
        }
        let number = self.states.len();
        if number == STATES {
            return refuse(16, 0);
        }
        self.records += 1 + written(&state).len();
        if self.records > self.room {
            return refuse(17, 0);
        }
        self.states.push(state);
        Ok(number as u16)
    }
}

/// What is built: the states with lookaheads, the table, the conflicts.
pub struct Built {
    pub states: Vec<Items>,
    pub table: Table,
    pub records: Vec<[u16; 4]>,
    pub conflicts: Vec<[u16; 5]>,
}

/// `build_states`, lent so many words of scratch, output and conflicts.
pub fn build(words: &[u16], start: u16, lent: [usize; 3]) -> Result<Built, Refusal> {
    let [scratch, out, conflict_words] = lent;
    let mut table = decode(words)?;
    if scratch < SCRATCH {
        return refuse(11, 0);
    }
    let given = table.states != [State::default()];
    if start as usize >= table.productions.len() || given {
        return refuse(18, 0);
    }
    let room = (out / 4).min(RECORDS);
    let symbols: usize = table.productions.iter().map(|p| p.symbols.len()).sum();
    let grammar = Grammar::new(&table);
    let mut search = Search {
        states: vec![],
        records: 1 + table.nonterminals.len() + table.productions.len() + symbols,
        room,
    };
    let end = table.terminals;
    search.number(grammar.closure(Items::from([(start, 0, end)])))?;
    // States are taken by number.
    let mut edges: Vec<Edges> = vec![];
    while edges.len() < search.states.len() {
        let mut leaving = vec![];
        for on in grammar.tried() {
            let next = grammar.goto(&search.states[edges.len()], on);
            if !next.is_empty() {
                leaving.push((on, search.number(next)?));
            }
        }
        edges.push(leaving);
    }
    let states = search.states;
    let conflicts: Vec<[u16; 5]> = (0..)
        .zip(&states)
        .flat_map(|(number, state)| grammar.conflicts(number, state))
        .collect();
    let all = search.records + edges.iter().map(|e| e.len()).sum::<usize>();
    if all > room || 5 * conflicts.len() > conflict_words {
        return refuse(17, 0);
    }
    let items = states.iter().map(written);
    table.states = items
        .zip(edges)
        .map(|(items, edges)| State { items, edges })
        .collect();
    let records = spelled(&table);
    Ok(Built {
        states,
        table,
        records,
        conflicts,
    })
}
