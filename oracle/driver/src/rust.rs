//! The Rust's side: tables made into its grammar and states, its answers made
//! into words. Where the Rust panics (refusals 10 and 15) and past the bounds
//! that it does not have (12 to 14) it is not asked.

use crate::side::*;
use crate::table::*;
use lalrpop::collections::map;
use lalrpop::file_text::FileText;
use lalrpop::grammar::repr as r;
use lalrpop::lr1::Lr1Tls;
use lalrpop::lr1::core::*;
use lalrpop::lr1::error::oracle::{Judge, Judged, Own};
use lalrpop::lr1::example::{Example, ExampleSymbol};
use lalrpop::lr1::first::FirstSets;
use lalrpop::lr1::lookahead::{Token, TokenSet};
use lalrpop::lr1::state_graph::StateGraph;
use lalrpop::lr1::trace::oracle::TraceGraphNode;
use lalrpop::lr1::trace::{TraceGraph, Tracer};
use lalrpop::session::Session;
use lalrpop::tls::Tls;
use std::collections::BTreeMap;
use std::rc::Rc;

/// Why there is no answer.
#[derive(Clone, Copy, Debug, PartialEq, Eq)]
pub enum Stop {
    Refused(Refusal),
    NoRun(&'static str),
}

impl From<Refusal> for Stop {
    fn from(refusal: Refusal) -> Stop {
        Stop::Refused(refusal)
    }
}

fn refused<T>(number: u16) -> Result<T, Stop> {
    Err(Stop::Refused(Refusal { number, place: 0 }))
}

// Names whose order is the order of the numbers.

fn nonterminal(number: u16) -> r::NonterminalString {
    r::NonterminalString(format!("N{number:02}").into())
}

fn terminal(number: u16) -> r::TerminalString {
    r::TerminalString::quoted(format!("t{number:02}").into())
}

fn symbol((kind, number): Sym) -> r::Symbol {
    match kind {
        0 => r::Symbol::Nonterminal(nonterminal(number)),
        _ => r::Symbol::Terminal(terminal(number)),
    }
}

fn nonterminal_number(name: &r::NonterminalString) -> u16 {
    name.0[1..].parse().unwrap()
}

fn symbol_number(symbol: &r::Symbol) -> Sym {
    match symbol {
        r::Symbol::Nonterminal(nt) => (0, nonterminal_number(nt)),
        r::Symbol::Terminal(r::TerminalString::Literal(r::TerminalLiteral::Quoted(t))) => {
            (1, t[1..].parse().unwrap())
        }
        r::Symbol::Terminal(_) => unreachable!(),
    }
}

pub fn example_words(example: &Example) -> Vec<u16> {
    let mut words = vec![
        example.symbols.len() as u16,
        example.cursor as u16,
        example.reductions.len() as u16,
    ];
    for s in &example.symbols {
        let (kind, number) = match s {
            ExampleSymbol::Symbol(s) => symbol_number(s),
            ExampleSymbol::Epsilon => (2, 0),
        };
        words.extend([kind, number]);
    }
    for red in &example.reductions {
        words.extend([
            red.start as u16,
            red.end as u16,
            nonterminal_number(&red.nonterminal),
        ]);
    }
    words
}

/// A grammar of the Rust. A production's number is its action.
pub fn grammar(table: &Table) -> r::Grammar {
    let all: Vec<_> = (0..table.terminals).map(terminal).collect();
    let bits = all.iter().cloned().zip(0..).collect();
    let production = |&p: &u16| {
        let t = &table.productions[p as usize];
        // With room for one symbol even an empty list has an address of its
        // own, by which a label's production is known again.
        let mut symbols = Vec::with_capacity(t.symbols.len().max(1));
        symbols.extend(t.symbols.iter().map(|&s| symbol(s)));
        r::Production {
            nonterminal: nonterminal(t.nonterminal),
            symbols,
            action: r::ActionFn::new(p as usize),
            span: r::Span(t.span.0 as usize, t.span.1 as usize),
        }
    };
    let nonterminals = (table.nonterminals.iter().zip(0..))
        .map(|(of, nt)| {
            let data = r::NonterminalData {
                visibility: r::Visibility::Priv,
                span: r::Span(0, 0),
                attributes: vec![],
                productions: of.iter().map(production).collect(),
            };
            (nonterminal(nt), data)
        })
        .collect();
    r::Grammar {
        prefix: String::new(),
        algorithm: r::Algorithm::default(),
        uses_error_recovery: false,
        start_nonterminals: map(),
        uses: vec![],
        type_parameters: vec![],
        parameters: vec![],
        where_clauses: vec![],
        intern_token: None,
        action_fn_defns: vec![],
        terminals: r::TerminalSet { all, bits },
        nonterminals,
        conversions: map(),
        types: r::Types::new("", None, None, r::TypeRepr::Tuple(vec![])),
        module_attributes: vec![],
    }
}

/// Settings that log nothing and a text that every span fits; kept for the
/// thread's life.
fn install_once() {
    thread_local! {
        static DONE: std::cell::Cell<bool> = const { std::cell::Cell::new(false) };
    }
    if !DONE.replace(true) {
        let text = FileText::new("table".into(), " ".repeat(1 << 16));
        std::mem::forget(Tls::install(Rc::new(Session::new()), Rc::new(text)));
    }
}

/// The Rust's values for one table.
pub struct Rust<'g> {
    pub table: &'g Table,
    pub grammar: &'g r::Grammar,
    pub states: Vec<Lr1State<'g>>,
    pub first_sets: FirstSets,
    productions: Vec<&'g r::Production>,
    by_address: BTreeMap<*const r::Symbol, u16>,
}

impl<'g> Rust<'g> {
    /// Needs the grammar's terminals installed.
    fn new(table: &'g Table, grammar: &'g r::Grammar) -> Self {
        let mut productions: Vec<&r::Production> = grammar
            .nonterminals
            .values()
            .flat_map(|nt| &nt.productions)
            .collect();
        productions.sort_by_key(|p| p.action);
        let states = (table.states.iter().enumerate())
            .map(|(i, s)| {
                let mut state = Lr1State {
                    index: StateIndex(i),
                    items: Items { vec: vec![] },
                    shifts: map(),
                    reductions: vec![],
                    gotos: map(),
                };
                for &(p, index) in &s.items {
                    state.items.vec.push(Item {
                        production: productions[p as usize],
                        index: index as usize,
                        lookahead: TokenSet::new(),
                    });
                }
                for &((kind, number), to) in &s.edges {
                    let to = StateIndex(to as usize);
                    match kind {
                        0 => drop(state.gotos.insert(nonterminal(number), to)),
                        _ => drop(state.shifts.insert(terminal(number), to)),
                    }
                }
                state
            })
            .collect();
        let by_address = productions
            .iter()
            .map(|p| p.symbols.as_ptr())
            .zip(0..)
            .collect();
        Rust {
            table,
            grammar,
            states,
            first_sets: FirstSets::new(grammar),
            productions,
            by_address,
        }
    }
}

/// A table with the Rust's values for it. One at a time in a thread: its
/// terminals are installed as long as it lives.
pub struct Held {
    // Dropped in this order.
    rust: Rust<'static>,
    _tls: Lr1Tls,
    _grammar: Rc<r::Grammar>,
    _table: Rc<Table>,
}

impl Held {
    /// None if the Rust cannot hold the table.
    pub fn new(table: Rc<Table>) -> Option<Held> {
        if table.two_targets() {
            return None;
        }
        install_once();
        let grammar = Rc::new(grammar(&table));
        let tls = Lr1Tls::install(grammar.terminals.clone());
        // Both live in `Rc`s that are kept, and dropped after what refers to
        // them.
        let rust = unsafe { Rust::new(&*Rc::as_ptr(&table), &*Rc::as_ptr(&grammar)) };
        Some(Held {
            rust,
            _tls: tls,
            _grammar: grammar,
            _table: table,
        })
    }

    pub fn rust<'a>(&'a self) -> &'a Rust<'a> {
        &self.rust
    }
}

/// A listing: examples with their trials' numbers, the count, whether it ended.
pub struct Listing {
    pub found: Vec<(u32, Example)>,
    pub count: u32,
    pub ended: bool,
}

impl<'g> Rust<'g> {
    pub fn item(&self, (production, index): (u16, u16)) -> Lr0Item<'g> {
        Item::lr0(self.productions[production as usize], index as usize)
    }

    fn token(&self, token: u16) -> Token {
        if token == self.table.terminals {
            Token::Eof
        } else {
            Token::Terminal(terminal(token))
        }
    }

    pub fn token_set(&self, set: u64) -> TokenSet {
        let mut out = TokenSet::new();
        for t in members(set) {
            out.insert(self.token(t));
        }
        out
    }

    fn tokens(&self, set: &TokenSet) -> Vec<u16> {
        set.iter()
            .map(|t| match t {
                Token::Eof => self.table.terminals,
                Token::Terminal(t) => symbol_number(&r::Symbol::Terminal(t)).1,
                Token::Error => unreachable!(),
            })
            .collect()
    }

    pub fn first0(&self, symbols: &[Sym]) -> Vec<u16> {
        let symbols: Vec<r::Symbol> = symbols.iter().map(|&s| symbol(s)).collect();
        self.tokens(&self.first_sets.first0(&symbols))
    }

    pub fn first1(&self, symbols: &[Sym], lookahead: u64) -> Vec<u16> {
        let symbols: Vec<r::Symbol> = symbols.iter().map(|&s| symbol(s)).collect();
        let lookahead = self.token_set(lookahead);
        self.tokens(&self.first_sets.first1(&symbols, &lookahead))
    }

    fn mask(&self, set: &TokenSet) -> [u32; 2] {
        halves(self.tokens(set).iter().fold(0, |m, &t| m | 1u64 << t))
    }

    /// Every operation of the Rust's token sets, as `SETS` says.
    pub fn sets(&self, a: u64, b: u64, token: u16) -> Answer {
        let (a, b, token) = (self.token_set(a), self.token_set(b), self.token(token));
        let mut out = vec![
            a.len() as u32,
            a.contains(&token) as u32,
            a.contains_eof() as u32,
        ];
        let mut changed = |change: &dyn Fn(&mut TokenSet) -> bool| {
            let mut set = a.clone();
            let yes = change(&mut set);
            out.extend(self.mask(&set));
            out.push(yes as u32);
        };
        changed(&|s| s.insert(token.clone()));
        changed(&|s| s.insert_eof());
        changed(&|s| s.union_with(&b));
        out.extend(self.mask(&a.intersection(&b)));
        let mut taken = a.clone();
        let had = taken.take_eof();
        out.extend(self.mask(&taken));
        out.extend([had, a.is_disjoint(&b), a.is_intersecting(&b)].map(u32::from));
        for set in [TokenSet::from(token), TokenSet::all(), TokenSet::eof()] {
            out.extend(self.mask(&set));
        }
        out.extend(self.tokens(&a).iter().map(|&t| t as u32));
        out
    }

    /// An item's symbol sets, and the nonterminal it can shift.
    pub fn item_parts(&self, item: (u16, u16)) -> Answer {
        let item = self.item(item);
        let sets = item.symbol_sets();
        assert_eq!(sets.prefix, item.prefix());
        let mut out = vec![];
        let list = |out: &mut Answer, symbols: &[r::Symbol]| {
            for s in symbols {
                let (kind, number) = symbol_number(s);
                out.extend([kind as u32, number as u32]);
            }
        };
        out.push(sets.prefix.len() as u32);
        list(&mut out, sets.prefix);
        out.push(sets.cursor.is_some() as u32);
        list(&mut out, sets.cursor.map_or(&[], std::slice::from_ref));
        out.push(sets.suffix.len() as u32);
        list(&mut out, sets.suffix);
        let shifted = (0..self.table.nonterminals.len() as u16)
            .find(|&nt| item.can_shift_nonterminal(&nonterminal(nt)));
        out.push(shifted.map_or(0, |nt| nt as u32 + 1));
        out
    }

    pub fn trace_back(&self, state: u16, symbols: &[Sym]) -> Vec<u16> {
        let symbols: Vec<r::Symbol> = symbols.iter().map(|&s| symbol(s)).collect();
        let graph = StateGraph::new(&self.states);
        let back = graph.trace_back(StateIndex(state as usize), &symbols);
        back.iter().map(|s| s.0 as u16).collect()
    }

    /// `backtrace_reduce` if `reduce`, else `backtrace_shift`.
    pub fn backtrace(&self, reduce: bool, (state, item): Traced) -> TraceGraph<'g> {
        let tracer = Tracer::new(&self.first_sets, &self.states);
        let (state, item) = (StateIndex(state as usize), self.item(item));
        if reduce {
            tracer.backtrace_reduce(state, item)
        } else {
            tracer.backtrace_shift(state, item)
        }
    }

    /// A graph's edges as words, in the order added. A label is a part of a
    /// production's symbols; their address tells which.
    pub fn edges(&self, graph: &TraceGraph<'g>) -> Vec<[u16; 8]> {
        let node = |n: &TraceGraphNode<'g>| match n {
            TraceGraphNode::Nonterminal(nt) => [0, nonterminal_number(nt), 0],
            TraceGraphNode::Item(i) => [1, i.production.action.index() as u16, i.index as u16],
        };
        (graph.edges_in_order().iter())
            .map(|(from, to, label)| {
                let (f, t) = (node(from), node(to));
                let p = self.by_address[&label.prefix.as_ptr()];
                [
                    f[0],
                    f[1],
                    f[2],
                    t[0],
                    t[1],
                    t[2],
                    p,
                    label.prefix.len() as u16,
                ]
            })
            .collect()
    }

    pub fn add_edge(&self, graph: &mut TraceGraph<'g>, e: &[u16; 8]) {
        let node = |w: &[u16]| -> TraceGraphNode<'g> {
            match w[0] {
                0 => nonterminal(w[1]).into(),
                _ => self.item((w[1], w[2])).into(),
            }
        };
        let label = self.item((e[6], e[7])).symbol_sets();
        graph.add_edge(node(&e[..3]), node(&e[3..6]), label);
    }

    /// A graph from words that were checked.
    pub fn graph(&self, edges: &[[u16; 8]]) -> TraceGraph<'g> {
        let mut graph = TraceGraph::new();
        for e in edges {
            self.add_edge(&mut graph, e);
        }
        graph
    }

    /// One listing by the Rust's enumerator, tied to the recount at each
    /// example. With `room`, an example handed out past it is refusal 14.
    pub fn listing(
        &self,
        graph: &TraceGraph<'g>,
        start: (u16, u16),
        lookahead: Option<u64>,
        room: Option<usize>,
    ) -> Result<Listing, Stop> {
        let item = self.item(start);
        let lookahead = lookahead.map(|set| self.token_set(set));
        let edges = self.edges(graph);
        let mut recount = Recount::new(&edges, start);
        let mut real = None;
        let mut found = vec![];
        loop {
            match recount.step() {
                Step::Example(trial) => {
                    match &mut real {
                        None => real = Some(graph.lr0_examples(item)),
                        Some(real) => assert!(real.advance()),
                    }
                    let real = real.as_ref().unwrap();
                    assert!(real.found_trace());
                    assert_eq!(real.path(), recount.path);
                    let firsts = real.first0(&self.first_sets);
                    if lookahead
                        .as_ref()
                        .is_some_and(|l| !firsts.is_intersecting(l))
                    {
                        continue;
                    }
                    if room == Some(found.len()) {
                        return refused(14);
                    }
                    found.push((trial, real.example()));
                }
                Step::Limit => {
                    return Ok(Listing {
                        found,
                        count: MAX_TRIALS,
                        ended: false,
                    });
                }
                Step::End(count) => {
                    let more = match &mut real {
                        None => graph.lr0_examples(item).found_trace(),
                        Some(real) => real.advance(),
                    };
                    assert!(!more);
                    // The Rust's own iterators give the same.
                    let mut whole = vec![];
                    self.each_example(graph, item, lookahead.as_ref(), |e| whole.push(e));
                    assert!(whole.iter().eq(found.iter().map(|f| &f.1)));
                    return Ok(Listing {
                        found,
                        count,
                        ended: true,
                    });
                }
            }
        }
    }

    /// The examples of an item by the Rust's own iterators.
    pub fn each_example(
        &self,
        graph: &TraceGraph<'g>,
        item: Lr0Item<'g>,
        lookahead: Option<&TokenSet>,
        f: impl FnMut(Example),
    ) {
        match lookahead {
            None => graph.lr0_examples(item).for_each(f),
            Some(l) => {
                let item = item.with_lookahead(l.clone());
                graph.lr1_examples(&self.first_sets, &item).for_each(f)
            }
        }
    }

    pub fn conflict(&self, c: [u16; 5]) -> Result<Conflict<'g, Token>, Stop> {
        let conflict = self.any_conflict(c)?;
        match (&conflict.action, &conflict.lookahead) {
            (Action::Shift(..), Token::Eof) => refused(10),
            _ => Ok(conflict),
        }
    }

    /// A conflict with its numbers in range.
    fn any_conflict(&self, c: [u16; 5]) -> Result<Conflict<'g, Token>, Stop> {
        let t = self.table;
        let production = |p: u16| self.productions.get(p as usize).copied();
        let of = match production(c[1]) {
            Some(p) if (c[0] as usize) < self.states.len() && c[4] <= t.terminals => p,
            _ => return refused(9),
        };
        let action = match (c[2], production(c[3])) {
            (0, _) if c[3] < t.terminals => Action::Shift(terminal(c[3]), StateIndex(0)),
            (1, Some(p)) => Action::Reduce(p),
            _ => return refused(9),
        };
        Ok(Conflict {
            state: StateIndex(c[0] as usize),
            lookahead: self.token(c[4]),
            production: of,
            action,
        })
    }

    /// The examples of one traced item, with refusals 12 to 14.
    fn side_of(
        &self,
        graph: &TraceGraph<'g>,
        item: (u16, u16),
        lookahead: Option<u64>,
        side: &mut Vec<Example>,
    ) -> Result<u32, Stop> {
        if graph.edges_in_order().len() > MAX_EDGES {
            return refused(12);
        }
        let listing = self.listing(graph, item, lookahead, Some(MAX_EXAMPLES - side.len()))?;
        if !listing.ended {
            return refused(13);
        }
        side.extend(listing.found.into_iter().map(|f| f.1));
        Ok(listing.count)
    }

    fn reduce_side(&self, c: [u16; 5], p: u16) -> Result<(Vec<Example>, u32), Stop> {
        let item = (p, self.table.productions[p as usize].symbols.len() as u16);
        let graph = self.backtrace(true, (c[0], item));
        let mut side = vec![];
        let trials = self.side_of(&graph, item, Some(1 << c[4]), &mut side)?;
        Ok((side, trials))
    }

    /// The Rust's classification with both sides' trials. The sides are first
    /// worked through one listing after another, so that a limit is met before
    /// the Rust runs on, and then compared with the Rust's own.
    pub fn classify(&self, c: [u16; 5]) -> Result<(Judged, u32, u32), Stop> {
        let conflict = self.conflict(c)?;
        let mut judge = Judge::new(self.grammar, &self.states, &[]);
        let (action_side, action_trials) = match conflict.action {
            Action::Reduce(p) => self.reduce_side(c, p.action.index() as u16)?,
            Action::Shift(..) => {
                let (mut side, mut trials) = (vec![], 0);
                for item in judge.shift_items(&conflict) {
                    let item = (item.production.action.index() as u16, item.index as u16);
                    let graph = self.backtrace(false, (c[0], item));
                    trials += self.side_of(&graph, item, None, &mut side)?;
                }
                (side, trials)
            }
        };
        let (reduce_side, reduce_trials) = self.reduce_side(c, c[1])?;
        let own_reduce = |p| judge.reduce_examples(conflict.state, p, conflict.lookahead.clone());
        let own_action = match conflict.action {
            Action::Shift(..) => judge.shift_examples(&conflict),
            Action::Reduce(p) => own_reduce(p),
        };
        assert_eq!(own_action, action_side);
        assert_eq!(own_reduce(conflict.production), reduce_side);
        Ok((judge.classify(&conflict), action_trials, reduce_trials))
    }

    /// The Rust's context of classifying, with FIRST in it; for timing what is
    /// asked of it alone. Ask `classify` first whether a limit is met.
    pub fn judge<'a>(&'a self) -> Judge<'a, 'g> {
        Judge::new(self.grammar, &self.states, &[])
    }

    /// The conflicts that `report_errors` reports of one conflict with a set
    /// of tokens: the better ones, else the naive ones, and of a naive
    /// reduce/reduce the first. That choice is made here over the Rust's
    /// classes; the messages of the chosen are then compared with those of the
    /// Rust's own `report_errors`.
    pub fn choose(&self, c: [u16; 4], tokens: u64) -> Result<Vec<(u16, Judged)>, Stop> {
        let full = |t: u16| [c[0], c[1], c[2], c[3], t];
        if members(tokens).any(|t| t > self.table.terminals) {
            return refused(9);
        }
        // 9 and 10 over the whole set; with no token 9 of the other numbers.
        for t in members(tokens) {
            self.conflict(full(t))?;
        }
        match self.conflict(full(0)) {
            Err(Stop::Refused(r)) if tokens == 0 && r.number == 9 => return refused(9),
            _ => {}
        }
        let mut naive = vec![];
        let mut better = vec![];
        for t in members(tokens) {
            let judged = self.classify(full(t))?.0;
            if judged.class == 0 {
                &mut naive
            } else {
                &mut better
            }
            .push((t, judged));
        }
        if c[2] == 1 {
            naive.truncate(1);
        }
        let chosen = if better.is_empty() { naive } else { better };
        self.compare_messages(c, tokens, &chosen)?;
        Ok(chosen)
    }

    fn compare_messages(
        &self,
        c: [u16; 4],
        tokens: u64,
        chosen: &[(u16, Judged)],
    ) -> Result<(), Stop> {
        // The message of class 5 cuts the spans out of the text; that needs
        // their ends in order.
        let cuts = |j: &Judged| match j.own {
            Own::Spans(a, b) => a.0 <= a.1 && b.0 <= b.1,
            _ => true,
        };
        if !chosen.iter().all(|(_, j)| cuts(j)) || tokens == 0 {
            return Ok(());
        }
        let first = members(tokens).next().unwrap();
        let one = self.conflict([c[0], c[1], c[2], c[3], first])?;
        let conflicts = vec![Conflict {
            state: one.state,
            lookahead: self.token_set(tokens),
            production: one.production,
            action: one.action,
        }];
        let mut judge = Judge::new(self.grammar, &self.states, &conflicts);
        let all = judge.messages();
        assert_eq!(all.len(), chosen.len());
        for (message, (t, _)) in all.iter().zip(chosen) {
            let conflict = self.conflict([c[0], c[1], c[2], c[3], *t])?;
            assert_eq!(
                format!("{message:?}"),
                format!("{:?}", judge.message(&conflict))
            );
        }
        Ok(())
    }

    /// The observed symbols of a conflict that has both examples: those that
    /// stand in the message `report_error_not_lr1_core` makes.
    pub fn observed(&self, c: [u16; 5]) -> Result<Vec<u16>, Stop> {
        let (judged, _, _) = self.classify(c)?;
        let (Some(action), Some(reduce)) = (judged.action, judged.reduce) else {
            return Err(Stop::NoRun("no two examples"));
        };
        let conflict = self.conflict(c)?;
        let judge = Judge::new(self.grammar, &self.states, &[]);
        let from = if action.cursor >= reduce.cursor {
            &action
        } else {
            &reduce
        };
        let symbols = from.symbols[..from.cursor].to_vec();
        let words = example_words(from)[3..3 + 2 * from.cursor].to_vec();
        let message = judge.not_lr1(&conflict, action, reduce);
        let list = format!("List({symbols:?})");
        assert!(format!("{message:?}").contains(&list));
        Ok(words)
    }
}

/// Whether the Rust's values stand in the order of the numbers.
pub fn names_in_order() -> bool {
    let symbols: Vec<r::Symbol> = (0..32)
        .map(|n| symbol((0, n)))
        .chain((0..63).map(|t| symbol((1, t))))
        .collect();
    let back = symbols.iter().map(symbol_number);
    symbols.is_sorted()
        && (0..31).all(|n| nonterminal(n) < nonterminal(n + 1))
        && back.eq((0..32).map(|n| (0, n)).chain((0..63).map(|t| (1, t))))
}

/// Whether the Rust panics on an accepted table: with a conflict (which is refused by 10), and with a listing over no edges (which is refused by 15).
pub fn panics(words: &[u16], conflict: [u16; 5], start: (u16, u16)) -> (bool, bool) {
    use std::panic::{AssertUnwindSafe, catch_unwind, set_hook, take_hook};
    let held = Held::new(Rc::new(decode(words).unwrap())).unwrap();
    let rust = held.rust();
    let conflict = rust.any_conflict(conflict).ok().unwrap();
    let hook = take_hook();
    set_hook(Box::new(|_| {}));
    let shift = catch_unwind(AssertUnwindSafe(|| {
        Judge::new(rust.grammar, &rust.states, &[])
            .classify(&conflict)
            .class
    }));
    let list = catch_unwind(AssertUnwindSafe(|| {
        TraceGraph::new().lr0_examples(rust.item(start)).count()
    }));
    set_hook(hook);
    (shift.is_err(), list.is_err())
}

pub fn own_words(own: &Own) -> Vec<u16> {
    match own {
        Own::Nothing => vec![],
        Own::Nonterminal(nt) => vec![nonterminal_number(nt)],
        Own::Question(nt, symbol) => {
            let (kind, number) = symbol_number(symbol);
            vec![nonterminal_number(nt), kind, number]
        }
        Own::Spans(a, b) => [a.0, a.1, b.0, b.1].map(|w| w as u16).to_vec(),
    }
}

/// The Rust as a side of a comparison. The last table is kept.
#[derive(Default)]
pub struct RustSide {
    last: Option<(Vec<u16>, Rc<Table>, Option<Held>)>,
}

impl RustSide {
    /// The answer to a question about a table: refusals 1 to 8, then 9 where
    /// `good` fails, then the Rust's.
    fn ask(
        &mut self,
        words: &[u16],
        good: impl FnOnce(&Table) -> bool,
        f: impl FnOnce(&Rust<'_>) -> Result<Answer, Stop>,
    ) -> Option<Answer> {
        if self.last.as_ref().is_none_or(|last| last.0 != words) {
            self.last = None;
            match decode(words) {
                Err(r) => return Some(crate::side::refused(r)),
                Ok(table) => {
                    let table = Rc::new(table);
                    let held = Held::new(table.clone());
                    self.last = Some((words.to_vec(), table, held));
                }
            }
        }
        let (_, table, held) = self.last.as_ref().unwrap();
        let out = match held {
            _ if !good(table) => refused(9),
            None => Err(Stop::NoRun("two targets for one symbol")),
            Some(held) => f(held.rust()),
        };
        match out {
            Ok(answer) => Some([vec![0], answer].concat()),
            Err(Stop::Refused(r)) => Some(crate::side::refused(r)),
            Err(Stop::NoRun(_)) => None,
        }
    }
}

fn traced(edges: Vec<[u16; 8]>) -> Result<Answer, Stop> {
    if edges.len() > MAX_EDGES {
        return refused(12);
    }
    Ok(wide(&graph_words(&edges)).collect())
}

impl Side for RustSide {
    fn name(&self) -> &'static str {
        "rust"
    }

    fn check(&mut self, table: &[u16]) -> Option<Answer> {
        Some(match check(table) {
            Ok(()) => vec![0],
            Err(r) => crate::side::refused(r),
        })
    }

    fn first0(&mut self, table: &[u16], symbols: &[Sym]) -> Option<Answer> {
        let good = |t: &Table| symbols.iter().all(|&s| t.symbol_in_range(s));
        // The Rust marks a nullable list by the end in its set.
        self.ask(table, good, |r| {
            let mut tokens = r.first0(symbols);
            let nullable = tokens.pop_if(|t| *t == r.table.terminals).is_some();
            Ok(std::iter::once(nullable.into()).chain(wide(&tokens)).collect())
        })
    }

    fn first1(&mut self, table: &[u16], symbols: &[Sym], lookahead: u64) -> Option<Answer> {
        let good =
            |t: &Table| symbols.iter().all(|&s| t.symbol_in_range(s)) && good_set(t, lookahead);
        self.ask(table, good, |r| {
            Ok(wide(&r.first1(symbols, lookahead)).collect())
        })
    }

    fn trace_back(&mut self, table: &[u16], state: u16, symbols: &[Sym]) -> Option<Answer> {
        let good = |t: &Table| {
            (state as usize) < t.states.len() && symbols.iter().all(|&s| t.symbol_in_range(s))
        };
        self.ask(table, good, |r| {
            Ok(wide(&r.trace_back(state, symbols)).collect())
        })
    }

    fn backtrace(&mut self, reduce: bool, table: &[u16], from: Traced) -> Option<Answer> {
        let good = |t: &Table| (from.0 as usize) < t.states.len() && t.item_in_range(from.1);
        self.ask(table, good, |r| traced(r.edges(&r.backtrace(reduce, from))))
    }

    fn add_edge(&mut self, table: &[u16], graph: &[u16], edge: [u16; 8]) -> Option<Answer> {
        let good = |t: &Table| edge_in_range(t, &edge) && graph_edges(t, graph).is_ok();
        self.ask(table, good, |r| {
            let mut graph = r.graph(&graph_edges(r.table, graph)?);
            r.add_edge(&mut graph, &edge);
            traced(r.edges(&graph))
        })
    }

    fn examples(
        &mut self,
        table: &[u16],
        graph: &[u16],
        start: (u16, u16),
        lookahead: Option<u64>,
    ) -> Option<Answer> {
        let good = |t: &Table| {
            t.item_in_range(start)
                && lookahead.is_none_or(|l| good_set(t, l))
                && graph_edges(t, graph).is_ok()
        };
        self.ask(table, good, |r| {
            let edges = graph_edges(r.table, graph)?;
            let graph = r.graph(&edges);
            // Every edge was added, and its label is known again by its symbols.
            assert_eq!(graph.edges_in_order().len(), edges.len());
            if !graph.has_item(r.item(start)) {
                return refused(15);
            }
            let listing = r.listing(&graph, start, lookahead, None)?;
            let mut out = vec![
                !listing.ended as u32,
                listing.count,
                listing.found.len() as u32,
            ];
            for (trial, example) in &listing.found {
                out.push(*trial);
                with_length(&mut out, &example_words(example));
            }
            Ok(out)
        })
    }

    fn classify(&mut self, table: &[u16], conflict: [u16; 5]) -> Option<Answer> {
        self.ask(
            table,
            |_| true,
            |r| {
                let (judged, action_trials, reduce_trials) = r.classify(conflict)?;
                let mut out = vec![judged.class as u32, action_trials, reduce_trials];
                with_length(&mut out, &own_words(&judged.own));
                for example in [&judged.action, &judged.reduce] {
                    with_length(&mut out, &example.as_ref().map_or(vec![], example_words));
                }
                Ok(out)
            },
        )
    }

    fn choose(&mut self, table: &[u16], conflict: [u16; 4], tokens: u64) -> Option<Answer> {
        self.ask(
            table,
            |_| true,
            |r| {
                let chosen = r.choose(conflict, tokens)?;
                let mut out = vec![chosen.len() as u32];
                for (token, judged) in &chosen {
                    out.extend([*token as u32, judged.class as u32]);
                    with_length(&mut out, &own_words(&judged.own));
                }
                Ok(out)
            },
        )
    }

    fn sets(&mut self, table: &[u16], a: u64, b: u64, token: u16) -> Option<Answer> {
        let good = |t: &Table| good_set(t, a) && good_set(t, b) && token <= t.terminals;
        self.ask(table, good, |r| Ok(r.sets(a, b, token)))
    }

    fn item(&mut self, table: &[u16], item: (u16, u16)) -> Option<Answer> {
        self.ask(table, |t| t.item_in_range(item), |r| Ok(r.item_parts(item)))
    }

    fn observed(&mut self, table: &[u16], conflict: [u16; 5]) -> Option<Answer> {
        self.ask(
            table,
            |_| true,
            |r| Ok(wide(&r.observed(conflict)?).collect()),
        )
    }
}
