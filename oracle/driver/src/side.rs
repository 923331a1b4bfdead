//! One side of a comparison: the questions, and answers as words.

use crate::table::{Refusal, Sym, Table, check, refuse};

/// Answer words. First 0 for an answer, or the refusal's number and place.
///
/// | question | after the 0 |
/// |---|---|
/// | check | nothing |
/// | first0 | 1 if the list is nullable else 0, its terminals, ascending |
/// | first1 | the tokens, ascending |
/// | trace_back | the states, ascending |
/// | first0_joined, trace_back_joined | as first0, trace_back |
/// | backtrace, add_edge | number of edges, eight words an edge |
/// | examples | 1 if refused by 13 else 0, count, number of examples; of each: trial, number of words, words |
/// | classify | class, trials of action and reduce side, number of own words, own words, then for both examples: number of words (0 for none), words |
/// | choose | number chosen; of each: token, class, number of own words, own words |
/// | observed | the words |
/// | sets | see `SETS` |
/// | respell | number of records, the words written |
/// | compact | number of records left, the table's words |
/// | build | number of records, number of conflicts, the words of the records, the words of the conflicts |
/// | read_yacc | number of records, number of places, the start's nonterminal, the words of the records, the places |
/// | write_yacc | number of bytes, the bytes |
/// | item | number of prefix symbols, the symbols; 1 and the cursor's symbol or 0; number of suffix symbols, the symbols; the nonterminal it can shift plus 1 or 0 |
pub type Answer = Vec<u32>;

/// What `sets` answers of two token sets a and b and a token; a set is two
/// words, the low one first.
pub const SETS: &str = "a's length, whether it has the token, whether the end; \
    a after insert of the token and whether it changed; the same of insert_eof; \
    of union_with b; a and b's intersection; a after take_eof and whether it had \
    the end; whether a and b are disjoint, whether they meet; the set made from \
    the token; all; eof; then a's members in order";

/// The state and the item that a trace starts from.
pub type Traced = (u16, (u16, u16));

/// None: this side does not answer the question, or cannot on this input.
pub trait Side {
    fn name(&self) -> &'static str;

    fn check(&mut self, _table: &[u16]) -> Option<Answer> {
        None
    }
    fn first0(&mut self, _table: &[u16], _symbols: &[Sym]) -> Option<Answer> {
        None
    }
    /// `lookahead` and `tokens` are sets: bit i is token i.
    fn first1(&mut self, _table: &[u16], _symbols: &[Sym], _lookahead: u64) -> Option<Answer> {
        None
    }
    fn trace_back(&mut self, _table: &[u16], _state: u16, _symbols: &[Sym]) -> Option<Answer> {
        None
    }
    /// Two lists of words (docs/RULES.md, "Joined lists"): answered as on the
    /// joined one, so a symbol may begin in the one and end in the other.
    fn first0_joined(&mut self, table: &[u16], xs: &[u16], ys: &[u16]) -> Option<Answer> {
        let asked = [xs, ys].concat();
        match symbols_of(&asked) {
            Some(symbols) => self.first0(table, &symbols),
            None => Some(no_list(table)),
        }
    }
    fn trace_back_joined(
        &mut self,
        table: &[u16],
        state: u16,
        xs: &[u16],
        ys: &[u16],
    ) -> Option<Answer> {
        let walked = [xs, ys].concat();
        match symbols_of(&walked) {
            Some(symbols) => self.trace_back(table, state, &symbols),
            None => Some(no_list(table)),
        }
    }
    /// `backtrace_reduce` if `reduce`, else `backtrace_shift`.
    fn backtrace(&mut self, _reduce: bool, _table: &[u16], _from: Traced) -> Option<Answer> {
        None
    }
    /// `graph` in words (docs/RULES.md, "The trace graph"): a count, then eight an edge.
    fn add_edge(&mut self, _table: &[u16], _graph: &[u16], _edge: [u16; 8]) -> Option<Answer> {
        None
    }
    fn examples(
        &mut self,
        _table: &[u16],
        _graph: &[u16],
        _start: (u16, u16),
        _lookahead: Option<u64>,
    ) -> Option<Answer> {
        None
    }
    fn classify(&mut self, _table: &[u16], _conflict: [u16; 5]) -> Option<Answer> {
        None
    }
    /// `conflict` without its token.
    fn choose(&mut self, _table: &[u16], _conflict: [u16; 4], _tokens: u64) -> Option<Answer> {
        None
    }
    /// Into an output of so many words.
    fn respell(&mut self, _table: &[u16], _words: usize) -> Option<Answer> {
        None
    }
    fn compact(&mut self, _table: &[u16]) -> Option<Answer> {
        None
    }
    /// Lent so many words of scratch, output and conflicts.
    fn build(&mut self, _table: &[u16], _start: u16, _lent: [usize; 3]) -> Option<Answer> {
        None
    }
    /// Lent so many words for the table and for the places.
    fn read_yacc(&mut self, _text: &[u8], _lent: [usize; 2]) -> Option<Answer> {
        None
    }
    /// Into so many bytes.
    fn write_yacc(&mut self, _table: &[u16], _bytes: usize) -> Option<Answer> {
        None
    }
    fn sets(&mut self, _table: &[u16], _a: u64, _b: u64, _token: u16) -> Option<Answer> {
        None
    }
    fn item(&mut self, _table: &[u16], _item: (u16, u16)) -> Option<Answer> {
        None
    }
    /// Of a conflict's two examples, as `classify` gives them.
    fn observed(&mut self, _table: &[u16], _conflict: [u16; 5]) -> Option<Answer> {
        None
    }
}

pub fn refused(r: Refusal) -> Answer {
    vec![r.number as u32, r.place as u32]
}

/// Words as symbols, if they are an even number.
pub fn symbols_of(words: &[u16]) -> Option<Vec<Sym>> {
    (words.len() % 2 == 0).then(|| words.chunks(2).map(|c| (c[0], c[1])).collect())
}

/// A list of an odd number of words is no list of symbols: 9 where the table
/// is accepted.
pub fn no_list(table: &[u16]) -> Answer {
    check(table).map_or_else(refused, |()| vec![9, 0])
}

/// A token set's members, ascending.
pub fn members(set: u64) -> impl Iterator<Item = u16> {
    (0..64).filter(move |&i| set >> i & 1 == 1)
}

/// Whether a set's tokens are in range.
pub fn good_set(table: &Table, set: u64) -> bool {
    members(set).all(|t| t <= table.terminals)
}

pub fn wide(words: &[u16]) -> impl Iterator<Item = u32> + '_ {
    words.iter().map(|&w| w as u32)
}

/// The number of words, then the words.
pub fn with_length(out: &mut Answer, words: &[u16]) {
    out.push(words.len() as u32);
    out.extend(wide(words));
}

/// Kind and number of each symbol.
pub fn symbol_words(symbols: &[Sym]) -> Vec<u16> {
    symbols.iter().flat_map(|s| [s.0, s.1]).collect()
}

/// A graph of these edges: their count, then eight words an edge.
pub fn graph_words(edges: &[[u16; 8]]) -> Vec<u16> {
    [&[edges.len() as u16], edges.as_flattened()].concat()
}

/// A token set as two words.
pub fn halves(set: u64) -> [u32; 2] {
    [set as u32, (set >> 32) as u32]
}

pub const MAX_EDGES: usize = 1_024;
pub const MAX_TRIALS: u32 = 100_000;
pub const MAX_EXAMPLES: usize = 192;

/// Refusal 9 of a lent graph: numbers out of range, an edge twice (labels by
/// their symbols). Gives the edges.
pub fn graph_edges(table: &Table, graph: &[u16]) -> Result<Vec<[u16; 8]>, Refusal> {
    let bad = refuse(9, 0);
    let count = match graph.first() {
        Some(&c) if c as usize <= MAX_EDGES && graph.len() > 8 * c as usize => c as usize,
        _ => return bad,
    };
    let mut edges: Vec<[u16; 8]> = vec![];
    let mut seen = std::collections::BTreeSet::new();
    for w in graph[1..].chunks_exact(8).take(count) {
        let e: [u16; 8] = w.try_into().unwrap();
        if !edge_in_range(table, &e) {
            return bad;
        }
        let label = (&table.productions[e[6] as usize].symbols, e[7]);
        if !seen.insert((e[..6].to_vec(), label)) {
            return bad;
        }
        edges.push(e);
    }
    Ok(edges)
}

pub fn edge_in_range(table: &Table, e: &[u16; 8]) -> bool {
    let node = |w: &[u16]| match w[0] {
        0 => (w[1] as usize) < table.nonterminals.len() && w[2] == 0,
        1 => table.item_in_range((w[1], w[2])),
        _ => false,
    };
    node(&e[..3]) && node(&e[3..6]) && table.item_in_range((e[6], e[7]))
}

pub enum Step {
    /// The trial with this number is an example.
    Example(u32),
    /// All trials were made; their number.
    End(u32),
    /// A trial past the limit would follow.
    Limit,
}

/// A plain recount of a listing's trials over edges in the order added: at
/// each node the edge added last goes first; a nonterminal stands once in a
/// walk.
pub struct Recount<'a> {
    edges: &'a [[u16; 8]],
    incoming: std::collections::BTreeMap<[u16; 3], Vec<usize>>,
    /// Nodes of the walk, and how many edges into each were tried.
    walk: Vec<([u16; 3], usize)>,
    /// The walk's edges, and after an example its last edge.
    pub path: Vec<usize>,
    trials: u32,
    on_example: bool,
}

impl<'a> Recount<'a> {
    pub fn new(edges: &'a [[u16; 8]], start: (u16, u16)) -> Self {
        let mut incoming = std::collections::BTreeMap::<[u16; 3], Vec<usize>>::new();
        for (i, e) in edges.iter().enumerate().rev() {
            incoming.entry([e[3], e[4], e[5]]).or_default().push(i);
        }
        Recount {
            edges,
            incoming,
            walk: vec![([1, start.0, start.1], 0)],
            path: vec![],
            trials: 0,
            on_example: false,
        }
    }

    pub fn step(&mut self) -> Step {
        if self.on_example {
            self.path.pop();
            self.on_example = false;
        }
        while let Some((node, tried)) = self.walk.last_mut() {
            let next = self.incoming.get(&*node).and_then(|into| into.get(*tried));
            *tried += 1;
            let Some(&edge) = next else {
                self.walk.pop();
                self.path.pop();
                continue;
            };
            if self.trials == MAX_TRIALS {
                return Step::Limit;
            }
            self.trials += 1;
            let e = self.edges[edge];
            let source = [e[0], e[1], e[2]];
            if source[0] == 1 {
                self.path.push(edge);
                self.on_example = true;
                return Step::Example(self.trials);
            }
            if !self.walk.iter().any(|w| w.0 == source) {
                self.path.push(edge);
                self.walk.push((source, 0));
            }
        }
        Step::End(self.trials)
    }
}
