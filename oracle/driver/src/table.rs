//! A table: an independent reader of its words, refusals 1 to 8
//! with number and place, and the writing of words for generated tables.

/// Kind (0 nonterminal, 1 terminal; 2 the empty mark of an example), number.
pub type Sym = (u16, u16);

#[derive(Clone, Copy, Debug, PartialEq, Eq)]
pub struct Refusal {
    pub number: u16,
    pub place: u16,
}

pub fn refuse<T>(number: u16, place: usize) -> Result<T, Refusal> {
    Err(Refusal {
        number,
        place: place as u16,
    })
}

#[derive(Clone, Debug, Default, PartialEq, Eq)]
pub struct Production {
    pub nonterminal: u16,
    pub symbols: Vec<Sym>,
    pub span: (u16, u16),
}

#[derive(Clone, Debug, Default, PartialEq, Eq)]
pub struct State {
    /// Production, index, in chain order.
    pub items: Vec<(u16, u16)>,
    /// Symbol, target, in chain order.
    pub edges: Vec<(Sym, u16)>,
}

/// The meaning of an accepted table.
#[derive(Clone, Debug, Default, PartialEq, Eq)]
pub struct Table {
    pub terminals: u16,
    /// Each nonterminal's productions in chain order.
    pub nonterminals: Vec<Vec<u16>>,
    pub productions: Vec<Production>,
    pub states: Vec<State>,
}

/// The areas of a table of which record 0 holds.
struct Areas<'a> {
    words: &'a [u16],
    n: usize,
    t: usize,
    s: usize,
    p: usize,
}

impl Areas<'_> {
    fn word(&self, record: usize, k: usize) -> usize {
        self.words[4 * record + k] as usize
    }
    fn records(&self) -> usize {
        self.words.len() / 4
    }
    fn state(&self, i: usize) -> usize {
        1 + self.n + i
    }
    fn production(&self, i: usize) -> usize {
        1 + self.n + self.s + i
    }
    fn loose(&self) -> usize {
        1 + self.n + self.s + self.p
    }
    fn good_head(&self, h: usize) -> bool {
        h == 0 || (h >= self.loose() && h < self.records())
    }
    fn good_production(&self, h: usize) -> bool {
        h == 0 || (h >= self.production(0) && h < self.loose())
    }
    fn good_next(&self, record: usize) -> bool {
        let next = self.word(record, 0);
        next == 0 || (next > record && next < self.records())
    }

    /// The loose records of a chain, as far as its indexes keep the rule.
    fn chain(&self, head: usize) -> Vec<usize> {
        let mut out = vec![];
        let mut at = if self.good_head(head) { head } else { 0 };
        while at != 0 {
            out.push(at);
            at = if self.good_next(at) {
                self.word(at, 0)
            } else {
                0
            };
        }
        out
    }

    /// Which loose records are reached from heads in word `k` of records `from`.
    fn reached(&self, from: std::ops::Range<usize>, k: usize) -> Vec<bool> {
        let mut seen = vec![false; self.records()];
        for r in from {
            let head = self.word(r, k);
            let mut at = if self.good_head(head) { head } else { 0 };
            while at != 0 && !seen[at] {
                seen[at] = true;
                at = if self.good_next(at) {
                    self.word(at, 0)
                } else {
                    0
                };
            }
        }
        seen
    }
}

fn areas(words: &[u16]) -> Result<Areas<'_>, Refusal> {
    if words.is_empty() || words.len() % 4 != 0 || words.len() > 32_768 {
        return refuse(1, 0);
    }
    let count = |k: usize| words[k] as usize;
    let a = Areas {
        words,
        n: count(0),
        t: count(1),
        s: count(2),
        p: count(3),
    };
    let ranges = (1..=32).contains(&a.n) && a.t <= 63 && (1..=128).contains(&a.s) && a.p <= 128;
    if !ranges || a.loose() > a.records() {
        return refuse(2, 0);
    }
    Ok(a)
}

/// Refusals 1 to 8: the lowest number that applies, its lowest record.
pub fn check(words: &[u16]) -> Result<(), Refusal> {
    let a = areas(words)?;
    let states = a.state(0)..a.production(0);
    let productions = a.production(0)..a.loose();
    let symbols = a.reached(productions.clone(), 1);
    let items = a.reached(states.clone(), 0);
    let edges = a.reached(states.clone(), 1);
    let all = 0..a.records();

    // 3: an index against the rule, in the record that holds it.
    let bad_index = |r: usize| {
        if r == 0 {
            false
        } else if r < a.state(0) {
            !a.good_production(a.word(r, 0))
        } else if r < a.production(0) {
            !a.good_head(a.word(r, 0)) || !a.good_head(a.word(r, 1))
        } else if r < a.loose() {
            let next = a.word(r, 0);
            !a.good_production(next) || (next != 0 && next <= r) || !a.good_head(a.word(r, 1))
        } else {
            (symbols[r] || items[r] || edges[r]) && !a.good_next(r)
        }
    };
    if let Some(r) = all.clone().find(|&r| bad_index(r)) {
        return refuse(3, r);
    }

    // 4: a production in other than one chain.
    let mut chains = vec![0; a.records()];
    for nt in 1..a.state(0) {
        let mut at = a.word(nt, 0);
        while at != 0 {
            chains[at] += 1;
            at = a.word(at, 0);
        }
    }
    if let Some(r) = productions.clone().find(|&r| chains[r] != 1) {
        return refuse(4, r);
    }

    // 5: a production above 16 symbols.
    let length = |p: usize| a.chain(a.word(a.production(p), 1)).len();
    let lengths: Vec<usize> = (0..a.p).map(length).collect();
    if let Some(p) = (0..a.p).find(|&p| lengths[p] > 16) {
        return refuse(5, a.production(p));
    }

    // 6: a symbol's or an edge's kind and number.
    let bad_symbol = |r: usize| match a.word(r, 1) {
        0 => a.word(r, 2) >= a.n,
        1 => a.word(r, 2) >= a.t,
        _ => true,
    };
    if let Some(r) = all
        .clone()
        .find(|&r| (symbols[r] || edges[r]) && bad_symbol(r))
    {
        return refuse(6, r);
    }

    // 7: an item's production and index, an edge's target.
    let bad_item = |r: usize| a.word(r, 1) >= a.p || a.word(r, 2) > lengths[a.word(r, 1)];
    let bad_target = |r: usize| a.word(r, 3) >= a.s;
    let bad = |r: usize| (items[r] && bad_item(r)) || (edges[r] && bad_target(r));
    if let Some(r) = all.clone().find(|&r| bad(r)) {
        return refuse(7, r);
    }

    // 8: spare words.
    let spare = |r: usize| {
        if r == 0 {
            false
        } else if r < a.state(0) {
            a.word(r, 1) != 0 || a.word(r, 2) != 0 || a.word(r, 3) != 0
        } else if r < a.production(0) {
            a.word(r, 2) != 0 || a.word(r, 3) != 0
        } else {
            (symbols[r] || items[r]) && a.word(r, 3) != 0
        }
    };
    if let Some(r) = all.clone().find(|&r| spare(r)) {
        return refuse(8, r);
    }
    Ok(())
}

/// The meaning of a table, or its refusal.
pub fn decode(words: &[u16]) -> Result<Table, Refusal> {
    check(words)?;
    let a = areas(words)?;
    let sym = |r: usize| (words[4 * r + 1], words[4 * r + 2]);
    let mut productions: Vec<Production> = (0..a.p)
        .map(|p| {
            let r = a.production(p);
            Production {
                nonterminal: 0,
                symbols: a.chain(a.word(r, 1)).into_iter().map(sym).collect(),
                span: (words[4 * r + 2], words[4 * r + 3]),
            }
        })
        .collect();
    let mut nonterminals = vec![];
    for nt in 0..a.n {
        let mut of = vec![];
        let mut at = a.word(1 + nt, 0);
        while at != 0 {
            let p = at - a.production(0);
            productions[p].nonterminal = nt as u16;
            of.push(p as u16);
            at = a.word(at, 0);
        }
        nonterminals.push(of);
    }
    let states = (0..a.s)
        .map(|s| State {
            items: a
                .chain(a.word(a.state(s), 0))
                .into_iter()
                .map(sym)
                .collect(),
            edges: (a.chain(a.word(a.state(s), 1)).into_iter())
                .map(|r| (sym(r), words[4 * r + 3]))
                .collect(),
        })
        .collect();
    Ok(Table {
        terminals: a.t as u16,
        nonterminals,
        productions,
        states,
    })
}

impl Table {
    pub fn symbol_in_range(&self, (kind, number): Sym) -> bool {
        match kind {
            0 => (number as usize) < self.nonterminals.len(),
            1 => number < self.terminals,
            _ => false,
        }
    }

    pub fn item_in_range(&self, (production, index): (u16, u16)) -> bool {
        match self.productions.get(production as usize) {
            Some(p) => index as usize <= p.symbols.len(),
            None => false,
        }
    }

    /// Whether a state has two targets for one symbol: then the Rust cannot
    /// hold the table.
    pub fn two_targets(&self) -> bool {
        self.states.iter().any(|s| {
            let mut seen = std::collections::BTreeMap::new();
            (s.edges.iter()).any(|&(sym, to)| *seen.entry(sym).or_insert(to) != to)
        })
    }

    /// The words of the table, or none if it needs too many records. Equal
    /// ends of chains share records where `share` is set; `gap` gives the
    /// number of unreached records to leave before each record written.
    pub fn encode(&self, share: bool, mut gap: impl FnMut() -> usize) -> Option<Vec<u16>> {
        let (n, s, p) = (
            self.nonterminals.len(),
            self.states.len(),
            self.productions.len(),
        );
        let first = 1 + n + s;
        let mut out: Vec<[u16; 4]> = vec![[0; 4]; first + p];
        out[0] = [n as u16, self.terminals, s as u16, p as u16];
        for (nt, of) in self.nonterminals.iter().enumerate() {
            let mut from = 1 + nt;
            for &q in of {
                out[from][0] = (first + q as usize) as u16;
                from = first + q as usize;
            }
        }
        // Records are made last first, at falling numbers from the top, then
        // moved down together: so a next is larger than its own record.
        let mut loose: Vec<[u16; 4]> = vec![];
        let mut known = std::collections::BTreeMap::new();
        let mut chain = |list: Vec<[u16; 3]>| -> usize {
            let mut next = 0usize;
            for rest in list.iter().rev() {
                if share && let Some(&at) = known.get(&(*rest, next)) {
                    next = at;
                    continue;
                }
                for _ in 0..gap() {
                    loose.push([0xffff; 4]);
                }
                loose.push([next as u16, rest[0], rest[1], rest[2]]);
                known.insert((*rest, next), loose.len());
                next = loose.len();
                if loose.len() > 8_192 {
                    break;
                }
            }
            next
        };
        let mut heads = vec![];
        for q in &self.productions {
            heads.push(chain(q.symbols.iter().map(|&(k, v)| [k, v, 0]).collect()));
        }
        for st in &self.states {
            heads.push(chain(st.items.iter().map(|&(a, b)| [a, b, 0]).collect()));
            heads.push(chain(
                st.edges.iter().map(|&((k, v), to)| [k, v, to]).collect(),
            ));
        }
        let total = first + p + loose.len();
        if total > 8_192 {
            return None;
        }
        // The record made as number i (from 1) stands at total - i.
        let place = |i: usize| if i == 0 { 0 } else { (total - i) as u16 };
        for (q, prod) in self.productions.iter().enumerate() {
            out[first + q][1] = place(heads[q]);
            out[first + q][2] = prod.span.0;
            out[first + q][3] = prod.span.1;
        }
        for st in 0..s {
            out[1 + n + st][0] = place(heads[p + 2 * st]);
            out[1 + n + st][1] = place(heads[p + 2 * st + 1]);
        }
        for rec in loose.iter().rev() {
            let junk = rec[0] == 0xffff;
            out.push([
                if junk { 0xffff } else { place(rec[0] as usize) },
                rec[1],
                rec[2],
                rec[3],
            ]);
        }
        Some(out.concat())
    }
}

/// Table B of docs/RULES.md.
pub fn table_b() -> Vec<u16> {
    let records: [[u16; 4]; 24] = [
        [1, 2, 4, 2],
        [6, 0, 0, 0],
        [12, 20, 0, 0],
        [14, 21, 0, 0],
        [15, 22, 0, 0],
        [18, 23, 0, 0],
        [7, 8, 0, 9],
        [0, 11, 12, 13],
        [9, 0, 0, 0],
        [10, 1, 0, 0],
        [0, 0, 0, 0],
        [0, 1, 1, 0],
        [13, 0, 0, 0],
        [0, 1, 0, 0],
        [0, 0, 1, 0],
        [16, 0, 2, 0],
        [17, 0, 0, 0],
        [0, 1, 0, 0],
        [19, 0, 3, 0],
        [0, 0, 1, 0],
        [0, 0, 0, 1],
        [0, 1, 0, 2],
        [0, 0, 0, 3],
        [0, 1, 0, 2],
    ];
    records.concat()
}

/// Table C, marked beside table B: S is b S b or A A, A is a or nothing. In
/// state 1, behind b, and in state 2, behind A, the suffix A is nullable.
pub fn table_c() -> Vec<u16> {
    let records: [[u16; 4]; 26] = [
        [2, 2, 3, 4],
        [6, 0, 0, 0],
        [8, 0, 0, 0],
        [16, 17, 0, 0],
        [19, 24, 0, 0],
        [18, 0, 0, 0],
        [7, 10, 0, 5],
        [0, 13, 6, 9],
        [9, 15, 10, 11],
        [0, 0, 12, 12],
        [11, 1, 1, 0],
        [12, 0, 0, 0],
        [0, 1, 1, 0],
        [14, 0, 1, 0],
        [0, 0, 1, 0],
        [0, 1, 0, 0],
        [0, 0, 0, 0],
        [0, 1, 1, 1],
        [22, 1, 1, 0],
        [20, 0, 1, 0],
        [21, 0, 0, 0],
        [22, 1, 0, 0],
        [23, 2, 0, 0],
        [0, 3, 0, 0],
        [25, 1, 1, 1],
        [0, 0, 1, 2],
    ];
    records.concat()
}
