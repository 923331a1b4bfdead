//! docs/RULES.md read plainly, without the Rust: a second side, so that the reading is itself compared, and limits have answers.

use crate::side::*;
use crate::table::*;

/// FIRST: bit i is terminal i; and whether the empty list is derived.
#[derive(Clone, Copy, Default, PartialEq)]
pub struct First {
    pub terminals: u64,
    pub nullable: bool,
}

impl First {
    /// With a lookahead for what follows.
    pub fn followed(self, lookahead: u64) -> u64 {
        self.terminals | if self.nullable { lookahead } else { 0 }
    }

    /// Whether a lookahead meets it; `end` is its end of input.
    fn meets(self, lookahead: u64, end: u16) -> bool {
        self.terminals & lookahead != 0 || self.nullable && lookahead >> end & 1 == 1
    }

    fn disjoint(self, other: First) -> bool {
        self.terminals & other.terminals == 0 && !(self.nullable && other.nullable)
    }
}

/// FIRST of every nonterminal.
pub struct Firsts(Vec<First>);

impl Firsts {
    pub fn new(table: &Table) -> Self {
        let mut f = Firsts(vec![First::default(); table.nonterminals.len()]);
        loop {
            let before = f.0.clone();
            for p in &table.productions {
                let more = f.first0(&p.symbols);
                let own = &mut f.0[p.nonterminal as usize];
                own.terminals |= more.terminals;
                own.nullable |= more.nullable;
            }
            if f.0 == before {
                return f;
            }
        }
    }

    pub fn first0(&self, symbols: &[Sym]) -> First {
        let mut out = First::default();
        for &(kind, number) in symbols {
            if kind == 1 {
                out.terminals |= 1 << number;
                return out;
            }
            let own = self.0[number as usize];
            out.terminals |= own.terminals;
            if !own.nullable {
                return out;
            }
        }
        out.nullable = true;
        out
    }

    fn nullable(&self, symbols: &[Sym]) -> bool {
        self.first0(symbols).nullable
    }
}

type Parts<'a> = (&'a [Sym], Option<Sym>, &'a [Sym]);

struct Plain<'a> {
    table: &'a Table,
    firsts: Firsts,
}

/// A trace under way: the graph and the pairs entered.
#[derive(Default)]
struct Trace {
    edges: Vec<[u16; 8]>,
    entered: std::collections::BTreeSet<(u16, u16)>,
}

#[derive(Clone, PartialEq, Eq)]
struct PlainExample {
    symbols: Vec<Sym>,
    cursor: usize,
    /// Start, end, nonterminal, innermost first.
    reductions: Vec<(usize, usize, u16)>,
}

impl PlainExample {
    fn words(&self) -> Vec<u32> {
        let mut out = vec![
            self.symbols.len() as u32,
            self.cursor as u32,
            self.reductions.len() as u32,
        ];
        for &(k, n) in &self.symbols {
            out.extend([k as u32, n as u32]);
        }
        for &(s, e, n) in &self.reductions {
            out.extend([s as u32, e as u32, n as u32]);
        }
        out
    }
}

impl Plain<'_> {
    fn symbols(&self, production: u16) -> &[Sym] {
        &self.table.productions[production as usize].symbols
    }

    fn nonterminal(&self, production: u16) -> u16 {
        self.table.productions[production as usize].nonterminal
    }

    fn parts(&self, (p, i): (u16, u16)) -> Parts<'_> {
        let (s, i) = (self.symbols(p), i as usize);
        match s.get(i) {
            Some(&cursor) => (&s[..i], Some(cursor), &s[i + 1..]),
            None => (s, None, &[]),
        }
    }

    fn trace_back(&self, state: u16, symbols: &[Sym]) -> Vec<u16> {
        let mut at = vec![false; self.table.states.len()];
        at[state as usize] = true;
        for s in symbols.iter().rev() {
            at = (self.table.states.iter())
                .map(|st| {
                    st.edges
                        .iter()
                        .any(|(sym, to)| sym == s && at[*to as usize])
                })
                .collect();
        }
        (0..at.len() as u16).filter(|&s| at[s as usize]).collect()
    }

    fn add(&self, trace: &mut Trace, from: [u16; 3], to: [u16; 3], label: (u16, u16)) {
        let same = |e: &[u16; 8]| {
            e[..3] == from
                && e[3..6] == to
                && self.symbols(e[6]) == self.symbols(label.0)
                && e[7] == label.1
        };
        if !trace.edges.iter().any(same) {
            let mut e = [0; 8];
            e[..3].copy_from_slice(&from);
            e[3..6].copy_from_slice(&to);
            (e[6], e[7]) = label;
            trace.edges.push(e);
        }
    }

    fn consumers(&self, state: u16, nt: u16) -> Vec<(u16, u16)> {
        let items = &self.table.states[state as usize].items;
        let shifts = |&&i: &&(u16, u16)| self.parts(i).1 == Some((0, nt));
        items.iter().filter(shifts).copied().collect()
    }

    fn shift(&self, state: u16, item: (u16, u16)) -> Vec<[u16; 8]> {
        let mut trace = Trace::default();
        let nt = self.nonterminal(item.0);
        self.add(&mut trace, [0, nt, 0], [1, item.0, item.1], item);
        for s in self.trace_back(state, self.parts(item).0) {
            self.epsilon(&mut trace, s, nt);
        }
        trace.edges
    }

    fn epsilon(&self, trace: &mut Trace, state: u16, nt: u16) {
        if !trace.entered.insert((state, nt)) {
            return;
        }
        for item in self.consumers(state, nt) {
            if item.1 > 0 {
                self.add(trace, [1, item.0, item.1], [0, nt, 0], item);
            } else {
                let outer = self.nonterminal(item.0);
                self.add(trace, [0, outer, 0], [0, nt, 0], item);
                self.epsilon(trace, state, outer);
            }
        }
    }

    fn reduce(&self, state: u16, item: (u16, u16)) -> Vec<[u16; 8]> {
        let mut trace = Trace::default();
        self.reduce_item(&mut trace, state, item);
        trace.edges
    }

    fn reduce_item(&self, trace: &mut Trace, state: u16, item: (u16, u16)) {
        let nt = self.nonterminal(item.0);
        self.add(trace, [0, nt, 0], [1, item.0, item.1], item);
        for s in self.trace_back(state, self.parts(item).0) {
            self.reduce_state(trace, s, nt);
        }
    }

    fn reduce_state(&self, trace: &mut Trace, state: u16, nt: u16) {
        if !trace.entered.insert((state, nt)) {
            return;
        }
        for item in self.consumers(state, nt) {
            if self.firsts.nullable(self.parts(item).2) {
                self.add(trace, [0, self.nonterminal(item.0), 0], [0, nt, 0], item);
                self.reduce_item(trace, state, item);
            } else {
                self.add(trace, [1, item.0, item.1], [0, nt, 0], item);
            }
        }
    }

    /// FIRST of what follows: first edge's cursor, then suffixes outward.
    fn following(&self, path: &[[u16; 8]]) -> First {
        let mut symbols: Vec<Sym> = self.parts((path[0][6], path[0][7])).1.into_iter().collect();
        for e in path {
            symbols.extend(self.parts((e[6], e[7])).2);
        }
        self.firsts.first0(&symbols)
    }

    fn example(&self, path: &[[u16; 8]]) -> PlainExample {
        let mut symbols: Vec<Sym> = vec![];
        for e in path.iter().rev() {
            symbols.extend(self.parts((e[6], e[7])).0);
        }
        let cursor = symbols.len();
        match self.parts((path[0][6], path[0][7])) {
            (_, Some(s), _) => symbols.push(s),
            ([], None, _) => symbols.push((2, 0)),
            _ => {}
        }
        for e in path {
            symbols.extend(self.parts((e[6], e[7])).2);
        }
        let mut reductions = vec![];
        let (mut start, mut end) = (0, symbols.len());
        for e in path.iter().rev() {
            let nt = if e[0] == 0 {
                e[1]
            } else {
                self.nonterminal(e[1])
            };
            reductions.insert(0, (start, end, nt));
            let (prefix, _, suffix) = self.parts((e[6], e[7]));
            start += prefix.len();
            end -= suffix.len();
        }
        PlainExample {
            symbols,
            cursor,
            reductions,
        }
    }

    /// All trials after the path, in order; `f` is told of each its number and
    /// whether it is an example, and may stop.
    fn trials(
        &self,
        edges: &[[u16; 8]],
        path: &mut Vec<[u16; 8]>,
        end: [u16; 3],
        count: &mut u32,
        f: &mut dyn FnMut(u32, &[[u16; 8]]) -> Result<(), Refusal>,
    ) -> Result<(), Refusal> {
        for e in edges.iter().rev().filter(|e| e[3..6] == end) {
            if *count == MAX_TRIALS {
                return refuse(13, 0);
            }
            *count += 1;
            let seen = path.iter().any(|w| w[..3] == e[..3]);
            path.push(*e);
            if e[0] == 1 {
                f(*count, path)?;
            } else if !seen {
                self.trials(edges, path, [e[0], e[1], e[2]], count, f)?;
            }
            path.pop();
        }
        Ok(())
    }

    /// Examples handed out with their trials; the count; refusal 13 or 14.
    fn list(
        &self,
        edges: &[[u16; 8]],
        start: (u16, u16),
        lookahead: Option<u64>,
        room: usize,
    ) -> (Vec<(u32, PlainExample)>, u32, Result<(), Refusal>) {
        let (mut found, mut count) = (vec![], 0);
        let end = [1, start.0, start.1];
        let out = self.trials(edges, &mut vec![], end, &mut count, &mut |trial, path| {
            if lookahead.is_some_and(|l| !self.following(path).meets(l, self.table.terminals)) {
                return Ok(());
            }
            if found.len() == room {
                return refuse(14, 0);
            }
            found.push((trial, self.example(path)));
            Ok(())
        });
        (found, count, out)
    }

    /// One listing after another: a limit of an earlier one comes first.
    fn side(
        &self,
        items: &[(u16, u16)],
        trace: impl Fn((u16, u16)) -> Vec<[u16; 8]>,
        lookahead: Option<u64>,
    ) -> Result<(Vec<PlainExample>, u32), Refusal> {
        let (mut side, mut trials) = (vec![], 0);
        for &item in items {
            let edges = trace(item);
            if edges.len() > MAX_EDGES {
                return refuse(12, 0);
            }
            let room = MAX_EXAMPLES - side.len();
            let (found, count, out) = self.list(&edges, item, lookahead, room);
            out?;
            side.extend(found.into_iter().map(|f| f.1));
            trials += count;
        }
        side.sort_by_key(|e: &PlainExample| e.symbols.len());
        Ok((side, trials))
    }

    fn reduce_side(
        &self,
        state: u16,
        p: u16,
        token: u16,
    ) -> Result<(Vec<PlainExample>, u32), Refusal> {
        let item = (p, self.symbols(p).len() as u16);
        self.side(&[item], |i| self.reduce(state, i), Some(1 << token))
    }

    fn conflict_refusal(&self, c: [u16; 5]) -> Result<(), Refusal> {
        let (p, t) = (self.table.productions.len() as u16, self.table.terminals);
        let action = match c[2] {
            0 => c[3] < t,
            1 => c[3] < p,
            _ => false,
        };
        if c[0] as usize >= self.table.states.len() || c[1] >= p || !action || c[4] > t {
            return refuse(9, 0);
        }
        if c[2] == 0 && c[4] == t {
            return refuse(10, 0);
        }
        Ok(())
    }

    fn classify(&self, c: [u16; 5]) -> Result<Judged, Refusal> {
        self.conflict_refusal(c)?;
        let [state, production, action, number, token] = c;
        let (actions, a) = if action == 0 {
            let mut items = self.table.states[state as usize].items.clone();
            items.retain(|&i| self.parts(i).1 == Some((1, token)));
            let key = |&(p, i): &(u16, u16)| (self.nonterminal(p), self.symbols(p), p, i);
            items.sort_by(|x, y| key(x).cmp(&key(y)));
            items.dedup();
            self.side(&items, |i| self.shift(state, i), None)?
        } else {
            self.reduce_side(state, number, token)?
        };
        let (reduces, r) = self.reduce_side(state, production, token)?;
        let judged =
            |class, own: &[u16], action: Option<&PlainExample>, reduce: Option<&PlainExample>| {
                Ok(Judged {
                    class,
                    trials: (a, r),
                    own: own.to_vec(),
                    action: action.cloned(),
                    reduce: reduce.cloned(),
                })
            };
        if actions.is_empty() || reduces.is_empty() {
            return judged(0, &[], None, None);
        }
        let nt = self.nonterminal(production);
        let pairs = || {
            actions
                .iter()
                .flat_map(|x| reduces.iter().map(move |y| (x, y)))
        };

        let same = |(x, y): &(&PlainExample, &PlainExample)| {
            x.symbols == y.symbols && x.cursor == y.cursor
        };
        if let Some((x, y)) = pairs().find(same) {
            let sandwich = [(0, nt), (1, number), (0, nt)];
            if action == 0 && self.symbols(production) == sandwich {
                return judged(2, &[nt], Some(x), Some(y));
            }
            if action == 1 && x.reductions[0].2 == y.reductions[0].2 {
                let (s, t) = (
                    self.table.productions[production as usize].span,
                    self.table.productions[number as usize].span,
                );
                return judged(5, &[s.0, s.1, t.0, t.1], Some(x), None);
            }
            return judged(1, &[], Some(x), Some(y));
        }
        if let (0, Some(own)) = (action, self.question(nt)) {
            return judged(4, &own, Some(&actions[0]), Some(&reduces[0]));
        }
        let inlines = |x: &PlainExample, y: &PlainExample| action == 0 && self.inline(x, y);
        if let Some((x, y)) = pairs().find(|(x, y)| inlines(x, y)) {
            return judged(3, &[y.reductions[0].2], Some(x), Some(y));
        }
        judged(6, &[], Some(&actions[0]), Some(&reduces[0]))
    }

    /// Nonterminal, kind and number, if it is nothing or one symbol.
    fn question(&self, nt: u16) -> Option<[u16; 3]> {
        let [p, q] = self.table.nonterminals[nt as usize][..] else {
            return None;
        };
        let lists = (self.symbols(p), self.symbols(q));
        let (([], [(kind, number)]) | ([(kind, number)], [])) = lists else {
            return None;
        };
        Some([nt, *kind, *number])
    }

    fn inline(&self, shift: &PlainExample, reduce: &PlainExample) -> bool {
        let inner = reduce.reductions[0];
        // The first reduction that ends elsewhere must be the second.
        match reduce.reductions.get(1) {
            Some(next) if next.1 != inner.1 && next.2 != inner.2 => {
                let x = &shift.symbols[shift.cursor + 1..shift.reductions[0].1];
                let y = &reduce.symbols[inner.1..next.1];
                match x.iter().zip(y).find(|(a, b)| a != b || a.0 == 2) {
                    None => false,
                    Some((&a, &b)) if a.0 < 2 && b.0 < 2 => {
                        self.firsts.first0(&[a]).disjoint(self.firsts.first0(&[b]))
                    }
                    Some(_) => false,
                }
            }
            _ => false,
        }
    }
}

struct Judged {
    class: u32,
    trials: (u32, u32),
    own: Vec<u16>,
    action: Option<PlainExample>,
    reduce: Option<PlainExample>,
}

/// A conflict's class, if it is not refused.
pub fn class(table: &Table, conflict: [u16; 5]) -> Option<u32> {
    let plain = Plain {
        table,
        firsts: Firsts::new(table),
    };
    plain.classify(conflict).ok().map(|j| j.class)
}

pub struct PlainSide;

fn ask(
    words: &[u16],
    good: impl FnOnce(&Table) -> bool,
    f: impl FnOnce(&Plain<'_>) -> Result<Answer, Refusal>,
) -> Option<Answer> {
    let answer = decode(words).and_then(|table| {
        if !good(&table) {
            return refuse(9, 0);
        }
        f(&Plain {
            table: &table,
            firsts: Firsts::new(&table),
        })
    });
    Some(match answer {
        Ok(a) => [vec![0], a].concat(),
        Err(r) => refused(r),
    })
}

fn good_list(t: &Table, symbols: &[Sym]) -> bool {
    symbols.iter().all(|&s| t.symbol_in_range(s))
}

fn traced(edges: Vec<[u16; 8]>) -> Result<Answer, Refusal> {
    if edges.len() > MAX_EDGES {
        return refuse(12, 0);
    }
    Ok(wide(&graph_words(&edges)).collect())
}

impl Side for PlainSide {
    fn name(&self) -> &'static str {
        "plain"
    }

    fn check(&mut self, table: &[u16]) -> Option<Answer> {
        Some(check(table).map_or_else(refused, |()| vec![0]))
    }

    fn respell(&mut self, table: &[u16], words: usize) -> Option<Answer> {
        Some(match crate::rewrites::respell(table, words) {
            Ok(records) => {
                let words = records.concat();
                [0, records.len() as u32].into_iter().chain(wide(&words)).collect()
            }
            Err(r) => refused(r),
        })
    }

    fn compact(&mut self, table: &[u16]) -> Option<Answer> {
        Some(match crate::rewrites::compact(table) {
            Ok((left, records)) => {
                let words = records.concat();
                [0, left as u32].into_iter().chain(wide(&words)).collect()
            }
            Err(r) => refused(r),
        })
    }

    fn build(&mut self, table: &[u16], start: u16, lent: [usize; 3]) -> Option<Answer> {
        Some(match crate::states::build(table, start, lent) {
            Ok(built) => {
                let counts = [0, built.records.len() as u32, built.conflicts.len() as u32];
                let words = [built.records.concat(), built.conflicts.concat()].concat();
                counts.into_iter().chain(wide(&words)).collect()
            }
            Err(r) => refused(r),
        })
    }

    fn read_yacc(&mut self, text: &[u8], lent: [usize; 2]) -> Option<Answer> {
        Some(match crate::yacc::read(text, lent) {
            Ok(read) => {
                let counts = [read.records.len() as u32, read.places.len() as u32];
                let words = [read.records.concat(), read.places].concat();
                let head = [0, counts[0], counts[1], read.start as u32];
                head.into_iter().chain(wide(&words)).collect()
            }
            Err(r) => refused(r),
        })
    }

    fn write_yacc(&mut self, table: &[u16], bytes: usize) -> Option<Answer> {
        Some(match crate::yacc::write(table, bytes) {
            Ok(text) => {
                let head = [0, text.len() as u32];
                head.into_iter().chain(text.into_iter().map(u32::from)).collect()
            }
            Err(r) => refused(r),
        })
    }

    fn first0(&mut self, table: &[u16], symbols: &[Sym]) -> Option<Answer> {
        ask(
            table,
            |t| good_list(t, symbols),
            |p| {
                let first = p.firsts.first0(symbols);
                let terminals = members(first.terminals).map(u32::from);
                Ok(std::iter::once(first.nullable.into()).chain(terminals).collect())
            },
        )
    }

    fn first1(&mut self, table: &[u16], symbols: &[Sym], lookahead: u64) -> Option<Answer> {
        ask(
            table,
            |t| good_list(t, symbols) && good_set(t, lookahead),
            |p| {
                let set = p.firsts.first0(symbols).followed(lookahead);
                Ok(members(set).map(u32::from).collect())
            },
        )
    }

    fn trace_back(&mut self, table: &[u16], state: u16, symbols: &[Sym]) -> Option<Answer> {
        let good = |t: &Table| (state as usize) < t.states.len() && good_list(t, symbols);
        ask(table, good, |p| {
            Ok(p.trace_back(state, symbols)
                .iter()
                .map(|&s| s as u32)
                .collect())
        })
    }

    fn backtrace(&mut self, reduce: bool, table: &[u16], (state, item): Traced) -> Option<Answer> {
        let good = |t: &Table| (state as usize) < t.states.len() && t.item_in_range(item);
        ask(table, good, |p| {
            traced(if reduce {
                p.reduce(state, item)
            } else {
                p.shift(state, item)
            })
        })
    }

    fn add_edge(&mut self, table: &[u16], graph: &[u16], e: [u16; 8]) -> Option<Answer> {
        let good = |t: &Table| edge_in_range(t, &e);
        ask(table, good, |p| {
            let mut trace = Trace {
                edges: graph_edges(p.table, graph)?,
                ..Trace::default()
            };
            let (from, to) = ([e[0], e[1], e[2]], [e[3], e[4], e[5]]);
            p.add(&mut trace, from, to, (e[6], e[7]));
            traced(trace.edges)
        })
    }

    fn examples(
        &mut self,
        table: &[u16],
        graph: &[u16],
        start: (u16, u16),
        lookahead: Option<u64>,
    ) -> Option<Answer> {
        let good = |t: &Table| t.item_in_range(start) && lookahead.is_none_or(|l| good_set(t, l));
        ask(table, good, |p| {
            let edges = graph_edges(p.table, graph)?;
            let node = [1, start.0, start.1];
            if !edges.iter().any(|e| e[..3] == node || e[3..6] == node) {
                return refuse(15, 0);
            }
            let (found, count, end) = p.list(&edges, start, lookahead, usize::MAX);
            let mut out = vec![end.is_err() as u32, count, found.len() as u32];
            for (trial, example) in found {
                let words = example.words();
                out.extend([trial, words.len() as u32]);
                out.extend(words);
            }
            Ok(out)
        })
    }

    fn classify(&mut self, table: &[u16], conflict: [u16; 5]) -> Option<Answer> {
        ask(
            table,
            |_| true,
            |p| {
                let j = p.classify(conflict)?;
                let mut out = vec![j.class, j.trials.0, j.trials.1];
                with_length(&mut out, &j.own);
                for example in [j.action, j.reduce] {
                    let words = example.map_or(vec![], |e| e.words());
                    out.push(words.len() as u32);
                    out.extend(words);
                }
                Ok(out)
            },
        )
    }

    fn choose(&mut self, table: &[u16], c: [u16; 4], tokens: u64) -> Option<Answer> {
        ask(
            table,
            |t| good_set(t, tokens),
            |p| {
                let full = |t: u16| [c[0], c[1], c[2], c[3], t];
                let mut refusals: Vec<Refusal> = members(tokens)
                    .filter_map(|t| p.conflict_refusal(full(t)).err())
                    .collect();
                if tokens == 0 {
                    // No token to test: the numbers alone.
                    refusals.extend(p.conflict_refusal(full(0)).err().filter(|r| r.number == 9));
                }
                if let Some(r) = refusals.into_iter().min_by_key(|r| r.number) {
                    return Err(r);
                }
                let (mut naive, mut better) = (vec![], vec![]);
                for t in members(tokens) {
                    let j = p.classify(full(t))?;
                    if j.class == 0 {
                        &mut naive
                    } else {
                        &mut better
                    }
                    .push((t, j));
                }
                let chosen = match (better.is_empty(), c[2]) {
                    (false, _) => better,
                    (true, 1) => naive.into_iter().take(1).collect(),
                    (true, _) => naive,
                };
                let mut out = vec![chosen.len() as u32];
                for (t, j) in chosen {
                    out.extend([t as u32, j.class]);
                    with_length(&mut out, &j.own);
                }
                Ok(out)
            },
        )
    }

    fn sets(&mut self, table: &[u16], a: u64, b: u64, token: u16) -> Option<Answer> {
        let good = |t: &Table| good_set(t, a) && good_set(t, b) && token <= t.terminals;
        ask(table, good, |p| {
            let (one, end) = (1u64 << token, 1u64 << p.table.terminals);
            let mut out = vec![a.count_ones(), (a & one != 0) as u32, (a & end != 0) as u32];
            for changed in [a | one, a | end, a | b] {
                out.extend(halves(changed));
                out.push((changed != a) as u32);
            }
            out.extend(halves(a & b));
            out.extend(halves(a & !end));
            out.extend([a & end != 0, a & b == 0, a & b != 0].map(u32::from));
            for set in [one, end | (end - 1), end] {
                out.extend(halves(set));
            }
            out.extend(members(a).map(u32::from));
            Ok(out)
        })
    }

    fn item(&mut self, table: &[u16], item: (u16, u16)) -> Option<Answer> {
        ask(
            table,
            |t| t.item_in_range(item),
            |p| {
                let (prefix, cursor, suffix) = p.parts(item);
                let mut out = vec![];
                let mut list = |symbols: &[Sym]| {
                    out.push(symbols.len() as u32);
                    out.extend(symbols.iter().flat_map(|s| [s.0 as u32, s.1 as u32]));
                };
                list(prefix);
                list(cursor.as_slice());
                list(suffix);
                out.push(match cursor {
                    Some((0, nt)) => nt as u32 + 1,
                    _ => 0,
                });
                Ok(out)
            },
        )
    }

    fn observed(&mut self, table: &[u16], conflict: [u16; 5]) -> Option<Answer> {
        let mut both = true;
        let answer = ask(
            table,
            |_| true,
            |p| {
                let j = p.classify(conflict)?;
                let (Some(a), Some(r)) = (j.action, j.reduce) else {
                    both = false;
                    return Ok(vec![]);
                };
                let from = if a.cursor >= r.cursor { a } else { r };
                Ok(from.words()[3..3 + 2 * from.cursor].to_vec())
            },
        );
        answer.filter(|_| both)
    }
}
