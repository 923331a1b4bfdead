//! Tables with questions, from seeds. The same kind and seed give the same
//! case.

use crate::plain::Firsts;
use crate::question::{Case, Question};
use crate::side::{graph_words, members, symbol_words};
use crate::table::*;
use std::collections::BTreeMap;
use std::ops::Range;

/// splitmix64
pub struct Rng(u64);

impl Rng {
    pub fn new(seed: u64) -> Rng {
        Rng(seed)
    }
    fn next(&mut self) -> u64 {
        self.0 = self.0.wrapping_add(0x9e37_79b9_7f4a_7c15);
        let mut z = self.0;
        z = (z ^ (z >> 30)).wrapping_mul(0xbf58_476d_1ce4_e5b9);
        z = (z ^ (z >> 27)).wrapping_mul(0x94d0_49bb_1331_11eb);
        z ^ (z >> 31)
    }
    /// Below `n`, which is not 0.
    pub fn below(&mut self, n: usize) -> usize {
        (self.next() % n as u64) as usize
    }
    pub fn chance(&mut self, one_in: usize) -> bool {
        self.below(one_in) == 0
    }
    /// Any set of the tokens below `n` (at most 64).
    fn set(&mut self, n: usize) -> u64 {
        (0..n).fold(0, |set, i| set | (self.below(2) as u64) << i)
    }
    pub fn from_to(&mut self, low: usize, high: usize) -> usize {
        low + self.below(high - low + 1)
    }
    pub fn shuffle<T>(&mut self, list: &mut [T]) {
        for i in (1..list.len()).rev() {
            list.swap(i, self.below(i + 1));
        }
    }
}

/// The kinds of cases, each made from a seed.
pub const KINDS: [&str; 12] = [
    "classic",
    "random",
    "bent",
    "arbitrary",
    "wide",
    "graph",
    "damaged",
    "limit",
    "layouts",
    "build",
    "built",
    "yacc",
];

/// Kinds that are no part of `all`: they take long.
pub const ALONE: [&str; 2] = ["heavy", "most"];

/// None where a seed gives nothing (an automaton too large).
pub fn case(kind: &str, seed: u64) -> Option<Case> {
    let mut rng = Rng::new(seed ^ 0x6c61_6c72);
    let mut case = match kind {
        "classic" => classic(&mut rng, seed),
        "random" => random(&mut rng),
        "bent" => bent(&mut rng, seed),
        "arbitrary" => arbitrary(&mut rng),
        "wide" => wide(&mut rng),
        "graph" => graphs(&mut rng),
        "damaged" => damaged(&mut rng),
        "limit" => limit(&mut rng, seed),
        "layouts" => crate::layouts::case(seed),
        "build" => crate::builds::case(seed),
        "built" => crate::builds::built(seed),
        "yacc" => crate::yaccs::case(seed),
        "heavy" => heavy(seed),
        "most" => most(seed),
        _ => panic!("kinds: {KINDS:?}, {ALONE:?}"),
    }?;
    case.name = format!("{kind} {seed} {}", case.name).trim_end().into();
    Some(case)
}

// Grammars.

/// Nonterminals are words that begin with a capital letter, in order of their
/// rules; the first is the start. An added last nonterminal derives the start.
pub const CLASSIC: [&str; 27] = [
    "E: E + E | n",
    "E: E + E | E * E | ( E ) | n",
    "E: E + T | T ; T: T * F | F ; F: ( E ) | n",
    "S: i S | i S e S | x",
    "S: C S | C S e S | x ; C: i c t",
    "S: A | B ; A: x ; B: x",
    "S: A y | B y ; A: x ; B: x",
    "S: a A d | b B d | a B e | b A e ; A: c ; B: c",
    "S: O x y | x z ; O: | w",
    "S: O x y | x z ; O: w |",
    "I: import P semi | import P dot star semi ; P: id Q ; Q: | R ; R: dot id | R dot id",
    "S: A b c | a b d ; A: a",
    "S: A B c | a b d ; A: a ; B: b",
    "S: A B C d ; A: | a ; B: | b ; C: | a b",
    "A: B | a ; B: C | A b ; C: A | c",
    "S: A S b | x ; A: | a",
    "L: L c I | I ; I: n | n : T ; T: n | T [ ]",
    "S: a S a | b S b |",
    "S: V = E | E ; E: V | n | E + E ; V: id | id [ E ]",
    "D: T id | T id = E ; T: id | T star ; E: E star E | id | ( T ) E",
    "B: { M } ; M: | M X semi ; X: id | id = X | L ; L: id :",
    "S: A A A | A A ; A: a | A A |",
    "F: T id ( P ) ; P: | Q ; Q: T id | Q c T id ; T: id | id < T >",
    "S: X Y ; X: | a X ; Y: | a Y | Z ; Z: X b",
    "W: A | a A ; A: a b | b",
    "S: A C x | a c D ; A: a ; C: | c ; D: | d",
    "E: E E | E star | ( E ) | a",
];

/// A grammar's productions and counts.
pub struct Rules {
    pub nonterminals: usize,
    pub terminals: usize,
    pub productions: Vec<(u16, Vec<Sym>)>,
    pub start: u16,
}

pub fn parse_rules(text: &str) -> Rules {
    let rules: Vec<(&str, &str)> = text
        .split(';')
        .map(|r| r.trim().split_once(':').unwrap())
        .collect();
    let names: Vec<&str> = rules.iter().map(|r| r.0.trim()).collect();
    let mut terminals: Vec<&str> = vec![];
    let mut productions = vec![];
    for (nt, (_, right)) in rules.iter().enumerate() {
        for alternative in right.split('|') {
            let mut symbols = vec![];
            for word in alternative.split_whitespace() {
                if let Some(i) = names.iter().position(|n| *n == word) {
                    symbols.push((0, i as u16));
                } else {
                    if !terminals.contains(&word) {
                        terminals.push(word);
                    }
                    let i = terminals.iter().position(|t| *t == word).unwrap();
                    symbols.push((1, i as u16));
                }
            }
            productions.push((nt as u16, symbols));
        }
    }
    productions.push((names.len() as u16, vec![(0, 0)]));
    Rules {
        nonterminals: names.len() + 1,
        terminals: terminals.len(),
        start: names.len() as u16,
        productions,
    }
}

pub fn random_rules(rng: &mut Rng) -> Rules {
    let nonterminals = rng.from_to(1, 5);
    let terminals = rng.from_to(1, 4);
    let longest = rng.from_to(1, 4);
    let mut productions = vec![];
    for nt in 0..nonterminals {
        for _ in 0..rng.from_to(1, 3) {
            let symbols = (0..rng.below(longest + 1))
                .map(|_| {
                    if rng.chance(2) {
                        (0, rng.below(nonterminals) as u16)
                    } else {
                        (1, rng.below(terminals) as u16)
                    }
                })
                .collect();
            productions.push((nt as u16, symbols));
        }
    }
    productions.push((nonterminals as u16, vec![(0, 0)]));
    Rules {
        nonterminals: nonterminals + 1,
        terminals,
        start: nonterminals as u16,
        productions,
    }
}

/// The start between two terminals of its own: without a context around it
/// the start's own items have no example.
pub fn wrap(mut rules: Rules) -> Rules {
    let t = rules.terminals as u16;
    rules.productions.last_mut().unwrap().1 = vec![(1, t), (0, 0), (1, t + 1)];
    rules.terminals += 2;
    rules
}

/// A table's productions, numbered afresh in any order.
pub fn grammar_table(rng: &mut Rng, rules: &Rules) -> Table {
    let mut productions = rules.productions.clone();
    rng.shuffle(&mut productions);
    let mut table = Table {
        terminals: rules.terminals as u16,
        nonterminals: vec![vec![]; rules.nonterminals],
        productions: vec![],
        states: vec![],
    };
    for (i, (nt, symbols)) in productions.into_iter().enumerate() {
        table.nonterminals[nt as usize].push(i as u16);
        let start = rng.below(60_000);
        table.productions.push(Production {
            nonterminal: nt,
            symbols,
            span: (start as u16, (start + rng.below(50)) as u16),
        });
    }
    table
}

type Kernel = BTreeMap<(u16, u16), u64>;

/// The closure of a set of items with their lookaheads.
fn closure(table: &Table, firsts: &Firsts, kernel: &Kernel) -> Kernel {
    let mut items = kernel.clone();
    let mut work: Vec<(u16, u16)> = items.keys().copied().collect();
    while let Some((p, i)) = work.pop() {
        let symbols = &table.productions[p as usize].symbols;
        let Some(&(0, nt)) = symbols.get(i as usize) else {
            continue;
        };
        let ahead = firsts
            .first0(&symbols[i as usize + 1..])
            .followed(items[&(p, i)]);
        for &q in &table.nonterminals[nt as usize] {
            let known = items.entry((q, 0)).or_insert(0);
            let fresh = *known == 0 || ahead & !*known != 0;
            *known |= ahead;
            if fresh && ahead != 0 {
                work.push((q, 0));
            }
        }
    }
    items
}

/// The canonical LR(1) automaton; with `merge`, states with equal items joined
/// (LALR). None if it has too many states. Also its conflicts: state,
/// production, action, its number, tokens.
fn automaton(
    rng: &mut Rng,
    table: &mut Table,
    start: u16,
    merge: bool,
) -> Option<Vec<([u16; 4], u64)>> {
    let firsts = Firsts::new(table);
    let first_item = (table.nonterminals[start as usize][0], 0);
    let mut kernels: Vec<Kernel> = vec![BTreeMap::from([(first_item, 1 << table.terminals)])];
    let mut edges: Vec<Vec<(Sym, usize)>> = vec![];
    let mut known: BTreeMap<Kernel, usize> = BTreeMap::from([(kernels[0].clone(), 0)]);
    while edges.len() < kernels.len() {
        let items = closure(table, &firsts, &kernels[edges.len()]);
        let mut moves: BTreeMap<Sym, Kernel> = BTreeMap::new();
        for (&(p, i), &ahead) in &items {
            if let Some(&symbol) = table.productions[p as usize].symbols.get(i as usize) {
                moves.entry(symbol).or_default().insert((p, i + 1), ahead);
            }
        }
        let mut out = vec![];
        for (symbol, kernel) in moves {
            let to = *known.entry(kernel.clone()).or_insert_with(|| {
                kernels.push(kernel);
                kernels.len() - 1
            });
            out.push((symbol, to));
        }
        edges.push(out);
        if kernels.len() > 500 {
            return None;
        }
    }
    // Numbers of the states after joining.
    let mut joined: BTreeMap<Vec<(u16, u16)>, usize> = BTreeMap::new();
    let mut number = vec![];
    let mut states: Vec<Kernel> = vec![];
    let mut leaving: Vec<Vec<(Sym, usize)>> = vec![];
    for (i, kernel) in kernels.iter().enumerate() {
        let same = kernel.keys().copied().collect();
        let at = if merge {
            *joined.entry(same).or_insert(states.len())
        } else {
            states.len()
        };
        number.push(at);
        if at == states.len() {
            states.push(kernel.clone());
            leaving.push(edges[i].clone());
        } else {
            for (item, ahead) in kernel {
                *states[at].get_mut(item).unwrap() |= ahead;
            }
        }
    }
    if states.len() > 128 {
        return None;
    }
    let mut conflicts = vec![];
    let order = rng.below(3);
    for (s, kernel) in states.iter().enumerate() {
        let all = closure(table, &firsts, kernel);
        let mut items: Vec<(u16, u16)> = all.keys().copied().collect();
        match order {
            0 => rng.shuffle(&mut items),
            1 => items.sort_by_key(|i| (!kernel.contains_key(i), *i)),
            _ => {}
        }
        let mut out: Vec<(Sym, u16)> = leaving[s]
            .iter()
            .map(|&(sym, to)| (sym, number[to] as u16))
            .collect();
        if order == 0 {
            rng.shuffle(&mut out);
        }
        let done: Vec<((u16, u16), u64)> = (all.iter())
            .filter(|((p, i), _)| *i as usize == table.productions[*p as usize].symbols.len())
            .map(|(&i, &l)| (i, l))
            .collect();
        for (k, &((p, _), ahead)) in done.iter().enumerate() {
            for &((kind, t), _) in &out {
                if kind == 1 && ahead >> t & 1 == 1 {
                    conflicts.push(([s as u16, p, 0, t], 1 << t));
                }
            }
            for &((q, _), other) in &done[k + 1..] {
                if ahead & other != 0 {
                    conflicts.push(([s as u16, p, 1, q], ahead & other));
                }
            }
        }
        table.states.push(State { items, edges: out });
    }
    Some(conflicts)
}

fn encode(rng: &mut Rng, table: &Table) -> Option<Vec<u16>> {
    let (share, gaps) = (rng.chance(2), rng.chance(3));
    table.encode(share, || if gaps { rng.below(3) } else { 0 })
}

/// Questions about any table.
fn questions(rng: &mut Rng, table: &Table, conflicts: &[([u16; 4], u64)]) -> Vec<Question> {
    let mut out = vec![Question::Check];
    let n = table.nonterminals.len();
    let t = table.terminals as usize;
    let symbol = |rng: &mut Rng| {
        if t == 0 || rng.chance(2) {
            (0, rng.below(n) as u16)
        } else {
            (1, rng.below(t) as u16)
        }
    };
    for nt in 0..n {
        out.push(Question::First0(vec![(0, nt as u16)]));
    }
    for _ in 0..4 {
        let list: Vec<Sym> = (0..rng.below(5)).map(|_| symbol(rng)).collect();
        out.push(Question::First0(list.clone()));
        out.push(Question::First1(list, rng.set(t + 1)));
    }
    for _ in 0..2 {
        let token = rng.below(t + 1) as u16;
        out.push(Question::Sets(rng.set(t + 1), rng.set(t + 1), token));
    }
    for _ in 0..4 {
        let state = rng.below(table.states.len());
        // Often symbols that a walk back finds.
        let mut list: Vec<Sym> = vec![];
        let mut at = state;
        for _ in 0..rng.below(6) {
            let into: Vec<(usize, Sym)> = (table.states.iter().enumerate())
                .flat_map(|(s, st)| st.edges.iter().map(move |e| (s, e)))
                .filter(|(_, e)| e.1 as usize == at)
                .map(|(s, e)| (s, e.0))
                .collect();
            if into.is_empty() {
                break;
            }
            let (from, sym) = into[rng.below(into.len())];
            list.insert(0, sym);
            at = from;
        }
        if rng.chance(4) {
            list.push(symbol(rng));
        }
        out.push(Question::Back(state as u16, list));
    }
    let set = |rng: &mut Rng| match rng.below(3) {
        0 => None,
        1 => Some(1 << rng.below(t + 1)),
        _ => Some(rng.set(t + 1)),
    };
    if !table.productions.is_empty() {
        for _ in 0..6 {
            let state = rng.below(table.states.len());
            let here = &table.states[state].items;
            let item = if !here.is_empty() && !rng.chance(4) {
                here[rng.below(here.len())]
            } else {
                let p = rng.below(table.productions.len());
                (
                    p as u16,
                    rng.below(table.productions[p].symbols.len() + 1) as u16,
                )
            };
            let s = state as u16;
            out.push(Question::Item(item));
            out.push(Question::Shift(s, item));
            out.push(Question::Reduce(s, item));
            out.push(Question::ListTrace(false, s, item, set(rng)));
            out.push(Question::ListTrace(true, s, item, set(rng)));
        }
    }
    for &(c, tokens) in conflicts {
        for token in members(tokens).take(4) {
            let full = [c[0], c[1], c[2], c[3], token];
            out.push(Question::Classify(full));
            out.push(Question::Observed(full));
        }
        out.push(Question::Choose(c, tokens));
    }
    let joined: Vec<Question> = (0..).zip(&out).flat_map(|(k, q)| in_two(k, q)).collect();
    out.extend(joined);
    out
}

/// The question of a list asked of it in two parts, whole or with a word more.
fn in_two(k: usize, q: &Question) -> Vec<Question> {
    let parts = |s: &[Sym]| -> Vec<(Vec<u16>, Vec<u16>)> {
        let words = symbol_words(s);
        let cut = k % (words.len() + 1);
        let half = |at: usize| (words[..at].to_vec(), words[at..].to_vec());
        let (xs, mut ys) = half(words.len() - cut);
        ys.push(0);
        vec![half(cut), (xs, ys)]
    };
    match q {
        Question::First0(s) => (parts(s).into_iter())
            .map(|(xs, ys)| Question::FirstJoined(xs, ys))
            .collect(),
        Question::Back(state, s) => (parts(s).into_iter())
            .map(|(xs, ys)| Question::BackJoined(*state, xs, ys))
            .collect(),
        _ => vec![],
    }
}

fn finish(rng: &mut Rng, table: &Table, conflicts: &[([u16; 4], u64)]) -> Option<Case> {
    Some(Case {
        name: String::new(),
        table: encode(rng, table)?,
        questions: questions(rng, table, conflicts),
    })
}

fn classic(rng: &mut Rng, seed: u64) -> Option<Case> {
    let text = CLASSIC[seed as usize % CLASSIC.len()];
    let mut rules = parse_rules(text);
    if seed as usize / CLASSIC.len() % 2 == 0 {
        rules = wrap(rules);
    }
    let mut table = grammar_table(rng, &rules);
    let merge = rng.chance(2);
    let conflicts = automaton(rng, &mut table, rules.start, merge)?;
    let mut case = finish(rng, &table, &conflicts)?;
    case.name = format!("({text})");
    Some(case)
}

fn random(rng: &mut Rng) -> Option<Case> {
    let mut rules = random_rules(rng);
    if rng.chance(2) {
        rules = wrap(rules);
    }
    let mut table = grammar_table(rng, &rules);
    let merge = rng.chance(2);
    let mut conflicts = automaton(rng, &mut table, rules.start, merge)?;
    conflicts.extend(any_conflicts(rng, &table, 4));
    finish(rng, &table, &conflicts)
}

/// A real automaton with items and edges changed, and any conflicts.
fn bent(rng: &mut Rng, seed: u64) -> Option<Case> {
    let rules = if rng.chance(2) {
        random_rules(rng)
    } else {
        parse_rules(CLASSIC[seed as usize % CLASSIC.len()])
    };
    let rules = wrap(rules);
    let mut table = grammar_table(rng, &rules);
    automaton(rng, &mut table, rules.start, true)?;
    let states = table.states.len();
    for _ in 0..rng.from_to(1, 6) {
        let all = table.states[rng.below(states)].clone();
        let s = rng.below(states);
        let target = rng.below(states) as u16;
        let state = &mut table.states[s];
        match rng.below(5) {
            0 => state.items.extend(all.items),
            1 if !state.items.is_empty() => {
                let at = rng.below(state.items.len());
                state.items.remove(at);
            }
            2 if !state.edges.is_empty() => {
                let at = rng.below(state.edges.len());
                state.edges[at].1 = target;
            }
            3 => {
                for e in all.edges {
                    if !state.edges.iter().any(|o| o.0 == e.0) {
                        state.edges.push(e);
                    }
                }
            }
            _ => rng.shuffle(&mut state.items),
        }
    }
    let conflicts = any_conflicts(rng, &table, 12);
    finish(rng, &table, &conflicts)
}

/// Conflicts of which at most half are naive or refused, if others are found.
fn any_conflicts(rng: &mut Rng, table: &Table, count: usize) -> Vec<([u16; 4], u64)> {
    let mut tried = try_conflicts(rng, table, 6 * count);
    let dull = |&([a, b, c, d], tokens): &([u16; 4], u64)| {
        let classes = members(tokens).take(4);
        !classes
            .filter_map(|t| crate::plain::class(table, [a, b, c, d, t]))
            .any(|class| class > 0)
    };
    let (dull, mut out): (Vec<_>, Vec<_>) = tried.drain(..).partition(dull);
    out.truncate(count);
    let half = (count - out.len()).max(count / 2);
    out.extend(dull.into_iter().take(half));
    out
}

/// Conflicts with numbers mostly in range.
fn try_conflicts(rng: &mut Rng, table: &Table, count: usize) -> Vec<([u16; 4], u64)> {
    let p = table.productions.len() + rng.chance(20) as usize;
    let t = table.terminals as usize + rng.chance(20) as usize;
    let s = table.states.len() + rng.chance(20) as usize;
    let mut out = vec![];
    for _ in 0..count {
        let state = rng.below(s);
        // Often the token of an item and a production that ends in the state.
        let here = table.states.get(state).map_or(&[][..], |s| &s.items);
        let cursor = |&(p, i): &(u16, u16)| table.productions[p as usize].symbols.get(i as usize);
        let tokens: Vec<u16> = here
            .iter()
            .filter_map(cursor)
            .filter(|s| s.0 == 1)
            .map(|s| s.1)
            .collect();
        let ends: Vec<u16> = here
            .iter()
            .filter(|i| cursor(i).is_none())
            .map(|i| i.0)
            .collect();
        let pick = |rng: &mut Rng, list: &[u16], any: usize| {
            if !list.is_empty() && !rng.chance(3) {
                list[rng.below(list.len())]
            } else {
                rng.below(any.max(1)) as u16
            }
        };
        let production = pick(rng, &ends, p);
        let action = rng.below(2) as u16 + rng.chance(40) as u16;
        let token = pick(rng, &tokens, t + 1);
        let number = match action {
            0 if !rng.chance(3) => token,
            0 => rng.below(t.max(1)) as u16,
            _ => pick(rng, &ends, p),
        };
        let mut set = 1u64 << token.min(63);
        if rng.chance(2) {
            set |= rng.set(t.min(63));
        }
        if rng.chance(30) {
            set = 0;
        }
        out.push(([state as u16, production, action, number], set));
    }
    out
}

/// Any items and edges, one target per symbol.
pub fn arbitrary_table(rng: &mut Rng, big: bool) -> Table {
    let (n, t, s, p) = if big {
        (
            rng.from_to(1, 32),
            rng.below(64),
            rng.from_to(1, 128),
            rng.below(129),
        )
    } else {
        let few = if rng.chance(12) { 0 } else { 1 };
        (
            rng.from_to(1, 5),
            rng.from_to(few, 4),
            rng.from_to(1, 7),
            rng.from_to(2 * few, 12),
        )
    };
    let two = rng.chance(50);
    // Edges on nearly all symbols make long walks back.
    let dense = rng.chance(2);
    let longest = *[1, 2, 3, 4, 16].get(rng.below(5)).unwrap();
    let terminals_rare = rng.from_to(1, 5);
    let symbol = |rng: &mut Rng| {
        if t == 0 || rng.below(6) >= terminals_rare {
            (0, rng.below(n) as u16)
        } else {
            (1, rng.below(t) as u16)
        }
    };
    let mut table = Table {
        terminals: t as u16,
        nonterminals: vec![vec![]; n],
        ..Table::default()
    };
    for q in 0..p {
        let nonterminal = rng.below(n) as u16;
        table.nonterminals[nonterminal as usize].push(q as u16);
        let symbols = (0..rng.below(longest + 1)).map(|_| symbol(rng)).collect();
        table.productions.push(Production {
            nonterminal,
            symbols,
            span: (rng.next() as u16, rng.next() as u16),
        });
    }
    let item_count = rng.from_to(0, if big { 20 } else { 14 });
    let edge_count = match (dense, big) {
        (true, true) => 40,
        (true, false) => 3 * (n + t),
        (false, true) => 12,
        (false, false) => 8,
    };
    for _ in 0..s {
        let mut state = State::default();
        if p > 0 {
            for _ in 0..rng.below(item_count + 1) {
                let q = rng.below(p);
                let length = table.productions[q].symbols.len();
                let index = if rng.chance(2) {
                    0
                } else {
                    rng.below(length + 1)
                };
                state.items.push((q as u16, index as u16));
            }
        }
        for _ in 0..if dense {
            edge_count
        } else {
            rng.below(edge_count + 1)
        } {
            let sym = symbol(rng);
            let known = state.edges.iter().find(|e| e.0 == sym).map(|e| e.1);
            let to = known.unwrap_or(rng.below(s) as u16);
            // The same edge twice is one edge; two targets the Rust cannot hold.
            let to = if two && rng.chance(4) {
                rng.below(s) as u16
            } else {
                to
            };
            if known.is_none() || rng.chance(4) {
                state.edges.push((sym, to));
            }
        }
        table.states.push(state);
    }
    table
}

fn arbitrary(rng: &mut Rng) -> Option<Case> {
    let table = arbitrary_table(rng, false);
    let conflicts = any_conflicts(rng, &table, 10);
    finish(rng, &table, &conflicts)
}

fn wide(rng: &mut Rng) -> Option<Case> {
    let table = arbitrary_table(rng, true);
    let conflicts = any_conflicts(rng, &table, 10);
    finish(rng, &table, &conflicts)
}

/// An edge in words.
fn edge(from: [u16; 3], to: [u16; 3], label: (u16, u16)) -> [u16; 8] {
    let words = [&from[..], &to, &[label.0, label.1]].concat();
    words.try_into().unwrap()
}

/// Graphs made by hand, mostly good.
fn graphs(rng: &mut Rng) -> Option<Case> {
    let table = arbitrary_table(rng, false);
    if table.productions.is_empty() {
        return None;
    }
    let mut questions = vec![];
    for _ in 0..8 {
        let item = |rng: &mut Rng| {
            let p = rng.below(table.productions.len());
            [
                1,
                p as u16,
                rng.below(table.productions[p].symbols.len() + 1) as u16,
            ]
        };
        let items: Vec<[u16; 3]> = (0..rng.from_to(1, 3)).map(|_| item(rng)).collect();
        let node = |rng: &mut Rng| {
            if rng.chance(4) {
                items[rng.below(items.len())]
            } else {
                [0, rng.below(table.nonterminals.len()) as u16, 0]
            }
        };
        let mut edges: Vec<[u16; 8]> = vec![];
        let start = items[0];
        for k in 0..rng.from_to(0, 14) {
            let to = if k == 0 { start } else { node(rng) };
            let (from, label) = (node(rng), item(rng));
            let e = edge(from, to, (label[1], label[2]));
            let symbols = |e: &[u16; 8]| (&table.productions[e[6] as usize].symbols, e[7]);
            let twice = (edges.iter()).any(|o| o[..6] == e[..6] && symbols(o) == symbols(&e));
            if !twice || rng.chance(60) {
                edges.push(e);
            }
        }
        let mut words = graph_words(&edges);
        if rng.chance(12) {
            let at = rng.below(words.len());
            words[at] = rng.below(20) as u16;
        }
        let start = if rng.chance(12) { item(rng) } else { start };
        let set = match rng.below(3) {
            0 => None,
            1 => Some(1 << rng.below(table.terminals as usize + 1)),
            _ => Some(rng.set(table.terminals as usize + 1)),
        };
        questions.push(Question::List((start[1], start[2]), set, words.clone()));
        for _ in 0..2 {
            questions.push(Question::Add(added(rng, &table, &edges), words.clone()));
        }
    }
    Some(Case {
        name: String::new(),
        table: encode(rng, &table)?,
        questions,
    })
}

/// An edge to add: any one, or one of a graph's with one word or its label's
/// production changed, or not changed.
fn added(rng: &mut Rng, table: &Table, edges: &[[u16; 8]]) -> [u16; 8] {
    let production = |rng: &mut Rng| rng.below(table.productions.len()) as u16;
    if edges.is_empty() || rng.chance(4) {
        let nt = rng.below(table.nonterminals.len()) as u16;
        let (p, q) = (production(rng), production(rng));
        return [1, p, 0, 0, nt, 0, q, 0];
    }
    let mut e = edges[rng.below(edges.len())];
    match rng.below(4) {
        0 => {}
        1 => e[rng.below(8)] = rng.below(6) as u16,
        _ => {
            // Of equal symbols if there is another.
            let of = |p: u16| &table.productions[p as usize].symbols;
            let same: Vec<u16> = (0..table.productions.len() as u16)
                .filter(|&p| of(p) == of(e[6]))
                .collect();
            e[6] = same[rng.below(same.len())];
        }
    }
    e
}

/// A good table with words changed, taken away or added.
fn damaged(rng: &mut Rng) -> Option<Case> {
    let big = rng.chance(8);
    let mut table = arbitrary_table(rng, big);
    let (n, count) = (table.nonterminals.len(), table.productions.len());
    let mut changes = rng.from_to(1, 3);
    if count > 0 && rng.chance(10) {
        // 16 or 17 symbols.
        let p = rng.below(count);
        table.productions[p].symbols = vec![(0, 0); rng.from_to(16, 17)];
        changes = rng.below(2);
    }
    let mut words = encode(rng, &table)?;
    if count > 0 && rng.chance(10) {
        // A production chained elsewhere.
        let first = 1 + n + table.states.len();
        let holder = if rng.chance(2) {
            1 + rng.below(n)
        } else {
            first + rng.below(count)
        };
        words[4 * holder] = if rng.chance(3) {
            0
        } else {
            first + rng.below(count)
        } as u16;
        changes = rng.below(2);
    }
    for _ in 0..changes {
        let at = rng.below(words.len().max(1));
        let records = words.len() / 4 + 2;
        let old = words.get(at).copied().unwrap_or(0);
        let (place, word) = match rng.below(11) {
            0 => {
                words.truncate(at);
                continue;
            }
            1 => {
                words.truncate(at & !3);
                continue;
            }
            2 => {
                words.extend([0, 0, 0, 0]);
                continue;
            }
            3 => (at, rng.next() as u16),
            4 => (at, (at / 4) as u16),
            5 => (at, old.wrapping_add(1)),
            6 => (at, old.wrapping_sub(1)),
            7 => (at & !3, rng.below(records) as u16),
            8 => (at & !3 | 1, rng.below(records) as u16),
            9 => (at | 3, rng.below(4) as u16),
            _ => (at, rng.below(8) as u16),
        };
        if let Some(w) = words.get_mut(place) {
            *w = word;
        }
    }
    Some(Case {
        name: String::new(),
        table: words,
        questions: vec![
            Question::Check,
            Question::First0(vec![(0, 0)]),
            Question::Classify([0, 0, 1, 0, 0]),
            Question::FirstJoined(vec![0], vec![0]),
            Question::BackJoined(0, vec![0], vec![0]),
            Question::Respell(32_768),
            Question::Compact,
            Question::Build(0, [64_000, 32_768, 100]),
            Question::WriteYacc(9_468),
        ],
    })
}

// Limits and one past them.

/// Seeds 0 to 6 at the limits, 7 to 13 past them, and so on; with 4 and 5 their
/// own.
fn limit(rng: &mut Rng, seed: u64) -> Option<Case> {
    let past = (seed / 7 % 2) as usize;
    let mut case = match (seed % 7, past) {
        (0, _) => many_edges(1_024 + past),
        (1, _) => many_edges(193 + past),
        (2, _) => many_trials(rng, 100_000 + past as u32, 5),
        (3, _) => many_trials(rng, 100_000 + past as u32, 0),
        (4, 0) => return deep_graph(),
        (5, 0) => return deep_trace(),
        (4, _) => return many_chosen(192),
        (5, _) => return many_chosen(193),
        _ => trials_graph(rng, 100_000 + past as u32),
    }?;
    case.name += [" (at)", " (past)"][past];
    Some(case)
}

/// 128 productions of one nonterminal X: X = t, and 127 of 16 X each.
fn one_nonterminal() -> Table {
    let mut table = empty_table(1, 1);
    add_production(&mut table, 0, vec![(1, 0)]);
    for _ in 1..128 {
        add_production(&mut table, 0, vec![(0, 0); 16]);
    }
    table
}

/// No productions and no states.
pub fn empty_table(terminals: u16, nonterminals: usize) -> Table {
    Table {
        terminals,
        nonterminals: vec![vec![]; nonterminals],
        ..Table::default()
    }
}

/// One more production, its number.
pub fn add_production(table: &mut Table, nonterminal: u16, symbols: Vec<Sym>) -> u16 {
    let p = table.productions.len() as u16;
    table.nonterminals[nonterminal as usize].push(p);
    table.productions.push(Production {
        nonterminal,
        symbols,
        span: (0, 0),
    });
    p
}

/// A state whose edges on all symbols lead to state `to`.
fn leading_to(table: &Table, items: &[(u16, u16)], to: u16) -> State {
    let nonterminals = (0..table.nonterminals.len() as u16).map(|n| (0, n));
    let symbols = nonterminals.chain((0..table.terminals).map(|t| (1, t)));
    State {
        items: items.to_vec(),
        edges: symbols.map(|s| (s, to)).collect(),
    }
}

/// One state, with edges to itself; item 0 is X = (*) t, every other item
/// shifts X behind an X, so that tracing the shift gives one edge and one more
/// for each other item.
fn many_edges(edges: usize) -> Option<Case> {
    let mut table = one_nonterminal();
    let others = (1..128).flat_map(|p| (1..16).map(move |i| (p, i)));
    table.states.push(State {
        items: [(0, 0)]
            .into_iter()
            .chain(others.clone())
            .take(edges)
            .collect(),
        edges: vec![((0, 0), 0), ((1, 0), 0)],
    });
    // A graph with one edge less.
    let lent = others.map(|(p, i)| edge([1, p, i], [0, 0, 0], (p, i)));
    let graph = graph_words(&lent.take(edges - 1).collect::<Vec<_>>());
    Some(Case {
        name: format!("{edges} edges"),
        table: table.encode(true, || 0)?,
        questions: vec![
            Question::Shift(0, (0, 0)),
            Question::Reduce(0, (0, 1)),
            Question::ListTrace(false, 0, (0, 0), None),
            Question::ListTrace(true, 0, (0, 1), Some(1)),
            Question::Classify([0, 0, 0, 0, 0]),
            Question::Classify([0, 0, 0, 0, 1]),
            Question::Choose([0, 0, 0, 0], 1),
            Question::Choose([0, 0, 1, 0], 3),
            Question::Classify([0, 0, 1, 0, 0]),
            Question::Add([1, 1, 1, 0, 0, 0, 1, 1], graph.clone()),
            // The same label by its symbols.
            Question::Add([1, 1, 1, 0, 0, 0, 127, 1], graph.clone()),
            Question::Add([0, 0, 0, 1, 0, 0, 0, 0], graph),
        ],
    })
}

/// One state, with edges to itself, in which one token of a set has so many
/// examples: token 1 for the shift of X = (*) 1, token 2 for the end of Z = 2
/// behind which a Z follows. Every other token has one at most; Y and V are
/// such others.
fn many_chosen(examples: usize) -> Option<Case> {
    let mut table = empty_table(3, 5);
    let [x, y, z, v, w] = [0, 1, 2, 3, 4];
    add_production(&mut table, x, vec![(1, 1)]);
    add_production(&mut table, y, vec![(1, 0)]);
    let ends = add_production(&mut table, z, vec![(1, 2)]);
    let other = add_production(&mut table, v, vec![(1, 2)]);
    let mut items = vec![(0, 0), (1, 0), (ends, 1), (other, 1)];
    for (behind, ahead) in [(y, 1), (z, 0), (v, 0), (v, 1), (v, 2)] {
        let symbols = vec![(1, 0), (0, behind), (1, ahead)];
        items.push((add_production(&mut table, w, symbols), 1));
    }
    // Behind the last Z of a production none follows.
    for (nt, last) in [(x, 16), (z, 15)] {
        let mut left = examples;
        while left > 0 {
            let p = add_production(&mut table, w, vec![(0, nt); 16]);
            let here = (1..last).take(left);
            left -= here.len();
            items.extend(here.map(|i| (p, i)));
        }
    }
    let state = leading_to(&table, &items, 0);
    table.states.push(state);
    let mut questions = vec![];
    for (c, tokens) in [
        ([0, other, 0, 0], 0b011),
        ([0, other, 0, 0], 0b101),
        ([0, ends, 0, 0], 0b101),
        ([0, ends, 0, 0], 0b111),
        ([0, other, 1, ends], 0b1011),
        ([0, other, 1, ends], 0b0101),
        ([0, ends, 1, other], 0b1101),
        ([0, ends, 1, ends], 0b0110),
    ] {
        questions.push(Question::Choose(c, tokens));
        for t in members(tokens) {
            questions.push(Question::Classify([c[0], c[1], c[2], c[3], t]));
        }
    }
    Some(Case {
        name: format!("{examples} examples of one token of a set"),
        table: table.encode(true, || 0)?,
        questions,
    })
}

/// A chain of nonterminals with two edges between neighbours, and edges from
/// nonterminal 31, into which none goes, such that a listing makes so many
/// trials. Of each edge: source, target (None for the start item).
fn trial_chain(trials: u32) -> Vec<(u16, Option<u16>)> {
    // A node with two edges to the next and d others makes 2 (1 + t) + d
    // trials if the next makes t; a last node has one edge for each.
    let mut edges = vec![(0, None)];
    let (mut node, mut left) = (0u16, trials - 1);
    while left > 3 {
        edges.extend([(node + 1, Some(node)); 2]);
        if left % 2 == 1 {
            edges.push((31, Some(node)));
        }
        left = left / 2 - 1;
        node += 1;
    }
    edges.extend((0..left).map(|_| (31, Some(node))));
    edges
}

/// One state, with edges to itself, whose traces make so many trials; up to
/// `examples` of the edges from nonterminal 31 come from items instead.
fn many_trials(rng: &mut Rng, trials: u32, examples: usize) -> Option<Case> {
    let mut table = empty_table(2, 32);
    let mut add = |nonterminal: u16, symbols: Vec<Sym>| {
        let p = add_production(&mut table, nonterminal, symbols);
        table.productions[p as usize].span = (p, p + 1);
        p
    };
    let mut items = vec![];
    let mut from_items = 0;
    for (k, (from, to)) in trial_chain(trials).into_iter().enumerate() {
        // Different lengths make different labels.
        items.push(match to {
            None => (add(from, vec![(1, 0)]), 0),
            Some(to) if from == 31 && to < 3 && from_items < examples => {
                from_items += 1;
                let tail = vec![(1, 1); 1 + k % 4];
                (add(from, [vec![(1, 1), (0, to)], tail].concat()), 1)
            }
            Some(to) => (add(from, [vec![(0, to)], vec![(0, 30); k % 4]].concat()), 0),
        });
    }
    add(30, vec![]);
    rng.shuffle(&mut items);
    let state = leading_to(&table, &items, 0);
    table.states.push(state);
    Some(Case {
        name: format!("{trials} trials, examples by {from_items} items"),
        table: table.encode(true, || 0)?,
        questions: vec![
            Question::Shift(0, (0, 0)),
            Question::Reduce(0, (0, 1)),
            Question::ListTrace(false, 0, (0, 0), None),
            Question::ListTrace(false, 0, (0, 0), Some(2)),
            Question::ListTrace(true, 0, (0, 1), None),
            Question::ListTrace(true, 0, (0, 1), Some(2)),
            Question::Classify([0, 0, 0, 0, 0]),
            Question::Classify([0, 0, 1, 0, 1]),
            Question::Choose([0, 0, 0, 0], 3),
            Question::Choose([0, 0, 0, 0], 2),
            Question::Choose([0, 0, 1, 0], 7),
        ],
    })
}

/// The same by a lent graph, with some edges from items.
fn trials_graph(rng: &mut Rng, trials: u32) -> Option<Case> {
    let mut table = empty_table(1, 32);
    table.states.push(State::default());
    for length in 0..8 {
        add_production(&mut table, 0, vec![(1, 0); length]);
    }
    let mut edges = vec![];
    for (k, (from, to)) in trial_chain(trials).into_iter().enumerate() {
        let from = if from == 31 && rng.chance(4) {
            [1, 7, 7]
        } else {
            [0, from, 0]
        };
        let to = to.map_or([1, 0, 0], |to| [0, to, 0]);
        edges.push(edge(from, to, (k as u16 % 8, 0)));
    }
    rng.shuffle(&mut edges);
    let words = graph_words(&edges);
    Some(Case {
        name: format!("{trials} trials of a lent graph"),
        table: table.encode(true, || 0)?,
        questions: vec![Question::List((0, 0), None, words)],
    })
}

/// A lent graph with 33 labels of 16 symbols.
fn deep_graph() -> Option<Case> {
    let mut table = empty_table(1, 32);
    table.states.push(State::default());
    add_production(&mut table, 0, vec![(1, 0); 16]);
    let mut questions = vec![];
    for index in [0, 7, 16] {
        let mut edges = vec![[0, 0, 0, 1, 0, 16, 0, index]];
        for nt in 1..32 {
            edges.push([0, nt, 0, 0, nt - 1, 0, 0, index]);
        }
        edges.push([1, 0, 3, 0, 31, 0, 0, index]);
        let words = graph_words(&edges);
        questions.push(Question::List((0, 16), None, words.clone()));
        questions.push(Question::List((0, 16), Some(1), words.clone()));
        questions.push(Question::List((0, 16), Some(2), words));
    }
    Some(Case {
        name: "33 labels".into(),
        table: table.encode(true, || 0)?,
        questions,
    })
}

/// Every state and nonterminal entered one inside the other: within a state
/// unit productions lead through all nonterminals, then one behind a terminal
/// leads to the state before.
fn deep_trace() -> Option<Case> {
    let mut table = empty_table(2, 32);
    add_production(&mut table, 0, vec![(1, 0), (0, 31)]);
    for nt in 1..32 {
        add_production(&mut table, nt, vec![(0, nt - 1)]);
    }
    let items: Vec<(u16, u16)> = (0..32).map(|p| (p, (p == 0) as u16)).collect();
    for s in 0..128u16 {
        let to = (s + 1).min(127);
        let edges = vec![((1, 0), to), ((0, 31), to)];
        table.states.push(State {
            items: items.clone(),
            edges,
        });
    }
    // From the last state but one, into which one edge leads.
    Some(Case {
        name: "4,096 pairs nested".into(),
        table: table.encode(true, || 0)?,
        questions: vec![
            // All 4,096, one inside the other.
            Question::Reduce(127, (0, 0)),
            Question::Reduce(126, (0, 2)),
            Question::Reduce(126, (0, 1)),
            Question::Shift(126, (0, 1)),
            Question::ListTrace(true, 126, (0, 1), None),
            Question::Classify([126, 0, 1, 0, 0]),
            Question::Classify([126, 0, 0, 0, 0]),
        ],
    })
}

/// One chain of items shared by 128 states, over prefixes of 15 symbols; the
/// larger the seed, the more items (7,000 at most). Not among `KINDS`: the
/// largest take the Rust long.
fn heavy(seed: u64) -> Option<Case> {
    let count = (100usize << seed.min(7)).min(7_000);
    let mut table = one_nonterminal();
    let items: Vec<(u16, u16)> = (0..count).map(|i| (1 + (i % 127) as u16, 15)).collect();
    for s in 0..128u16 {
        let to = (s + 1) % 128;
        table.states.push(State {
            items: items.clone(),
            edges: vec![((0, 0), to), ((1, 0), to)],
        });
    }
    Some(Case {
        name: format!("{count} items shared by 128 states"),
        table: table.encode(true, || 0)?,
        questions: vec![
            Question::Reduce(0, (0, 1)),
            Question::Classify([0, 0, 1, 0, 0]),
        ],
    })
}

/// Two rows of nonterminals: the first of a row begins with the nonterminal of
/// all other productions, each further one with the one before. 128 states have
/// the items of one row or the other by turns, so that none leads where the state
/// before it led. Behind a row come the items before a nonterminal that no trace
/// enters, `idle` in each of the other productions, and those before the token;
/// of these, again and again, the part that the state has.
fn by_turns(row: u16, idle: usize, part: impl Fn(usize) -> Range<usize>) -> Option<Case> {
    let mut table = empty_table(1, 32);
    let mut rows = [vec![], vec![]];
    for (items, first) in rows.iter_mut().zip([1, 1 + row]) {
        for nt in first..first + row {
            let before = if nt == first { 0 } else { nt - 1 };
            let symbols = [vec![(0, before)], vec![(1, 0); 15]].concat();
            items.insert(0, (add_production(&mut table, nt, symbols), 0));
        }
    }
    let others = [vec![(1, 0); 16 - idle], vec![(0, 31); idle]].concat();
    while table.productions.len() < 128 {
        add_production(&mut table, 0, others.clone());
    }
    let before = |symbol| {
        let mut items = vec![];
        for (p, production) in (0..).zip(&table.productions) {
            let ahead = (0..).zip(&production.symbols).filter(|(_, s)| **s == symbol);
            items.extend(ahead.map(|(i, _)| (p, i)));
        }
        items
    };
    let behind = [before((0, 31)), before((1, 0))].concat();
    for s in 0..128 {
        let part = part(s);
        let behind = behind.iter().cycle().skip(part.start).take(part.len());
        let items: Vec<_> = rows[s % 2].iter().chain(behind).copied().collect();
        let state = leading_to(&table, &items, 0);
        table.states.push(state);
    }
    Some(Case {
        name: "128 states by turns".into(),
        table: table.encode(true, || 0)?,
        questions: vec![Question::Classify([0, 0, 0, 0, 0])],
    })
}

/// The most trials of one classification that were found: 2,000 shift items of
/// one token, each with a listing of 81,919 to 98,302 trials and no example.
/// The seed is the number of states, all alike (128 at most); of seed 129 each
/// has an item of its own before 7,700 that all share, of seed 130 one of two
/// chains of 3,900, by turns; seeds from 131 on are `by_turns`. The edges of all
/// lead to the first. Not among `KINDS`.
///
/// All of 2,048 shift items would leave no place for a nonterminal in any
/// production, and so one trial to each. Here 15 nonterminals stand in a ring:
/// two productions of each begin with the one before, of the first three, so
/// that the walks double at each step. The other productions have nothing but
/// the token.
fn most(seed: u64) -> Option<Case> {
    match seed {
        131 => return by_turns(15, 0, |_| 0..2_018),
        132 => return by_turns(15, 1, |_| 0..7_600),
        133 => return by_turns(15, 1, |s| 0..3_800 + s % 2),
        134 => return by_turns(15, 10, |s| 0..3_800 + s % 2),
        135 => return by_turns(15, 1, |s| 0..2_500 + s % 3),
        136 => return by_turns(15, 1, |s| (127 - s) % 127 * 44..5_700),
        137 => return by_turns(2, 1, |s| (127 - s) % 127 * 57..7_300),
        _ => {}
    }
    let mut table = empty_table(1, 15);
    let mut items = vec![];
    for nt in 0..15 {
        for copy in 0..if nt == 0 { 3 } else { 2 } {
            let behind = vec![(1, 0); 15 - copy];
            let symbols = [vec![(0, (nt + 14) % 15)], behind].concat();
            let p = add_production(&mut table, nt, symbols);
            items.push((p, 0));
        }
    }
    while table.productions.len() < 128 {
        add_production(&mut table, 14, vec![(1, 0); 16]);
    }
    for (p, production) in (0..).zip(&table.productions) {
        let ahead = (0..).zip(&production.symbols).filter(|(_, s)| s.0 == 1);
        items.extend(ahead.map(|(i, _)| (p, i)));
    }
    let again = |count: usize| items.iter().cycle().take(count).copied();
    for s in 0..seed.clamp(1, 128) as usize {
        let items: Vec<_> = match seed {
            129 => [items[s]].into_iter().chain(again(7_700)).collect(),
            130 => again(3_900 + s % 2).collect(),
            _ => items.clone(),
        };
        let state = leading_to(&table, &items, 0);
        table.states.push(state);
    }
    Some(Case {
        name: format!("2,000 listings, {} states", table.states.len()),
        table: table.encode(true, || 0)?,
        questions: vec![Question::Classify([0, 0, 0, 0, 0])],
    })
}
