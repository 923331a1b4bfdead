//! Grammars to build the states of, and what tells one reading of the rule from another.

use crate::answers::{BUILDING, CONFLICTS, REWRITTEN};
use crate::generate::*;
use crate::layouts::scattered;
use crate::question::{Case, Question};
use crate::sample::Maker;
use crate::states::{Built, SCRATCH, build};
use crate::table::*;

/// Room for any table, and for more conflicts than any grammar here has.
pub const ROOM: [usize; 3] = [SCRATCH, 40_000, 600_000];

/// A grammar alone: one state without items and edges; spans that differ.
fn alone(mut table: Table) -> Table {
    table.states = vec![State::default()];
    for (p, production) in (0..).zip(&mut table.productions) {
        production.span = (3 * p, 3 * p + 2);
    }
    table
}

/// Rules as `CLASSIC` has them, but no start is added; a word with a capital
/// letter and no rule is a nonterminal without productions.
fn grammar(text: &str) -> Table {
    let rules: Vec<(&str, &str)> = (text.split(';'))
        .map(|r| r.trim().split_once(':').unwrap())
        .collect();
    let mut names: Vec<&str> = rules.iter().map(|r| r.0.trim()).collect();
    let mut terminals = vec![];
    let mut productions = vec![];
    for (nt, (_, right)) in (0..).zip(&rules) {
        for alternative in right.split('|') {
            let mut symbols = vec![];
            for word in alternative.split_whitespace() {
                let capital = word.starts_with(|c: char| c.is_ascii_uppercase());
                let list = if capital { &mut names } else { &mut terminals };
                if !list.contains(&word) {
                    list.push(word);
                }
                let number = list.iter().position(|w| *w == word).unwrap();
                symbols.push((!capital as u16, number as u16));
            }
            productions.push((nt, symbols));
        }
    }
    let mut table = empty_table(terminals.len() as u16, names.len());
    for (nt, symbols) in productions {
        add_production(&mut table, nt, symbols);
    }
    alone(table)
}

/// A table of rules, and their start's production.
fn with_start(rng: &mut Rng, rules: &Rules) -> (Table, u16) {
    let table = grammar_table(rng, rules);
    let start = table.nonterminals[rules.start as usize][0];
    (alone(table), start)
}

/// More nonterminals, terminals and productions than `random_rules` gives. Each
/// nonterminal has one of terminals alone, and one that uses the next.
fn larger_rules(rng: &mut Rng) -> Rules {
    let (nonterminals, terminals) = (rng.from_to(4, 12), rng.from_to(3, 9));
    let mut productions: Vec<(u16, Vec<Sym>)> = vec![];
    for nt in 0..nonterminals {
        let of = productions.len();
        for _ in 0..rng.from_to(2, 4) {
            let symbols = (0..rng.below(4)).map(|_| {
                if rng.chance(3) {
                    (0, rng.below(nonterminals) as u16)
                } else {
                    (1, rng.below(terminals) as u16)
                }
            });
            productions.push((nt as u16, symbols.collect()));
        }
        productions[of].1.retain(|s| s.0 == 1);
        if nt + 1 < nonterminals {
            productions[of + 1].1.push((0, nt as u16 + 1));
        }
    }
    productions.push((nonterminals as u16, vec![(0, 0)]));
    Rules {
        nonterminals: nonterminals + 1,
        terminals,
        productions,
        start: nonterminals as u16,
    }
}

/// A grammar whose start has one production, and is used in none: the classic
/// ones, bare and between terminals, then random ones.
pub fn fresh_start(seed: u64) -> (Table, u16) {
    let mut rng = Rng::new(seed ^ 0x6672_6573);
    let turn = seed as usize % 500;
    let rules = match turn {
        0..27 => parse_rules(CLASSIC[turn]),
        27..54 => wrap(parse_rules(CLASSIC[turn - 27])),
        _ if rng.chance(3) => larger_rules(&mut rng),
        _ => random_rules(&mut rng),
    };
    with_start(&mut rng, &rules)
}

/// Any productions, useless ones and nonterminals without any among them; any
/// start.
fn any_grammar(rng: &mut Rng, big: bool) -> (Table, u16) {
    let table = alone(arbitrary_table(rng, big));
    let start = rng.below(table.productions.len() + 1) as u16;
    (table, start)
}

/// So many states: 0, one behind the start's S, and one for each symbol of
/// productions of S that begin with different terminals.
fn many_states(states: usize) -> Table {
    let mut table = empty_table(10, 2);
    add_production(&mut table, 1, vec![(0, 0)]);
    let mut left = states - 2;
    while left > 0 {
        let length = left.min(16);
        let first = table.productions.len() as u16;
        let symbols = [vec![(1, first)], vec![(1, 0); length - 1]].concat();
        add_production(&mut table, 0, symbols);
        left -= length;
    }
    alone(table)
}

/// So many records, edges counted or not: productions of A with the same 15
/// symbols and 20 last ones, read in three places, each of which makes a record,
/// 16 symbols and 17 items in each place; then productions out of reach until
/// they are so many.
fn many_records(records: usize, with_edges: bool) -> Table {
    let mut table = empty_table(23, 5);
    let [z, s, a, x, u] = [0, 1, 2, 3, 4];
    let read = |k: u16| [vec![(0, x); 15], vec![(1, k % 20)]].concat();
    add_production(&mut table, z, vec![(0, s)]);
    for t in 20..23 {
        add_production(&mut table, s, vec![(1, t), (0, a), (1, t)]);
    }
    for k in 0..100 {
        add_production(&mut table, a, read(k));
    }
    table.states = vec![State::default()];
    let built = build(&words(&table), 0, ROOM).ok().unwrap();
    let counted = if with_edges { 0 } else { edges(&built) };
    let mut left = records + counted - built.records.len();
    let each = 1 + 16 + 3 * 17;
    for k in 0..left / each {
        add_production(&mut table, a, read(k as u16));
    }
    left %= each;
    while left > 0 {
        let length = (left - 1).min(16);
        add_production(&mut table, u, vec![(0, u); length]);
        left -= 1 + length;
    }
    alone(table)
}

/// Equal empty productions under all 64 tokens: A before each terminal and at
/// the end.
fn many_conflicts(equal: usize) -> Table {
    let mut table = empty_table(63, 3);
    let [z, s, a] = [0, 1, 2];
    add_production(&mut table, z, vec![(0, s)]);
    add_production(&mut table, s, vec![(0, a)]);
    for t in 0..63 {
        add_production(&mut table, s, vec![(0, a), (1, t)]);
    }
    for _ in 0..equal {
        add_production(&mut table, a, vec![]);
    }
    alone(table)
}

/// 63 terminals; behind the last one two productions end, under all tokens.
fn all_terminals() -> Table {
    let mut table = empty_table(63, 3);
    add_production(&mut table, 0, vec![(0, 1)]);
    add_production(&mut table, 1, vec![(0, 1), (0, 2)]);
    add_production(&mut table, 1, vec![(0, 2)]);
    for t in (0..63).chain([62]) {
        add_production(&mut table, 2, vec![(1, t)]);
    }
    alone(table)
}

/// Tokens that walk one path twice: B31 = B0 t, B30 = B31, .., B0 = B1 and
/// B0 = B0.
fn long_rounds() -> Table {
    let mut table = empty_table(1, 32);
    add_production(&mut table, 0, vec![(0, 0)]);
    for nt in 0..31 {
        add_production(&mut table, nt, vec![(0, nt + 1)]);
    }
    add_production(&mut table, 31, vec![(0, 0), (1, 0)]);
    alone(table)
}

fn words(table: &Table) -> Vec<u16> {
    table.encode(true, || 0).unwrap()
}

fn edges(built: &Built) -> usize {
    built.table.states.iter().map(|s| s.edges.len()).sum()
}

/// The least room in records at which states are refused by 16, if they are.
fn room_for_states(table: &[u16], start: u16) -> Option<usize> {
    let number = |room: usize| {
        let lent = [SCRATCH, 4 * room, ROOM[2]];
        build(table, start, lent).err().map_or(0, |r| r.number)
    };
    let (mut low, mut high) = (0, 8_192);
    if number(high) != 16 {
        return None;
    }
    while high - low > 1 {
        let middle = (low + high) / 2;
        if number(middle) == 16 {
            high = middle;
        } else {
            low = middle;
        }
    }
    Some(high)
}

/// What may be lent: all, then each list at an end of its own and one word
/// less.
fn lent(table: &[u16], start: u16) -> Vec<[usize; 3]> {
    let [scratch, out, list] = ROOM;
    let mut all = vec![ROOM];
    if let Ok(built) = build(table, start, ROOM) {
        let (records, leaving) = (4 * built.records.len(), 4 * edges(&built));
        let conflicts = 5 * built.conflicts.len();
        all.push([scratch, records, conflicts]);
        all.push([scratch - 1, records, conflicts]);
        all.push([scratch + 5, records + 3, conflicts + 4]);
        for room in [records - 1, records - leaving, records - leaving - 1, 3, 0] {
            all.push([scratch, room, list]);
        }
        all.push([scratch, records - 1, conflicts.saturating_sub(1)]);
        all.push([scratch, out, conflicts.saturating_sub(1)]);
        all.push([scratch, out, 0]);
    } else if let Some(room) = room_for_states(table, start) {
        all.push([scratch, 4 * room, 0]);
        all.push([scratch, 4 * room - 1, 0]);
        all.push([scratch, 4 * room - 4, list]);
        all.push([scratch - 1, 4 * room, 0]);
    }
    all
}

/// Limits, one after the other.
fn limit(turn: u64) -> (&'static str, Table, u16) {
    match turn % 10 {
        0 => ("128 states", many_states(128), 0),
        1 => ("129 states", many_states(129), 0),
        2 => ("8,192 records", many_records(8_192, true), 0),
        3 => ("8,193 records", many_records(8_193, true), 0),
        4 => ("8,192 records, edges aside", many_records(8_192, false), 0),
        5 => ("8,193 records, edges aside", many_records(8_193, false), 0),
        6 => ("113,280 conflicts", many_conflicts(60), 0),
        7 => ("64 conflicts", all_terminals(), 0),
        8 => ("63 rounds", long_rounds(), 0),
        _ => ("146 states", many_states(146), 0),
    }
}

/// Small ones, the classic grammar of expressions, and the limits.
pub fn measured() -> Vec<(&'static str, Vec<u16>, u16)> {
    let told = [("E is E + E or n", CLASSIC[0]), ("expressions", CLASSIC[2])];
    let told = told.map(|(name, text)| (name, grammar(text), 0));
    let limits = (0..9).map(limit);
    let all = told.into_iter().chain(limits);
    all.map(|(name, table, start)| (name, words(&table), start))
        .collect()
}

/// Of ten seeds four give grammars with a start of its own, four any
/// productions, one large ones, one a limit.
fn any(seed: u64) -> (String, Rng, Table, u16) {
    let mut rng = Rng::new(seed ^ 0x6275_696c);
    let (table, start) = match seed % 10 {
        0..4 => fresh_start(rng.below(2_000) as u64),
        4..8 => any_grammar(&mut rng, false),
        8 => any_grammar(&mut rng, true),
        _ => {
            let (name, table, start) = limit(seed / 10);
            return (name.into(), rng, table, start);
        }
    };
    (String::new(), rng, table, start)
}

/// A grammar, scattered, with what may be lent, other starts, and states that
/// are given.
pub fn case(seed: u64) -> Option<Case> {
    let (name, mut rng, mut table, start) = any(seed);
    if rng.chance(20) {
        table.states.push(State::default());
    }
    if rng.chance(20) && !table.productions.is_empty() {
        table.states[0].items.push((0, 0));
    }
    if rng.chance(20) {
        table.states[0].edges.push(((0, 0), 0));
    }
    let words = scattered(&mut rng, &table)?;
    let productions = table.productions.len() as u16;
    let mut questions: Vec<Question> = (lent(&words, start).into_iter())
        .map(|lent| Question::Build(start, lent))
        .collect();
    for start in [
        rng.below(productions as usize + 1) as u16,
        productions,
        65_535,
    ] {
        questions.push(Question::Build(start, ROOM));
        questions.push(Question::Build(start, [SCRATCH - 1, 0, 0]));
    }
    Some(Case {
        name,
        table: words,
        questions,
    })
}

/// A table that was built, with every conflict of it: of each token, and of all
/// tokens of one production and action together.
pub fn built(seed: u64) -> Option<Case> {
    let (name, mut rng, table, start) = match seed % 10 {
        8 | 9 => any(seed / 10 * 10 + seed % 2),
        _ => any(seed),
    };
    let built = build(&scattered(&mut rng, &table)?, start, ROOM).ok()?;
    let words = built.records.concat();
    let mut questions = vec![
        Question::Check,
        Question::Respell(words.len() as u16),
        Question::Compact,
    ];
    for conflict in &built.conflicts {
        questions.push(Question::Classify(*conflict));
        questions.push(Question::Observed(*conflict));
    }
    let same = |a: &[u16; 5], b: &[u16; 5]| a[..4] == b[..4];
    for of in built.conflicts.chunk_by(same) {
        let set = of.iter().fold(0, |set, c| set | 1 << c[4]);
        questions.push(Question::Choose(
            [of[0][0], of[0][1], of[0][2], of[0][3]],
            set,
        ));
    }
    Some(Case {
        name: format!("{name} {} conflicts", built.conflicts.len())
            .trim()
            .into(),
        table: words,
        questions,
    })
}

// The stored sample.

/// As much as tests/c/replay.c has.
const LENT: [usize; 3] = [BUILDING, REWRITTEN, CONFLICTS];

/// Op 20.
fn ask(m: &mut Maker, table: &[u16], start: u16, lent: [usize; 3]) {
    let lent = [0, 1, 2].map(|k| lent[k].min(LENT[k]) as u16);
    m.put(20, table, &[&[start], &lent[..]].concat());
}

/// With each start, if they are few; with all that may be lent of the first.
fn at_ends(m: &mut Maker, table: &Table, starts: &[u16]) {
    let table = words(table);
    for (k, &start) in starts.iter().enumerate() {
        ask(m, &table, start, LENT);
        if k == 0 {
            for lent in lent(&table, start) {
                ask(m, &table, start, lent);
            }
        }
    }
}

/// What the start is, which nonterminals are of use, where there is a
/// lookahead; conflicts of each sort.
const TOLD: [&str; 30] = [
    "S: A X ; A: a",
    "S: A X b ; A: a",
    "S: A B X ; A: a ; B:",
    "S: A B X ; A: a ; B: | b",
    "S: X A ; A: a",
    "S: X",
    "S: a S",
    "S: a S | A ; A: b A",
    "S: a ; U: b S | U ; V:",
    "S: a | a",
    "S: S | a",
    "Z: S ; S: S | a",
    "Z: S ; S: Z a | b",
    "Z: S ; S: Z Z | b",
    "E: E + E | n",
    "E: n | E + E",
    "S:",
    "S: S S |",
    "S: | S a S b",
    "S: t A B u ; A: x | ; B: | y",
    "S: t A B ; A: x | ; B: | y A",
    "S: A | B | C ; A: x ; B: x ; C: x",
    "S: A y | B y | C y | x y ; A: x ; B: x ; C: x",
    "S: C ; C: B ; B: A ; A: a",
    "S: a A d | b B d | a B e | b A e ; A: c ; B: c",
    "S: A B | B A ; A: | a ; B: | b",
    "S: L = R | R ; L: * R | id ; R: L",
    "S: C C ; C: c C | d",
    "S: b A a | A b | c ; A: | X A",
    "S: a b c d e f g h i j k l m n o p",
];

/// States given, starts out of range, short scratch, and two of them at once.
fn refusals(m: &mut Maker) {
    let table = grammar("E: E + E | n");
    let good = words(&table);
    for scratch in [0, 63_999, 64_000, 64_001] {
        for start in [0, 1, 2, 65_535] {
            for room in [REWRITTEN, 0] {
                ask(m, &good, start, [scratch, room, room]);
            }
        }
    }
    let mut given: Vec<Table> = vec![table; 6];
    given[0].states.push(State::default());
    given[1].states[0].items.push((0, 0));
    given[2].states[0].edges.push(((1, 0), 0));
    given[3].states[0].edges.push(((0, 0), 0));
    given[4].states.push(State::default());
    given[4].states[1].items.push((1, 1));
    given[5].states = vec![State::default(); 128];
    for table in &given {
        let table = words(table);
        for (start, scratch) in [(0, 64_000), (2, 64_000), (0, 63_999)] {
            ask(m, &table, start, [scratch, REWRITTEN, CONFLICTS]);
        }
    }
    ask(m, &table_b(), 0, LENT);
    // No production at all.
    for table in [[1, 0, 1, 0], [32, 63, 1, 0]] {
        let mut words = table.to_vec();
        words.resize(4 * (2 + table[0] as usize), 0);
        ask(m, &words, 0, LENT);
    }
    // 1 to 8 go before all others.
    let records = good.len() / 4;
    let changes = [
        (3, 200),
        (3, 1),
        (4, 0),
        (4, 4),
        (8, 3),
        (12, 0),
        (13, 65_535),
        (17, 1),
    ];
    let loose = [
        (20, 5),
        (21, 2),
        (22, 9),
        (23, 1),
        (4 * records - 2, 2),
        (4 * records - 1, 7),
    ];
    for (at, word) in changes.into_iter().chain(loose) {
        let mut table = good.clone();
        table[at] = word;
        ask(m, &table, 0, LENT);
        ask(m, &table, 9, [0; 3]);
    }
    for words in [0, 1, 3, 4, good.len() - 1, good.len() - 4] {
        ask(m, &good[..words], 9, [0; 3]);
    }
    ask(m, &[1; 32_772], 0, LENT);
    // 5 and 7: 17 symbols; an item's index.
    let mut long = grammar("S: a");
    long.productions[0].symbols = vec![(1, 0); 17];
    ask(m, &words(&long), 9, [0; 3]);
    let mut b = table_b();
    b[74] = 4;
    ask(m, &b, 9, [0; 3]);
}

pub fn builds(m: &mut Maker) {
    refusals(m);
    for text in TOLD {
        at_ends(m, &grammar(text), &[0, 1, 2]);
    }
    for (turn, text) in (0..).zip(CLASSIC) {
        let (table, start) = with_start(&mut Rng::new(turn), &parse_rules(text));
        ask(m, &words(&table), start, LENT);
    }
    for turn in 0..10 {
        let (_, table, start) = limit(turn);
        at_ends(m, &table, &[start]);
    }
    m.out.seeds += "build: seeds 0 to 199\n";
    for seed in (0..200).filter(|seed| seed % 10 < 8) {
        let (_, mut rng, table, start) = any(seed);
        if let Some(table) = scattered(&mut rng, &table).filter(|w| w.len() < 800) {
            ask(m, &table, start, LENT);
        }
    }
}
