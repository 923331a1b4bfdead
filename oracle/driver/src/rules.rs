//! Cases of the stored sample that tell one reading of a rule from another:
//! each wrong reading of oracle/readings changes some answer.

use crate::answers::set_words;
use crate::conflicts::conflict;
use crate::question::Question;
use crate::sample::Maker;
use crate::side::symbol_words;
use crate::table::*;

const N: fn(u16) -> Sym = |n| (0, n);
const T: fn(u16) -> Sym = |t| (1, t);

/// A table of productions in order, and of states with their items and edges.
fn table(
    nonterminals: usize,
    terminals: u16,
    productions: &[(u16, &[Sym])],
    states: &[(&[(u16, u16)], &[(Sym, u16)])],
) -> Vec<u16> {
    let mut out = Table {
        terminals,
        nonterminals: vec![vec![]; nonterminals],
        ..Table::default()
    };
    for (p, &(nonterminal, symbols)) in (0..).zip(productions) {
        out.nonterminals[nonterminal as usize].push(p);
        out.productions.push(Production {
            nonterminal,
            symbols: symbols.to_vec(),
            span: (10 * p + 1, 10 * p + 7),
        });
    }
    for (items, edges) in states {
        out.states.push(State {
            items: items.to_vec(),
            edges: edges.to_vec(),
        });
    }
    out.encode(false, || 0).unwrap()
}

/// Every trace of a table: each item from each state, each item one past its
/// end.
fn traces(m: &mut Maker, t: &[u16]) {
    let read = decode(t).unwrap();
    for state in 0..read.states.len() as u16 {
        for (p, production) in (0..).zip(&read.productions) {
            for i in 0..=production.symbols.len() as u16 + 1 {
                m.ask(t, &Question::Shift(state, (p, i)));
                m.ask(t, &Question::Reduce(state, (p, i)));
            }
        }
    }
}

/// Every item, and what is out of range.
fn items(m: &mut Maker, t: &[u16]) {
    let read = decode(t).unwrap();
    for (p, production) in (0..).zip(&read.productions) {
        for i in 0..=production.symbols.len() as u16 + 1 {
            m.ask(t, &Question::Item((p, i)));
        }
    }
    m.ask(t, &Question::Item((read.productions.len() as u16, 0)));
}

/// Table C, whose traces are marked beside table B's.
fn on_c(m: &mut Maker) {
    let c = table_c();
    m.check(&c);
    traces(m, &c);
    items(m, &c);
    for state in 0..3 {
        for action in [0, 1] {
            conflict(m, &c, [state, 3, action, 2 * action, 0]);
            conflict(m, &c, [state, 2, action, 3 * action, 1]);
        }
    }
}

/// Tracing: an item past index 0 ends the epsilon step, though its nonterminal
/// is shifted in the same state; one at index 0 goes on, also twice.
fn epsilon(m: &mut Maker) {
    // X is t Y, Z is u X, Y is t; W is Y, V is W.
    let productions: &[(u16, &[Sym])] = &[
        (0, &[T(0), N(1)]),
        (2, &[T(1), N(0)]),
        (1, &[T(0)]),
        (3, &[N(1)]),
        (4, &[N(3)]),
        (5, &[T(0), N(4), N(4)]),
    ];
    let states: &[(&[(u16, u16)], &[(Sym, u16)])] = &[
        (&[(0, 1), (1, 1), (2, 0)], &[(T(0), 1), (T(1), 0)]),
        (
            &[(0, 1), (3, 0), (4, 0), (5, 1), (5, 2), (2, 0), (1, 1)],
            &[(T(0), 1), (N(4), 1)],
        ),
    ];
    let t = table(6, 2, productions, states);
    traces(m, &t);
    for state in [0, 1] {
        conflict(m, &t, [state, 2, 0, 0, 0]);
        conflict(m, &t, [state, 3, 0, 0, 0]);
    }
}

/// One state with items, all edges into itself.
fn one(
    nonterminals: usize,
    terminals: u16,
    productions: &[(u16, &[Sym])],
    items: &[(u16, u16)],
) -> Vec<u16> {
    let symbols = (0..nonterminals as u16).map(N).chain((0..terminals).map(T));
    let edges: Vec<(Sym, u16)> = symbols.map(|s| (s, 0)).collect();
    table(nonterminals, terminals, productions, &[(items, &edges)])
}

/// Both ambiguous and a question: X is nothing or Y, S is u X t or u V, V is
/// Y t. Then not ambiguous, V is Y t t.
fn question_after_ambiguity(m: &mut Maker) {
    for shifted in [&[N(3), T(0)][..], &[N(3), T(0), T(0)]] {
        let productions: &[(u16, &[Sym])] = &[
            (0, &[T(1), N(1), T(0)]),
            (0, &[T(1), N(2)]),
            (1, &[]),
            (1, &[N(3)]),
            (2, shifted),
            (3, &[T(1)]),
        ];
        let t = one(4, 2, productions, &[(0, 1), (1, 1), (3, 1), (4, 1)]);
        conflict(m, &t, [0, 3, 0, 0, 0]);
    }
}

/// An item that stands twice in a state: shift items are a set.
fn items_twice(m: &mut Maker) {
    let productions: &[(u16, &[Sym])] = &[(0, &[N(0), T(0), N(0)]), (0, &[T(1)])];
    let items = [(0, 1), (0, 2), (0, 1), (0, 2), (0, 3), (1, 0)];
    let t = one(1, 2, productions, &items);
    traces(m, &t);
    conflict(m, &t, [0, 0, 0, 0, 0]);
    conflict(m, &t, [0, 0, 0, 1, 1]);
}

/// Shift items in order of nonterminal, then symbols, then production and
/// index, whatever the order of production numbers and of the chain.
fn items_in_order(m: &mut Maker) {
    let pairs: [[(u16, &[Sym]); 2]; 5] = [
        [(1, &[T(0), T(2)]), (0, &[T(0), T(2)])],
        [(0, &[T(0), T(3)]), (0, &[T(0), T(2)])],
        [(0, &[T(0), T(2)]), (0, &[T(0), N(1)])],
        [(0, &[T(0), N(2)]), (0, &[T(0), N(1)])],
        [(0, &[T(0), T(2)]), (0, &[T(0), T(2)])],
    ];
    for pair in pairs {
        for turned in [0, 1] {
            // A and B are the pair's, R is nothing, S is u A, u B or u R t.
            let productions: &[(u16, &[Sym])] = &[
                pair[turned],
                pair[1 - turned],
                (2, &[]),
                (3, &[T(1), N(0)]),
                (3, &[T(1), N(1)]),
                (3, &[T(1), N(2), T(0)]),
            ];
            for first in [[(0, 0), (1, 0)], [(1, 0), (0, 0)]] {
                let items = [&first[..], &[(2, 0), (3, 1), (4, 1), (5, 1)]].concat();
                conflict(m, &one(4, 4, productions, &items), [0, 2, 0, 0, 0]);
            }
        }
    }
}

/// A question only for a shift: X is nothing or one symbol, S is X a b or
/// Z a c. Kind and number of the symbol differ, and both orders of the two
/// productions stand.
fn question(m: &mut Maker) {
    for (symbol, empty_first) in [(T(0), true), (T(2), false), (N(2), true), (N(1), false)] {
        let (x, y): (&[Sym], &[Sym]) = (&[], &[symbol]);
        let (first, second) = if empty_first { (x, y) } else { (y, x) };
        let productions: &[(u16, &[Sym])] = &[
            (0, &[N(1), T(0), T(1)]),
            (0, &[N(2), T(0), T(2)]),
            (1, first),
            (1, second),
            (2, &[]),
            (0, &[T(3), N(0), T(3)]),
            (2, &[T(0), T(0)]),
        ];
        let items = [(0, 0), (1, 0), (2, 0), (3, 0), (4, 0), (6, 0), (5, 1)];
        let t = one(3, 4, productions, &items);
        let empty = 3 - empty_first as u16;
        conflict(m, &t, [0, empty, 1, 4, 0]);
        conflict(m, &t, [0, 4, 1, empty, 0]);
        conflict(m, &t, [0, empty, 0, 0, 0]);
        conflict(m, &t, [0, 4, 0, 0, 0]);
        conflict(m, &t, [0, empty, 0, 2, 0]);
    }
}

/// Inlining: the second reduction must end elsewhere and be of another
/// nonterminal.
fn inline(m: &mut Maker) {
    // Y is c a d, X is c: X stands before a b in X, in W, in V around W.
    let sorts: [&[(u16, &[Sym])]; 4] = [
        // Of the same nonterminal.
        &[(1, &[N(1), T(0), T(1)])],
        // Of another.
        &[(2, &[N(1), T(0), T(1)])],
        // The second ends with the first, the third does not.
        &[(2, &[N(1)]), (3, &[N(2), T(0), T(1)])],
        // The same, the third of the first's nonterminal.
        &[(2, &[N(1)]), (1, &[N(2), T(0), T(1)])],
    ];
    for sort in sorts {
        for ahead in [T(2), T(1), T(0)] {
            let mut productions: Vec<(u16, &[Sym])> = vec![];
            let (shifted, reduced) = ([T(3), T(0), ahead], [T(3)]);
            let around: Vec<(u16, Vec<Sym>)> =
                (0..4).map(|n| (4, vec![T(3), N(n), T(3)])).collect();
            productions.push((0, &shifted));
            productions.push((1, &reduced));
            productions.extend(around.iter().map(|(n, s)| (*n, &s[..])));
            productions.extend(sort);
            let mut items = vec![(0, 1), (1, 1)];
            items.extend((2..6).map(|p| (p, 1)));
            items.extend((6..6 + sort.len() as u16).map(|p| (p, 0)));
            let t = one(5, 4, &productions, &items);
            conflict(m, &t, [0, 1, 0, 0, 0]);
        }
    }
}

/// A record reached as a symbol, an item, an edge, or several of these, with
/// every word that some of them refuse. Productions of no symbol and of two
/// and the record's, three states.
fn roles(m: &mut Maker) {
    let mut ask = |roles: u16, record: [u16; 4]| {
        let head = |k: u16, at: u16| if roles >> k & 1 == 1 { at } else { 0 };
        // Records 1, 2 nonterminals; 3 to 5 states; 6 to 8 productions; 9 and
        // 10 two symbols; 11 what is tried, 12 a good record of any sort.
        let t = [
            [2, 2, 3, 3],
            [6, 0, 0, 0],
            [8, 0, 0, 0],
            [12, 12, 0, 0],
            [head(1, 11), 0, 0, 0],
            [0, head(2, 11), 0, 0],
            [7, 9, 0, 0],
            [0, 0, 0, 0],
            [0, head(0, 11), 0, 0],
            [10, 1, 0, 0],
            [0, 0, 1, 0],
            record,
            [0, 0, 0, 0],
        ];
        m.check(&t.concat());
    };
    for roles in 1..8 {
        for kind in 0..4 {
            for number in 0..4 {
                for last in [0, 2, 3] {
                    ask(roles, [0, kind, number, last]);
                }
            }
        }
        for next in [10, 11, 12, 13] {
            ask(roles, [next, 0, 0, 0]);
            ask(roles, [next, 2, 3, 3]);
        }
    }
}

/// Rows against each other, and a production in two chains and in three.
fn chains(m: &mut Maker) {
    // Three nonterminals, one state, two productions: of no symbol and of 17.
    let mut t = vec![
        [3, 1, 1, 2],
        [5, 0, 0, 0],
        [6, 0, 0, 0],
        [0, 0, 0, 0],
        [0, 0, 0, 0],
        [0, 0, 0, 0],
        [0, 7, 0, 0],
    ];
    for i in 0..17 {
        t.push([if i < 16 { 8 + i } else { 0 }, 1, 0, 0]);
    }
    for length in [16, 17] {
        let first = 7 + 17 - length;
        for heads in [
            [5, 6, 0],
            [6, 0, 0],
            [5, 0, 0],
            [0, 0, 0],
            [5, 5, 6],
            [5, 6, 6],
            [5, 5, 5],
            [6, 6, 6],
            [5, 6, 5],
        ] {
            for (n, head) in heads.into_iter().enumerate() {
                t[1 + n][0] = head;
            }
            t[6][1] = first;
            m.check(&t.concat());
            // A wrong symbol too, a spare word.
            let mut worse = t.clone();
            worse[20][2] = 1;
            m.check(&worse.concat());
            let mut spare = t.clone();
            spare[3][3] = 1;
            m.check(&spare.concat());
        }
        // In three chains by a chain that goes on to it.
        let mut t = t.clone();
        t[6][1] = first;
        for (n, head) in [5, 5, 6].into_iter().enumerate() {
            t[1 + n][0] = head;
        }
        t[5][0] = 6;
        m.check(&t.concat());
    }
}

/// 16 symbols: items at 15, 16 and 17.
fn sixteen(m: &mut Maker) {
    let long = [[N(0), T(0)]; 8].concat();
    for index in [0, 15, 16, 17] {
        let t = table(
            1,
            2,
            &[(0, &long), (0, &[T(1)]), (0, &long[1..])],
            &[(&[(0, index), (0, 2), (1, 1)], &[(N(0), 0), (T(0), 0)])],
        );
        m.check(&t);
        if index < 17 {
            items(m, &t);
            for item in [(0, 16), (0, 15), (0, 17), (2, 15), (2, 16)] {
                m.ask(&t, &Question::Shift(0, item));
                m.ask(&t, &Question::Reduce(0, item));
            }
            conflict(m, &t, [0, 0, 0, 0, 0]);
            conflict(m, &t, [0, 1, 0, 0, 0]);
        }
    }
}

/// 128 states in a ring by terminal 0, and by the nonterminal one back; lists
/// of symbols longer than a production and than 64.
fn long_lists(m: &mut Maker) {
    let edges: Vec<[(Sym, u16); 2]> = (0..128)
        .map(|s| [(T(0), (s + 1) % 128), (N(0), (s + 127) % 128)])
        .collect();
    let states: Vec<(&[(u16, u16)], &[(Sym, u16)])> = edges
        .iter()
        .map(|e| (&[(1, 0), (1, 1)][..], &e[..]))
        .collect();
    let productions: &[(u16, &[Sym])] = &[(0, &[]), (0, &[T(1), N(0)])];
    let t = table(1, 3, productions, &states);
    m.check(&t);
    for target in [0, 126, 127] {
        for n in [1, 16, 17, 64, 65, 127, 128, 129, 300] {
            m.ask(&t, &Question::Back(target, vec![T(0); n]));
        }
        let both = [vec![T(0); 70], vec![N(0); 3]].concat();
        m.ask(&t, &Question::Back(target, both));
    }
    m.ask(&t, &Question::Back(128, vec![]));
    m.ask(&t, &Question::Shift(127, (1, 0)));
    m.ask(&t, &Question::Shift(127, (1, 1)));
    m.ask(&t, &Question::Reduce(127, (1, 2)));
    m.ask(&t, &Question::Reduce(128, (1, 2)));
    conflict(m, &t, [127, 0, 0, 1, 1]);
    conflict(m, &t, [128, 0, 0, 1, 1]);
    let mut past = t.clone();
    let last = past.len() - 1;
    past[last] = 128;
    m.check(&past);
    let small = table(1, 3, productions, &[(&[(1, 1)], &[])]);
    for n in [15, 16, 17, 63, 64, 65, 300] {
        for tail in [vec![], vec![T(2)], vec![N(0), T(0), N(0)]] {
            let list = [vec![N(0); n], tail].concat();
            m.ask(&small, &Question::First0(list.clone()));
            m.ask(&small, &Question::First1(list.clone(), 1));
            m.ask(&small, &Question::First1(list, 8));
        }
    }
}

/// 63 terminals: the end is bit 63.
fn last_bit(m: &mut Maker) {
    let productions: &[(u16, &[Sym])] = &[
        (0, &[]),
        (0, &[T(62), N(0), N(1)]),
        (1, &[T(62)]),
        (0, &[T(61), N(0), T(62)]),
    ];
    let items = [(1, 1), (1, 2), (2, 0), (3, 1), (0, 0)];
    let t = one(2, 63, productions, &items);
    m.check(&t);
    for list in [
        vec![],
        vec![N(0)],
        vec![N(1)],
        vec![N(0), N(1)],
        vec![N(0), N(0)],
        vec![T(62)],
        vec![T(63)],
    ] {
        m.ask(&t, &Question::First0(list.clone()));
        for set in [0, 1, 1 << 62, 1 << 63, u64::MAX] {
            m.ask(&t, &Question::First1(list.clone(), set));
        }
    }
    traces(m, &t);
    for token in [61, 62, 63] {
        conflict(m, &t, [0, 0, 0, 62, token]);
        conflict(m, &t, [0, 0, 1, 2, token]);
    }
}

/// Token sets of every size, ends and a few in between.
fn sets(m: &mut Maker) {
    for terminals in [0u16, 1, 2, 7, 31, 32, 33, 62, 63] {
        let all = u64::MAX >> (63 - terminals);
        let end = 1u64 << terminals;
        let some = [
            0,
            all,
            end,
            all & !end,
            all & 0x5555_5555_5555_5555,
            all & 0xaaaa_0000_ffff_1234,
            1,
            all & 0x8000_0001_8000_0001,
        ];
        for (k, a) in some.into_iter().enumerate() {
            for (j, b) in some.into_iter().enumerate() {
                let token = [0, terminals, terminals / 2, terminals.saturating_sub(1)][(k + j) % 4];
                let words = [vec![terminals, token], set_words(a), set_words(b)];
                m.put(14, &[], &words.concat());
            }
        }
    }
}

/// Joined lists: lists in two parts at every word, of an odd
/// number of words too, over tables that are refused too.
fn in_two(m: &mut Maker) {
    let productions: &[(u16, &[Sym])] = &[
        (0, &[]),
        (0, &[T(0)]),
        (1, &[T(1)]),
        (2, &[N(0), N(0)]),
        (4, &[N(3), T(2)]),
    ];
    let states: &[(&[(u16, u16)], &[(Sym, u16)])] = &[
        (&[(1, 0)], &[(N(0), 1), (T(0), 2), (T(1), 3)]),
        (&[], &[(N(0), 2), (T(1), 3)]),
        (&[], &[(N(0), 3), (T(0), 1)]),
        (&[], &[(N(0), 2), (T(1), 4), (N(1), 0)]),
        (&[], &[(T(0), 3), (N(0), 4), (N(1), 1)]),
    ];
    let t = table(5, 3, productions, states);
    m.check(&t);
    let lists: [&[Sym]; 16] = [
        &[],
        &[N(0)],
        &[N(1)],
        &[N(3)],
        &[T(2)],
        &[N(0), N(2)],
        &[N(0), N(1)],
        &[N(1), N(0)],
        &[N(2), T(0)],
        &[N(0), N(0), T(1)],
        &[N(3), N(1)],
        &[T(1), N(0), T(0)],
        &[N(4), N(0)],
        &[N(0), T(3)],
        &[N(5), N(0)],
        &[(2, 0), N(0)],
    ];
    for list in lists {
        let words = symbol_words(list);
        halves(m, &t, &words, &[0, 1, 2, 3, 4, 5]);
        let more = [&words[..], &[1]].concat();
        halves(m, &t, &more, &[3, 5]);
    }
    let b = table_b();
    let words = symbol_words(&[N(0), T(0), N(0)]);
    halves(m, &b, &words, &[0, 1, 2, 3, 4, 65_535]);
    let mut bad = b.clone();
    bad[48] = 12;
    halves(m, &bad, &words, &[3, 4]);
    halves(m, &bad, &words[..3], &[3, 4]);
    halves(m, &[], &words[..2], &[0]);
}

fn halves(m: &mut Maker, t: &[u16], words: &[u16], states: &[u16]) {
    for cut in 0..=words.len() {
        let (xs, ys) = words.split_at(cut);
        m.ask(t, &Question::FirstJoined(xs.to_vec(), ys.to_vec()));
        for &state in states {
            m.ask(t, &Question::BackJoined(state, xs.to_vec(), ys.to_vec()));
        }
    }
}

/// Accepted items of B, and a refused table before them.
fn items_of_b(m: &mut Maker) {
    let b = table_b();
    items(m, &b);
    let mut bad = b.clone();
    bad[48] = 12;
    m.ask(&bad, &Question::Item((0, 0)));
    m.ask(&bad, &Question::Item((9, 0)));
}

pub fn rules(m: &mut Maker<'_>) {
    on_c(m);
    epsilon(m);
    question_after_ambiguity(m);
    items_twice(m);
    items_in_order(m);
    question(m);
    inline(m);
    roles(m);
    chains(m);
    sixteen(m);
    long_lists(m);
    last_bit(m);
    sets(m);
    items_of_b(m);
    in_two(m);
}
