//! Classifying and choosing.

use super::*;
use crate::builds;
use crate::port::Class;
use crate::question::Question;
use crate::side::members;
use crate::states;
use crate::table::table_b;
use lalrpop::lr1::error::oracle::Judged;

/// A conflict with its token, or with a set of tokens.
#[derive(Clone, Copy)]
enum Asked {
    Classify([u16; 5]),
    Choose([u16; 4], u64),
}

/// The port's refusal, the class or the number chosen, and the trials of both
/// sides (0 of a choice).
type Answered = (u16, usize, [u32; 2]);

impl Asked {
    fn of(q: &Question) -> Option<Asked> {
        match *q {
            Question::Classify(c) => Some(Asked::Classify(c)),
            Question::Choose(c, tokens) => Some(Asked::Choose(c, tokens)),
            _ => None,
        }
    }

    fn name(self) -> &'static str {
        match self {
            Asked::Classify(_) => "classify",
            Asked::Choose(..) => "choose",
        }
    }

    fn port(self, table: &[u16], lent: &mut Lent) -> Answered {
        let mut place = 0;
        let scratch = &mut lent.scratch;
        match self {
            Asked::Classify(c) => {
                let mut class = Class::UNWRITTEN;
                let examples = lent.examples.each_mut().map(|e| &mut e[..]);
                let refusal = class.classify(table, c, scratch, examples, &mut place);
                (refusal, class.number as usize, class.trials)
            }
            Asked::Choose(c, tokens) => {
                let (mut count, entries) = (0, &mut lent.entries);
                let refusal =
                    port::choose(table, c, tokens, scratch, entries, &mut count, &mut place);
                (refusal, count, [0; 2])
            }
        }
    }

    /// The port's time and answer.
    fn port_time(self, table: &[u16], lent: &mut Lent, time: Timing) -> (f64, Answered) {
        let mut answer = (0, 0, [0; 2]);
        let took = time(&mut || answer = self.port(table, lent));
        (took, answer)
    }

    /// Time of the Rust's classes; of a set chosen by the rule of
    /// `report_errors`, without its messages.
    fn rust_time(self, held: &Held, time: Timing) -> f64 {
        let r = held.rust();
        let conflicts: Vec<_> = match self {
            Asked::Classify(c) => vec![r.conflict(c).ok().unwrap()],
            Asked::Choose([a, b, c, d], tokens) => members(tokens)
                .map(|t| r.conflict([a, b, c, d, t]).ok().unwrap())
                .collect(),
        };
        let mut judge = r.judge();
        time(&mut || {
            let (mut naive, better): (Vec<Judged>, Vec<Judged>) = conflicts
                .iter()
                .map(|c| judge.classify(c))
                .partition(|j| j.class == 0);
            if let Asked::Choose([_, _, 1, _], _) = self {
                naive.truncate(1);
            }
            black_box(if better.is_empty() { naive } else { better });
        })
    }
}

/// One conflict; refused by the port the Rust, which has no limits, is not
/// asked.
fn judged(name: &str, table: &[u16], asked: Asked) {
    let (port, (refusal, n, [a, r])) = asked.port_time(table, &mut Lent::new(), least);
    let verb = asked.name();
    if refusal != 0 {
        let name = format!("{verb}: {name} (refused {refusal})");
        let [none, port] = ["-".to_string(), number(port)];
        line(&[name, none.clone(), none.clone(), port, none.clone(), none]);
        return;
    }
    let outcome = match asked {
        Asked::Classify(_) => format!("class {n}, trials {a} and {r}"),
        Asked::Choose(_, tokens) => format!("{n} of {} tokens", tokens.count_ones()),
    };
    let held = held(table);
    let rust = asked.rust_time(&held, least);
    drop(held);
    let name = format!("{verb}: {name} ({outcome})");
    row(&name, rust, making(table, least), port);
}

/// All conflicts of a kind's cases that are not refused, each on average.
fn judged_of(kind: &str) {
    let mut lent = Lent::new();
    // Of classifying and of choosing.
    let mut means = [Means::default(); 2];
    each_of(kind, |case, held, made| {
        for asked in case.questions.iter().filter_map(Asked::of) {
            let (port, (refusal, ..)) = asked.port_time(&case.table, &mut lent, few);
            if refusal == 0 {
                let rust = asked.rust_time(held, few);
                means[matches!(asked, Asked::Choose(..)) as usize].add(rust, made, port);
            }
        }
    });
    means[0].row(&format!("classifications of kind {kind}"));
    means[1].row(&format!("choices of kind {kind}"));
}

/// The conflicts of a case, but for those refused by 10 (shift with the end).
fn judged_in(name: &str, kind: &str, seed: u64) {
    let case = case(kind, seed);
    let end = case.table[1];
    for q in &case.questions {
        let asked = Asked::of(q).filter(|a| match a {
            Asked::Classify([_, _, action, _, token]) => *action == 1 || *token != end,
            Asked::Choose(..) => true,
        });
        if let Some(asked) = asked {
            let words = q.to_string();
            let (_, words) = words.split_once(' ').unwrap();
            judged(&format!("{name}, {words}"), &case.table, asked);
        }
    }
}

/// Automata of 60 to 128 states with conflicts, which the plain reader builds of random grammars: the first twelve, each by all its
/// conflicts that are not refused.
fn judged_automata() {
    let built = (0u64..).filter_map(|seed| {
        let (table, start) = builds::fresh_start(seed);
        let words = table.encode(true, || 0).unwrap();
        let built = states::build(&words, start, builds::ROOM).ok()?;
        let fits = built.table.states.len() >= 60 && !built.conflicts.is_empty();
        fits.then(|| (built.records.concat(), built))
    });
    let mut lent = Lent::new();
    for (words, built) in built.take(12) {
        let held = held(&words);
        let made = making(&words, few);
        let mut means = Means::default();
        for &conflict in &built.conflicts {
            let asked = Asked::Classify(conflict);
            let (port, (refusal, ..)) = asked.port_time(&words, &mut lent, few);
            if refusal == 0 {
                means.add(asked.rust_time(&held, few), made, port);
            }
        }
        let states = built.table.states.len();
        means.row(&format!("classifications of an automaton of {states} states"));
    }
}

pub fn costs() {
    beside("conflict");
    let b = table_b();
    for token in [0, 1] {
        let asked = Asked::Classify([3, 0, 0, 0, token]);
        judged(&format!("table B, 3 0 0 0 {token}"), &b, asked);
    }
    judged("table B, 3 0 1 0 0", &b, Asked::Classify([3, 0, 1, 0, 0]));
    judged("table B, 3 0 0 0 / 0", &b, Asked::Choose([3, 0, 0, 0], 1));
    let name = "table B, 3 0 1 0 / 0 1 2";
    judged(name, &b, Asked::Choose([3, 0, 1, 0], 7));
    for kind in ["classic", "random", "wide"] {
        judged_of(kind);
    }
    judged_automata();
    for (name, seed) in [
        ("1,024 edges", 0),
        ("1,025 edges", 7),
        ("192 examples", 1),
        ("193 examples", 8),
        ("100,000 trials", 3),
        ("100,001 trials", 10),
        ("4,096 pairs nested", 5),
    ] {
        judged_in(name, "limit", seed);
    }
    judged_in("7,000 items shared by 128 states", "heavy", 7);
    judged_in("2,000 shift items", "most", 1);
}

/// As many trials, and a trace through 128 states for each shift item.
pub fn longest() {
    beside("conflict");
    for (name, seed) in [
        ("2,000 shift items, 128 states alike", 128),
        ("2,000 shift items, 128 states that share 7,700 items behind the first", 129),
        ("2,000 shift items, 128 states with one of two chains of 3,900 items by turns", 130),
        ("2,000 shift items, 128 states that lead elsewhere by turns", 131),
        ("1,900 shift items, the same and share 7,600 items, 98 of them before a nonterminal", 132),
        ("1,900 shift items, the same with one of two chains of 3,800 by turns", 133),
        ("1,000 shift items, the same, 980 items before a nonterminal", 134),
        ("1,900 shift items, the same with one of three chains of 2,500 by turns", 135),
        ("1,900 shift items, the same, each into a chain of 5,700, 44 items before the last", 136),
        ("1,900 shift items, the same, each into a chain of 7,300, 57 items before the last", 137),
    ] {
        judged_in(name, "most", seed);
    }
}
