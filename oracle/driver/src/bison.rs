//! The states built against bison's canonical LR(1) automata, outside the tests. Of
//! grammars whose symbols are all of use, since bison leaves the others out.
//! Its own start rule (rule 0, the start and then the end) makes two states,
//! two transitions and three items more.

use crate::builds;
use crate::side::Side;
use crate::states::{Built, build};
use crate::table::*;
use std::collections::{BTreeMap, BTreeSet};
use std::path::Path;
use std::process::Command;

#[derive(Default)]
struct State {
    /// Rule, dot.
    items: BTreeSet<(u16, u16)>,
    /// Rule, token: of items at their end.
    aheads: BTreeSet<(u16, String)>,
    transitions: BTreeMap<String, usize>,
    /// Token, rule; taken or not.
    reductions: BTreeSet<(String, u16)>,
}

/// What bison answers: its states, and how many conflicts of each sort it
/// counts.
struct Report {
    states: Vec<State>,
    counted: [usize; 2],
}

fn name((kind, number): Sym) -> String {
    format!("{}{number}", ["n", "t"][kind as usize])
}

/// A token's name; the end has its own.
fn token(table: &Table, number: u16) -> String {
    if number == table.terminals {
        "$end".into()
    } else {
        name((1, number))
    }
}

fn grammar_text(table: &Table, start: u16) -> String {
    let mut out = String::from("%define lr.type canonical-lr\n");
    for t in 0..table.terminals {
        out += &format!("%token {}\n", name((1, t)));
    }
    let first = table.productions[start as usize].nonterminal;
    out += &format!("%start {}\n%%\n", name((0, first)));
    for p in &table.productions {
        let symbols: Vec<String> = p.symbols.iter().map(|&s| name(s)).collect();
        out += &format!("{}: {} ;\n", name((0, p.nonterminal)), symbols.join(" "));
    }
    out
}

/// The value of an attribute on a line of the report.
fn attribute<'a>(line: &'a str, name: &str) -> &'a str {
    let from = line.split_once(&format!(" {name}=\"")).unwrap().1;
    from.split_once('"').unwrap().0
}

fn report(xml: &str, errors: &str) -> Report {
    let mut states: Vec<State> = vec![];
    let mut item = (0, 0);
    let number = |line: &str, name: &str| attribute(line, name).parse::<usize>().unwrap();
    for line in xml.lines().map(str::trim) {
        if line.starts_with("<state ") {
            assert_eq!(number(line, "number"), states.len());
            states.push(State::default());
            continue;
        }
        let Some(state) = states.last_mut() else {
            continue;
        };
        if line.starts_with("<item ") {
            item = (
                number(line, "rule-number") as u16,
                number(line, "dot") as u16,
            );
            state.items.insert(item);
        } else if let Some(rest) = line.strip_prefix("<symbol>") {
            let token = rest.strip_suffix("</symbol>").unwrap();
            state.aheads.insert((item.0, token.into()));
        } else if line.starts_with("<transition ") {
            let on = attribute(line, "symbol").to_string();
            state.transitions.insert(on, number(line, "state"));
        } else if line.starts_with("<reduction ") {
            let on = attribute(line, "symbol").to_string();
            if attribute(line, "rule") != "accept" {
                state.reductions.insert((on, number(line, "rule") as u16));
            }
        }
    }
    let counted = ["shift/reduce", "reduce/reduce"].map(|sort| {
        let said = errors
            .lines()
            .find(|l| l.contains("warning:") && l.contains(sort));
        said.map_or(0, |line| {
            let words: Vec<&str> = line.split(' ').collect();
            let at = words.iter().position(|w| *w == sort).unwrap();
            words[at - 1].parse().unwrap()
        })
    });
    Report { states, counted }
}

fn ask_bison(folder: &Path, text: &str) -> Report {
    let (grammar, xml) = (folder.join("grammar.y"), folder.join("grammar.xml"));
    std::fs::write(&grammar, text).unwrap();
    let told = Command::new("bison")
        .args(["--report=itemsets,lookaheads", "-o", "/dev/null"])
        .arg(format!("--xml={}", xml.display()))
        .arg(&grammar)
        .output()
        .expect("bison");
    let errors = String::from_utf8_lossy(&told.stderr);
    assert!(told.status.success(), "{text}{errors}");
    report(&std::fs::read_to_string(xml).unwrap(), &errors)
}

/// Whether each nonterminal derives some list of terminals and is reached from
/// the start, which no production uses.
pub fn all_of_use(table: &Table, start: u16) -> bool {
    let count = table.nonterminals.len();
    let first = table.productions[start as usize].nonterminal;
    let uses = |p: &Production, n: u16| p.symbols.contains(&(0, n));
    if table.nonterminals[first as usize].len() > 1
        || table.productions.iter().any(|p| uses(p, first))
    {
        return false;
    }
    let (mut derives, mut reached) = (BTreeSet::new(), BTreeSet::from([first]));
    for _ in 0..count {
        for p in &table.productions {
            if p.symbols.iter().all(|s| s.0 == 1 || derives.contains(&s.1)) {
                derives.insert(p.nonterminal);
            }
            if reached.contains(&p.nonterminal) {
                reached.extend(p.symbols.iter().filter(|s| s.0 == 0).map(|s| s.1));
            }
        }
    }
    derives.len() == count && reached.len() == count
}

/// What was compared, in numbers.
#[derive(Default)]
pub struct Tally {
    pub grammars: usize,
    pub states: usize,
    pub items: usize,
    pub transitions: usize,
    pub lookaheads: usize,
    /// Shift/reduce, reduce/reduce.
    pub conflicts: [usize; 2],
    /// Refused by 16: bison has more than 128 states too.
    pub refused: usize,
}

/// The first difference, or none.
fn differs(
    tally: &mut Tally,
    table: &Table,
    start: u16,
    built: &Built,
    told: &Report,
) -> Option<String> {
    macro_rules! same {
        ($a:expr, $b:expr, $($what:tt)*) => {
            let (a, b) = ($a, $b);
            if a != b {
                return Some(format!("{}: {a:?}, bison {b:?}", format!($($what)*)));
            }
        };
    }
    let mine = &built.table.states;
    let sum = |f: fn(&crate::table::State) -> usize| mine.iter().map(f).sum::<usize>();
    let (items, edges) = (sum(|s| s.items.len()), sum(|s| s.edges.len()));
    let told_sum = |f: fn(&State) -> usize| told.states.iter().map(f).sum::<usize>();
    same!(mine.len() + 2, told.states.len(), "states");
    same!(items + 3, told_sum(|s| s.items.len()), "items");
    same!(edges + 2, told_sum(|s| s.transitions.len()), "transitions");
    let first = name((0, table.productions[start as usize].nonterminal));
    // Walked together; a pair of states is met once.
    let mut number = BTreeMap::from([(0, 0)]);
    let mut left = vec![(0, 0)];
    let mut conflicts = BTreeSet::new();
    while let Some((here, there)) = left.pop() {
        let theirs = &told.states[there];
        let own = theirs
            .items
            .iter()
            .filter(|i| i.0 > 0)
            .map(|i| (i.0 - 1, i.1));
        same!(
            mine[here].items.clone(),
            own.collect::<Vec<_>>(),
            "items of state {here}"
        );
        let complete: BTreeSet<(u16, u16)> = (built.states[here].iter())
            .filter(|i| i.1 as usize == table.productions[i.0 as usize].symbols.len())
            .map(|i| (i.0, i.2))
            .collect();
        tally.lookaheads += complete.len();
        let named: BTreeSet<_> = (complete.iter())
            .map(|&(p, a)| (p + 1, token(table, a)))
            .collect();
        let own = theirs.aheads.iter().filter(|a| a.0 > 0).cloned();
        same!(&named, &own.collect(), "lookaheads of state {here}");
        let turned = named.into_iter().map(|(rule, on)| (on, rule)).collect();
        let own = theirs.reductions.iter().filter(|r| r.1 > 0).cloned();
        same!(
            own.collect::<BTreeSet<_>>(),
            turned,
            "reductions of state {here}"
        );
        let mut leaving = theirs.transitions.clone();
        if here == 0 {
            leaving.remove(&first);
        }
        let edges = &mine[here].edges;
        same!(
            edges.iter().map(|e| name(e.0)).collect::<BTreeSet<_>>(),
            leaving.keys().cloned().collect(),
            "edges of state {here}"
        );
        for &(on, to) in edges {
            let (to, other) = (to as usize, leaving[&name(on)]);
            match number.get(&to) {
                Some(&known) => {
                    same!(known, other, "the state that {to} is");
                }
                None => {
                    number.insert(to, other);
                    left.push((to, other));
                }
            }
        }
        // By bison's actions.
        for a in 0..=table.terminals {
            let on = token(table, a);
            let by: Vec<u16> = (theirs.reductions.iter())
                .filter(|r| r.0 == on)
                .map(|r| r.1 - 1)
                .collect();
            for (k, &p) in by.iter().enumerate() {
                if leaving.contains_key(&on) {
                    conflicts.insert([here as u16, p, 0, a, a]);
                }
                conflicts.extend(by[k + 1..].iter().map(|&q| [here as u16, p, 1, q, a]));
            }
        }
    }
    same!(number.len(), mine.len(), "states walked");
    same!(
        &number.values().collect::<BTreeSet<_>>().len(),
        &number.len(),
        "states that are two"
    );
    let listed: Vec<[u16; 5]> = conflicts.into_iter().collect();
    same!(&built.conflicts, &listed, "conflicts");
    // Bison's count: a token that is shifted and reduced by once, of n
    // reductions by one token n - 1.
    let shifted: BTreeSet<_> = listed
        .iter()
        .filter(|c| c[2] == 0)
        .map(|c| (c[0], c[4]))
        .collect();
    let others: BTreeSet<_> = (listed.iter().filter(|c| c[2] == 1))
        .map(|c| (c[0], c[4], c[3]))
        .collect();
    same!(
        [shifted.len(), others.len()],
        told.counted,
        "conflicts counted"
    );
    tally.grammars += 1;
    tally.states += mine.len();
    tally.items += items;
    tally.transitions += edges;
    let shifts = listed.iter().filter(|c| c[2] == 0).count();
    tally.conflicts[0] += shifts;
    tally.conflicts[1] += listed.len() - shifts;
    None
}

/// Grammars from a seed on, until so many were compared; the sides' answers are
/// held to those of the reader. The first difference, if any.
pub fn compare(seed: u64, count: usize, sides: &mut [Box<dyn Side>]) -> (Tally, Option<String>) {
    let folder = std::env::temp_dir().join(format!("bison-{}", std::process::id()));
    std::fs::create_dir_all(&folder).unwrap();
    let mut tally = Tally::default();
    let mut found = None;
    for (table, start) in (seed..).map(builds::fresh_start) {
        if tally.grammars + tally.refused >= count || found.is_some() {
            break;
        }
        if !all_of_use(&table, start) {
            continue;
        }
        let text = grammar_text(&table, start);
        let told = ask_bison(&folder, &text);
        let words = table.encode(true, || 0).unwrap();
        let lent = [64_000, 32_768, 1_000_000];
        let built = build(&words, start, lent);
        found = match &built {
            Ok(built) => differs(&mut tally, &table, start, built, &told),
            Err(r) if r.number == 16 && told.states.len() > 130 => {
                tally.refused += 1;
                None
            }
            Err(r) => Some(format!(
                "refused {}, bison {} states",
                r.number,
                told.states.len()
            )),
        };
        let mut plain = crate::plain::PlainSide;
        let read = plain.build(&words, start, lent);
        for side in sides.iter_mut() {
            if side
                .build(&words, start, lent)
                .is_some_and(|a| Some(a) != read)
            {
                found.get_or_insert(format!("{} answers otherwise", side.name()));
            }
        }
        found = found.map(|what| format!("{text}{what}"));
    }
    std::fs::remove_dir_all(folder).unwrap();
    (tally, found)
}
