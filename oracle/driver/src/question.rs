//! Questions as values and as lines of text.

use crate::side::*;
use crate::table::Sym;

#[derive(Clone, Debug, PartialEq, Eq)]
pub enum Question {
    Check,
    First0(Vec<Sym>),
    First1(Vec<Sym>, u64),
    Back(u16, Vec<Sym>),
    /// Two lists of words.
    FirstJoined(Vec<u16>, Vec<u16>),
    BackJoined(u16, Vec<u16>, Vec<u16>),
    Shift(u16, (u16, u16)),
    Reduce(u16, (u16, u16)),
    /// An edge's eight words, graph words.
    Add([u16; 8], Vec<u16>),
    /// Start item, any lookahead, graph words.
    List((u16, u16), Option<u64>, Vec<u16>),
    /// A listing over the graph that a trace gives (reduce if set), from a
    /// state and the traced item.
    ListTrace(bool, u16, (u16, u16), Option<u64>),
    Classify([u16; 5]),
    Choose([u16; 4], u64),
    Observed([u16; 5]),
    /// Two token sets and a token.
    Sets(u64, u64, u16),
    Item((u16, u16)),
    /// Words of the output.
    Respell(u16),
    Compact,
    /// The start production, and words of scratch, output and conflicts.
    Build(u16, [usize; 3]),
    /// A text, and words of the table and of the places; of no table.
    ReadYacc(Vec<u8>, [usize; 2]),
    /// Bytes of the output.
    WriteYacc(usize),
}

/// A table with questions about it.
#[derive(Clone, Debug, Default)]
pub struct Case {
    pub name: String,
    pub table: Vec<u16>,
    pub questions: Vec<Question>,
}

pub fn ask(side: &mut dyn Side, table: &[u16], question: &Question) -> Option<Answer> {
    match question {
        Question::Check => side.check(table),
        Question::First0(s) => side.first0(table, s),
        Question::First1(s, l) => side.first1(table, s, *l),
        Question::Back(state, s) => side.trace_back(table, *state, s),
        Question::FirstJoined(xs, ys) => side.first0_joined(table, xs, ys),
        Question::BackJoined(state, xs, ys) => side.trace_back_joined(table, *state, xs, ys),
        Question::Shift(state, item) => side.backtrace(false, table, (*state, *item)),
        Question::Reduce(state, item) => side.backtrace(true, table, (*state, *item)),
        Question::Add(edge, graph) => side.add_edge(table, graph, *edge),
        Question::List(start, l, graph) => side.examples(table, graph, *start, *l),
        Question::ListTrace(reduce, state, item, l) => {
            let traced = side.backtrace(*reduce, table, (*state, *item))?;
            if traced[0] != 0 {
                return Some(traced);
            }
            let graph: Vec<u16> = traced[1..].iter().map(|&w| w as u16).collect();
            side.examples(table, &graph, *item, *l)
        }
        Question::Classify(c) => side.classify(table, *c),
        Question::Choose(c, tokens) => side.choose(table, *c, *tokens),
        Question::Observed(c) => side.observed(table, *c),
        Question::Sets(a, b, token) => side.sets(table, *a, *b, *token),
        Question::Item(item) => side.item(table, *item),
        Question::Respell(words) => side.respell(table, *words as usize),
        Question::Compact => side.compact(table),
        Question::Build(start, lent) => side.build(table, *start, *lent),
        Question::ReadYacc(text, lent) => side.read_yacc(text, *lent),
        Question::WriteYacc(bytes) => side.write_yacc(table, *bytes),
    }
}

pub fn text<T: ToString>(words: impl IntoIterator<Item = T>) -> String {
    let words: Vec<String> = words.into_iter().map(|w| w.to_string()).collect();
    words.join(" ")
}

fn pairs(symbols: &[Sym]) -> String {
    text(symbols.iter().flat_map(|s| [s.0, s.1]))
}

fn set(tokens: Option<u64>) -> String {
    match tokens {
        None => "-".into(),
        Some(set) => text(members(set)),
    }
}

impl std::fmt::Display for Question {
    fn fmt(&self, f: &mut std::fmt::Formatter<'_>) -> std::fmt::Result {
        let line = match self {
            Question::Check => "check".into(),
            Question::First0(s) => format!("first0 {}", pairs(s)),
            Question::First1(s, l) => format!("first1 {} / {}", pairs(s), set(Some(*l))),
            Question::Back(state, s) => format!("back {state} {}", pairs(s)),
            Question::FirstJoined(xs, ys) => format!("first0-joined {} / {}", text(xs), text(ys)),
            Question::BackJoined(state, xs, ys) => {
                format!("back-joined {state} {} / {}", text(xs), text(ys))
            }
            Question::Shift(state, i) => format!("shift {state} {} {}", i.0, i.1),
            Question::Reduce(state, i) => format!("reduce {state} {} {}", i.0, i.1),
            Question::Add(e, g) => format!("add {} / {}", text(e), text(g)),
            Question::List(i, l, g) => {
                format!("list {} {} / {} / {}", i.0, i.1, set(*l), text(g))
            }
            Question::ListTrace(reduce, state, i, l) => {
                let which = if *reduce { "list-reduce" } else { "list-shift" };
                format!("{which} {state} {} {} / {}", i.0, i.1, set(*l))
            }
            Question::Classify(c) => format!("classify {}", text(c)),
            Question::Choose(c, l) => format!("choose {} / {}", text(c), set(Some(*l))),
            Question::Observed(c) => format!("observed {}", text(c)),
            Question::Sets(a, b, token) => {
                format!("sets {token} / {} / {}", set(Some(*a)), set(Some(*b)))
            }
            Question::Item(i) => format!("item {} {}", i.0, i.1),
            Question::Respell(words) => format!("respell {words}"),
            Question::Compact => "compact".into(),
            Question::Build(start, lent) => format!("build {start} / {}", text(lent)),
            Question::ReadYacc(bytes, lent) => {
                format!("read-yacc {} / {}", text(lent), text(bytes))
            }
            Question::WriteYacc(bytes) => format!("write-yacc {bytes}"),
        };
        f.write_str(line.trim_end())
    }
}

/// A line back into a question.
pub fn parse(line: &str) -> Option<Question> {
    let (verb, rest) = line.trim().split_once(' ').unwrap_or((line.trim(), ""));
    let parts: Vec<&str> = rest.split('/').map(str::trim).collect();
    let numbers = |i: usize| -> Option<Vec<u16>> {
        parts
            .get(i)?
            .split_whitespace()
            .map(|w| w.parse().ok())
            .collect()
    };
    let symbols = |words: &[u16]| -> Option<Vec<Sym>> {
        (words.len() % 2 == 0).then(|| words.chunks(2).map(|c| (c[0], c[1])).collect())
    };
    let tokens = |i: usize| -> Option<u64> {
        let mut set = 0;
        for t in numbers(i)? {
            set |= 1u64.checked_shl(t as u32)?;
        }
        Some(set)
    };
    let lookahead = |i: usize| -> Option<Option<u64>> {
        if *parts.get(i)? == "-" {
            Some(None)
        } else {
            tokens(i).map(Some)
        }
    };
    let lent = |i: usize| -> Option<Vec<usize>> {
        let words = parts.get(i)?.split_whitespace();
        words.map(|w| w.parse().ok()).collect()
    };
    let first = numbers(0)?;
    Some(match (verb, &first[..]) {
        ("check", []) => Question::Check,
        ("first0", s) => Question::First0(symbols(s)?),
        ("first1", s) => Question::First1(symbols(s)?, tokens(1)?),
        ("back", [state, s @ ..]) => Question::Back(*state, symbols(s)?),
        ("first0-joined", xs) => Question::FirstJoined(xs.to_vec(), numbers(1)?),
        ("back-joined", [state, xs @ ..]) => {
            Question::BackJoined(*state, xs.to_vec(), numbers(1)?)
        }
        ("shift", &[state, p, i]) => Question::Shift(state, (p, i)),
        ("reduce", &[state, p, i]) => Question::Reduce(state, (p, i)),
        ("add", e) => Question::Add(e.try_into().ok()?, numbers(1)?),
        ("list", &[p, i]) => Question::List((p, i), lookahead(1)?, numbers(2)?),
        ("list-shift", &[s, p, i]) => Question::ListTrace(false, s, (p, i), lookahead(1)?),
        ("list-reduce", &[s, p, i]) => Question::ListTrace(true, s, (p, i), lookahead(1)?),
        ("classify", c) => Question::Classify(c.try_into().ok()?),
        ("choose", c) => Question::Choose(c.try_into().ok()?, tokens(1)?),
        ("sets", &[token]) => Question::Sets(tokens(1)?, tokens(2)?, token),
        ("item", &[p, i]) => Question::Item((p, i)),
        ("respell", &[words]) => Question::Respell(words),
        ("compact", []) => Question::Compact,
        ("build", &[start]) => Question::Build(start, lent(1)?.try_into().ok()?),
        ("read-yacc", &[table, places]) => {
            let bytes = numbers(1)?.into_iter().map(|b| b.try_into().ok());
            Question::ReadYacc(bytes.collect::<Option<_>>()?, [table.into(), places.into()])
        }
        ("write-yacc", &[bytes]) => Question::WriteYacc(bytes.into()),
        ("observed", c) => Question::Observed(c.try_into().ok()?),
        _ => return None,
    })
}
