//! The requests of the stored sample answered, as tests/c/replay.c must
//! print them: a side's answers, and the rules of lent words, count
//! and openness, which are read here. tests/c/replay.c says what a
//! request and an answer hold, op by op.

use crate::rewrites;
use crate::side::*;
use crate::states;
use crate::table::*;
use crate::yacc;
use std::collections::BTreeSet;
use std::rc::Rc;

/// The words that tests/c/replay.c has.
pub const GRAPH: usize = 8_200;
pub const SCRATCH: usize = 32_008;
pub const BUFFER: usize = 2_000;
pub const OUTPUT: usize = 32_008;
pub const EXAMPLE: usize = 1_160;
pub const ENTRIES: usize = 390;
pub const REWRITTEN: usize = 32_776;
pub const BUILDING: usize = 64_008;
pub const CONFLICTS: usize = 10_008;
pub const YACC_TABLE: usize = 8_848;
pub const YACC_PLACES: usize = 104;
pub const YACC_WRITTEN: usize = 9_480;
/// And bytes of a text that is read: more than are read.
pub const YACC_TEXT: usize = 65_544;

/// The words that a call asks for: 11, and the rules of scratch.
pub const GRAPH_ASKED: usize = 8_193;
pub const SCRATCH_ASKED: usize = 32_000;
/// Classifying and choosing ask for fewer.
pub const CLASSIFY_ASKED: usize = 8_000;
pub const EXAMPLE_ASKED: usize = 1_158;
/// The header's: six words a token, 64 tokens.
pub const ENTRIES_ASKED: usize = 384;

/// What lent words hold before a call.
const BEFORE: u16 = 7;
/// The number of a listing's end.
const END: u32 = 16;

/// What a listing is of: table, start item, any lookahead, lent graph.
#[derive(Clone, PartialEq, Eq)]
pub struct Of {
    pub table: Vec<u16>,
    pub start: (u16, u16),
    pub set: Option<u64>,
    pub graph: Vec<u16>,
}

#[derive(Clone, Copy)]
pub struct Listing {
    pub count: u32,
    pub open: bool,
}

/// As opened.
pub const FRESH: Listing = Listing {
    count: 0,
    open: true,
};

/// Every example of a start item, handed out or not.
#[derive(Default)]
pub struct Trials {
    /// Trial, edges, words.
    pub examples: Vec<(u32, Vec<u16>, Vec<u16>)>,
    handed: BTreeSet<u32>,
    /// None past the limit.
    all: Option<u32>,
}

pub struct Answers<'a> {
    pub side: &'a mut dyn Side,
    /// As the last call of op 8 left it.
    pub scratch: Vec<u16>,
    /// The last listing's trials.
    listed: Option<(Of, Rc<Trials>)>,
}

pub fn digest(words: &[u16]) -> u32 {
    (words.iter()).fold(1u64, |d, &w| (d * 31 + w as u64) % 65_521) as u32
}

pub fn set_words(set: u64) -> Vec<u16> {
    (0..4).map(|i| (set >> (16 * i)) as u16).collect()
}

/// A word of a request; those that it has not are zeros.
fn at(more: &[u16], i: usize) -> u16 {
    more.get(i).copied().unwrap_or(0)
}

fn number(more: &[u16], i: usize) -> usize {
    at(more, i) as usize
}

fn rest(more: &[u16], from: usize) -> &[u16] {
    &more[from.min(more.len())..]
}

/// Two lists of words, in front the first one's number.
fn two_lists(more: &[u16]) -> (&[u16], &[u16]) {
    let words = rest(more, 1);
    words.split_at(number(more, 0).min(words.len()))
}

fn set_at(more: &[u16], i: usize) -> u64 {
    (0..4).fold(0, |set, k| set | (at(more, i + k) as u64) << (16 * k))
}

/// Words at the front of a lent list that held other words.
fn over(words: usize, front: &[u16]) -> Vec<u16> {
    let mut out = vec![BEFORE; words];
    out[..front.len()].copy_from_slice(front);
    out
}

fn narrow(words: &[u32]) -> Vec<u16> {
    words.iter().map(|&w| w as u16).collect()
}

/// A side's answer where less may be lent than 11 asks for: 1 to 10 go before.
fn or_short(answer: Answer, short: bool) -> Answer {
    if short && !(1..=10).contains(&answer[0]) {
        vec![11, 0]
    } else {
        answer
    }
}

/// Answer and place, then what the call gives, or what stood there before it.
fn whole(answer: Answer, before: &[u32]) -> Answer {
    if answer[0] == 0 {
        [&[0, 0], &answer[1..]].concat()
    } else {
        [&answer[..], before].concat()
    }
}

/// The words of scratch that a call uses.
fn zero(scratch: &mut [u16], asked: usize) {
    scratch[..asked].fill(0);
}

/// Scratch after a call: zeros where it was worked, to an answer or to one of
/// 12 to 14.
fn scratch_after(answer: &Answer, asked: usize) -> Vec<u16> {
    let mut scratch = vec![BEFORE; SCRATCH];
    if [0, 12, 13, 14].contains(&answer[0]) {
        zero(&mut scratch, asked);
    }
    scratch
}

/// A side's answer to `classify`, in its parts.
pub struct Judged {
    pub class: u32,
    pub trials: [u32; 2],
    pub own: Vec<u32>,
    pub examples: [Vec<u16>; 2],
}

pub fn judged(answer: &Answer) -> Judged {
    let mut at = 4;
    let mut part = || {
        let end = at + 1 + answer[at] as usize;
        let words = answer[at + 1..end].to_vec();
        at = end;
        words
    };
    Judged {
        class: answer[1],
        trials: [answer[2], answer[3]],
        own: part(),
        examples: [narrow(&part()), narrow(&part())],
    }
}

/// A class's own values in one word, the first lowest.
fn packed(own: &[u32]) -> [u32; 2] {
    let word = (own.iter().enumerate()).fold(0u64, |w, (i, &v)| w | (v as u64) << (16 * i));
    halves(word)
}

/// Observed symbols: whether a buffer holds what its counts say, with the cursor within
/// the symbols.
fn is_whole(buffer: &[u16]) -> bool {
    let [symbols, cursor, reductions, rest @ ..] = buffer else {
        return false;
    };
    rest.len() >= 2 * *symbols as usize + 3 * *reductions as usize && cursor <= symbols
}

/// In which buffer the observed symbols lie, 0 the action's, and the symbols;
/// an empty part is the first's.
pub fn observed<'a>(action: &'a [u16], reduce: &'a [u16]) -> (u32, &'a [u16]) {
    if !is_whole(action) || !is_whole(reduce) {
        return (0, &action[..0]);
    }
    let (which, from) = if action[1] >= reduce[1] {
        (0, action)
    } else {
        (1, reduce)
    };
    (which, &from[3..3 + 2 * from[1] as usize])
}

/// Trial and words of each example in a side's answer.
fn found(answer: &Answer) -> Vec<(u32, Vec<u16>)> {
    let (mut out, mut at) = (vec![], 4);
    for _ in 0..answer[3] {
        let end = at + 2 + answer[at + 1] as usize;
        out.push((answer[at], narrow(&answer[at + 2..end])));
        at = end;
    }
    out
}

fn trials(side: &mut dyn Side, of: &Of, edges: &[[u16; 8]]) -> Option<Trials> {
    let answer = side.examples(&of.table, &of.graph, of.start, None)?;
    let mut recount = Recount::new(edges, of.start);
    let mut examples = vec![];
    for (trial, words) in found(&answer) {
        assert!(matches!(recount.step(), Step::Example(t) if t == trial));
        let path = recount.path.iter().map(|&e| e as u16).collect();
        examples.push((trial, path, words));
    }
    let handed = match of.set {
        None => examples.iter().map(|e| e.0).collect(),
        set => {
            let answer = side.examples(&of.table, &of.graph, of.start, set)?;
            found(&answer).iter().map(|e| e.0).collect()
        }
    };
    let all = (answer[1] == 0).then_some(answer[2]);
    Some(Trials {
        examples,
        handed,
        all,
    })
}

/// Refusals that go before the lengths.
fn asked(of: &Of) -> Result<Table, Refusal> {
    let table = decode(&of.table)?;
    let good = table.item_in_range(of.start)
        && of.set.is_none_or(|set| good_set(&table, set))
        && (of.graph.len() < GRAPH_ASKED || graph_edges(&table, &of.graph).is_ok());
    if good { Ok(table) } else { refuse(9, 0) }
}

fn is_node(of: &Of, edges: &[[u16; 8]]) -> bool {
    let node = [1, of.start.0, of.start.1];
    edges.iter().any(|e| e[..3] == node || e[3..6] == node)
}

/// Op 18, by docs/RULES.md, "One spelling", and not by a side: the Rust has no such call.
fn respell(table: &[u16], more: &[u16]) -> Answer {
    let lent = number(more, 0).min(REWRITTEN);
    let (head, words) = match rewrites::respell(table, lent) {
        Ok(records) => ([0, 0, records.len() as u32], records.concat()),
        Err(r) => ([r.number as u32, r.place as u32, 7], vec![]),
    };
    let out = over(REWRITTEN, &words);
    rewritten(head, &out)
}

/// Op 19, the same: in place, lent words behind the table.
fn compact(table: &[u16]) -> Answer {
    let (head, words) = match rewrites::compact(table) {
        Ok((left, records)) => ([0, 0, left as u32], records.concat()),
        Err(r) => ([r.number as u32, r.place as u32, 7], table.to_vec()),
    };
    rewritten(head, &over(REWRITTEN, &words))
}

fn rewritten(head: [u32; 3], lent: &[u16]) -> Answer {
    let shown = head.into_iter().chain([digest(lent)]);
    shown.chain(wide(&lent[..24])).collect()
}

/// Op 20, the same. Success and refusals from 16 on leave zeros in the scratch
/// that is asked for.
fn build(table: &[u16], more: &[u16]) -> Answer {
    let lent = [(1, BUILDING), (2, REWRITTEN), (3, CONFLICTS)];
    let lent = lent.map(|(i, most)| number(more, i).min(most));
    let (head, records, conflicts) = match states::build(table, at(more, 0), lent) {
        Ok(b) => (
            [0, 0, b.records.len() as u32, b.conflicts.len() as u32],
            b.records.concat(),
            b.conflicts.concat(),
        ),
        Err(r) => ([r.number as u32, r.place as u32, 7, 7], vec![], vec![]),
    };
    let mut scratch = vec![BEFORE; BUILDING];
    if head[0] == 0 || head[0] >= 16 {
        scratch[..states::SCRATCH].fill(0);
    }
    let out = over(REWRITTEN, &records);
    let list = over(CONFLICTS, &conflicts);
    let digests = [&scratch, &out, &list].map(|words| digest(words));
    let shown = head.into_iter().chain(digests);
    let fronts = wide(&out[..24]).chain(wide(&list[..20]));
    shown.chain(fronts).collect()
}

/// A text as the words of a request and five further ones: the words that are
/// lent, the number of bytes in the request's words (two a word, the low one
/// first), and which of them stands how often more: of the longest run.
pub fn text_request(text: &[u8], lent: [usize; 2]) -> (Vec<u16>, Vec<u16>) {
    let mut longest = 0..1;
    let mut from = 0;
    for run in text.chunk_by(|a, b| a == b) {
        if run.len() > longest.len() {
            longest = from..from + run.len();
        }
        from += run.len();
    }
    let [from, more] = [longest.start, longest.len() - 1];
    let given = [&text[..from], &text[from + more..]].concat();
    let words = given
        .chunks(2)
        .map(|b| b[0] as u16 | (*b.get(1).unwrap_or(&0) as u16) << 8);
    let numbers = [lent[0], lent[1], given.len(), from, more];
    (
        words.collect(),
        numbers.map(|n| n.min(u16::MAX as usize) as u16).to_vec(),
    )
}

/// The text of such a request.
fn text_of(words: &[u16], more: &[u16]) -> Vec<u8> {
    let bytes: Vec<u8> = words.iter().flat_map(|w| w.to_le_bytes()).collect();
    let [given, from, times] = [2, 3, 4].map(|i| number(more, i));
    let at = |i: usize| {
        if i < from {
            i
        } else {
            i.saturating_sub(times).max(from)
        }
    };
    let all = (given + times).min(YACC_TEXT);
    (0..all)
        .map(|i| bytes.get(at(i)).copied().unwrap_or(0))
        .collect()
}

/// Op 21, the same: the text in place of a table.
fn read_yacc(words: &[u16], more: &[u16]) -> Answer {
    let lent = [(0, YACC_TABLE), (1, YACC_PLACES)];
    let lent = lent.map(|(i, most)| number(more, i).min(most));
    let (head, records, places) = match yacc::read(&text_of(words, more), lent) {
        Ok(r) => {
            let counts = [r.records.len() as u32, r.places.len() as u32];
            let head = [0, 0, counts[0], counts[1], r.start as u32];
            (head, r.records.concat(), r.places)
        }
        Err(r) => ([r.number as u32, r.place as u32, 7, 7, 7], vec![], vec![]),
    };
    let (table, list) = (over(YACC_TABLE, &records), over(YACC_PLACES, &places));
    let shown = head.into_iter().chain([digest(&table), digest(&list)]);
    shown
        .chain(wide(&table[..24]))
        .chain(wide(&list[..12]))
        .collect()
}

/// Op 22, the same; a byte is shown as a word.
fn write_yacc(table: &[u16], more: &[u16]) -> Answer {
    let (head, text) = match yacc::write(table, number(more, 0).min(YACC_WRITTEN)) {
        Ok(text) => ([0, 0, text.len() as u32], text),
        Err(r) => ([r.number as u32, r.place as u32, 7], vec![]),
    };
    let words: Vec<u16> = text.iter().map(|&b| b as u16).collect();
    let lent = over(YACC_WRITTEN, &words);
    rewritten(head, &lent)
}

/// Opening a listing.
fn open(of: &Of) -> Result<(), Refusal> {
    let table = asked(of)?;
    if of.graph.len() < GRAPH_ASKED {
        return refuse(11, 0);
    }
    if !is_node(of, &graph_edges(&table, &of.graph)?) {
        return refuse(15, 0);
    }
    Ok(())
}

/// The front of the scratch after an example.
pub fn words_of(path: &[u16]) -> Vec<u16> {
    [&[path.len() as u16], path].concat()
}

/// A listing from the beginning of a request, over a lent graph.
fn of(table: &[u16], more: &[u16], lent: usize, front: &[u16]) -> Of {
    let mut graph = over(GRAPH, front);
    graph.truncate(lent);
    Of {
        table: table.to_vec(),
        start: (at(more, 0), at(more, 1)),
        set: (at(more, 2) != 0).then(|| set_at(more, 3)),
        graph,
    }
}

impl<'a> Answers<'a> {
    pub fn new(side: &'a mut dyn Side) -> Self {
        Answers {
            side,
            scratch: vec![BEFORE; SCRATCH],
            listed: None,
        }
    }

    /// The numbers of an answer. None where the side does not answer.
    pub fn answer(&mut self, op: u16, table: &[u16], more: &[u16]) -> Option<Answer> {
        match op {
            1 => Some(whole(self.side.check(table)?, &[])),
            2 => self.list_of(table, more, |side, s| side.first0(table, s), &[1, 7]),
            3 => {
                let set = set_at(more, 0);
                let ask = |side: &mut dyn Side, s: &[Sym]| side.first1(table, s, set);
                self.list_of(table, rest(more, 4), ask, &[7])
            }
            4 => {
                let state = at(more, 0);
                let ask = |side: &mut dyn Side, s: &[Sym]| side.trace_back(table, state, s);
                self.list_of(table, rest(more, 1), ask, &[7, 71])
            }
            5 | 6 => self.backtrace(op == 6, table, more),
            7 => self.add_edge(table, more),
            8 => self.advance(table, more),
            9 => self.examples(table, more),
            10 => self.classify(table, more),
            11 => self.choose(table, more),
            12 => {
                let (action, reduce) = two_lists(more);
                let (which, part) = observed(action, reduce);
                let mut out = vec![which, part.len() as u32];
                out.extend(wide(part));
                Some(out)
            }
            13 => {
                let of = of(table, more, number(more, 7).min(GRAPH), rest(more, 8));
                Some(whole(open(&of).map_or_else(refused, |()| vec![0]), &[]))
            }
            14 => self.sets(more),
            15 => self.item(table, more),
            16 => {
                let (xs, ys) = two_lists(more);
                Some(whole(self.side.first0_joined(table, xs, ys)?, &[1, 7]))
            }
            17 => {
                let (xs, ys) = two_lists(rest(more, 1));
                let answer = self.side.trace_back_joined(table, at(more, 0), xs, ys)?;
                Some(whole(answer, &[7, 71]))
            }
            18 => Some(respell(table, more)),
            19 => Some(compact(table)),
            20 => Some(build(table, more)),
            21 => Some(read_yacc(table, more)),
            22 => Some(write_yacc(table, more)),
            _ => None,
        }
    }

    /// Ops 2 to 4.
    fn list_of(
        &mut self,
        table: &[u16],
        words: &[u16],
        ask: impl FnOnce(&mut dyn Side, &[Sym]) -> Option<Answer>,
        before: &[u32],
    ) -> Option<Answer> {
        let answer = match symbols_of(words) {
            Some(symbols) => ask(self.side, &symbols)?,
            None => no_list(table),
        };
        Some(whole(answer, before))
    }

    /// Ops 5 and 6.
    fn backtrace(&mut self, reduce: bool, table: &[u16], more: &[u16]) -> Option<Answer> {
        let from = (at(more, 0), (at(more, 1), at(more, 2)));
        let short = number(more, 3) < GRAPH_ASKED || number(more, 4) < SCRATCH_ASKED;
        let answer = or_short(self.side.backtrace(reduce, table, from)?, short);
        let scratch = scratch_after(&answer, SCRATCH_ASKED);
        let shown = if answer[0] == 0 { &answer[1..] } else { &[] };
        let graph = over(GRAPH, &narrow(shown));
        let mut out = whole(answer[..2].to_vec(), &[7]);
        out.extend([digest(&graph), digest(&scratch)]);
        out.extend(shown);
        Some(out)
    }

    /// Op 7.
    fn add_edge(&mut self, table: &[u16], more: &[u16]) -> Option<Answer> {
        let edge: [u16; 8] = more[..8].try_into().unwrap();
        let mut graph = over(GRAPH, rest(more, 9));
        let lent = number(more, 8).min(GRAPH);
        // A graph that is too short is not looked at.
        let short = lent < GRAPH_ASKED;
        let looked = if short { &[0][..] } else { &graph[..lent] };
        let answer = or_short(self.side.add_edge(table, looked, edge)?, short);
        let shown = if answer[0] == 0 { &answer[1..] } else { &[] };
        graph[..shown.len()].copy_from_slice(&narrow(shown));
        let mut out = whole(answer[..2].to_vec(), &[7]);
        out.push(digest(&graph));
        out.extend(shown);
        Some(out)
    }

    pub fn trials(&mut self, of: &Of, edges: &[[u16; 8]]) -> Option<Rc<Trials>> {
        match &self.listed {
            Some((known, listed)) if known == of => Some(listed.clone()),
            _ => {
                let listed = Rc::new(trials(self.side, of, edges)?);
                self.listed = Some((of.clone(), listed.clone()));
                Some(listed)
            }
        }
    }

    /// One call: answer and place.
    fn step(
        &mut self,
        of: &Of,
        l: &mut Listing,
        scratch: &mut [u16],
        buffer: &mut [u16],
    ) -> Option<[u32; 2]> {
        let table = match asked(of) {
            Ok(table) => table,
            Err(r) => return Some([r.number as u32, r.place as u32]),
        };
        if of.graph.len() < GRAPH_ASKED
            || scratch.len() < SCRATCH_ASKED
            || buffer.len() < EXAMPLE_ASKED
        {
            return Some([11, 0]);
        }
        let edges = graph_edges(&table, &of.graph).ok()?;
        let node = is_node(of, &edges);
        let listed = if node {
            self.trials(of, &edges)?
        } else {
            Rc::default()
        };
        let held = listed.examples.iter().find(|e| {
            let front = words_of(&e.1);
            scratch.starts_with(&front)
                && scratch[front.len()..SCRATCH_ASKED].iter().all(|&w| w == 0)
        });
        if l.open && l.count != 0 && held.is_none() {
            return Some([9, 0]);
        }
        if !node {
            return Some([15, 0]);
        }
        if !l.open {
            return Some([END, 0]);
        }
        let from = if l.count == 0 { 0 } else { held?.0 };
        let next = (listed.examples.iter()).find(|e| e.0 > from && listed.handed.contains(&e.0));
        let made = match (next, listed.all) {
            (Some(e), _) => Some(e.0 - from),
            (None, Some(all)) => Some(all - from),
            (None, None) if l.count >= from => None,
            _ => return None,
        };
        zero(scratch, SCRATCH_ASKED);
        let left = MAX_TRIALS.saturating_sub(l.count);
        Some(match (made.filter(|&m| m <= left), next) {
            (None, _) => {
                *l = Listing {
                    count: MAX_TRIALS,
                    open: false,
                };
                [13, 0]
            }
            (Some(m), None) => {
                l.count += m;
                l.open = false;
                [END, 0]
            }
            (Some(m), Some((_, path, words))) => {
                l.count += m;
                let front = words_of(path);
                scratch[..front.len()].copy_from_slice(&front);
                buffer[..words.len()].copy_from_slice(words);
                [0, 0]
            }
        })
    }

    /// Op 8.
    fn advance(&mut self, table: &[u16], more: &[u16]) -> Option<Answer> {
        let n = number(more, 13);
        let front = &rest(more, 15)[..n];
        let of = of(table, more, number(more, 10).min(GRAPH), front);
        let mut l = Listing {
            count: at(more, 7) as u32 | (at(more, 8) as u32) << 16,
            open: at(more, 9) != 0,
        };
        let mut scratch = vec![BEFORE; SCRATCH];
        if at(more, 14) != 0 {
            zero(&mut scratch, SCRATCH_ASKED);
        }
        let words = rest(more, 15 + n);
        scratch[..words.len()].copy_from_slice(words);
        let mut buffer = vec![0; BUFFER];
        let s = number(more, 11).min(SCRATCH);
        let b = number(more, 12).min(BUFFER);
        let [n, place] = self.step(&of, &mut l, &mut scratch[..s], &mut buffer[..b])?;
        let mut out = vec![n, place, l.count, l.open as u32];
        out.extend([digest(&scratch), digest(&buffer)]);
        out.extend(wide(&buffer[..16]));
        self.scratch = scratch;
        Some(out)
    }

    /// Op 9.
    fn examples(&mut self, table: &[u16], more: &[u16]) -> Option<Answer> {
        let numbers = &rest(more, 11)[..number(more, 10)];
        let front = rest(more, 11 + numbers.len());
        let listing = of(table, more, number(more, 7).min(GRAPH), front);
        let s = number(more, 8).min(SCRATCH);
        let o = number(more, 9).min(OUTPUT);
        let room: usize = numbers.chunks_exact(3).map(|c| 3 + c[2] as usize).sum();
        let own = if numbers.len() % 3 != 0 {
            refuse(9, 0)
        } else if room > o {
            refuse(11, 0)
        } else {
            Ok(())
        };
        // The lower number; of two that are equal the opening's.
        let both = [open(&listing).err(), own.err()];
        let refused = both.into_iter().flatten().min_by_key(|r| r.number);
        let mut scratch = vec![BEFORE; SCRATCH];
        let mut output = vec![0; OUTPUT];
        let mut out = match refused {
            Some(r) => vec![r.number as u32, r.place as u32, 7],
            None => vec![0, 0, numbers.len() as u32 / 3],
        };
        if refused.is_none() {
            let (mut l, mut at) = (FRESH, 0);
            for c in numbers.chunks_exact(3) {
                let end = at + 3 + c[2] as usize;
                let mut lent = listing.clone();
                lent.graph.truncate(c[0] as usize);
                let part = (c[1] as usize).min(s);
                let buffer = &mut output[at + 3..end];
                let [n, _] = self.step(&lent, &mut l, &mut scratch[..part], buffer)?;
                output[at] = n as u16;
                output[at + 1] = l.count as u16;
                output[at + 2] = (l.count >> 16) as u16;
                at = end;
            }
        }
        out.extend([digest(&scratch), digest(&output)]);
        out.extend(wide(&output[..24]));
        Some(out)
    }

    /// Op 10.
    fn classify(&mut self, table: &[u16], more: &[u16]) -> Option<Answer> {
        let conflict: [u16; 5] = more[..5].try_into().unwrap();
        let lent = [number(more, 5), number(more, 6), number(more, 7)];
        let asked = [CLASSIFY_ASKED, EXAMPLE_ASKED, EXAMPLE_ASKED];
        let short = lent.iter().zip(asked).any(|(&n, asked)| n < asked);
        let answer = or_short(self.side.classify(table, conflict)?, short);
        let scratch = scratch_after(&answer, CLASSIFY_ASKED);
        let mut buffers = [vec![BEFORE; EXAMPLE], vec![BEFORE; EXAMPLE]];
        let mut shown = vec![];
        let mut out = if answer[0] == 0 {
            let j = judged(&answer);
            for (buffer, example) in buffers.iter_mut().zip(&j.examples) {
                buffer[..example.len()].copy_from_slice(example);
                shown.extend(wide(example));
            }
            [&[0, 0, j.class], &packed(&j.own)[..], &j.trials].concat()
        } else {
            [&answer[..], &[7, 7, 0, 7, 7]].concat()
        };
        out.push(digest(&scratch));
        out.extend(buffers.iter().map(|b| digest(b)));
        out.extend(shown);
        Some(out)
    }

    /// Op 11.
    fn choose(&mut self, table: &[u16], more: &[u16]) -> Option<Answer> {
        let conflict: [u16; 4] = more[..4].try_into().unwrap();
        let short = number(more, 8) < CLASSIFY_ASKED || number(more, 9) < ENTRIES_ASKED;
        let answer = self.side.choose(table, conflict, set_at(more, 4))?;
        let answer = or_short(answer, short);
        let scratch = scratch_after(&answer, CLASSIFY_ASKED);
        let mut shown = vec![];
        let mut out = if answer[0] == 0 {
            let mut at = 2;
            for _ in 0..answer[1] {
                let end = at + 3 + answer[at + 2] as usize;
                let mut entry = [&answer[at..at + 2], &answer[at + 3..end]].concat();
                entry.resize(6, 0);
                shown.extend(entry);
                at = end;
            }
            vec![0, 0, answer[1]]
        } else {
            [&answer[..], &[77]].concat()
        };
        let entries = over(ENTRIES, &narrow(&shown));
        out.extend([digest(&scratch), digest(&entries)]);
        out.extend(shown);
        Some(out)
    }

    /// Op 14: what `SETS` says, in the program's order.
    fn sets(&mut self, more: &[u16]) -> Option<Answer> {
        // One nonterminal and one state, no production.
        let table = [1, at(more, 0), 1, 0, 0, 0, 0, 0, 0, 0, 0, 0];
        let (a, b) = (set_at(more, 2), set_at(more, 6));
        let s = self.side.sets(&table, a, b, at(more, 1))?;
        if s[0] != 0 {
            return None;
        }
        let s = &s[1..];
        let new = [0, 0];
        Some(
            [
                &[0, 0],
                &s[..9],
                &s[14..17],
                &s[9..14],
                &s[17..19],
                &new,
                &s[19..],
            ]
            .concat(),
        )
    }

    /// Op 15.
    fn item(&mut self, table: &[u16], more: &[u16]) -> Option<Answer> {
        let answer = self.side.item(table, (at(more, 0), at(more, 1)))?;
        if answer[0] != 0 {
            return Some(answer);
        }
        let mut at = 1;
        let mut part = || {
            let end = at + 1 + 2 * answer[at] as usize;
            let words = &answer[at + 1..end];
            at = end;
            words
        };
        let (prefix, cursor, suffix) = (part(), part(), part());
        let count = |words: &[u32]| words.len() as u32 / 2;
        let can_shift = !cursor.is_empty() as u32;
        let mut out = vec![0, 0, count(prefix), count(cursor), count(suffix)];
        out.extend([can_shift, 1 - can_shift, answer[at]]);
        Some([&out, prefix, prefix, cursor, suffix, suffix].concat())
    }
}
