//! The port as a side of a comparison. To add an entry: its declaration in
//! port.rs, and a method of `Side` that lends it words. What a call may write
//! is tested at every call.

use crate::port::{self, *};
use crate::side::{Answer, Side, Traced, members, symbol_words, wide, with_length};
use crate::table::Sym;

/// A class's own values, of four words whose others are 0.
fn own_values(class: u16, words: &[u16]) -> &[u16] {
    let count = match class {
        2 | 3 => 1,
        4 => 3,
        5 => 4,
        _ => 0,
    };
    assert!(class < 7 && words[count..].iter().all(|&w| w == 0));
    &words[..count]
}

/// How many words an example has.
fn example_length(words: &[u16]) -> usize {
    3 + 2 * words[0] as usize + 3 * words[2] as usize
}

/// The observed symbols' words.
fn observed<'a>(action: &'a [u16], reduce: &'a [u16]) -> &'a [u16] {
    let mut words = usize::MAX;
    let which = port::observed(action, reduce, &mut words);
    match (which, words) {
        (0, 0) => &action[..0],
        (0, n) => &action[3..3 + n],
        (1, n) => &reduce[3..3 + n],
        _ => panic!("no buffer {which}"),
    }
}

/// Words past those that a call asks for; none may change.
const PAST: usize = 7;

/// Words that are lent, with what they were before.
struct Lent {
    words: Vec<u16>,
    before: Vec<u16>,
}

impl Lent {
    /// Of any content: a call must not look at it.
    fn new(words: usize, fill: u16) -> Lent {
        let words: Vec<u16> = (0..words + PAST)
            .map(|i| (i as u16).wrapping_mul(7).wrapping_add(fill))
            .collect();
        Lent {
            before: words.clone(),
            words,
        }
    }

    /// The words from `front` on are as they were; the others are taken as they
    /// are now.
    fn kept(&mut self, front: usize, what: &str) {
        assert!(
            self.words[front..] == self.before[front..],
            "{what}: words changed from {front} on"
        );
        self.before[..front].copy_from_slice(&self.words[..front]);
    }
}

pub struct PortSide {
    graph: Lent,
    scratch: Lent,
    example: Lent,
    /// The action's and the reduce's.
    examples: [Lent; 2],
    entries: Lent,
    /// What the next words that are lent hold.
    fill: u16,
}

impl Default for PortSide {
    fn default() -> PortSide {
        PortSide {
            graph: Lent::new(GRAPH_WORDS, 3),
            scratch: Lent::new(SCRATCH_WORDS, 5),
            example: Lent::new(EXAMPLE_WORDS, 9),
            examples: [11, 13].map(|fill| Lent::new(EXAMPLE_WORDS, fill)),
            entries: Lent::new(ENTRY_WORDS, 17),
            fill: 0,
        }
    }
}

/// 0 and the words, or the refusal and its place.
fn answer<A: Iterator<Item = u32>>(
    (refusal, place): (u16, u16),
    words: impl FnOnce() -> A,
) -> Option<Answer> {
    Some(match refusal {
        0 => std::iter::once(0).chain(words()).collect(),
        _ => refused((refusal, place)),
    })
}

fn refused((refusal, place): (u16, u16)) -> Answer {
    vec![refusal as u32, place as u32]
}

fn tokens(set: u64) -> impl Iterator<Item = u32> {
    members(set).map(u32::from)
}

impl PortSide {
    /// Scratch after a call: zeroed if it was accepted or refused by 12 to 14,
    /// else as it was. Not zero before the next call.
    fn scratch_after(&mut self, refusal: u16, asked: usize) {
        if ![0, 12, 13, 14].contains(&refusal) {
            return self.scratch.kept(0, "scratch");
        }
        let zeroed = &self.scratch.words[..asked];
        assert!(zeroed.iter().all(|&w| w == 0), "scratch is not zero");
        self.scratch.kept(asked, "scratch");
        self.fill = self.fill.wrapping_add(1);
        self.scratch = Lent::new(SCRATCH_WORDS, self.fill);
    }

    /// A classification: its class and how many words each example has, or the
    /// refusal and its place. Accepted it writes the examples that its class
    /// has, else no result and no example.
    fn classified(
        &mut self,
        table: &[u16],
        c: [u16; 5],
    ) -> Result<(Class, [usize; 2]), (u16, u16)> {
        let fill = self.fill;
        self.examples = [fill, !fill].map(|fill| Lent::new(EXAMPLE_WORDS, fill));
        let (mut class, mut place) = (Class::UNWRITTEN, u16::MAX);
        let [action, reduce] = &mut self.examples;
        let lent = [&mut action.words[..], &mut reduce.words[..]];
        let scratch = &mut self.scratch.words;
        let refusal = class.classify(table, c, scratch, lent, &mut place);
        self.scratch_after(refusal, CLASSIFY_SCRATCH_WORDS);
        let shown = match (refusal, class.number) {
            (0, 0) => [false, false],
            (0, 5) => [true, false],
            (0, _) => [true, true],
            _ => [false, false],
        };
        let words = [0, 1].map(|k| {
            let example = &mut self.examples[k];
            let words = match shown[k] {
                true => example_length(&example.words),
                false => 0,
            };
            example.kept(words, ["action's example", "reduce's example"][k]);
            words
        });
        self.classify_short(table, c, (refusal, place));
        if refusal == 0 {
            assert!(place == 0);
            return Ok((class, words));
        }
        assert!(class == Class::UNWRITTEN, "results of a refused call");
        Err((refusal, place))
    }

    /// One word less than 11 asks for, of each loan: 1 to 10 as before, else
    /// 11, and nothing is written.
    fn classify_short(&mut self, table: &[u16], c: [u16; 5], before: (u16, u16)) {
        let full = [CLASSIFY_SCRATCH_WORDS, EXAMPLE_WORDS, EXAMPLE_WORDS];
        for short in 0..3 {
            let [s, a, r] = [0, 1, 2].map(|k| full[k] - (k == short) as usize);
            let (mut class, mut place) = (Class::UNWRITTEN, u16::MAX);
            let [action, reduce] = &mut self.examples;
            let lent = [&mut action.words[..a], &mut reduce.words[..r]];
            let scratch = &mut self.scratch.words[..s];
            let got = class.classify(table, c, scratch, lent, &mut place);
            assert!(class == Class::UNWRITTEN);
            self.refused_short((got, place), before);
        }
    }

    /// The same of choosing.
    fn choose_short(&mut self, table: &[u16], c: [u16; 4], tokens: u64, before: (u16, u16)) {
        let full = [CLASSIFY_SCRATCH_WORDS, ENTRY_WORDS];
        for short in 0..2 {
            let [s, e] = [0, 1].map(|k| full[k] - (k == short) as usize);
            let (mut count, mut place) = (usize::MAX, u16::MAX);
            let scratch = &mut self.scratch.words[..s];
            let entries = &mut self.entries.words[..e];
            let got = choose(table, c, tokens, scratch, entries, &mut count, &mut place);
            assert!(count == usize::MAX);
            self.refused_short((got, place), before);
        }
    }

    /// A call lent too little, of which `before` is known with enough.
    fn refused_short(&mut self, got: (u16, u16), before: (u16, u16)) {
        let expected = match before.0 {
            1..=10 => before,
            _ => (11, 0),
        };
        assert_eq!(got, expected);
        self.scratch.kept(0, "scratch");
        self.entries.kept(0, "entries");
        for example in &mut self.examples {
            example.kept(0, "example");
        }
    }

    /// A graph's words in front of others of which none is in range: those past
    /// the edges are not looked at.
    fn lend_graph(&mut self, graph: &[u16]) {
        self.graph.words.fill(u16::MAX);
        self.graph.words[..graph.len()].copy_from_slice(graph);
        self.graph.before.copy_from_slice(&self.graph.words);
    }

    fn graph_answer(&mut self, refusal: u16, place: u16, edges: u16) -> Option<Answer> {
        let front = match refusal {
            0 => 8 * edges as usize + 1,
            _ => 0,
        };
        self.graph.kept(front, "graph");
        assert!(refusal != 0 || self.graph.words[0] == edges);
        answer((refusal, place), || wide(&self.graph.words[..front]))
    }
}

impl Side for PortSide {
    fn name(&self) -> &'static str {
        "port"
    }

    fn check(&mut self, table: &[u16]) -> Option<Answer> {
        let mut place = 0;
        let refusal = check(table, &mut place);
        answer((refusal, place), || tokens(0))
    }

    /// Accepted it writes the records that it answers at the output's front and
    /// nothing past them, else nothing.
    fn respell(&mut self, table: &[u16], words: usize) -> Option<Answer> {
        self.fill = self.fill.wrapping_add(1);
        let mut out = Lent::new(words, self.fill);
        let (mut place, mut records) = (u16::MAX, u16::MAX);
        let refusal = respell(table, &mut out.words[..words], &mut records, &mut place);
        let front = match refusal {
            0 => 4 * records as usize,
            _ => 0,
        };
        out.kept(front, "output");
        assert!(if refusal == 0 { place == 0 } else { records == u16::MAX });
        answer((refusal, place), || {
            std::iter::once(records.into()).chain(wide(&out.words[..front]))
        })
    }

    /// In place, other words behind the table. A refusal changes nothing; done
    /// again, on all of it or on what is left, it changes nothing either.
    fn compact(&mut self, table: &[u16]) -> Option<Answer> {
        self.fill = self.fill.wrapping_add(1);
        let n = table.len();
        let mut lent = Lent::new(n, self.fill);
        lent.words[..n].copy_from_slice(table);
        let (mut place, mut records) = (u16::MAX, u16::MAX);
        let refusal = compact(&mut lent.words[..n], &mut records, &mut place);
        lent.kept(n, "behind the table");
        if refusal == 0 {
            assert!(place == 0);
            for words in [n, 4 * records as usize] {
                let (mut again, mut left) = (lent.words[..words].to_vec(), 0);
                assert!(compact(&mut again, &mut left, &mut place) == 0);
                assert!(left == records && again == lent.words[..words]);
            }
        } else {
            assert!(records == u16::MAX && lent.words[..n] == *table);
        }
        answer((refusal, place), || {
            std::iter::once(records.into()).chain(wide(&lent.words[..n]))
        })
    }

    /// Accepted it writes the records and the conflicts that it answers at the
    /// fronts of their lists and nothing past them. Accepted or refused from 16
    /// on it leaves zeros in the scratch that it asks for, else it changes
    /// nothing. What it writes is its own spelling, with nothing to take back.
    fn build(&mut self, table: &[u16], start: u16, lent: [usize; 3]) -> Option<Answer> {
        self.fill = self.fill.wrapping_add(1);
        let mut lists = lent.map(|words| Lent::new(words, self.fill));
        let (mut place, mut records, mut count) = (u16::MAX, u16::MAX, u32::MAX);
        let [scratch, out, conflicts] = &mut lists;
        let refusal = build_states(
            table,
            start,
            &mut scratch.words[..lent[0]],
            &mut out.words[..lent[1]],
            &mut conflicts.words[..lent[2]],
            &mut records,
            &mut count,
            &mut place,
        );
        let fronts = match refusal {
            0 => [BUILD_SCRATCH_WORDS, 4 * records as usize, 5 * count as usize],
            16.. => [BUILD_SCRATCH_WORDS, 0, 0],
            _ => [0; 3],
        };
        let names = ["scratch", "output", "conflicts"];
        for ((list, front), name) in lists.iter_mut().zip(fronts).zip(names) {
            list.kept(front, name);
        }
        let [scratch, out, conflicts] = lists.map(|list| list.words);
        assert!(scratch[..fronts[0]].iter().all(|&w| w == 0), "scratch is not zero");
        let (out, conflicts) = (&out[..fronts[1]], &conflicts[..fronts[2]]);
        if refusal == 0 {
            assert!(place == 0);
            let again: Answer = [0, records as u32].into_iter().chain(wide(out)).collect();
            assert!(self.respell(out, out.len()).as_ref() == Some(&again));
            assert!(self.compact(out) == Some(again));
        } else {
            assert!(records == u16::MAX && count == u32::MAX);
        }
        answer((refusal, place), || {
            [records as u32, count].into_iter().chain(wide(out)).chain(wide(conflicts))
        })
    }

    /// Accepted it writes the records and the places that it answers at the
    /// fronts of their lists and nothing past them, else nothing. What it writes
    /// is its own spelling, with nothing to take back.
    fn read_yacc(&mut self, text: &[u8], lent: [usize; 2]) -> Option<Answer> {
        self.fill = self.fill.wrapping_add(1);
        let mut lists = lent.map(|words| Lent::new(words, self.fill));
        let (mut place, mut results) = (u16::MAX, [u16::MAX; 3]);
        let [table, places] = &mut lists;
        let [records, count, start] = &mut results;
        let refusal = read_yacc(
            text,
            &mut table.words[..lent[0]],
            &mut places.words[..lent[1]],
            records,
            count,
            start,
            &mut place,
        );
        let fronts = match refusal {
            0 => [4 * results[0] as usize, results[1] as usize],
            _ => [0; 2],
        };
        for ((list, front), name) in lists.iter_mut().zip(fronts).zip(["table", "places"]) {
            list.kept(front, name);
        }
        let [table, places] = lists.map(|list| list.words);
        let (table, places) = (&table[..fronts[0]], &places[..fronts[1]]);
        if refusal == 0 {
            assert!(place == 0);
            let again: Answer = [0, results[0] as u32].into_iter().chain(wide(table)).collect();
            assert!(self.respell(table, table.len()).as_ref() == Some(&again));
            assert!(self.compact(table) == Some(again));
        } else {
            assert!(results == [u16::MAX; 3]);
        }
        answer((refusal, place), || {
            let words = wide(&results).chain(wide(table)).chain(wide(places));
            words.collect::<Answer>().into_iter()
        })
    }

    /// Accepted it writes so many bytes as it answers and nothing past them, else
    /// nothing. Read back and written again, they are the same bytes.
    fn write_yacc(&mut self, table: &[u16], bytes: usize) -> Option<Answer> {
        self.fill = self.fill.wrapping_add(1);
        let fill = |i: usize| (i as u8).wrapping_mul(7).wrapping_add(self.fill as u8);
        let before: Vec<u8> = (0..bytes + PAST).map(fill).collect();
        let mut text = before.clone();
        let (mut place, mut written) = (u16::MAX, u16::MAX);
        let refusal = write_yacc(table, &mut text[..bytes], &mut written, &mut place);
        let front = if refusal == 0 { written as usize } else { 0 };
        assert!(text[front..] == before[front..], "text: bytes changed from {front} on");
        let text = &text[..front];
        if refusal == 0 {
            assert!(place == 0);
            let (mut read, mut places) = ([0; 8_840], [0; 95]);
            let [mut records, mut count, mut start] = [u16::MAX; 3];
            let back = read_yacc(
                text,
                &mut read,
                &mut places,
                &mut records,
                &mut count,
                &mut start,
                &mut place,
            );
            assert!(back == 0 && start == 0 && count == table[0] + table[1]);
            let mut again = vec![0; front];
            let read = &read[..4 * records as usize];
            assert!(write_yacc(read, &mut again, &mut written, &mut place) == 0 && again == text);
        } else {
            assert!(written == u16::MAX);
        }
        answer((refusal, place), || {
            std::iter::once(front as u32).chain(text.iter().map(|&b| b.into()))
        })
    }

    fn first0(&mut self, table: &[u16], symbols: &[Sym]) -> Option<Answer> {
        let (mut place, mut set, mut nullable) = (0, 0, false);
        let symbols = symbol_words(symbols);
        let refusal = first0(table, &symbols, &mut set, &mut nullable, &mut place);
        answer((refusal, place), || {
            std::iter::once(nullable.into()).chain(tokens(set))
        })
    }

    fn first1(&mut self, table: &[u16], symbols: &[Sym], ahead: u64) -> Option<Answer> {
        let (mut place, mut set) = (0, 0);
        let refusal = first1(table, ahead, &symbol_words(symbols), &mut set, &mut place);
        answer((refusal, place), || tokens(set))
    }

    fn trace_back(&mut self, table: &[u16], state: u16, symbols: &[Sym]) -> Option<Answer> {
        let (mut place, mut low, mut high) = (0, 0, 0);
        let symbols = symbol_words(symbols);
        let refusal = trace_back(table, state, &symbols, &mut low, &mut high, &mut place);
        answer((refusal, place), || {
            tokens(low).chain(tokens(high).map(|s| 64 + s))
        })
    }

    fn first0_joined(&mut self, table: &[u16], xs: &[u16], ys: &[u16]) -> Option<Answer> {
        let (mut place, mut set, mut nullable) = (0, 0, false);
        let refusal = first0_joined(table, xs, ys, &mut set, &mut nullable, &mut place);
        answer((refusal, place), || {
            std::iter::once(nullable.into()).chain(tokens(set))
        })
    }

    fn trace_back_joined(
        &mut self,
        table: &[u16],
        state: u16,
        xs: &[u16],
        ys: &[u16],
    ) -> Option<Answer> {
        let (mut place, mut low, mut high) = (0, 0, 0);
        let refusal = trace_back_joined(table, state, xs, ys, &mut low, &mut high, &mut place);
        answer((refusal, place), || {
            tokens(low).chain(tokens(high).map(|s| 64 + s))
        })
    }

    /// Accepted it writes count and edges at the graph's front, with refusal 12
    /// nothing of the graph, and zeroes scratch; else it writes nothing.
    fn backtrace(&mut self, reduce: bool, table: &[u16], from: Traced) -> Option<Answer> {
        let (mut place, mut edges) = (0, 0);
        let (graph, scratch) = (&mut self.graph.words, &mut self.scratch.words);
        let refusal = backtrace(reduce, table, from, graph, scratch, &mut edges, &mut place);
        self.scratch_after(refusal, SCRATCH_WORDS);
        self.graph_answer(refusal, place, edges)
    }

    fn add_edge(&mut self, table: &[u16], graph: &[u16], edge: [u16; 8]) -> Option<Answer> {
        self.lend_graph(graph);
        let (mut place, mut edges) = (0, 0);
        let lent = &mut self.graph.words;
        let refusal = add_edge(table, edge, lent, &mut edges, &mut place);
        self.graph_answer(refusal, place, edges)
    }

    /// Opened and moved on to its end, and once more.
    fn examples(
        &mut self,
        table: &[u16],
        graph: &[u16],
        start: (u16, u16),
        lookahead: Option<u64>,
    ) -> Option<Answer> {
        self.lend_graph(graph);
        let mut place = 0;
        let graph = &self.graph.words;
        let mut listing = match Listing::new(table, start, lookahead, graph, &mut place) {
            Ok(listing) => listing,
            Err(refusal) => return Some(refused((refusal, place))),
        };
        // A fresh listing does not look at what the words hold.
        self.scratch = Lent::new(SCRATCH_WORDS, start.0);
        let (mut found, mut examples) = (vec![], 0);
        loop {
            let (scratch, example) = (&mut self.scratch.words, &mut self.example.words);
            let got = listing.advance(table, graph, scratch, example, &mut place);
            self.scratch.kept(SCRATCH_WORDS, "scratch");
            if got == 0 {
                let words = example_length(&self.example.words);
                examples += 1;
                found.push(listing.count);
                with_length(&mut found, &self.example.words[..words]);
                self.example.kept(words, "example");
                continue;
            }
            self.example.kept(0, "example");
            if ![13, END].contains(&got) {
                return Some(refused((got, place)));
            }
            assert!(self.scratch.words[..SCRATCH_WORDS].iter().all(|&w| w == 0));
            let (count, scratch) = (listing.count, &mut self.scratch.words);
            let again = listing.advance(table, graph, scratch, &mut self.example.words, &mut place);
            assert!(again == END && listing.count == count && !listing.open);
            self.scratch.kept(0, "scratch");
            self.example.kept(0, "example");
            let head = [0, (got == 13) as u32, count, examples];
            return Some([&head[..], &found].concat());
        }
    }

    fn classify(&mut self, table: &[u16], conflict: [u16; 5]) -> Option<Answer> {
        let (class, words) = match self.classified(table, conflict) {
            Ok(answer) => answer,
            Err(refusal) => return Some(refused(refusal)),
        };
        let [a, r] = class.trials;
        let mut out = vec![0, class.number as u32, a, r];
        let values = [0, 1, 2, 3].map(|k| (class.values >> (16 * k)) as u16);
        with_length(&mut out, own_values(class.number, &values));
        for (example, words) in self.examples.iter().zip(words) {
            with_length(&mut out, &example.words[..words]);
        }
        Some(out)
    }

    /// The words lent for entries: six an entry may change, with a refusal
    /// none; past a class's own values stand zeros.
    fn choose(&mut self, table: &[u16], conflict: [u16; 4], tokens: u64) -> Option<Answer> {
        self.entries = Lent::new(ENTRY_WORDS, self.fill);
        let (mut count, mut place) = (usize::MAX, u16::MAX);
        let (scratch, entries) = (&mut self.scratch.words, &mut self.entries.words);
        let refusal = choose(
            table, conflict, tokens, scratch, entries, &mut count, &mut place,
        );
        self.scratch_after(refusal, CLASSIFY_SCRATCH_WORDS);
        let front = if refusal == 0 { 6 * count } else { 0 };
        self.entries.kept(front, "entries");
        self.choose_short(table, conflict, tokens, (refusal, place));
        if refusal != 0 {
            assert!(count == usize::MAX, "the count of a refused call");
            return Some(refused((refusal, place)));
        }
        assert!(place == 0);
        let mut out = vec![0, count as u32];
        for entry in self.entries.words[..6 * count].chunks_exact(6) {
            out.extend(wide(&entry[..2]));
            with_length(&mut out, own_values(entry[1], &entry[2..]));
        }
        Some(out)
    }

    /// Of both examples whole and cut to their words; cut by one more, or with
    /// a cursor past the symbols, a buffer gives no symbols.
    fn observed(&mut self, table: &[u16], conflict: [u16; 5]) -> Option<Answer> {
        let [a, r] = match self.classified(table, conflict) {
            Ok((_, words)) => words,
            Err(refusal) => return Some(refused(refusal)),
        };
        if a == 0 || r == 0 {
            return None;
        }
        let [action, reduce] = &self.examples;
        let (action, reduce) = (&action.words[..], &reduce.words[..]);
        let found = observed(action, reduce);
        assert_eq!(observed(&action[..a], &reduce[..r]), found);
        let past = |example: &[u16]| {
            let mut words = example.to_vec();
            words[1] = words[0] + 1;
            words
        };
        for (x, y) in [
            (&action[..a - 1], reduce),
            (action, &reduce[..r - 1]),
            (&past(action), reduce),
            (action, &past(reduce)),
        ] {
            assert!(observed(x, y).is_empty());
        }
        let out = answer((0, 0), || wide(found));
        for example in &mut self.examples {
            example.kept(0, "example");
        }
        out
    }
}
