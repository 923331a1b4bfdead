//! The port's exported functions: the proved library, linked as a static
//! library into this process (feature `port`; build.sh sets it if PORT_LIB
//! names the folder of liblihvemur.a).

use crate::side::Traced;

/// Exported functions, with their arguments as in Rust. A list passes as two
/// arguments, a pointer and a length (a slice in an `extern` block is one,
/// which is passed otherwise where the registers end), numbers in brackets as
/// so many. Each function answers 0 or a refusal, whose place it writes.
macro_rules! entries {
    ($($name:ident is $entry:ident($($arguments:tt)*);)*) => {
        $(entries! { @ $name $entry () () () $($arguments)*, })*
    };
    // One argument after the other: its part of the signature, of the
    // declaration and of the call.
    (@ $name:ident $entry:ident ($($s:tt)*) ($($d:tt)*) ($($c:tt)*)) => {
        pub fn $name($($s)*) -> u16 {
            unsafe extern "C" {
                fn $entry($($d)*) -> u16;
            }
            unsafe { $entry($($c)*) }
        }
    };
    (@ $n:ident $e:ident ($($s:tt)*) ($($d:tt)*) ($($c:tt)*) $a:ident: &[u16], $($more:tt)*) => {
        entries! { @ $n $e ($($s)* $a: &[u16],) ($($d)* _: *const u16, _: usize,)
        ($($c)* $a.as_ptr(), $a.len(),) $($more)* }
    };
    (@ $n:ident $e:ident ($($s:tt)*) ($($d:tt)*) ($($c:tt)*) $a:ident: &mut [u16], $($more:tt)*) => {
        entries! { @ $n $e ($($s)* $a: &mut [u16],) ($($d)* _: *mut u16, _: usize,)
        ($($c)* $a.as_mut_ptr(), $a.len(),) $($more)* }
    };
    (@ $n:ident $e:ident ($($s:tt)*) ($($d:tt)*) ($($c:tt)*) $a:ident: &[u8], $($more:tt)*) => {
        entries! { @ $n $e ($($s)* $a: &[u8],) ($($d)* _: *const u8, _: usize,)
        ($($c)* $a.as_ptr(), $a.len(),) $($more)* }
    };
    (@ $n:ident $e:ident ($($s:tt)*) ($($d:tt)*) ($($c:tt)*) $a:ident: &mut [u8], $($more:tt)*) => {
        entries! { @ $n $e ($($s)* $a: &mut [u8],) ($($d)* _: *mut u8, _: usize,)
        ($($c)* $a.as_mut_ptr(), $a.len(),) $($more)* }
    };
    (@ $n:ident $e:ident ($($s:tt)*) ($($d:tt)*) ($($c:tt)*) [$($a:ident),*]: $t:ty, $($more:tt)*) => {
        entries! { @ $n $e ($($s)* [$($a),*]: $t,) ($($d)* $($a: u16,)*) ($($c)* $($a,)*) $($more)* }
    };
    (@ $n:ident $e:ident ($($s:tt)*) ($($d:tt)*) ($($c:tt)*) ($($a:ident),*): $t:ty, $($more:tt)*) => {
        entries! { @ $n $e ($($s)* ($($a),*): $t,) ($($d)* $($a: u16,)*) ($($c)* $($a,)*) $($more)* }
    };
    (@ $n:ident $e:ident ($($s:tt)*) ($($d:tt)*) ($($c:tt)*) $a:ident: $t:ty, $($more:tt)*) => {
        entries! { @ $n $e ($($s)* $a: $t,) ($($d)* $a: $t,) ($($c)* $a,) $($more)* }
    };
}

entries! {
    check is lihvemur_check(table: &[u16], place: &mut u16);
    respell is lihvemur_respell(
        table: &[u16], out: &mut [u16], records: &mut u16, place: &mut u16
    );
    compact is lihvemur_compact(table: &mut [u16], records: &mut u16, place: &mut u16);
    build_states is lihvemur_build_states(
        table: &[u16], start: u16, scratch: &mut [u16], out: &mut [u16], conflicts: &mut [u16],
        records: &mut u16, count: &mut u32, place: &mut u16
    );
    first0 is lihvemur_first0(
        table: &[u16], symbols: &[u16], set: &mut u64, nullable: &mut bool, place: &mut u16
    );
    first1 is lihvemur_first1(
        table: &[u16], lookahead: u64, symbols: &[u16], set: &mut u64, place: &mut u16
    );
    trace_back is lihvemur_trace_back(
        table: &[u16], state: u16, symbols: &[u16], low: &mut u64, high: &mut u64, place: &mut u16
    );
    first0_joined is lihvemur_first0_joined(
        table: &[u16], xs: &[u16], ys: &[u16], set: &mut u64, nullable: &mut bool, place: &mut u16
    );
    trace_back_joined is lihvemur_trace_back_joined(
        table: &[u16], state: u16, xs: &[u16], ys: &[u16], low: &mut u64, high: &mut u64,
        place: &mut u16
    );
    add_edge is lihvemur_add_edge(
        table: &[u16],
        [source_kind, source, source_index, target_kind, target, target_index, production, index]:
            [u16; 8],
        graph: &mut [u16], edges: &mut u16, place: &mut u16
    );
    backtrace_shift is lihvemur_backtrace_shift(
        table: &[u16], state: u16, (production, index): (u16, u16),
        graph: &mut [u16], scratch: &mut [u16], edges: &mut u16, place: &mut u16
    );
    backtrace_reduce is lihvemur_backtrace_reduce(
        table: &[u16], state: u16, (production, index): (u16, u16),
        graph: &mut [u16], scratch: &mut [u16], edges: &mut u16, place: &mut u16
    );
    lr0_examples is lihvemur_lr0_examples(
        table: &[u16], (production, index): (u16, u16), graph: &[u16], place: &mut u16
    );
    lr1_examples is lihvemur_lr1_examples(
        table: &[u16], (production, index): (u16, u16), lookahead: u64, graph: &[u16],
        place: &mut u16
    );
    advance is lihvemur_advance(
        table: &[u16], (production, index): (u16, u16), filtered: bool, lookahead: u64,
        graph: &[u16], scratch: &mut [u16], buffer: &mut [u16],
        count: &mut u32, open: &mut bool, place: &mut u16
    );
    // The class's own values: 16 bits each, the first lowest.
    classify is lihvemur_classify(
        table: &[u16], [state, production, action, operand, token]: [u16; 5],
        scratch: &mut [u16], action_example: &mut [u16], reduce_example: &mut [u16],
        class: &mut u16, values: &mut u64, action_trials: &mut u32, reduce_trials: &mut u32,
        place: &mut u16
    );
    choose is lihvemur_choose(
        table: &[u16], [state, production, action, operand]: [u16; 4], tokens: u64,
        scratch: &mut [u16], entries: &mut [u16], count: &mut usize, place: &mut u16
    );
    // In which of the two the symbols lie; nothing is refused.
    observed is lihvemur_observed(action: &[u16], reduce: &[u16], words: &mut usize);
    read_yacc is lihvemur_read_yacc(
        text: &[u8], table: &mut [u16], places: &mut [u16],
        records: &mut u16, count: &mut u16, start: &mut u16, place: &mut u16
    );
    write_yacc is lihvemur_write_yacc(
        table: &[u16], text: &mut [u8], bytes: &mut u16, place: &mut u16
    );
}

/// What `advance` answers at the end of a listing.
pub const END: u16 = 16;
/// The words that a call asks for.
pub const GRAPH_WORDS: usize = 8_193;
pub const EXAMPLE_WORDS: usize = 1_158;
pub const ENTRY_WORDS: usize = 384;
pub const SCRATCH_WORDS: usize = 32_000;
pub const CLASSIFY_SCRATCH_WORDS: usize = 8_000;
pub const BUILD_SCRATCH_WORDS: usize = 64_000;

/// `backtrace_reduce` if `reduce`, else `backtrace_shift`.
pub fn backtrace(
    reduce: bool,
    table: &[u16],
    (state, item): Traced,
    graph: &mut [u16],
    scratch: &mut [u16],
    edges: &mut u16,
    place: &mut u16,
) -> u16 {
    let trace = if reduce {
        backtrace_reduce
    } else {
        backtrace_shift
    };
    trace(table, state, item, graph, scratch, edges, place)
}

/// What a classification answers beside the lent words.
#[derive(Clone, Copy, Debug, PartialEq, Eq)]
pub struct Class {
    pub number: u16,
    /// Its own values, 16 bits each, the first lowest.
    pub values: u64,
    pub trials: [u32; 2],
}

impl Class {
    /// No classification's: written only with answer 0.
    pub const UNWRITTEN: Class = Class {
        number: 0x5A5A,
        values: 0x1234_5678_9ABC_DEF1,
        trials: [u32::MAX, u32::MAX - 1],
    };

    /// Written by a classification; `examples` are the action's buffer and the
    /// reduce's.
    pub fn classify(
        &mut self,
        table: &[u16],
        c: [u16; 5],
        scratch: &mut [u16],
        examples: [&mut [u16]; 2],
        place: &mut u16,
    ) -> u16 {
        let [action, reduce] = examples;
        let (number, values) = (&mut self.number, &mut self.values);
        let [a, r] = &mut self.trials;
        classify(
            table, c, scratch, action, reduce, number, values, a, r, place,
        )
    }
}

/// A listing in its parts.
pub struct Listing {
    start: (u16, u16),
    lookahead: Option<u64>,
    pub count: u32,
    pub open: bool,
}

impl Listing {
    /// A fresh one, or the refusal.
    pub fn new(
        table: &[u16],
        start: (u16, u16),
        lookahead: Option<u64>,
        graph: &[u16],
        place: &mut u16,
    ) -> Result<Listing, u16> {
        let refusal = match lookahead {
            None => lr0_examples(table, start, graph, place),
            Some(set) => lr1_examples(table, start, set, graph, place),
        };
        match refusal {
            0 => Ok(Listing {
                start,
                lookahead,
                count: 0,
                open: true,
            }),
            _ => Err(refusal),
        }
    }

    pub fn advance(
        &mut self,
        table: &[u16],
        graph: &[u16],
        scratch: &mut [u16],
        buffer: &mut [u16],
        place: &mut u16,
    ) -> u16 {
        let (filtered, set) = (self.lookahead.is_some(), self.lookahead.unwrap_or(0));
        let (count, open) = (&mut self.count, &mut self.open);
        advance(
            table, self.start, filtered, set, graph, scratch, buffer, count, open, place,
        )
    }
}
