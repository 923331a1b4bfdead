//! Times of the Rust and of the port on the same inputs in one run, as tables
//! in markdown. The least of several runs, in microseconds; a long run's
//! processor time, which work beside it does not touch.
//!
//! Every call of the port reads its words afresh: it checks the table, reads
//! the productions, and makes FIRST and the state graph if it needs them. The
//! Rust is asked over values made before (grammar, states, FIRST; of a listing
//! the graph); the second figure has the time of making them from the words,
//! by this driver, in it.

mod building;
mod conflicts;
mod listings;
mod tables;
mod traces;

use crate::generate;
use crate::port;
use crate::question::Case;
use crate::rust::Held;
use crate::side::Traced;
use crate::table::decode;
use std::hint::black_box;
use std::rc::Rc;
use std::time::{Duration, Instant};

/// The parts in the order in which they are printed, and one that takes too long to be
/// asked with the others.
pub const PARTS: [&str; 5] = ["traces", "listings", "conflicts", "building", "longest"];

/// The tables of some parts, of the first four if none is named.
pub fn costs(parts: &[&str]) {
    let parts = if parts.is_empty() { &PARTS[..4] } else { parts };
    for part in parts {
        match *part {
            "traces" => traces::costs(),
            "listings" => listings::costs(),
            "conflicts" => conflicts::costs(),
            "building" => building::costs(),
            _ => conflicts::longest(),
        }
    }
}

/// How a run is timed.
type Timing = fn(&mut dyn FnMut()) -> f64;

/// This thread's, on Linux (clock 3 is CLOCK_THREAD_CPUTIME_ID).
fn processor_time() -> Duration {
    #[repr(C)]
    struct Time {
        seconds: u64,
        nanoseconds: u64,
    }
    unsafe extern "C" {
        fn clock_gettime(clock: i32, time: &mut Time) -> i32;
    }
    let mut time = Time {
        seconds: 0,
        nanoseconds: 0,
    };
    let good = unsafe { clock_gettime(3, &mut time) };
    assert_eq!(good, 0);
    Duration::new(time.seconds, time.nanoseconds as u32)
}

/// By the clock, of a long run the processor time if it is less.
fn timed(f: &mut dyn FnMut()) -> Duration {
    let (processor, start) = (processor_time(), Instant::now());
    f();
    let took = start.elapsed();
    if took < Duration::from_millis(1) {
        return took;
    }
    took.min(processor_time() - processor)
}

fn micros(time: Duration) -> f64 {
    time.as_secs_f64() * 1e6
}

/// The least time of at least three runs; of one if it is long.
fn least(f: &mut dyn FnMut()) -> f64 {
    let (mut best, mut spent, mut runs) = (Duration::MAX, Duration::ZERO, 0);
    while runs < 3 || spent < Duration::from_millis(300) && runs < 20_000 {
        let took = timed(f);
        best = best.min(took);
        spent += took;
        runs += 1;
        if spent > Duration::from_secs(3) {
            break;
        }
    }
    micros(best)
}

/// The least time of five runs, for means over many inputs.
fn few(f: &mut dyn FnMut()) -> f64 {
    micros((0..5).map(|_| timed(f)).min().unwrap())
}

/// A table's heading.
fn head(columns: &[&str]) {
    println!(
        "\n| {} |\n|{}",
        columns.join(" | "),
        "---|".repeat(columns.len())
    );
}

fn line(cells: &[String]) {
    println!("| {} |", cells.join(" | "));
}

/// The heading above `row`s.
fn beside(first: &str) {
    head(&[
        first,
        "Rust",
        "Rust from the words",
        "port",
        "ratio",
        "ratio from the words",
    ]);
}

/// Three figures.
fn number(us: f64) -> String {
    match us {
        _ if us >= 1_000.0 => format!("{us:.0}"),
        _ if us >= 10.0 => format!("{us:.1}"),
        _ => format!("{us:.2}"),
    }
}

/// `made`: the time of making the Rust's values from the words.
fn row(name: &str, rust: f64, made: f64, port: f64) {
    let times = [rust, rust + made, port].map(number);
    let ratios = [rust, rust + made].map(|r| format!("{:.2}", r / port));
    line(&[&[name.to_string()], &times[..], &ratios].concat());
}

/// Means of a row over many inputs.
#[derive(Clone, Copy, Default)]
struct Means {
    sums: [f64; 3],
    count: u32,
}

impl Means {
    fn add(&mut self, rust: f64, made: f64, port: f64) {
        for (sum, time) in self.sums.iter_mut().zip([rust, made, port]) {
            *sum += time;
        }
        self.count += 1;
    }

    fn row(&self, what: &str) {
        let [rust, made, port] = self.sums.map(|s| s / self.count as f64);
        row(&format!("{} {what}, each", self.count), rust, made, port);
    }
}

fn held(table: &[u16]) -> Held {
    Held::new(Rc::new(decode(table).unwrap())).unwrap()
}

/// Time of reading a table and making the Rust's grammar, states and FIRST.
fn making(table: &[u16], time: Timing) -> f64 {
    time(&mut || {
        black_box(held(table));
    })
}

/// The first 60 cases of a kind that the Rust can hold, with their values and
/// the time of making these.
fn each_of(kind: &str, mut f: impl FnMut(&Case, &Held, f64)) {
    for case in (1..61).filter_map(|seed| generate::case(kind, seed)) {
        let good = decode(&case.table).is_ok_and(|t| !t.two_targets());
        if good {
            let made = making(&case.table, few);
            f(&case, &held(&case.table), made);
        }
    }
}

fn case(kind: &str, seed: u64) -> Case {
    generate::case(kind, seed).unwrap()
}

/// What the port is lent.
struct Lent {
    graph: Vec<u16>,
    scratch: Vec<u16>,
    examples: [Vec<u16>; 2],
    entries: Vec<u16>,
}

impl Lent {
    fn new() -> Lent {
        Lent {
            graph: vec![0; port::GRAPH_WORDS],
            scratch: vec![7; port::SCRATCH_WORDS],
            examples: [(); 2].map(|()| vec![0; port::EXAMPLE_WORDS]),
            entries: vec![0; port::ENTRY_WORDS],
        }
    }

    /// The refusal and the number of edges.
    fn trace(&mut self, reduce: bool, table: &[u16], from: Traced) -> [u16; 2] {
        let (mut place, mut edges) = (0, 0);
        let (graph, scratch) = (&mut self.graph, &mut self.scratch);
        let refusal = port::backtrace(reduce, table, from, graph, scratch, &mut edges, &mut place);
        [refusal, edges]
    }
}
