//! The command. See README.md.

use oracle::SIDES;
use oracle::generate::{self, ALONE, KINDS};
use oracle::question::{self, Question, ask, text};
use oracle::side::{Answer, Side};
use oracle::table::{table_b, table_c};
use std::collections::BTreeMap;
use std::io::{BufRead, Read, Write};
use std::panic::{AssertUnwindSafe, catch_unwind};
use std::time::{Duration, Instant};

const USAGE: &str =
    "oracle [SIDE]                           questions, a line each, on standard input
oracle explain [SIDE]                   the explaining program over standard input
oracle marked [SIDE]                    the marked examples on table B (docs/RULES.md)
oracle generate KIND SEED COUNT [SIDE]  cases as lines, with the side's answers
oracle compare KIND SEED COUNT [SIDE ..] [only=VERB,..]
                                        asks all sides, or those named, the same (KIND may be all)
oracle sample REQUESTS ANSWERS [KIND SEED COUNT]
                                        writes the stored sample, or one of some seeds
oracle bison SEED COUNT [SIDE ..]       the states built against bison's canonical LR(1) automata, so many grammars
oracle yacc SEED COUNT                  yacc texts against byacc and bison, so many files
oracle costs [PART ..]                  times of the Rust and the port, if linked, in markdown (docs/COSTS.md has rows of them)
                                        (PART: traces, listings, conflicts, building; or longest, which takes long)
sides: rust, plain, and port if linked";

fn main() {
    let args: Vec<String> = std::env::args().skip(1).collect();
    let failed = oracle::with_stack(|| run(&args.iter().map(|a| &a[..]).collect::<Vec<_>>()));
    std::process::exit(failed as i32);
}

fn run(args: &[&str]) -> bool {
    let number = |a: &str| a.parse::<u64>().expect(USAGE);
    match *args {
        ["explain"] => explain("rust"),
        ["explain", side] => explain(side),
        ["marked"] => marked("rust"),
        ["marked", side] => marked(side),
        ["generate", kind, seed, count] => list(kind, number(seed), number(count), "rust"),
        ["generate", kind, seed, count, side] => list(kind, number(seed), number(count), side),
        ["compare", kind, seed, count, ref more @ ..] => {
            let (only, sides): (Vec<&str>, Vec<&str>) =
                more.iter().partition(|m| m.starts_with("only="));
            let only: Vec<&str> = only.iter().flat_map(|o| o[5..].split(',')).collect();
            let sides = if sides.is_empty() { SIDES } else { &sides };
            compare(kind, number(seed), number(count), sides, &only)
        }
        ["sample", requests, answers] => {
            let made = oracle::sample::sample(&mut *oracle::side("rust"));
            sample(requests, answers, &made)
        }
        ["sample", requests, answers, kind, seed, count] => {
            let (mut side, seed, count) = (oracle::side("rust"), number(seed), number(count));
            let made = oracle::sample::cases(&mut *side, kind, seed, count);
            sample(requests, answers, &made)
        }
        ["bison", seed, count, ref sides @ ..] => bison(number(seed), number(count), sides),
        ["yacc", seed, count] => yacc(number(seed), number(count)),
        #[cfg(feature = "port")]
        ["costs", ref parts @ ..] if parts.iter().all(|p| oracle::costs::PARTS.contains(p)) => {
            oracle::costs::costs(parts);
            false
        }
        [] => lines("rust"),
        [side @ ("rust" | "plain" | "port")] => lines(side),
        _ => {
            eprintln!("{USAGE}");
            true
        }
    }
}

fn answer_text(answer: &Option<Answer>) -> String {
    match answer {
        Some(words) => format!("= {}", text(words)),
        None => "= no run".into(),
    }
}

/// `table WORDS` sets the table (first: table B); any other line is asked.
fn lines(side: &str) -> bool {
    let mut side = oracle::side(side);
    let mut table = table_b();
    let mut bad = false;
    for line in std::io::stdin().lock().lines() {
        let line = line.unwrap();
        if line.is_empty() || line.starts_with(['#', '=']) {
            continue;
        }
        if let Some(words) = line.strip_prefix("table") {
            table = words
                .split_whitespace()
                .map(|w| w.parse().unwrap())
                .collect();
            continue;
        }
        match question::parse(&line) {
            Some(q) => println!("{}", answer_text(&ask(&mut *side, &table, &q))),
            None => {
                println!("? {line}");
                bad = true;
            }
        }
    }
    bad
}

fn explain(side: &str) -> bool {
    let mut input = vec![];
    std::io::stdin().lock().read_to_end(&mut input).unwrap();
    print!(
        "{}",
        oracle::explain::explain(&mut *oracle::side(side), &input)
    );
    false
}

/// The marked examples and the inputs of refusals (docs/RULES.md, "Table B").
fn marked(side: &str) -> bool {
    let mut side = oracle::side(side);
    let b = table_b();
    let expected: [(&str, &str); 17] = [
        ("check", "= 0"),
        ("first0", "= 0 1"),
        ("first0 0 0", "= 0 0 1"),
        ("back 3 0 0 1 0 0 0", "= 0 0 2"),
        ("back 3", "= 0 3"),
        ("back 0 0 0", "= 0"),
        (
            "list-shift 3 0 1 / -",
            "= 0 0 3 1 3 19 5 3 2 0 0 1 0 0 0 1 0 0 0 2 5 0 0 5 0",
        ),
        (
            "list-reduce 3 0 3 / 0",
            "= 0 0 3 1 3 19 5 3 2 0 0 1 0 0 0 1 0 0 0 0 3 0 0 5 0",
        ),
        (
            "classify 3 0 0 0 0",
            "= 0 2 3 3 1 0 19 5 3 2 0 0 1 0 0 0 1 0 0 0 2 5 0 0 5 0 \
             19 5 3 2 0 0 1 0 0 0 1 0 0 0 0 3 0 0 5 0",
        ),
        (
            "classify 3 0 0 1 0",
            "= 0 1 3 3 0 19 5 3 2 0 0 1 0 0 0 1 0 0 0 2 5 0 0 5 0 \
             19 5 3 2 0 0 1 0 0 0 1 0 0 0 0 3 0 0 5 0",
        ),
        ("classify 3 0 0 0 1", "= 0 0 0 3 0 0 0"),
        ("classify 3 0 1 1 2", "= 0 0 1 3 0 0 0"),
        (
            "classify 3 0 1 0 0",
            "= 0 5 3 3 4 0 9 0 9 19 5 3 2 0 0 1 0 0 0 1 0 0 0 0 3 0 0 5 0 0",
        ),
        ("classify 3 0 0 0 2", "= 10 0"),
        ("observed 3 0 0 0 0", "= 0 0 0 1 0 0 0"),
        ("choose 3 0 0 0 / 0", "= 0 1 0 2 1 0"),
        ("list 1 0 / - / 0", "= 15 0"),
    ];
    // Table C: those that crates/lihvemur_c/proofs/Marked states.
    let beside: [(&str, &str); 9] = [
        (
            "shift 1 2 0",
            "= 0 3 0 1 0 1 2 0 2 0 0 0 0 0 1 0 1 0 1 0 1 0 0 0 0 1",
        ),
        (
            "reduce 1 3 0",
            "= 0 4 0 1 0 1 3 0 3 0 0 0 0 0 1 0 1 0 0 0 0 1 1 0 1 0 1 0 1 0 0 0 0 1",
        ),
        (
            "reduce 2 3 0",
            "= 0 4 0 1 0 1 3 0 3 0 0 0 0 0 1 0 1 1 0 0 0 1 1 1 1 1 1 0 1 0 0 0 0 1",
        ),
        (
            "add 0 0 0 0 1 0 1 1 / 3 0 1 0 1 2 0 2 0 0 0 0 0 1 0 1 0 1 0 1 0 0 0 0 1",
            "= 0 4 0 1 0 1 2 0 2 0 0 0 0 0 1 0 1 0 1 0 1 0 0 0 0 1 0 0 0 0 1 0 1 1",
        ),
        (
            "add 0 0 0 0 1 0 1 0 / 3 0 1 0 1 2 0 2 0 0 0 0 0 1 0 1 0 1 0 1 0 0 0 0 1",
            "= 0 3 0 1 0 1 2 0 2 0 0 0 0 0 1 0 1 0 1 0 1 0 0 0 0 1",
        ),
        (
            "list-shift 1 2 0 / -",
            "= 0 0 3 1 3 20 4 1 3 1 1 1 0 0 1 1 1 1 2 1 1 3 0 0 4 0",
        ),
        (
            "list-reduce 1 3 0 / 0",
            "= 0 0 3 1 3 20 4 1 3 1 1 2 0 0 1 1 1 1 2 1 1 3 0 0 4 0",
        ),
        (
            "list-reduce 2 3 0 / 1",
            "= 0 0 3 1 3 20 4 2 3 1 1 0 1 2 0 1 1 2 3 1 1 3 0 0 4 0",
        ),
        ("list-reduce 2 3 0 / 0", "= 0 0 3 0"),
    ];
    let mut score = Score::default();
    let of_b = expected.into_iter().map(|e| (&b, e));
    let c = table_c();
    for (table, (line, want)) in of_b.chain(beside.into_iter().map(|e| (&c, e))) {
        let got = answer_text(&ask(&mut *side, table, &question::parse(line).unwrap()));
        println!("{line}\n  {got}");
        score.count(got == want || got == "= no run", || {
            format!("wanted {want}")
        });
    }
    let damage: [(usize, u16, &str); 3] = [(48, 12, "= 3 12"), (24, 0, "= 4 7"), (74, 4, "= 7 18")];
    for (at, word, want) in damage {
        let mut t = b.clone();
        t[at] = word;
        let got = answer_text(&side.check(&t));
        println!("table B, word {at} = {word}: check\n  {got}");
        score.count(got == want || got == "= no run", || {
            format!("wanted {want}")
        });
    }
    score.count(
        side.check(&[0, 0, 1, 0]).is_none_or(|a| a == [2, 0]),
        || "2".into(),
    );
    if side.name() == "rust" {
        drop(side);
        let panics = oracle::rust::panics(&b, [3, 0, 0, 0, 2], (1, 0));
        println!("the Rust panics where 10 and 15 stand: {panics:?}");
        score.count(panics == (true, true), || "no panic".into());
        score.count(oracle::rust::names_in_order(), || "names".into());
    }
    score.end()
}

fn cases(kind: &str, seed: u64, count: u64) -> impl Iterator<Item = oracle::question::Case> {
    let kinds: Vec<&str> = KINDS
        .into_iter()
        .chain(ALONE.into_iter().filter(|_| kind != "all"))
        .filter(|k| *k == kind || kind == "all")
        .collect();
    assert!(!kinds.is_empty(), "kinds: all, {KINDS:?} or {ALONE:?}");
    kinds.into_iter().flat_map(move |k| {
        // The few kinds that are the same for many seeds are not repeated.
        let count = match k {
            "limit" => count.min(14),
            "classic" => count.min(480),
            _ => count,
        };
        (seed..seed + count).filter_map(move |s| generate::case(k, s))
    })
}

fn list(kind: &str, seed: u64, count: u64, side: &str) -> bool {
    let mut side = oracle::side(side);
    let mut out = std::io::stdout().lock();
    for case in cases(kind, seed, count) {
        writeln!(out, "# {}\ntable {}", case.name, text(&case.table)).unwrap();
        for q in &case.questions {
            let answer = ask(&mut *side, &case.table, q);
            writeln!(out, "{q}\n{}", answer_text(&answer)).unwrap();
        }
    }
    false
}

/// The plain reader of the states and bison, and the sides named held to the
/// reader.
fn bison(seed: u64, count: u64, sides: &[&str]) -> bool {
    let mut asked: Vec<Box<dyn Side>> = sides.iter().map(|name| oracle::side(name)).collect();
    let (told, found) = oracle::bison::compare(seed, count as usize, &mut asked);
    println!(
        "{} grammars, and {} of more than 128 states: {} states, {} items, {} transitions, \
         {} lookaheads of complete items, {} shift/reduce and {} reduce/reduce conflicts",
        told.grammars,
        told.refused,
        told.states,
        told.items,
        told.transitions,
        told.lookaheads,
        told.conflicts[0],
        told.conflicts[1]
    );
    let mut score = Score {
        passed: (told.grammars + told.refused) as u64,
        failed: 0,
    };
    if let Some(what) = found {
        score.count(false, || what);
    }
    score.end()
}

/// The plain reader of yacc texts, byacc and bison.
fn yacc(seed: u64, count: u64) -> bool {
    let (told, found) = oracle::tools::compare(seed, count as usize);
    println!(
        "{} files that all read: {} productions, {} symbols, {} terminals",
        told.files, told.productions, told.symbols, told.terminals
    );
    println!("classes: here, files, read by byacc, read by bison");
    let mut score = Score {
        passed: told.files as u64,
        failed: 0,
    };
    for (name, here, [files, byacc, bison], good) in told.kinds {
        println!("{here:>5} {files:>5} {byacc:>5} {bison:>5}  {name}");
        score.passed += if good { files as u64 } else { 0 };
    }
    println!("a byte changed: here, byacc, bison, files");
    for ((here, byacc, bison), files) in told.bent {
        let read = |yes: bool| if yes { "reads" } else { "refuses" };
        println!("{here:>5} {:>8} {:>8} {files:>5}", read(byacc), read(bison));
    }
    println!("{} files of which a tool died", told.died);
    for what in found {
        score.count(false, || what);
    }
    score.end()
}

/// The stored sample: requests and answers.
fn sample(requests: &str, answers: &str, made: &oracle::sample::Sample) -> bool {
    let bytes: Vec<u8> = made.requests.iter().flat_map(|w| w.to_le_bytes()).collect();
    print!("{}", made.seeds);
    for (row, n) in &made.asked {
        println!("{n:>7}  {row}");
    }
    let count = made.answers.lines().count();
    println!("{count} requests, {} bytes", bytes.len());
    std::fs::write(requests, bytes).unwrap();
    std::fs::write(answers, &made.answers).unwrap();
    false
}

#[derive(Default)]
struct Score {
    passed: u64,
    failed: u64,
}

impl Score {
    fn count(&mut self, good: bool, why: impl FnOnce() -> String) {
        if good {
            self.passed += 1;
        } else {
            self.failed += 1;
            println!("FAILED: {}", why());
        }
    }

    fn end(&self) -> bool {
        println!("{} passed, {} failed", self.passed, self.failed);
        // Nothing asked is nothing shown.
        self.failed > 0 || self.passed == 0
    }
}

/// What a question and its answer are counted as.
fn row(q: &Question, answer: &Answer) -> String {
    let verb = q.to_string().split(' ').next().unwrap().to_string();
    match (&verb[..], answer[0]) {
        ("classify", 0) => format!("{verb} class {}", answer[1]),
        (v, 0) if v.starts_with("list") && answer[1] == 1 => format!("{verb} refused 13"),
        (_, 0) => verb,
        (_, n) => format!("{verb} refused {n}"),
    }
}

/// Asks several sides the same; every answer is held to the first side's, or
/// to the first that there is. `only` leaves out other verbs, if it names any.
fn compare(kind: &str, seed: u64, count: u64, sides: &[&str], only: &[&str]) -> bool {
    let mut sides: Vec<Box<dyn Side>> = sides.iter().map(|name| oracle::side(name)).collect();
    let names: Vec<&str> = sides.iter().map(|s| s.name()).collect();
    println!(
        "{}: kind {kind}, seeds {seed} to {}",
        names.join(", "),
        seed + count - 1
    );
    let mut score = Score::default();
    let mut rows: BTreeMap<String, u64> = BTreeMap::new();
    let (mut tables, mut unasked) = (0, 0);
    let mut times = vec![Duration::ZERO; sides.len()];
    for case in cases(kind, seed, count) {
        tables += 1;
        for q in &case.questions {
            let verb = q.to_string().split(' ').next().unwrap().to_string();
            if !only.is_empty() && !only.contains(&&verb[..]) {
                continue;
            }
            let mut answers: Vec<(&str, Answer)> = vec![];
            for (k, side) in sides.iter_mut().enumerate() {
                let start = Instant::now();
                let answer = catch_unwind(AssertUnwindSafe(|| ask(&mut **side, &case.table, q)));
                times[k] += start.elapsed();
                // Words that no side gives.
                match answer.unwrap_or(Some(vec![u32::MAX, k as u32])) {
                    Some(answer) => answers.push((names[k], answer)),
                    None => {
                        let line = format!("{verb} not answered by {}", names[k]);
                        *rows.entry(line).or_default() += 1;
                    }
                }
            }
            let Some(((_, first), others)) = answers.split_first() else {
                unasked += 1;
                continue;
            };
            if !others.is_empty() {
                *rows.entry(row(q, first)).or_default() += 1;
            }
            for (_, other) in others {
                score.count(first == other, || {
                    let lines = answers
                        .iter()
                        .map(|(n, a)| format!("\n= {} ({n})", text(a)));
                    let table = text(&case.table);
                    format!(
                        "{}\ntable {table}\n{q}{}",
                        case.name,
                        lines.collect::<String>()
                    )
                });
            }
            if score.failed > 5 {
                return score.end();
            }
        }
    }
    for (row, n) in &rows {
        println!("{n:>9}  {row}");
    }
    println!("{tables} tables; {unasked} questions answered by none");
    let times = names
        .iter()
        .zip(&times)
        .map(|(n, t)| format!("{n} {t:.2?}"));
    println!("time: {}", times.collect::<Vec<_>>().join(", "));
    score.end()
}
