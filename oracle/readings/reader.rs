//! The plain reader alone, without the Rust: answers the stored requests and
//! counts the stored answers that differ. Arguments: requests, answers.

#[path = "../driver/src/answers.rs"]
mod answers;
#[path = "../driver/src/plain.rs"]
mod plain;
#[path = "../driver/src/rewrites.rs"]
mod rewrites;
#[path = "../driver/src/side.rs"]
mod side;
#[path = "../driver/src/states.rs"]
mod states;
#[path = "../driver/src/table.rs"]
mod table;
#[path = "../driver/src/yacc.rs"]
mod yacc;

use std::panic::{AssertUnwindSafe, catch_unwind};

/// One request at the front of the words; what follows it.
fn request(words: &[u16]) -> Option<(u16, &[u16], &[u16], &[u16])> {
    let [op, low, high, rest @ ..] = words else {
        return None;
    };
    let (table, rest) = rest.split_at(*low as usize | (*high as usize) << 16);
    let (more, rest) = rest[1..].split_at(rest[0] as usize);
    Some((*op, table, more, rest))
}

fn count(words: &[u16], stored: &str) {
    let mut side = plain::PlainSide;
    let mut answers = answers::Answers::new(&mut side);
    let mut rest = words;
    let (mut asked, mut changed) = (0, 0);
    for line in stored.lines() {
        let (op, table, more, after) = request(rest).expect("fewer requests than answers");
        let answer = catch_unwind(AssertUnwindSafe(|| answers.answer(op, table, more)));
        let numbers = answer.ok().flatten().unwrap_or_default();
        let words: Vec<String> = numbers.iter().map(|n| n.to_string()).collect();
        asked += 1;
        if words.join(" ") != line {
            changed += 1;
            if std::env::var_os("SHOW").is_some() && changed <= 3 {
                println!("op {op} {more:?}\n  {line}\n  {}", words.join(" "));
            }
        }
        rest = after;
    }
    assert!(rest.is_empty(), "more requests than answers");
    println!("{changed} of {asked}");
}

fn main() {
    let args: Vec<String> = std::env::args().collect();
    let bytes = std::fs::read(&args[1]).unwrap();
    let words: Vec<u16> = bytes
        .chunks_exact(2)
        .map(|b| u16::from_le_bytes([b[0], b[1]]))
        .collect();
    let stored = std::fs::read_to_string(&args[2]).unwrap();
    // A wrong reading may panic: an answer that differs.
    std::panic::set_hook(Box::new(|_| {}));
    // Tracing recurses.
    std::thread::scope(|scope| {
        let thread = std::thread::Builder::new().stack_size(1 << 30);
        let run = thread.spawn_scoped(scope, || count(&words, &stored));
        run.unwrap().join().unwrap();
    });
}
