//! Runs of lalrpop's published modules on the words of docs/RULES.md.

pub mod answers;
pub mod bison;
pub mod builds;
pub mod conflicts;
#[cfg(feature = "port")]
pub mod costs;
pub mod explain;
pub mod generate;
pub mod layouts;
pub mod listings;
pub mod plain;
#[cfg(feature = "port")]
pub mod port;
#[cfg(feature = "port")]
pub mod port_side;
pub mod question;
pub mod rewrites;
pub mod rules;
pub mod rust;
pub mod sample;
pub mod side;
pub mod states;
pub mod table;
pub mod tools;
pub mod yacc;
pub mod yaccs;

/// Runs `f` on a thread with a large stack: the Rust's enumerator and tracing
/// recurse.
pub fn with_stack<A: Send>(f: impl FnOnce() -> A + Send) -> A {
    std::thread::scope(|scope| {
        let thread = std::thread::Builder::new().stack_size(1 << 30);
        thread.spawn_scoped(scope, f).unwrap().join().unwrap()
    })
}

/// The sides there are, the yardstick first.
pub const SIDES: &[&str] = &[
    "rust",
    "plain",
    #[cfg(feature = "port")]
    "port",
];

/// A side by its name.
pub fn side(name: &str) -> Box<dyn side::Side> {
    match name {
        "rust" => Box::new(rust::RustSide::default()),
        "plain" => Box::new(plain::PlainSide),
        #[cfg(feature = "port")]
        "port" => Box::new(port_side::PortSide::default()),
        _ => panic!("no side {name}"),
    }
}
