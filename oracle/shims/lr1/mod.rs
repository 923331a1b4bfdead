// Shim: names of the published modules and of the example shim beside them.
pub mod core;
pub mod error;
pub mod example;
pub mod first;
pub mod lookahead;
pub mod state_graph;
pub mod tls;
pub mod trace;

pub use self::tls::Lr1Tls;
