// Root of the build copy: the published modules at the places that their
// `crate::` paths name, and written shims for what was not published.
#![allow(dead_code, unused, deprecated, clippy::all)]

#[macro_use]
pub mod log;

pub mod collections;
pub mod file_text;
pub mod grammar;
pub mod lexer;
pub mod lr1;
pub mod message;
pub mod session;
pub mod style;
pub mod tls;
pub mod util;
