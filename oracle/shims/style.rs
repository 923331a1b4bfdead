// Shim: styles of messages.
pub use ascii_canvas::style::*;
