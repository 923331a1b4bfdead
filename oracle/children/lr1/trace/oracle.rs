// Child of the build copy: names kept in a private module.
pub use super::trace_graph::{FilteredPathEnumerator, PathEnumerator, TraceGraphNode};
