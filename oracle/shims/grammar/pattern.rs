// Shim: patterns of user tokens; no table has any.
#[derive(Clone, Debug, PartialEq, Eq)]
pub struct Pattern<T>(pub T);
