// Shim: the tokenizer's automaton; no table has one.
pub mod dfa {
    #[derive(Clone, Debug, PartialEq, Eq)]
    pub struct Dfa;
}
