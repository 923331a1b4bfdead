// Shim: an example (docs/RULES.md, "An example in words", "Observed symbols"). The published
// `PathEnumerator::example` fills it; here are only its fields. The two
// functions that draw it hold the example itself in place of a picture.
use crate::grammar::repr::{NonterminalString, Symbol};
use crate::message::Content;
use ascii_canvas::AsciiView;

#[derive(Clone, Debug, PartialEq, Eq)]
pub struct Example {
    pub symbols: Vec<ExampleSymbol>,
    pub cursor: usize,
    pub reductions: Vec<Reduction>,
}

#[derive(Clone, Debug, PartialEq, Eq)]
pub enum ExampleSymbol {
    Symbol(Symbol),
    Epsilon,
}

#[derive(Clone, Debug, PartialEq, Eq)]
pub struct Reduction {
    pub start: usize,
    pub end: usize,
    pub nonterminal: NonterminalString,
}

#[derive(Copy, Clone, Debug)]
pub struct ExampleStyles;

impl ExampleStyles {
    pub fn new() -> Self {
        ExampleStyles
    }

    pub fn ambig() -> Self {
        ExampleStyles
    }
}

impl Example {
    /// The first `length` symbols.
    pub fn to_symbol_list(&self, length: usize, _: ExampleStyles) -> Box<dyn Content> {
        Box::new(Drawn::List(self.symbols[..length].to_vec()))
    }

    /// The example with its reductions.
    pub fn into_picture(self, _: ExampleStyles) -> Box<dyn Content> {
        Box::new(Drawn::Picture(self))
    }
}

#[derive(Debug)]
enum Drawn {
    List(Vec<ExampleSymbol>),
    Picture(Example),
}

impl Content for Drawn {
    fn min_width(&self) -> usize {
        0
    }

    fn emit(&self, _: &mut dyn AsciiView) {}

    fn into_wrap_items(self: Box<Self>, wrap_items: &mut Vec<Box<dyn Content>>) {
        wrap_items.push(self);
    }
}
