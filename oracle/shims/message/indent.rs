// Shim: an indented part of a message, kept and never drawn.
use super::Content;
use ascii_canvas::AsciiView;

#[derive(Debug)]
pub struct Indent {
    amount: usize,
    content: Box<dyn Content>,
}

impl Indent {
    pub fn new(amount: usize, content: Box<dyn Content>) -> Self {
        Indent { amount, content }
    }
}

impl Content for Indent {
    fn min_width(&self) -> usize {
        0
    }

    fn emit(&self, _: &mut dyn AsciiView) {}

    fn into_wrap_items(self: Box<Self>, wrap_items: &mut Vec<Box<dyn Content>>) {
        wrap_items.push(self);
    }
}
