// Shim: wrapped parts of a message, kept and never drawn.
use super::Content;
use ascii_canvas::AsciiView;

#[derive(Debug)]
pub struct Wrap {
    items: Vec<Box<dyn Content>>,
}

impl Wrap {
    pub fn new(items: Vec<Box<dyn Content>>) -> Self {
        Wrap { items }
    }
}

impl Content for Wrap {
    fn min_width(&self) -> usize {
        0
    }

    fn emit(&self, _: &mut dyn AsciiView) {}

    fn into_wrap_items(self: Box<Self>, wrap_items: &mut Vec<Box<dyn Content>>) {
        wrap_items.push(self);
    }
}
