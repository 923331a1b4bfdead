// Shim: parts below each other of a message, kept and never drawn.
use super::Content;
use ascii_canvas::AsciiView;

#[derive(Debug)]
pub struct Vert {
    items: Vec<Box<dyn Content>>,
    separate: usize,
}

impl Vert {
    pub fn new(items: Vec<Box<dyn Content>>, separate: usize) -> Self {
        Vert { items, separate }
    }
}

impl Content for Vert {
    fn min_width(&self) -> usize {
        0
    }

    fn emit(&self, _: &mut dyn AsciiView) {}

    fn into_wrap_items(self: Box<Self>, wrap_items: &mut Vec<Box<dyn Content>>) {
        wrap_items.push(self);
    }
}
