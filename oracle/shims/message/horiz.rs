// Shim: parts beside each other of a message, kept and never drawn.
use super::Content;
use ascii_canvas::AsciiView;

#[derive(Debug)]
pub struct Horiz {
    items: Vec<Box<dyn Content>>,
    separate: usize,
}

impl Horiz {
    pub fn new(items: Vec<Box<dyn Content>>, separate: usize) -> Self {
        Horiz { items, separate }
    }
}

impl Content for Horiz {
    fn min_width(&self) -> usize {
        0
    }

    fn emit(&self, _: &mut dyn AsciiView) {}

    fn into_wrap_items(self: Box<Self>, wrap_items: &mut Vec<Box<dyn Content>>) {
        wrap_items.push(self);
    }
}
