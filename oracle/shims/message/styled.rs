// Shim: a styled part of a message, kept and never drawn.
use super::Content;
use crate::style::Style;
use ascii_canvas::AsciiView;

#[derive(Debug)]
pub struct Styled {
    style: Style,
    content: Box<dyn Content>,
}

impl Styled {
    pub fn new(style: Style, content: Box<dyn Content>) -> Self {
        Styled { style, content }
    }
}

impl Content for Styled {
    fn min_width(&self) -> usize {
        0
    }

    fn emit(&self, _: &mut dyn AsciiView) {}

    fn into_wrap_items(self: Box<Self>, wrap_items: &mut Vec<Box<dyn Content>>) {
        wrap_items.push(self);
    }
}
