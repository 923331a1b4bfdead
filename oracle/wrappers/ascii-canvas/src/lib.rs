// Shim: a canvas on which nothing is drawn. Messages are not compared as text.
pub mod style {
    #[derive(Copy, Clone, Debug, Default, PartialEq, Eq)]
    pub struct Style;

    impl Style {
        pub fn new() -> Style {
            Style
        }

        pub fn with(self, _: Style) -> Style {
            Style
        }
    }

    pub const DEFAULT: Style = Style;
    pub const BOLD: Style = Style;
    pub const FG_WHITE: Style = Style;
    pub const FG_BRIGHT_WHITE: Style = Style;
    pub const FG_BRIGHT_GREEN: Style = Style;
    pub const FG_BRIGHT_RED: Style = Style;
    pub const FG_BRIGHT_MAGENTA: Style = Style;
}

use style::Style;

pub trait AsciiView {}

pub struct AsciiCanvas;

impl AsciiCanvas {
    pub fn new(_: usize, _: usize) -> AsciiCanvas {
        AsciiCanvas
    }

    pub fn close(self) -> (usize, usize) {
        (0, 0)
    }
}

impl AsciiView for AsciiCanvas {}

impl dyn AsciiView + '_ {
    pub fn write_chars<I: Iterator<Item = char>>(&mut self, _: usize, _: usize, _: I, _: Style) {}

    pub fn shift(&mut self, _: usize, _: usize) -> AsciiCanvas {
        AsciiCanvas
    }

    pub fn styled(&mut self, _: Style) -> AsciiCanvas {
        AsciiCanvas
    }
}
