// Shim: lists in debug output. `Sep` puts its text between the parts,
// `Prefix` before each.
use std::fmt::{Display, Error, Formatter};

pub struct Sep<'a, T>(pub &'a str, pub &'a [T]);

impl<T: Display> Display for Sep<'_, T> {
    fn fmt(&self, fmt: &mut Formatter<'_>) -> Result<(), Error> {
        for (i, part) in self.1.iter().enumerate() {
            write!(fmt, "{}{part}", if i == 0 { "" } else { self.0 })?;
        }
        Ok(())
    }
}

pub struct Prefix<'a, T>(pub &'a str, pub &'a [T]);

impl<T: Display> Display for Prefix<'_, T> {
    fn fmt(&self, fmt: &mut Formatter<'_>) -> Result<(), Error> {
        for part in self.1 {
            write!(fmt, "{}{part}", self.0)?;
        }
        Ok(())
    }
}
