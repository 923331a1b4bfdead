// Wrapper: the packaged atom, with the method `as_str`.
use std::fmt::{Debug, Display, Error, Formatter};
use std::ops::Deref;

#[derive(Clone, Hash, PartialEq, Eq, PartialOrd, Ord)]
pub struct DefaultAtom(packaged::DefaultAtom);

impl DefaultAtom {
    pub fn as_str(&self) -> &str {
        &self.0
    }
}

impl Deref for DefaultAtom {
    type Target = str;

    fn deref(&self) -> &str {
        &self.0
    }
}

impl<T> From<T> for DefaultAtom
where
    packaged::DefaultAtom: From<T>,
{
    fn from(text: T) -> Self {
        DefaultAtom(packaged::DefaultAtom::from(text))
    }
}

impl PartialEq<str> for DefaultAtom {
    fn eq(&self, other: &str) -> bool {
        self.as_str() == other
    }
}

impl Display for DefaultAtom {
    fn fmt(&self, fmt: &mut Formatter<'_>) -> Result<(), Error> {
        Display::fmt(self.as_str(), fmt)
    }
}

impl Debug for DefaultAtom {
    fn fmt(&self, fmt: &mut Formatter<'_>) -> Result<(), Error> {
        Debug::fmt(self.as_str(), fmt)
    }
}
