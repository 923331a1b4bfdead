// Wrapper: the packaged bit set, with the name `count` for its `len`.
use std::ops::{Deref, DerefMut};

pub use packaged::Iter;

#[derive(Clone, Default, Hash, PartialEq, Eq, PartialOrd, Ord)]
pub struct BitSet<B>(Inner, std::marker::PhantomData<B>);

type Inner = packaged::BitSet<u32>;

impl BitSet<u32> {
    pub fn with_capacity(nbits: usize) -> Self {
        BitSet(Inner::with_capacity(nbits), std::marker::PhantomData)
    }

    pub fn count(&self) -> usize {
        self.0.len()
    }
}

impl Deref for BitSet<u32> {
    type Target = Inner;

    fn deref(&self) -> &Inner {
        &self.0
    }
}

impl DerefMut for BitSet<u32> {
    fn deref_mut(&mut self) -> &mut Inner {
        &mut self.0
    }
}
