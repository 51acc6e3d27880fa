//! Stand-in for the crate `atomig`: what `src/relaxed_atomic.rs` names, for the one type that
//! `include/dav1d/headers.rs` keeps in an atomic.

use std::marker::PhantomData;
use std::sync::atomic::AtomicU64;
use std::sync::atomic::Ordering;

/// A value that fits in one machine word.
pub trait Atom {
    fn pack(self) -> u64;
    fn unpack(word: u64) -> Self;
}

impl Atom for [i16; 4] {
    fn pack(self) -> u64 {
        self.into_iter()
            .rev()
            .fold(0, |word, part| word << 16 | u64::from(part as u16))
    }

    fn unpack(word: u64) -> Self {
        std::array::from_fn(|i| (word >> (16 * i)) as i16)
    }
}

pub struct Atomic<T: Atom> {
    word: AtomicU64,
    of: PhantomData<T>,
}

impl<T: Atom> Atomic<T> {
    pub fn new(value: T) -> Self {
        Self {
            word: AtomicU64::new(value.pack()),
            of: PhantomData,
        }
    }

    pub fn load(&self, order: Ordering) -> T {
        T::unpack(self.word.load(order))
    }

    pub fn store(&self, value: T, order: Ordering) {
        self.word.store(value.pack(), order);
    }
}

impl<T: Atom + Default> Default for Atomic<T> {
    fn default() -> Self {
        Self::new(T::default())
    }
}
