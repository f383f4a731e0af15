//! Stands in for bitvec, for layer/mask.rs alone: a bit is a bool here, and each call does what bitvec's documentation says of the call of its name.
//!
//! Where bitvec looks at the bits of a number in place, this hands out bools that are made once for each number and never dropped.
use std::collections::HashMap;
use std::ops::{BitAndAssign, BitOrAssign, BitXorAssign, Deref, DerefMut, Index, IndexMut, Not, Range, RangeFrom, RangeInclusive, RangeTo};
use std::sync::Mutex;

const BITS: usize = usize::BITS as usize;

pub mod order {
    /// The first bit is the least significant one.
    #[derive(Debug, Default, Clone, Copy, PartialEq, Eq)]
    pub struct Lsb0;
}

pub mod slice {
    pub use crate::{BitSlice, IterOnes};
}

pub mod vec {
    pub use crate::BitVec;
}

#[derive(Debug, PartialEq, Eq, PartialOrd, Ord, Hash)]
#[repr(transparent)]
pub struct BitSlice([bool]);

#[derive(Debug, Clone)]
pub struct BitVec(Vec<bool>);

fn bools(n: usize) -> impl Iterator<Item = bool> {
    (0..BITS).map(move |i| n >> i & 1 == 1)
}

impl BitSlice {
    fn of(bits: &[bool]) -> &Self {
        // SAFETY: a transparent struct over what is handed in
        unsafe { &*(bits as *const [bool] as *const Self) }
    }

    fn of_mut(bits: &mut [bool]) -> &mut Self {
        // SAFETY: a transparent struct over what is handed in
        unsafe { &mut *(bits as *mut [bool] as *mut Self) }
    }

    pub fn empty<'a>() -> &'a Self {
        Self::of(&[])
    }

    /// The bits of a number. Where the number changes later, these do not; nobody holds them so long.
    pub fn from_element(n: &usize) -> &Self {
        static MADE: Mutex<Option<HashMap<usize, &'static [bool]>>> = Mutex::new(None);
        let mut made = MADE.lock().unwrap();
        let bits = *made.get_or_insert_default().entry(*n).or_insert_with(|| Vec::leak(bools(*n).collect()));
        Self::of(bits)
    }

    pub fn len(&self) -> usize {
        self.0.len()
    }

    pub fn get(&self, i: usize) -> Option<&bool> {
        self.0.get(i)
    }

    pub fn set(&mut self, i: usize, bit: bool) {
        self.0[i] = bit;
    }

    pub fn fill(&mut self, bit: bool) {
        self.0.fill(bit);
    }

    pub fn copy_from_bitslice(&mut self, from: &Self) {
        self.0.copy_from_slice(&from.0);
    }

    pub fn last_one(&self) -> Option<usize> {
        self.0.iter().rposition(|bit| *bit)
    }

    pub fn iter_ones(&self) -> IterOnes<'_, usize, order::Lsb0> {
        IterOnes { bits: &self.0, from: 0, kind: std::marker::PhantomData }
    }
}

macro_rules! index {
    ($($range:ty)*) => {$(
        impl Index<$range> for BitSlice {
            type Output = Self;
            fn index(&self, range: $range) -> &Self {
                Self::of(&self.0[range])
            }
        }
        impl IndexMut<$range> for BitSlice {
            fn index_mut(&mut self, range: $range) -> &mut Self {
                Self::of_mut(&mut self.0[range])
            }
        }
    )*};
}

index! { Range<usize> RangeFrom<usize> RangeTo<usize> RangeInclusive<usize> }

impl Index<usize> for BitSlice {
    type Output = bool;
    fn index(&self, i: usize) -> &bool {
        &self.0[i]
    }
}

/// Inverts in place, and gives the slice back.
impl Not for &mut BitSlice {
    type Output = Self;
    fn not(self) -> Self {
        self.0.iter_mut().for_each(|bit| *bit = !*bit);
        self
    }
}

macro_rules! assign {
    ($($name:ident $call:ident $sign:tt)*) => {$(
        impl $name<&BitSlice> for BitSlice {
            fn $call(&mut self, other: &BitSlice) {
                assert_eq!(self.len(), other.len(), "bitvec has rules for other lengths, and nothing here asks for them");
                self.0.iter_mut().zip(&other.0).for_each(|(a, b)| *a = *a $sign *b);
            }
        }
    )*};
}

assign! { BitAndAssign bitand_assign & BitOrAssign bitor_assign | BitXorAssign bitxor_assign ^ }

impl BitVec {
    /// As many bits as a number has.
    pub fn from_element(n: usize) -> Self {
        Self(bools(n).collect())
    }

    pub fn repeat(bit: bool, size: usize) -> Self {
        Self(vec![bit; size])
    }

    pub fn resize(&mut self, size: usize, bit: bool) {
        self.0.resize(size, bit);
    }

    pub fn truncate(&mut self, size: usize) {
        self.0.truncate(size);
    }

    /// The numbers that hold the bits; the caller looks at them and lets them go, so they are left lying.
    pub fn as_raw_slice(&self) -> &[usize] {
        let number = |bits: &[bool]| bits.iter().enumerate().fold(0, |n, (i, bit)| n | usize::from(*bit) << i);
        Vec::leak(self.0.chunks(BITS).map(number).collect())
    }
}

impl Deref for BitVec {
    type Target = BitSlice;
    fn deref(&self) -> &BitSlice {
        BitSlice::of(&self.0)
    }
}

impl DerefMut for BitVec {
    fn deref_mut(&mut self) -> &mut BitSlice {
        BitSlice::of_mut(&mut self.0)
    }
}

/// The places of the bits that are set, from either end; `from` is the place of the first bit that is left.
#[derive(Debug, Default, Clone, Copy, PartialEq, Eq)]
pub struct IterOnes<'a, T, O> {
    bits: &'a [bool],
    from: usize,
    kind: std::marker::PhantomData<(T, O)>,
}

impl<T, O> Iterator for IterOnes<'_, T, O> {
    type Item = usize;

    fn next(&mut self) -> Option<usize> {
        let i = self.bits.iter().position(|bit| *bit);
        let passed = i.map_or(self.bits.len(), |i| i + 1);
        let place = self.from + i.unwrap_or(0);
        self.bits = &self.bits[passed..];
        self.from += passed;
        i.map(|_| place)
    }

    fn size_hint(&self) -> (usize, Option<usize>) {
        let n = self.bits.iter().filter(|bit| **bit).count();
        (n, Some(n))
    }
}

impl<T, O> DoubleEndedIterator for IterOnes<'_, T, O> {
    fn next_back(&mut self) -> Option<usize> {
        let i = self.bits.iter().rposition(|bit| *bit);
        self.bits = &self.bits[..i.unwrap_or(0)];
        i.map(|i| self.from + i)
    }
}

impl<T, O> ExactSizeIterator for IterOnes<'_, T, O> {}
