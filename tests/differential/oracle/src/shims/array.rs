//! Stands for `src/array/`: the traits over arrays that `arrow.rs` names, and their one kind over `Vec`.
//!
//! What merging needs has a body (`len`, `get_range`, `gather`, `scatter`, and `connected_components`, which is the
//! original's own); the rest is left out.

use crate::connected_components::connected_components;
use crate::left_out;
use crate::{One, Zero};
use core::fmt::Debug;
use core::ops::{Add, Deref, Mul, RangeBounds, Sub};

pub mod vec {
    pub use super::{VecArray, VecKind};
}

pub trait ArrayKind: Sized {
    type Type<T>;
    type I: Clone
        + Debug
        + Ord
        + One
        + Zero
        + Add<Output = Self::I>
        + Sub<Output = Self::I>
        + Mul<Output = Self::I>
        + for<'a> Add<&'a Self::Index, Output = Self::Index>;
    type Index: NaturalArray<Self>
        + PartialEq
        + AsRef<Self::Type<Self::I>>
        + From<Self::Type<Self::I>>;
    type Slice<'a, T: 'a>;
}

pub trait Array<K: ArrayKind, T>: Clone {
    fn len(&self) -> K::I;
    fn get_range<R: RangeBounds<K::I>>(&self, range: R) -> K::Slice<'_, T>;
    fn gather(&self, index: K::Slice<'_, K::I>) -> Self;
    fn scatter(&self, index: K::Slice<'_, K::I>, n: K::I) -> Self;

    fn is_empty(&self) -> bool {
        left_out()
    }
    fn empty() -> Self {
        left_out()
    }
    fn fill(_x: T, _n: K::I) -> Self {
        left_out()
    }
    fn get(&self, _i: K::I) -> T {
        left_out()
    }
    fn from_slice(_slice: K::Slice<'_, T>) -> Self {
        left_out()
    }
    fn concatenate(&self, _other: &Self) -> Self {
        left_out()
    }
    fn scatter_assign_constant(&mut self, _index: &K::Index, _x: T) {
        left_out()
    }
}

pub trait NaturalArray<K: ArrayKind>: Array<K, K::I> + Add<Output = Self> {
    fn connected_components(&self, targets: &Self, n: K::I) -> (Self, K::I);

    fn max(&self) -> Option<K::I> {
        left_out()
    }
    fn arange(_start: &K::I, _stop: &K::I) -> Self {
        left_out()
    }
    fn quot_rem(&self, _d: K::I) -> (Self, Self) {
        left_out()
    }
    fn mul_constant_add(&self, _c: K::I, _x: &Self) -> Self {
        left_out()
    }
    fn cumulative_sum(&self) -> Self {
        left_out()
    }
    fn segmented_arange(&self) -> Self {
        left_out()
    }
    fn repeat(&self, _x: K::Slice<'_, K::I>) -> K::Index {
        left_out()
    }
    fn bincount(&self, _size: K::I) -> K::Index {
        left_out()
    }
}

#[derive(Debug, Clone, PartialEq, Eq)]
pub struct VecKind;

impl ArrayKind for VecKind {
    type Type<T> = VecArray<T>;
    type I = usize;
    type Index = VecArray<usize>;
    type Slice<'a, T: 'a> = &'a [T];
}

#[derive(Debug, Clone, PartialEq, Eq)]
pub struct VecArray<T>(pub Vec<T>);

impl<T> Deref for VecArray<T> {
    type Target = Vec<T>;

    fn deref(&self) -> &Vec<T> {
        &self.0
    }
}

impl AsRef<VecArray<usize>> for VecArray<usize> {
    fn as_ref(&self) -> &VecArray<usize> {
        self
    }
}

impl Add for VecArray<usize> {
    type Output = Self;

    fn add(self, _other: Self) -> Self {
        left_out()
    }
}

impl Add<&VecArray<usize>> for usize {
    type Output = VecArray<usize>;

    fn add(self, _other: &VecArray<usize>) -> VecArray<usize> {
        left_out()
    }
}

impl<T: Clone> Array<VecKind, T> for VecArray<T> {
    fn len(&self) -> usize {
        self.0.len()
    }

    fn get_range<R: RangeBounds<usize>>(&self, range: R) -> &[T] {
        let bounds = (range.start_bound().cloned(), range.end_bound().cloned());
        &self.0[bounds]
    }

    fn gather(&self, index: &[usize]) -> Self {
        VecArray(index.iter().map(|&i| self.0[i].clone()).collect())
    }

    fn scatter(&self, index: &[usize], n: usize) -> Self {
        let Some(first) = self.0.first() else {
            return VecArray(vec![]);
        };
        let mut scattered = vec![first.clone(); n];
        for (&i, x) in index.iter().zip(&self.0) {
            scattered[i] = x.clone();
        }
        VecArray(scattered)
    }
}

impl NaturalArray<VecKind> for VecArray<usize> {
    fn connected_components(&self, targets: &Self, n: usize) -> (Self, usize) {
        let (table, target) = connected_components(self, targets, n);
        (VecArray(table), target)
    }
}
