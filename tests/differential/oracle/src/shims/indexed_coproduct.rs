//! Stands for `src/indexed_coproduct/`, which only strict graphs use.

use crate::array::{ArrayKind, VecKind};
use crate::finite_function::FiniteFunction;
use crate::left_out;
use crate::semifinite::SemifiniteFunction;

pub struct IndexedCoproduct<K: ArrayKind, F> {
    pub sources: FiniteFunction<K>,
    pub values: F,
}

impl IndexedCoproduct<VecKind, FiniteFunction<VecKind>> {
    pub fn from_semifinite(
        _sources: SemifiniteFunction<VecKind, usize>,
        _values: FiniteFunction<VecKind>,
    ) -> Option<Self> {
        left_out()
    }
}

impl IntoIterator for IndexedCoproduct<VecKind, FiniteFunction<VecKind>> {
    type Item = FiniteFunction<VecKind>;
    type IntoIter = std::vec::IntoIter<Self::Item>;

    fn into_iter(self) -> Self::IntoIter {
        left_out()
    }
}
