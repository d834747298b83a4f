//! Stands for `src/semifinite/`: an array of any labels, and composition before it.

use crate::array::{Array, ArrayKind};
use crate::category::Arrow;
use crate::finite_function::FiniteFunction;
use core::ops::Shr;

pub struct SemifiniteFunction<K: ArrayKind, T>(pub K::Type<T>);

impl<K: ArrayKind, T> Shr<&SemifiniteFunction<K, T>> for &FiniteFunction<K>
where
    K::Type<T>: Array<K, T>,
{
    type Output = Option<SemifiniteFunction<K, T>>;

    fn shr(self, other: &SemifiniteFunction<K, T>) -> Self::Output {
        (self.target() == other.0.len())
            .then(|| SemifiniteFunction(other.0.gather(self.table.get_range(..))))
    }
}
