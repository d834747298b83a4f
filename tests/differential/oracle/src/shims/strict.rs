//! Stands for `src/strict/hypergraph/` and `src/strict/open_hypergraph/`, to and from which nothing is converted,
//! and for the names that `src/strict/mod.rs` gives them.

pub use hypergraph::Hypergraph;
pub use open_hypergraph::OpenHypergraph;

pub mod vec {
    pub use crate::array::vec::VecKind;

    pub type FiniteFunction = crate::finite_function::FiniteFunction<VecKind>;
}

pub mod hypergraph {
    use crate::array::ArrayKind;
    use crate::finite_function::FiniteFunction;
    use crate::indexed_coproduct::IndexedCoproduct;
    use crate::semifinite::SemifiniteFunction;

    pub struct Hypergraph<K: ArrayKind, O, A> {
        pub s: IndexedCoproduct<K, FiniteFunction<K>>,
        pub t: IndexedCoproduct<K, FiniteFunction<K>>,
        pub w: SemifiniteFunction<K, O>,
        pub x: SemifiniteFunction<K, A>,
    }
}

pub mod open_hypergraph {
    use super::hypergraph::Hypergraph;
    use crate::array::ArrayKind;
    use crate::finite_function::FiniteFunction;
    use crate::left_out;

    pub struct OpenHypergraph<K: ArrayKind, O, A> {
        pub s: FiniteFunction<K>,
        pub t: FiniteFunction<K>,
        pub h: Hypergraph<K, O, A>,
    }

    impl<K: ArrayKind, O, A> OpenHypergraph<K, O, A> {
        pub fn new(
            _s: FiniteFunction<K>,
            _t: FiniteFunction<K>,
            _h: Hypergraph<K, O, A>,
        ) -> Option<Self> {
            left_out()
        }
    }
}
