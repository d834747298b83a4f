//! Stands for the crate `num_traits`, of which `arrow.rs` uses two traits.

pub trait One {
    fn one() -> Self;
}

pub trait Zero {
    fn zero() -> Self;
    fn is_zero(&self) -> bool;
}

impl One for usize {
    fn one() -> Self {
        1
    }
}

impl Zero for usize {
    fn zero() -> Self {
        0
    }

    fn is_zero(&self) -> bool {
        *self == 0
    }
}
