//! The priced parts list of a drawing, and the report on a range of drawings, by `libprice.a`, which is proved as the rest is. The feature `price` has it.
//!
//! An edge's label is its kind, 1 to 12, and fixes how many sources and targets it has. Spiders are free and have any. Each
//! node of [`cycle_breaking_nodes`](Graph::cycle_breaking_nodes) adds a loop buffer. Prices are in hundredths of a cent.
//!
//! ```
//! use ohg::{Graph, Refused};
//!
//! # fn main() -> Result<(), Refused> {
//! let mut graph = Graph::empty();
//! let wire = graph.new_node(1)?;
//! graph.new_edge(8, &[wire], &[wire])?;
//! let bill = graph.price()?;
//! assert_eq!((bill.count(8), bill.buffers, bill.total), (1, 1, 510 + 260));
//! # Ok(())
//! # }
//! ```
//!
//! [`price_range`] does the same for up to 1,000 stored forms, and says what they are and cost together.

use crate::exported::{ohg_price, ohg_price_range};
use crate::lent::{self, answered};
use crate::{number, Graph, Refusal, Refused};
use std::array;

/// The bytes of the answers: `OHG_PRICE_BYTES`, `OHG_RANGE_BYTES`.
const PRICE_BYTES: usize = 60;
const RANGE_BYTES: usize = 148;

/// The index where no drawing is the dearest: `OHG_NO_DRAWING`.
const NO_DRAWING: u32 = u32::MAX;

/// What a drawing is made of and costs.
#[derive(Debug, Clone, Copy, PartialEq, Eq, Hash)]
pub struct Bill {
    /// How many edges are of each kind, in the order of [`KINDS`](crate::KINDS). With the spiders they are all edges.
    pub counts: [u32; 12],
    /// How many loop buffers are needed: as many as the choice has nodes.
    pub buffers: u32,
    /// What the counted parts and the buffers cost together, exactly, in hundredths of a cent.
    pub total: u64,
}

impl Bill {
    /// How many edges are of a kind, 1 to 12.
    pub fn count(&self, kind: usize) -> u32 {
        self.counts[kind - 1]
    }
}

impl Graph {
    /// Counts the parts and the loop buffers of the drawing, and prices them.
    ///
    /// Refused: [`PendingPair`](crate::Refusal::PendingPair), [`UnknownKind`](crate::Refusal::UnknownKind),
    /// [`OtherPorts`](crate::Refusal::OtherPorts).
    pub fn price(&self) -> Result<Bill, Refused> {
        let mut list = [0; PRICE_BYTES];
        let packed = lent::with(|lent| ohg_price(self.as_bytes(), &mut list, &mut lent.room));
        answered(packed)?;
        Ok(Bill {
            counts: row(&list, 0),
            buffers: number(&list[48..52]),
            total: long_number(&list[52..60]),
        })
    }
}

/// What a range of drawings is made of and costs. A refused drawing adds to nothing but its number.
#[derive(Debug, Clone, Copy, PartialEq, Eq, Hash)]
pub struct Report {
    /// How many drawings are priced.
    pub priced: u32,
    /// How many are refused by 1, by 2, and so on to 17; [`refused_by`](Report::refused_by) takes the refusal itself.
    pub refused: [u32; 17],
    /// How many edges are of each kind, in the order of [`KINDS`](crate::KINDS).
    pub parts: [u32; 12],
    /// How many loop buffers are needed.
    pub buffers: u32,
    /// What all priced drawings cost together, exactly, in hundredths of a cent.
    pub sum: u64,
    /// Which drawing costs most, counted from 0 with the refused ones, the first on a tie; none where none is priced.
    pub dearest: Option<usize>,
    /// The mean over the priced drawings, rounded down: the sum is this times `priced`, and the remainder.
    pub mean: u64,
    /// What the mean leaves of the sum, less than `priced`.
    pub remainder: u32,
}

impl Report {
    /// How many drawings are refused by this.
    pub fn refused_by(&self, by: Refusal) -> u32 {
        self.refused[usize::from(by.number()) - 1]
    }

    /// How many drawings there are, priced and refused.
    pub fn drawings(&self) -> u32 {
        self.priced + self.refused.iter().sum::<u32>()
    }
}

/// Prices up to 1,000 drawings, given as any bytes; those that [`Graph::from_bytes`] or [`Graph::price`] would refuse are
/// counted by the refusal.
///
/// ```
/// use ohg::price::price_range;
/// use ohg::{Graph, Refusal, Refused};
///
/// # fn main() -> Result<(), Refused> {
/// let empty = Graph::empty();
/// let report = price_range([empty.as_bytes(), b"no form"])?;
/// assert_eq!((report.priced, report.sum, report.dearest), (1, 0, Some(0)));
/// assert_eq!(report.refused_by(Refusal::NoHeader), 1);
/// # Ok(())
/// # }
/// ```
///
/// Refused: [`NoSlice`](Refusal::NoSlice), and then none of them is priced.
pub fn price_range(forms: impl IntoIterator<Item = impl AsRef<[u8]>>) -> Result<Report, Refused> {
    let src = in_one_slice(forms)?;
    let mut list = [0; RANGE_BYTES];
    let packed = lent::with(|lent| ohg_price_range(&src, &mut list, &mut lent.room));
    answered(packed)?;
    let dearest = number(&list[132..136]);
    Ok(Report {
        priced: number(&list[..4]),
        refused: row(&list, 4),
        parts: row(&list, 72),
        buffers: number(&list[120..124]),
        sum: long_number(&list[124..132]),
        dearest: (dearest != NO_DRAWING).then_some(dearest as usize),
        mean: long_number(&list[136..144]),
        remainder: number(&list[144..]),
    })
}

/// The forms in one slice, each with its length before it.
fn in_one_slice(forms: impl IntoIterator<Item = impl AsRef<[u8]>>) -> Result<Vec<u8>, Refused> {
    let mut src = vec![];
    for form in forms {
        let form = form.as_ref();
        let length = u32::try_from(form.len()).map_err(|_| Refused {
            by: Refusal::NoSlice,
            place: 0,
        })?;
        src.extend(length.to_le_bytes());
        src.extend(form);
    }
    Ok(src)
}

/// Numbers of 4 bytes from a place on.
fn row<const N: usize>(list: &[u8], at: usize) -> [u32; N] {
    array::from_fn(|i| number(&list[at + 4 * i..][..4]))
}

/// A number of 8 bytes.
fn long_number(bytes: &[u8]) -> u64 {
    let [low, high] = row(bytes, 0);
    u64::from(low) | u64::from(high) << 32
}
