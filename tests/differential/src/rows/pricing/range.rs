//! The report on a range: T-13's text in plain Rust, over the single answers of the plain pricing.

use super::picked::by_hand;
use super::{single, Priced};
use crate::call::{Answer, Arguments, Outcome};
use crate::cases::damage::each_refusal;
use crate::cases::{edge, plain};
use crate::form::{self, Drawing, Refusal, SPIDER, VERSION_1};
use crate::rng::Rng;
use crate::steps::Checked;

/// The most drawings of a range.
const MOST: usize = 1000;

/// The index where no drawing is priced.
const NONE: u32 = u32::MAX;

/// Forms of more bytes go into a range seldom: they are priced one by one too, which takes long enough.
const LONG: usize = 60_000;

/// What the report says.
#[derive(Debug, PartialEq, Eq)]
pub struct Report {
    pub priced: u32,
    pub refused: [u32; 17],
    pub parts: [u32; 12],
    pub buffers: u32,
    pub sum: u64,
    pub dearest: u32,
    pub mean: u64,
    pub remainder: u32,
}

impl Report {
    /// The report over single answers, number by number.
    pub fn of(answers: &[Checked<Priced>]) -> Report {
        let lists: Vec<&Priced> = answers.iter().flatten().collect();
        let refusals = answers.iter().filter_map(|answer| answer.as_ref().err());
        let mut refused = [0; 17];
        for by in refusals {
            refused[by.refusal as usize - 1] += 1;
        }
        let mut parts = [0; 12];
        for (kind, count) in parts.iter_mut().enumerate() {
            *count = lists.iter().map(|list| list.counts[kind]).sum();
        }
        let most = lists.iter().map(|list| list.total).max();
        let is_dearest = |answer: &Checked<Priced>| {
            let total = answer.as_ref().ok().map(|list| list.total);
            total.is_some() && total == most
        };
        let sum = lists.iter().map(|list| list.total).sum();
        let priced = lists.len() as u64;
        Report {
            priced: priced as u32,
            refused,
            parts,
            buffers: lists.iter().map(|list| list.buffers).sum(),
            sum,
            dearest: answers
                .iter()
                .position(is_dearest)
                .map_or(NONE, |index| index as u32),
            mean: sum.checked_div(priced).unwrap_or(0),
            remainder: sum.checked_rem(priced).unwrap_or(0) as u32,
        }
    }

    /// The sum and the mean in 8 bytes, all others in 4.
    pub fn bytes(&self) -> Vec<u8> {
        let counts = [
            &[self.priced],
            &self.refused[..],
            &self.parts,
            &[self.buffers],
        ]
        .concat();
        let mut bytes: Vec<u8> = counts.iter().flat_map(|n| n.to_le_bytes()).collect();
        bytes.extend(self.sum.to_le_bytes());
        bytes.extend(self.dearest.to_le_bytes());
        bytes.extend(self.mean.to_le_bytes());
        bytes.extend(self.remainder.to_le_bytes());
        bytes
    }
}

pub fn price_range(arguments: &Arguments) -> Outcome {
    let bytes = plain_report(&arguments.inputs[0])?.bytes();
    Ok(Answer {
        a: bytes.len() as u32,
        b: 0,
        written: vec![bytes],
    })
}

/// The report on a slice: 17, and then each drawing by itself.
pub fn plain_report(slice: &[u8]) -> Checked<Report> {
    let answers = drawings(slice)?.into_iter();
    let answers: Vec<Checked<Priced>> = answers
        .map(|form| single(&Arguments::new(&[], &[form])))
        .collect();
    Ok(Report::of(&answers))
}

/// The drawings of a slice: 17 for a length that is cut short or runs past the input, and for too many.
fn drawings(mut slice: &[u8]) -> Checked<Vec<&[u8]>> {
    let bad = || Refusal::NoSlice.nowhere();
    let mut forms = vec![];
    while !slice.is_empty() {
        let (length, rest) = slice.split_first_chunk().ok_or_else(bad)?;
        let length = u32::from_le_bytes(*length) as usize;
        let (form, rest) = rest.split_at_checked(length).ok_or_else(bad)?;
        forms.push(form);
        slice = rest;
    }
    if forms.len() > MOST {
        return Err(bad());
    }
    Ok(forms)
}

/// The drawings in one slice, each with its length before it.
pub fn in_one_slice<F: AsRef<[u8]>>(forms: &[F]) -> Vec<u8> {
    let mut slice = vec![];
    for form in forms {
        let form = form.as_ref();
        slice.extend((form.len() as u32).to_le_bytes());
        slice.extend(form);
    }
    slice
}

/// A drawing that costs nothing, and some that cost little or more; what is refused by 8, 14 and 15.
fn few() -> [Vec<u8>; 7] {
    let [straight, looped, one_of_each, misfit, unknown] = by_hand();
    let free = plain(2, &[edge(SPIDER, &[0, 0], &[1])]);
    let paired = Drawing {
        pairs: vec![(0, 1)],
        ..straight.clone()
    };
    [free, straight, looped, one_of_each, paired, unknown, misfit]
        .map(|drawing| form::write(&drawing))
}

/// No drawing, one, and each refusal in a range; none priced; what costs nothing; ties, also behind refused ones, and a dearer
/// one behind them; means with each remainder up to 4; 999, 1,000 and 1,001 drawings, of no bytes and of some; lengths that
/// are cut short at each byte, run past the input, or have more than 16 or 31 bits; a sum of more than 32 bits.
pub fn picked() -> Vec<Arguments> {
    let few = few();
    let [free, straight, looped, one_of_each, paired, unknown, misfit] = few.each_ref();
    let none = &vec![];
    let ranges: Vec<Vec<&Vec<u8>>> = vec![
        vec![],
        vec![none],
        vec![none, none, paired, unknown, misfit],
        vec![free],
        vec![none, free],
        vec![none, free, free, unknown],
        vec![straight],
        vec![free, straight, straight],
        vec![straight, one_of_each, looped, one_of_each],
        vec![paired, looped, none, looped, straight],
        vec![one_of_each, misfit, one_of_each, free],
        vec![looped, straight],
        vec![looped, straight, looped],
        vec![looped, straight, looped, free],
        vec![looped, straight, looped, free, one_of_each],
        few.iter().collect(),
        few.iter().rev().collect(),
    ];
    let mut slices: Vec<Vec<u8>> = ranges.iter().map(|forms| in_one_slice(forms)).collect();
    slices.extend(of_refusals());
    slices.extend(of_lengths(&in_one_slice(&[straight, none, looped])));
    for count in [MOST - 1, MOST, MOST + 1] {
        slices.extend([none, free, looped].map(|form| in_one_slice(&vec![form; count])));
        let mixed: Vec<&Vec<u8>> = few.iter().cycle().take(count).collect();
        slices.push(in_one_slice(&mixed));
        // the dearest stands last, and then bytes follow that are no length
        let mut last = vec![looped; count - 1];
        last.push(one_of_each);
        slices.push(in_one_slice(&last));
        slices.push([in_one_slice(&last), vec![0; 3]].concat());
    }
    let most = VERSION_1.most.edges;
    let receives = form::write(&plain(1, &vec![edge(1, &[], &[0]); most]));
    slices.push(in_one_slice(&vec![receives; 500]));
    slices
        .iter()
        .map(|slice| Arguments::new(&[], &[slice]))
        .collect()
}

/// Every form that is refused by 1 to 6 or 13: all of them in one range, and each short one before a priced one.
fn of_refusals() -> Vec<Vec<u8>> {
    let [_, straight, ..] = few();
    let forms = each_refusal();
    let mut slices = vec![in_one_slice(&forms)];
    let short = forms.iter().filter(|form| form.len() < 100);
    slices.extend(short.map(|form| in_one_slice(&[form, &straight])));
    slices
}

/// A slice cut at each byte, and with other numbers for its first length.
fn of_lengths(slice: &[u8]) -> Vec<Vec<u8>> {
    let mut slices: Vec<Vec<u8>> = (0..slice.len()).map(|end| slice[..end].to_vec()).collect();
    let all = slice.len() as u32;
    for length in [
        0,
        1,
        all - 8,
        all - 5,
        all - 4,
        all - 3,
        65_536,
        1 << 31,
        u32::MAX - 3,
        u32::MAX,
    ] {
        slices.push([&length.to_le_bytes(), &slice[4..]].concat());
    }
    slices
}

/// The form in a range, at any place between up to three others; once in four times the slice is cut, has a byte more, or
/// another number for one of its bytes.
pub fn around(form: &[u8], rng: &mut Rng) -> Vec<Arguments> {
    if form.len() > LONG && !rng.once_in(8) {
        return vec![];
    }
    let few = few();
    let count = rng.below(4);
    let mut forms: Vec<&[u8]> = (0..count)
        .map(|_| few[rng.below(few.len())].as_slice())
        .collect();
    if rng.once_in(8) {
        forms.push(&[]);
    }
    forms.insert(rng.between(0, forms.len()), form);
    if rng.once_in(8) {
        forms.push(form);
    }
    let mut slice = in_one_slice(&forms);
    if rng.once_in(4) {
        match rng.below(4) {
            0 => slice.truncate(rng.below(slice.len())),
            1 => slice.push(rng.number() as u8),
            2 => slice[rng.below(4)] ^= 1 << rng.below(8),
            _ => {
                let at = rng.below(slice.len());
                slice[at] = rng.number() as u8;
            }
        }
    }
    vec![Arguments::new(&[], &[&slice])]
}

#[cfg(test)]
mod tests {
    use super::*;

    fn of(forms: &[&[u8]]) -> Report {
        plain_report(&in_one_slice(forms)).expect("it is a range")
    }

    #[test]
    fn the_report_of_the_request() {
        let path = include_bytes!("../../../../../examples/packet-path.ohg");
        let report = of(&[path, &path[..path.len() - 1], path]);
        let mut refused = [0; 17];
        refused[4] = 1;
        let due = Report {
            priced: 2,
            refused,
            parts: [2, 2, 2, 0, 0, 2, 2, 2, 0, 2, 2, 0],
            buffers: 4,
            sum: 24_060,
            dearest: 0,
            mean: 12_030,
            remainder: 0,
        };
        assert_eq!(report, due);
        assert_eq!(report.bytes().len(), 148);
    }

    #[test]
    fn reports_worked_by_hand() {
        let few = few();
        let [free, straight, looped, ..] = few.each_ref().map(|form| form.as_slice());
        let nothing = of(&[]);
        assert_eq!((nothing.priced, nothing.sum, nothing.dearest), (0, 0, NONE));
        let refused = of(&[&[], &[]]);
        assert_eq!((refused.refused[0], refused.dearest), (2, NONE));
        let tie = of(&[&[], free, looped, straight, straight]);
        assert_eq!((tie.priced, tie.sum, tie.dearest), (4, 17_810, 3));
        assert_eq!((tie.mean, tie.remainder), (4_452, 2));
        assert_eq!(of(&[&[], free, free]).dearest, 1);
    }

    #[test]
    fn what_is_no_range() {
        let code = |slice: &[u8]| plain_report(slice).map_err(|by| by.refusal as u8).err();
        assert_eq!(code(&[0; 4000]), None);
        for slice in [&[0; 4004][..], &[0; 3], &[1, 0, 0, 0], &[0; 4003]] {
            assert_eq!(code(slice), Some(17));
        }
    }

    /// What is picked has each number of refused drawings that a report can have, and both kinds of answers.
    #[test]
    fn every_refusal_is_in_a_picked_range() {
        let mut seen = [false; 18];
        for arguments in picked() {
            match plain_report(&arguments.inputs[0]) {
                Ok(report) => {
                    let numbers = (1..).zip(report.refused);
                    numbers.for_each(|(no, count)| seen[no] |= count > 0);
                    seen[0] |= report.sum > u64::from(u32::MAX);
                }
                Err(refused) => seen[refused.refusal as usize] = true,
            }
        }
        let numbers: Vec<usize> = (0..18).filter(|&no| seen[no]).collect();
        assert_eq!(numbers, [0, 1, 2, 3, 4, 5, 6, 8, 13, 14, 15, 17]);
    }
}
