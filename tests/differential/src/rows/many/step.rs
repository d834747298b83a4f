//! A building or deleting step as T-02 lays it down: a byte of kind, then numbers of 4 bytes.

use crate::form::{id_bytes, number, Refusal};
use crate::steps::Checked;

#[derive(Debug, Clone, PartialEq, Eq)]
pub enum Step {
    NewNode(u32),
    NewEdge(u32, Vec<u32>, Vec<u32>),
    NewOperation(u32, Vec<u32>, Vec<u32>),
    Unify(u32, u32),
    AddEdgeSource(u32, u32),
    AddEdgeTarget(u32, u32),
    DeleteEdges(Vec<u32>),
    DeleteNodes(Vec<u32>),
}

/// Steps one after the other.
pub fn laid(steps: &[Step]) -> Vec<u8> {
    steps.iter().flat_map(Step::bytes).collect()
}

impl Step {
    pub fn bytes(&self) -> Vec<u8> {
        let two = |label: u32, one: &[u32], two: &[u32]| {
            let counts = [label, one.len() as u32, two.len() as u32];
            [&counts, one, two].concat()
        };
        let one = |ids: &[u32]| [&[ids.len() as u32], ids].concat();
        let (kind, numbers) = match self {
            Step::NewNode(label) => (1, vec![*label]),
            Step::NewEdge(label, sources, targets) => (2, two(*label, sources, targets)),
            Step::NewOperation(label, sources, targets) => (3, two(*label, sources, targets)),
            Step::Unify(v, w) => (4, vec![*v, *w]),
            Step::AddEdgeSource(edge, label) => (5, vec![*edge, *label]),
            Step::AddEdgeTarget(edge, label) => (6, vec![*edge, *label]),
            Step::DeleteEdges(ids) => (7, one(ids)),
            Step::DeleteNodes(ids) => (8, one(ids)),
        };
        let numbers = id_bytes(numbers.iter().map(|&n| n as usize), 4);
        [&[kind], &numbers[..]].concat()
    }

    /// The step at the front of some bytes, which are moved on: 12 for an unknown kind, and where a number is not all there.
    pub fn take(bytes: &mut &[u8]) -> Checked<Step> {
        let kind = bytes[0];
        let mut rest = &bytes[1..];
        let step = match kind {
            1 => Step::NewNode(one(&mut rest)?),
            2 | 3 => {
                let [label, sources, targets] = three(&mut rest)?;
                let (sources, targets) = (list(&mut rest, sources)?, list(&mut rest, targets)?);
                match kind {
                    2 => Step::NewEdge(label, sources, targets),
                    _ => Step::NewOperation(label, sources, targets),
                }
            }
            4 => Step::Unify(one(&mut rest)?, one(&mut rest)?),
            5 => Step::AddEdgeSource(one(&mut rest)?, one(&mut rest)?),
            6 => Step::AddEdgeTarget(one(&mut rest)?, one(&mut rest)?),
            7 | 8 => {
                let count = one(&mut rest)?;
                let ids = list(&mut rest, count)?;
                match kind {
                    7 => Step::DeleteEdges(ids),
                    _ => Step::DeleteNodes(ids),
                }
            }
            _ => return Err(Refusal::Step.nowhere()),
        };
        *bytes = rest;
        Ok(step)
    }
}

fn one(rest: &mut &[u8]) -> Checked<u32> {
    let (first, after) = rest.split_at_checked(4).ok_or(Refusal::Step.nowhere())?;
    *rest = after;
    Ok(number(first, 0, 4))
}

fn three(rest: &mut &[u8]) -> Checked<[u32; 3]> {
    Ok([one(rest)?, one(rest)?, one(rest)?])
}

fn list(rest: &mut &[u8], count: u32) -> Checked<Vec<u32>> {
    (0..count).map(|_| one(rest)).collect()
}

#[cfg(test)]
mod tests {
    use super::*;

    #[test]
    fn steps_are_read_back_and_cut_short_at_every_byte() {
        let steps = [
            Step::NewNode(5),
            Step::NewEdge(9, vec![0, 1], vec![2]),
            Step::NewOperation(3, vec![], vec![4, 8]),
            Step::Unify(1, 2),
            Step::AddEdgeSource(1, 70_000),
            Step::AddEdgeTarget(0, u32::MAX),
            Step::DeleteEdges(vec![]),
            Step::DeleteNodes(vec![3, 3]),
        ];
        for (step, kind) in steps.iter().zip(1..) {
            let bytes = step.bytes();
            assert_eq!(bytes[0], kind);
            let mut rest = &[&bytes[..], &[77]].concat()[..];
            assert_eq!(Step::take(&mut rest).as_ref(), Ok(step));
            assert_eq!(rest, [77]);
            for n in 1..bytes.len() {
                let cut = Step::take(&mut &bytes[..n]);
                assert_eq!(cut, Err(Refusal::Step.nowhere()));
            }
        }
        assert_eq!(
            steps[1].bytes()[1..13],
            [9, 0, 0, 0, 2, 0, 0, 0, 1, 0, 0, 0]
        );
        for kind in [0, 9, 255] {
            assert!(Step::take(&mut &[kind; 20][..]).is_err());
        }
    }
}
