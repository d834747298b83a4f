//! Drawings picked by hand for the reasons: freed vertices before and behind the core, between two cores, in later stages, long
//! ways of them at the limits, and what is refused.

use crate::call::Arguments;
use crate::cases::{edge, plain};
use crate::form::{self, Drawing, Edge, VERSION_1, VERSION_2};
use crate::rows::choice::showing::picked::{outgrown, with_pairs};

pub fn picked() -> Vec<Arguments> {
    let mut forms: Vec<Vec<u8>> = small().iter().map(form::write).collect();
    for drawing in small() {
        forms.push(form::write(&outgrown(drawing)));
    }
    for version in [VERSION_1, VERSION_2] {
        forms.extend(longest(version.most.nodes).iter().map(form::write));
    }
    forms.extend(with_pairs());
    let on = |form: &Vec<u8>| Arguments::new(&[], &[form]);
    forms.iter().map(on).collect()
}

fn arc(from: u32, to: u32) -> Edge {
    edge(9, &[from], &[to])
}

/// 0>1, 1>1, 1>3; node 2 stands alone.
pub fn tailed() -> Drawing {
    plain(4, &[arc(0, 1), arc(1, 1), arc(1, 3)])
}

/// The drawing of examples/, with its labels.
pub fn packet_path() -> Drawing {
    Drawing {
        labels: vec![512, 512, 512, 104, 16, 1, 512, 512, 512],
        edges: vec![
            edge(1, &[], &[0]),
            edge(11, &[0, 8], &[1]),
            edge(3, &[1], &[2, 3]),
            edge(6, &[3, 5], &[4]),
            edge(8, &[4], &[5]),
            edge(7, &[2, 4], &[6]),
            edge(10, &[6], &[7, 8]),
            edge(2, &[7], &[]),
        ],
        ..Drawing::default()
    }
}

fn small() -> Vec<Drawing> {
    vec![
        packet_path(),
        tailed(),
        // From a node that nothing leads to one way leads into the loop and another past it, to what the loop leads to too.
        plain(
            4,
            &[edge(9, &[0], &[1, 2]), arc(1, 1), arc(1, 2), arc(2, 3)],
        ),
        // A loop behind a loop: what lies between them is in the core, until the first choice, node 1, and then led to or not.
        plain(3, &[edge(9, &[0], &[0, 1, 1]), edge(9, &[1, 1, 2], &[2])]),
        // The hub goes first. Then nothing leads to 1 and 2, and 2 alone to 3; 5 has its own loop, to which 1 leads and which leads
        // to 4, and that leads to nothing.
        plain(
            6,
            &[
                edge(9, &[0, 0], &[1, 2]),
                edge(9, &[3, 4], &[0, 0]),
                arc(1, 5),
                arc(2, 3),
                arc(5, 5),
                arc(5, 4),
            ],
        ),
        // Both hold, of node 2 in the first stage and of node 1 in the second: the first is given.
        plain(3, &[arc(0, 1), arc(1, 0), edge(9, &[2], &[])]),
        // An edge without sources, and one without targets, at the loop.
        plain(
            2,
            &[edge(9, &[], &[0, 1]), edge(9, &[0, 1], &[]), arc(0, 0)],
        ),
        // Entries many times: 2 arcs in and 3 out.
        plain(2, &[edge(9, &[1], &[0, 0]), edge(9, &[0, 0, 0], &[1, 1])]),
    ]
}

/// On so many nodes: a loop in the middle of a way, of which half leads to it and half leads on; a ring with a node behind each of its
/// nodes, and with one before each; and as many loops as nodes, so that each is chosen at a stage of its own.
fn longest(nodes: usize) -> Vec<Drawing> {
    let last = nodes as u32 - 1;
    let half = nodes as u32 / 2;
    let way = (0..last).map(|node| arc(node, node + 1));
    let way: Vec<Edge> = way.chain([arc(half, half)]).collect();
    let ring = |node: u32| (node + 1) % half;
    let behind = (0..half).map(|node| edge(9, &[node], &[ring(node), half + node]));
    let before = (0..half).map(|node| edge(9, &[node, half + node], &[ring(node)]));
    let loops = (0..=last).map(|node| arc(node, node));
    [
        way,
        behind.collect(),
        before.collect(),
        loops.collect::<Vec<Edge>>(),
    ]
    .map(|edges| plain(nodes, &edges))
    .to_vec()
}

#[cfg(test)]
mod tests {
    use super::*;
    use crate::convert::to_lax;
    use crate::rows::choice::reasons::{by_stages, Reason};

    fn of(drawing: &Drawing) -> Vec<Reason> {
        by_stages(&to_lax(drawing))
    }

    const fn not_led_to(stage: usize) -> Reason {
        Reason::NotLedTo { stage }
    }

    const fn leads_to_none(stage: usize) -> Reason {
        Reason::LeadsToNone { stage }
    }

    const fn chosen(stage: usize, into: usize, out: usize) -> Reason {
        Reason::Chosen { stage, into, out }
    }

    #[test]
    fn the_small_ones() {
        let small = small();
        let past = [
            not_led_to(1),
            chosen(1, 1, 1),
            leads_to_none(1),
            leads_to_none(1),
        ];
        assert_eq!(of(&small[2]), past);
        let both = [chosen(1, 1, 1), not_led_to(2), not_led_to(1)];
        assert_eq!(of(&small[5]), both);
        let ends = [chosen(1, 1, 1), not_led_to(1)];
        assert_eq!(of(&small[6]), ends);
        assert_eq!(of(&small[7]), [chosen(1, 2, 3), not_led_to(2)]);
    }

    #[test]
    fn the_hub_goes_first() {
        let hub = [
            chosen(1, 2, 2),
            not_led_to(2),
            not_led_to(2),
            not_led_to(2),
            leads_to_none(2),
            chosen(2, 1, 1),
        ];
        assert_eq!(of(&small()[4]), hub);
    }

    #[test]
    fn the_longest_ones() {
        for nodes in [2048, 16_384] {
            let half = nodes / 2;
            let [way, behind, before, loops] = &longest(nodes)[..] else {
                panic!("there are four");
            };
            let of_way = of(way);
            assert!(of_way[..half].iter().all(|r| *r == not_led_to(1)));
            assert_eq!(of_way[half], chosen(1, 1, 1));
            assert!(of_way[half + 1..].iter().all(|r| *r == leads_to_none(1)));
            for (drawing, free) in [(behind, leads_to_none(1)), (before, not_led_to(1))] {
                let reasons = of(drawing);
                assert_eq!(reasons[0], chosen(1, 1, 1));
                assert!(reasons[1..half].iter().all(|r| *r == not_led_to(2)));
                assert!(reasons[half..].iter().all(|r| *r == free));
            }
            let each = (1..=nodes).map(|stage| chosen(stage, 1, 1));
            assert!(of(loops).into_iter().eq(each));
        }
    }
}
