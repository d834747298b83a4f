//! The priced parts list and the report on a range: the feature `price`.
#![cfg(feature = "price")]

use ohg::price::{price_range, Report};
use ohg::{Graph, NodeId, Refusal, KINDS, SPIDER};

/// Sources, targets and price of each kind.
const CATALOGUE: [(usize, usize, u64); 12] = [
    (0, 1, 4200),
    (1, 0, 4200),
    (1, 2, 1150),
    (2, 1, 640),
    (1, 1, 2300),
    (2, 1, 390),
    (2, 1, 870),
    (1, 1, 510),
    (1, 1, 120),
    (1, 2, 95),
    (2, 1, 95),
    (2, 2, 3100),
];

fn path() -> Graph {
    let bytes = include_bytes!("../../../examples/packet-path.ohg");
    Graph::from_bytes(bytes.as_slice()).expect("it is a drawing")
}

/// A drawing of so many nodes with one edge, which leads from node 0 to node 1.
fn one(label: u32, sources: usize, targets: usize, nodes: usize) -> Graph {
    let mut graph = Graph::discrete(&vec![7; nodes]).expect("it is small");
    let (from, to) = (vec![NodeId(0); sources], vec![NodeId(1); targets]);
    graph.new_edge(label, &from, &to).expect("it is small");
    graph
}

fn refused(graph: &Graph) -> Refusal {
    let refused = graph.price().expect_err("it is refused");
    assert_eq!(refused.place, 0);
    refused.by
}

#[test]
fn the_bill_of_the_packet_path() {
    let bill = path().price().expect("its parts are in order");
    assert_eq!(bill.counts, [1, 1, 1, 0, 0, 1, 1, 1, 0, 1, 1, 0]);
    assert_eq!((bill.buffers, bill.total), (2, 12_030));
    let choice = path().cycle_breaking_nodes().expect("it has no pairs");
    assert_eq!(bill.buffers as usize, choice.nodes.len());
}

#[test]
fn each_kind_by_itself_in_both_versions() {
    assert_eq!(KINDS.len(), CATALOGUE.len());
    for (at, (sources, targets, price)) in CATALOGUE.into_iter().enumerate() {
        let label = at as u32 + 1;
        for nodes in [2, 2049] {
            let bill = one(label, sources, targets, nodes).price();
            let bill = bill.expect("it is in order");
            assert_eq!((bill.count(at + 1), bill.counts.iter().sum()), (1, 1));
            assert_eq!((bill.buffers, bill.total), (0, price));
        }
        let other = refused(&one(label, sources + 1, targets, 2));
        assert_eq!(other, Refusal::OtherPorts);
        let other = refused(&one(label, sources, targets + 1, 2));
        assert_eq!(other, Refusal::OtherPorts);
    }
}

#[test]
fn spiders_are_free_and_other_labels_are_refused() {
    let bill = one(SPIDER, 3, 2, 2).price().expect("it is a spider");
    assert_eq!((bill.counts, bill.buffers, bill.total), ([0; 12], 0, 0));
    for label in [0, 13, 9 + 65_536, SPIDER - 1] {
        assert_eq!(refused(&one(label, 1, 1, 2)), Refusal::UnknownKind);
    }
}

#[test]
fn a_pair_is_told_before_an_edge() {
    let mut graph = one(0, 0, 0, 2);
    graph.unify(NodeId(0), NodeId(1)).expect("it is small");
    assert_eq!(refused(&graph), Refusal::PendingPair);
}

/// The report on a range that has at most 1,000 drawings.
fn ranged(forms: &[&[u8]]) -> Report {
    price_range(forms).expect("it has no more drawings")
}

#[test]
fn the_report_of_the_request() {
    let path = path();
    let cut = &path.as_bytes()[..path.as_bytes().len() - 1];
    let report = ranged(&[path.as_bytes(), cut, path.as_bytes()]);
    assert_eq!((report.drawings(), report.priced), (3, 2));
    assert_eq!(report.refused_by(Refusal::OtherLength), 1);
    assert_eq!(report.refused.iter().sum::<u32>(), 1);
    assert_eq!(report.parts, [2, 2, 2, 0, 0, 2, 2, 2, 0, 2, 2, 0]);
    assert_eq!((report.buffers, report.sum), (4, 24_060));
    assert_eq!(report.dearest, Some(0));
    assert_eq!((report.mean, report.remainder), (12_030, 0));
}

#[test]
fn a_report_of_nothing_and_of_what_is_refused() {
    let nothing = Report {
        priced: 0,
        refused: [0; 17],
        parts: [0; 12],
        buffers: 0,
        sum: 0,
        dearest: None,
        mean: 0,
        remainder: 0,
    };
    assert_eq!(ranged(&[]), nothing);
    let mut refused = [0; 17];
    refused[0] = 2;
    refused[1] = 1;
    let all_refused = Report { refused, ..nothing };
    assert_eq!(ranged(&[b"", &[0; 15], b"OHG"]), all_refused);
}

#[test]
fn each_refusal_is_counted_by_its_number() {
    let form = |graph: &Graph| graph.as_bytes().to_vec();
    let changed = |at: usize, to: u8| {
        let mut form = form(&one(8, 1, 1, 2));
        form[at] = to;
        form
    };
    let mut paired = one(8, 1, 1, 2);
    paired.unify(NodeId(0), NodeId(1)).expect("it is small");
    let last = form(&one(8, 1, 1, 2)).len() - 2;
    let other_form = [b"OHG\x02\0".as_slice(), &[0; 20]].concat();
    let forms = [
        (1, vec![]),
        (2, changed(0, 0)),
        (3, changed(3, 3)),
        (4, changed(6, 255)),
        (5, form(&one(8, 1, 1, 2))[..last].to_vec()),
        (6, changed(last, 2)),
        (13, other_form),
        (8, form(&paired)),
        (14, form(&one(13, 1, 1, 2))),
        (15, form(&one(8, 1, 2, 2))),
    ];
    for (number, form) in &forms {
        let report = ranged(&[form]);
        assert_eq!(report.refused[number - 1], 1, "{number}");
        assert_eq!((report.drawings(), report.priced), (1, 0));
    }
}

/// The first on a tie, counted with the refused ones; what costs nothing is the dearest where nothing costs more.
#[test]
fn the_dearest_and_the_mean() {
    let [free, cheap, dear] = [one(SPIDER, 1, 1, 2), one(9, 1, 1, 2), one(12, 2, 2, 2)];
    let [free, cheap, dear] = [&free, &cheap, &dear].map(|graph| graph.as_bytes());
    assert_eq!(ranged(&[b"", free, free]).dearest, Some(1));
    let report = ranged(&[cheap, b"", dear, free, dear]);
    assert_eq!((report.priced, report.dearest), (4, Some(2)));
    assert_eq!(
        (report.sum, report.mean, report.remainder),
        (6_320, 1_580, 0)
    );
    let report = ranged(&[cheap, cheap, dear]);
    assert_eq!(
        (report.sum, report.mean, report.remainder),
        (3_340, 1_113, 1)
    );
}

#[test]
fn at_most_a_thousand_drawings() {
    let cheap = one(9, 1, 1, 2);
    let mut forms = vec![cheap.as_bytes(); 1000];
    let report = ranged(&forms);
    assert_eq!((report.priced, report.sum), (1000, 120_000));
    forms.push(&[]);
    let refused = price_range(&forms).expect_err("it has one more");
    assert_eq!((refused.by, refused.place), (Refusal::NoSlice, 0));
    assert_eq!(refused.to_string().split(':').next(), Some("17"));
}
