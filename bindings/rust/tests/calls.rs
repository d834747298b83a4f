//! Every call, on document 01's drawings P1 to P9 and on what it is to refuse.

use ohg::{Choice, EdgeId, Graph, Loop, NodeId, Reason, Refusal, Refused, Sizes, Vertex, SPIDER};
use std::thread;

fn nodes(ids: &[u32]) -> Vec<NodeId> {
    ids.iter().copied().map(NodeId).collect()
}

/// Nodes of label 7, and edges as their labels, sources and targets.
fn drawn(count: usize, edges: &[(u32, &[u32], &[u32])]) -> Graph {
    let mut graph = Graph::discrete(&vec![7; count]).unwrap();
    for (&(label, sources, targets), id) in edges.iter().zip(0..) {
        let edge = graph.new_edge(label, &nodes(sources), &nodes(targets));
        assert_eq!(edge, Ok(EdgeId(id)));
    }
    graph
}

fn p2() -> Graph {
    drawn(1, &[(9, &[0], &[0])])
}

fn p6() -> Graph {
    drawn(2, &[(9, &[0], &[1]), (10, &[1], &[0])])
}

/// A graph with these pairs of nodes joined.
fn joined(mut graph: Graph, pairs: &[(u32, u32)]) -> Graph {
    for &(v, w) in pairs {
        assert_eq!(graph.unify(NodeId(v), NodeId(w)), Ok(()));
    }
    graph
}

/// P6 on the last two of so many nodes that the form is of version 2.
fn larger_p6() -> Graph {
    drawn(2050, &[(9, &[2048], &[2049]), (10, &[2049], &[2048])])
}

fn p7() -> Graph {
    drawn(3, &[(9, &[0], &[0, 1, 1]), (10, &[1, 1, 2], &[2])])
}

/// A form of version 1 of these numbers, each 2 bytes, after the mark and the version.
fn stored(numbers: &[u16]) -> Vec<u8> {
    let numbers = numbers.iter().flat_map(|n| n.to_le_bytes());
    b"OHG\x01\0".iter().copied().chain(numbers).collect()
}

/// A form of version 2 of these numbers, each 4 bytes, after the mark and the version.
fn stored_larger(numbers: &[u32]) -> Vec<u8> {
    let numbers = numbers.iter().flat_map(|n| n.to_le_bytes());
    b"OHG\x02\0".iter().copied().chain(numbers).collect()
}

fn chosen(ids: &[u32], free: usize) -> Result<Choice, Refused> {
    let nodes = nodes(ids);
    Ok(Choice { nodes, free })
}

fn at(by: Refusal, place: usize) -> Refused {
    Refused { by, place }
}

#[test]
fn the_stored_form_of_p7_is_the_one_in_document_01() {
    let bytes = stored(&[
        3, 2, 0, 0, 0, // counts
        7, 0, 7, 0, 7, 0, 9, 0, 10, 0, // labels
        1, 3, 0, 0, 1, 1, // 0>0 1 1
        3, 1, 1, 1, 2, 2, // 1 1 2>2
    ]);
    assert_eq!(bytes.len(), 59);
    assert_eq!(p7().as_bytes(), bytes);
    assert_eq!(Graph::from_bytes(bytes), Ok(p7()));
    let sizes = Sizes {
        nodes: 3,
        edges: 2,
        ports: 8,
        sources: 0,
        targets: 0,
        pairs: 0,
    };
    assert_eq!(p7().sizes(), sizes);
}

#[test]
fn building_starts_from_nothing_from_nodes_or_from_an_edge() {
    assert_eq!(Graph::empty().as_bytes(), stored(&[0, 0, 0, 0, 0]));
    let identity = stored(&[2, 0, 2, 2, 0, 5, 0, 6, 0, 0, 1, 0, 1]);
    assert_eq!(Graph::identity(&[5, 6]).unwrap().as_bytes(), identity);
    let singleton = stored(&[
        3, 1, 2, 1, 0, 5, 0, 6, 0, 8, 0, 4, 0, 2, 1, 0, 1, 2, 0, 1, 2,
    ]);
    let made = Graph::singleton(4, &[5, 6], &[8]).unwrap();
    assert_eq!(made.as_bytes(), singleton);
}

#[test]
fn building_numbers_nodes_and_edges_on() {
    let mut graph = p2();
    assert_eq!(graph.new_node(7), Ok(NodeId(1)));
    let operation = graph.new_operation(4, &[7, 7], &[7]);
    assert_eq!(operation, Ok((EdgeId(1), (nodes(&[2, 3]), nodes(&[4])))));
    assert_eq!(graph.add_edge_source(EdgeId(0), 7), Ok(NodeId(5)));
    assert_eq!(graph.add_edge_target(EdgeId(1), 7), Ok(NodeId(6)));
    assert_eq!(
        graph,
        drawn(7, &[(9, &[0, 5], &[0]), (4, &[2, 3], &[4, 6])])
    );
}

#[test]
fn deleting_keeps_the_rest_in_order_and_says_where_it_went() {
    let mut graph = p7();
    graph.unify(NodeId(0), NodeId(1)).unwrap();
    graph.unify(NodeId(2), NodeId(0)).unwrap();
    let map = graph.delete_nodes(&nodes(&[1, 1]));
    assert_eq!(map, Ok(vec![Some(NodeId(0)), None, Some(NodeId(1))]));
    let mut p8 = drawn(2, &[(9, &[0], &[0]), (10, &[1], &[1])]);
    p8.unify(NodeId(1), NodeId(0)).unwrap();
    assert_eq!(graph, p8);

    let mut graph = p6();
    assert_eq!(graph.delete_edges(&[EdgeId(0), EdgeId(0)]), Ok(()));
    assert_eq!(graph, drawn(2, &[(10, &[1], &[0])]));
}

#[test]
fn the_choice_meets_every_loop() {
    assert_eq!(Graph::empty().cycle_breaking_nodes(), chosen(&[], 0));
    assert_eq!(p2().cycle_breaking_nodes(), chosen(&[0], 1));
    let p4 = Graph::identity(&[7]).unwrap();
    assert_eq!(p4.cycle_breaking_nodes(), chosen(&[], 1));
    assert_eq!(p6().cycle_breaking_nodes(), chosen(&[0], 3));
    assert_eq!(p7().cycle_breaking_nodes(), chosen(&[0, 1, 2], 2));
}

/// The choice among the nodes that are not kept, which both engines answer.
fn choice_of_both(graph: &Graph, kept: &[u32]) -> Result<Choice, Refused> {
    let choice = graph.cycle_breaking_nodes_keeping(kept);
    assert_eq!(graph.cycle_breaking_nodes_scanning(kept), choice);
    choice
}

#[test]
fn the_choice_spares_kept_nodes() {
    for graph in [Graph::empty(), p2(), p6(), p7(), larger_p6()] {
        let choice = graph.cycle_breaking_nodes();
        assert_eq!(choice_of_both(&graph, &[]), choice);
    }
    assert_eq!(choice_of_both(&p6(), &[0]), chosen(&[1], 3));
    let cut = p6().spiderize_nodes(&nodes(&[1])).unwrap();
    assert_eq!(cut.no_loop(), Ok(true));
    for kept in [&[1][..], &[1, 1]] {
        let choice = choice_of_both(&p7(), kept);
        assert_eq!(choice, chosen(&[0, 2], 3));
    }
    let larger = larger_p6();
    for kept in [&[2048, 5, 0][..], &[0, 5, 2048, 5]] {
        let choice = choice_of_both(&larger, kept);
        assert_eq!(choice, chosen(&[2049], 2051));
    }
    // Node 0 is on no loop, but between two.
    let bridged = drawn(3, &[(9, &[1], &[1, 0]), (10, &[0, 2], &[2])]);
    assert_eq!(bridged.cycle_breaking_nodes(), chosen(&[0, 1, 2], 2));
    let keeping_the_bridge = choice_of_both(&bridged, &[0]);
    assert_eq!(keeping_the_bridge, chosen(&[1, 2], 3));
}

#[test]
fn a_loop_of_kept_nodes_is_refused() {
    let blocked = Err(at(Refusal::KeptCycle, 0));
    assert_eq!(choice_of_both(&p2(), &[0]), blocked);
    assert_eq!(choice_of_both(&p6(), &[1, 0]), blocked);
    // Its other loops could be broken.
    assert_eq!(choice_of_both(&p7(), &[2]), blocked);
    let larger = larger_p6();
    let both = choice_of_both(&larger, &[2049, 2048]);
    assert_eq!(both, blocked);
    // The list is looked at before, and so are pairs.
    let bad = choice_of_both(&p6(), &[0, 1, 2]);
    assert_eq!(bad, Err(at(Refusal::BadList, 2)));
    let p9 = joined(p6(), &[(0, 1)]);
    let bad = choice_of_both(&p9, &[2]);
    assert_eq!(bad, Err(at(Refusal::BadList, 0)));
    let paired = choice_of_both(&p9, &[0, 1]);
    assert_eq!(paired, Err(at(Refusal::PendingPair, 0)));
    // No loop, so none of kept nodes either.
    let p4 = Graph::identity(&[7]).unwrap();
    assert_eq!(choice_of_both(&p4, &[0]), chosen(&[], 1));
}

/// Document 02's reasons of P2, P6 and P7 and of the packet path, each node's in order, worked by hand.
#[test]
fn each_node_has_its_reason() {
    let chosen = |stage, arcs_in, arcs_out| Reason::Chosen {
        stage,
        arcs_in,
        arcs_out,
    };
    let not_led_to = |stage| Reason::NotLedTo { stage };
    let leads_to_none = |stage| Reason::LeadsToNone { stage };
    assert_eq!(Graph::empty().reasons(), Ok(vec![]));
    assert_eq!(p2().reasons(), Ok(vec![chosen(1, 1, 1)]));
    let p4 = Graph::identity(&[7]).unwrap();
    assert_eq!(p4.reasons(), Ok(vec![not_led_to(1)]));
    let of_p6 = vec![chosen(1, 1, 1), not_led_to(2)];
    assert_eq!(p6().reasons(), Ok(of_p6.clone()));
    let of_p7 = vec![chosen(2, 1, 1), chosen(1, 2, 2), chosen(3, 1, 1)];
    assert_eq!(p7().reasons(), Ok(of_p7));

    // In version 2 the entries are as long; nothing leads to the nodes before P6's.
    let of_larger = [vec![not_led_to(1); 2048], of_p6].concat();
    assert_eq!(larger_p6().reasons(), Ok(of_larger));

    let path = include_bytes!("../../../examples/packet-path.ohg");
    let of_path = vec![
        not_led_to(1),    // arrived
        chosen(2, 1, 1),  // merged
        not_led_to(3),    // body
        leads_to_none(2), // key
        chosen(1, 1, 2),  // server
        not_led_to(2),    // health
        not_led_to(3),    // ready
        leads_to_none(1), // leaving
        not_led_to(3),    // retry
    ];
    let path = Graph::from_bytes(*path).unwrap();
    assert_eq!(path.reasons(), Ok(of_path));
    assert_eq!(path.cycle_breaking_nodes().unwrap().nodes, nodes(&[1, 4]));

    let p9 = joined(p6(), &[(0, 1)]);
    assert_eq!(p9.reasons(), Err(at(Refusal::PendingPair, 0)));
}

fn shown(vertices: &[Vertex], steps: usize) -> Result<Loop, Refused> {
    let vertices = vertices.to_vec();
    Ok(Loop { vertices, steps })
}

#[test]
fn one_loop_is_shown() {
    let node = |id| Vertex::Node(NodeId(id));
    let edge = |id| Vertex::Edge(EdgeId(id));
    assert_eq!(Graph::empty().find_loop(), shown(&[], 0));
    assert_eq!(Graph::identity(&[7]).unwrap().find_loop(), shown(&[], 0));
    assert_eq!(p2().find_loop(), shown(&[node(0), edge(0)], 2));
    let all = [node(0), edge(0), node(1), edge(1)];
    assert_eq!(p6().find_loop(), shown(&all, 4));
    assert_eq!(p7().find_loop(), shown(&[node(0), edge(0)], 2));
    let all = [node(2048), edge(0), node(2049), edge(1)];
    assert_eq!(larger_p6().find_loop(), shown(&all, 4));
    // The way to a loop is not shown, but counted; it may begin at an edge.
    let edges: [(u32, &[u32], &[u32]); 3] = [(9, &[0], &[1]), (9, &[1, 2], &[2]), (9, &[0], &[0])];
    let at_the_end = drawn(3, &edges).find_loop();
    assert_eq!(at_the_end, shown(&[edge(1), node(2)], 5));
    let p9 = joined(p6(), &[(0, 1)]);
    assert_eq!(p9.find_loop(), Err(at(Refusal::PendingPair, 0)));
    assert_eq!(node(3).to_string(), "node 3");
    assert_eq!(edge(3).to_string(), "edge 3");
}

/// Every node and edge that a graph may have.
#[test]
fn the_longest_loop_is_shown() {
    let count = 16_384;
    let ring = (0..count).map(|v| [1, 1, v, (v + 1) % count]);
    let labels = vec![0; 2 * count as usize];
    let numbers = [&[count, count, 0, 0, 0][..], &labels].concat();
    let ring = stored_larger(&[numbers, ring.flatten().collect()].concat());
    let found = Graph::from_bytes(ring).unwrap().find_loop().unwrap();
    assert_eq!(found.steps, 32_768);
    let both = |id| [Vertex::Node(NodeId(id)), Vertex::Edge(EdgeId(id))];
    assert!(found.vertices.into_iter().eq((0..count).flat_map(both)));
}

#[test]
fn the_checks_say_yes_and_no() {
    assert_eq!(Graph::empty().no_loop(), Ok(true));
    assert_eq!(p6().no_loop(), Ok(false));
    assert_eq!(Graph::empty().once_fed(), Ok(true));
    assert_eq!(p2().once_fed(), Ok(true));
    assert_eq!(p6().once_fed(), Ok(true));
    assert_eq!(p7().once_fed(), Ok(false));
}

#[test]
fn global_entries_feed_and_use() {
    let p4 = Graph::identity(&[7]).unwrap();
    assert_eq!(p4.once_fed(), Ok(true));
    assert_eq!(p4.spiderize().and_then(|p5| p5.once_fed()), Ok(true));
    // The node alone, and fed by a block besides.
    assert_eq!(Graph::discrete(&[7]).unwrap().once_fed(), Ok(false));
    let mut driven = p4.clone();
    driven.new_edge(9, &[], &[NodeId(0)]).unwrap();
    assert_eq!(driven.once_fed(), Ok(false));
}

#[test]
fn spiderizing_makes_wiring_explicit() {
    let p3 = drawn(
        3,
        &[
            (9, &[1], &[2]),
            (SPIDER, &[], &[0, 1]),
            (SPIDER, &[0, 2], &[]),
        ],
    );
    assert_eq!(p2().spiderize_nodes(&nodes(&[0, 0])), Ok(p3.clone()));
    assert_eq!(p2().spiderize(), Ok(p3));
    assert_eq!(p2().spiderize_nodes(&[]), Ok(p2()));

    let p5 = Graph::identity(&[7]).unwrap().spiderize().unwrap();
    let spider = u16::MAX;
    let form = stored(&[
        3, 2, 1, 1, 0, // counts
        7, 0, 7, 0, 7, 0, spider, spider, spider, spider, // labels
        1, 1, 1, 0, 1, 1, 0, 2, // 1>0, 0>2
        1, 2, // global lists
    ]);
    assert_eq!(p5.as_bytes(), form);
}

#[test]
fn broken_bytes_are_refused_and_their_place_told() {
    let refused = |bytes: &[u8]| Graph::from_bytes(bytes).unwrap_err();
    let header = stored(&[1, 0, 1, 0, 0, 7, 0]);
    assert_eq!(refused(&header[..14]), at(Refusal::NoHeader, 14));
    assert_eq!(refused(&[0; 15]), at(Refusal::NoMark, 0));
    let other = refused(b"OHG\x03\0\0\0\0\0\0\0\0\0\0\0");
    assert_eq!(other, at(Refusal::OtherVersion, 3));

    // The first of the header's counts, and of an edge's the one with which the sum passes the limit.
    let over = stored(&[0, 2048, 1025, 0, 1025]);
    assert_eq!(refused(&over), at(Refusal::OverLimit, 9));
    let sources_over = stored(&[0, 1, 0, 0, 0, 9, 0, 8193, 0]);
    assert_eq!(refused(&sources_over), at(Refusal::OverLimit, 19));
    let targets_over = stored(&[0, 1, 0, 0, 0, 9, 0, 8192, 1]);
    assert_eq!(refused(&targets_over), at(Refusal::OverLimit, 21));

    assert_eq!(refused(&header), at(Refusal::OtherLength, 19));
    let mut longer = p7().as_bytes().to_vec();
    longer.extend([0; 3]);
    assert_eq!(refused(&longer), at(Refusal::OtherLength, 59));

    // Of nodes 0 to 2 node 3, as the last edge's target and then also as the first one's source.
    let mut foreign = p7().as_bytes().to_vec();
    foreign[57] = 3;
    assert_eq!(refused(&foreign), at(Refusal::ForeignId, 57));
    foreign[39] = 3;
    assert_eq!(refused(&foreign), at(Refusal::ForeignId, 39));
}

#[test]
fn broken_bytes_of_version_2_are_refused_and_their_place_told() {
    let refused = |bytes: &[u8]| Graph::from_bytes(bytes).unwrap_err();
    let over = stored_larger(&[0, 16_385, 0, 0, 0]);
    assert_eq!(refused(&over[..14]), at(Refusal::NoHeader, 14));
    assert_eq!(refused(&over[..24]), at(Refusal::OtherLength, 24));
    assert_eq!(refused(&over), at(Refusal::OverLimit, 9));
    let foreign = stored_larger(&[1, 0, 2, 0, 0, 7, 0, 1]);
    assert_eq!(refused(&foreign), at(Refusal::ForeignId, 33));
    let fits_version_1 = stored_larger(&[1, 0, 1, 0, 0, 7, 0]);
    assert_eq!(refused(&fits_version_1), at(Refusal::OtherForm, 0));
}

#[test]
fn ids_that_are_not_there_are_refused_and_never_cut_to_size() {
    for graph in [p6(), larger_p6()] {
        refuses_foreign_ids(graph);
    }
}

fn refuses_foreign_ids(whole: Graph) {
    let mut graph = whole.clone();
    let Sizes { nodes, edges, .. } = whole.sizes();
    let above = |count: usize| [count as u32, 65_535, 65_536, u32::MAX];
    let bad = |place| at(Refusal::BadList, place);
    let (first, there) = (NodeId(0), EdgeId(0));
    for (node, edge) in above(nodes).into_iter().zip(above(edges)) {
        let (node, edge) = (NodeId(node), EdgeId(edge));
        assert_eq!(graph.new_edge(9, &[node], &[]), Err(bad(0)));
        assert_eq!(graph.new_edge(9, &[], &[first, node]), Err(bad(1)));
        assert_eq!(
            graph.new_edge(9, &[first, first, node], &[node]),
            Err(bad(2))
        );
        assert_eq!(graph.unify(node, first), Err(bad(0)));
        assert_eq!(graph.unify(first, node), Err(bad(0)));
        assert_eq!(graph.add_edge_source(edge, 7), Err(bad(0)));
        assert_eq!(graph.add_edge_target(edge, 7), Err(bad(0)));
        assert_eq!(graph.delete_edges(&[there, edge, edge]), Err(bad(1)));
        assert_eq!(graph.delete_nodes(&[first, node]), Err(bad(1)));
        assert_eq!(graph.spiderize_nodes(&[first, first, node]), Err(bad(2)));
        let kept = choice_of_both(&graph, &[0, node.0]);
        assert_eq!(kept, Err(bad(1)));
    }
    assert_eq!(graph, whole);
}

#[test]
fn a_pending_pair_is_refused_where_none_may_be() {
    let mut p9 = joined(p6(), &[(0, 1)]);
    assert_eq!(p9.sizes().pairs, 1);
    assert_eq!(p9.cycle_breaking_nodes(), Err(at(Refusal::PendingPair, 0)));
    assert_eq!(p9.no_loop(), Err(at(Refusal::PendingPair, 0)));
    assert_eq!(p9.once_fed(), Err(at(Refusal::PendingPair, 0)));
    p9.quotient().unwrap();
    assert_eq!(p9.cycle_breaking_nodes(), chosen(&[0], 2));
    assert_eq!((p9.no_loop(), p9.once_fed()), (Ok(false), Ok(false)));
}

#[test]
fn merging_makes_joined_nodes_one_and_says_where_each_went() {
    let mut p9 = joined(p6(), &[(0, 1)]);
    assert_eq!(p9.quotient(), Ok(nodes(&[0, 0])));
    assert_eq!(p9, drawn(1, &[(9, &[0], &[0]), (10, &[0], &[0])]));

    // Without pairs nothing changes, nor with a node joined to itself, but that its pair goes.
    for pairs in [&[][..], &[(1, 1)]] {
        let mut same = joined(p7(), pairs);
        assert_eq!(same.quotient(), Ok(nodes(&[0, 1, 2])));
        assert_eq!(same, p7());
    }

    // A chain from its end on; then classes that lie across each other, numbered by the least in each.
    let across = drawn(5, &[(9, &[4, 3], &[2]), (10, &[1, 0], &[])]);
    let mut chain = joined(across.clone(), &[(4, 3), (3, 2), (2, 1), (1, 0)]);
    assert_eq!(chain.quotient(), Ok(nodes(&[0; 5])));
    assert_eq!(chain, drawn(1, &[(9, &[0, 0], &[0]), (10, &[0, 0], &[])]));
    let mut across = joined(across, &[(3, 1), (4, 2), (2, 4)]);
    assert_eq!(across.quotient(), Ok(nodes(&[0, 1, 2, 1, 2])));
    assert_eq!(across, drawn(3, &[(9, &[2, 1], &[2]), (10, &[1, 0], &[])]));
}

#[test]
fn joined_nodes_with_different_labels_are_not_merged() {
    let mut p6 = Graph::discrete(&[5, 6]).unwrap();
    p6.new_edge(9, &nodes(&[0]), &nodes(&[1])).unwrap();
    p6.new_edge(10, &nodes(&[1]), &nodes(&[0])).unwrap();
    let p9 = joined(p6, &[(0, 1)]);
    let differ = at(Refusal::LabelsDiffer, 0);
    let mut graph = p9.clone();
    assert_eq!(graph.quotient(), Err(differ));
    assert_eq!(graph, p9);
    assert_eq!(p9.spiderize(), Err(differ));
    assert_eq!(p9.spiderize_nodes(&[]), Err(differ));
    // The list is looked at before.
    let bad = p9.spiderize_nodes(&nodes(&[0, 2]));
    assert_eq!(bad, Err(at(Refusal::BadList, 1)));

    // The ends of a chain; nodes that no pair has may differ.
    let three = Graph::discrete(&[5, 5, 6]).unwrap();
    let mut chain = joined(three.clone(), &[(0, 1), (1, 2)]);
    assert_eq!(chain.quotient(), Err(differ));
    assert_eq!(joined(three, &[(1, 0)]).quotient(), Ok(nodes(&[0, 0, 1])));
}

#[test]
fn spiderizing_merges_first() {
    let p9 = joined(p6(), &[(0, 1)]);
    let mut merged = p9.clone();
    merged.quotient().unwrap();
    let explicit = drawn(
        5,
        &[
            (9, &[1], &[2]),
            (10, &[3], &[4]),
            (SPIDER, &[], &[0, 1, 3]),
            (SPIDER, &[0, 2, 4], &[]),
        ],
    );
    assert_eq!(p9.spiderize(), Ok(explicit.clone()));
    // Either id stands for both; none merges all the same.
    for ids in [&[0][..], &[1], &[1, 0]] {
        assert_eq!(p9.spiderize_nodes(&nodes(ids)), Ok(explicit.clone()));
    }
    assert_eq!(p9.spiderize_nodes(&[]), Ok(merged));
}

#[test]
fn merging_in_version_2_goes_back_to_version_1_where_that_is_enough() {
    let mut stays = joined(larger_p6(), &[(2049, 5)]);
    let map = (0..2049).map(NodeId).chain([NodeId(5)]);
    assert_eq!(stays.quotient(), Ok(map.collect()));
    assert_eq!(
        stays,
        drawn(2049, &[(9, &[2048], &[5]), (10, &[5], &[2048])])
    );

    // The map has an entry for each of the nodes that were read.
    let mut goes = joined(larger_p6(), &[(2049, 2048), (1, 0)]);
    let explicit = goes.spiderize_nodes(&nodes(&[2049])).unwrap();
    let map = goes.quotient().unwrap();
    assert_eq!(map.len(), 2050);
    assert_eq!(map[..4], nodes(&[0, 0, 1, 2]));
    assert_eq!(map[2047..], nodes(&[2046, 2047, 2047]));
    let back = drawn(2048, &[(9, &[2047], &[2047]), (10, &[2047], &[2047])]);
    assert_eq!(goes, back);
    assert_eq!(goes.as_bytes()[3], 1);
    assert_eq!(back.spiderize_nodes(&nodes(&[2047])), Ok(explicit));
}

#[test]
fn results_past_a_limit_are_refused() {
    assert_eq!(
        Graph::discrete(&[7; 16_385]),
        Err(at(Refusal::ResultLimit, 0))
    );
    assert_eq!(
        Graph::identity(&[7; 8193]),
        Err(at(Refusal::ResultLimit, 0))
    );
    let full = Graph::discrete(&[7; 16_384]).unwrap();
    let mut graph = full.clone();
    assert_eq!(graph.new_node(7), Err(at(Refusal::ResultLimit, 0)));
    let operation = graph.new_operation(9, &[7], &[]);
    assert_eq!(operation, Err(at(Refusal::ResultLimit, 0)));
    assert_eq!(graph, full);
    let long = p2().new_edge(9, &vec![NodeId(0); 70_000], &[]);
    assert_eq!(long, Err(at(Refusal::ResultLimit, 0)));
    let edges = Graph::singleton(9, &[7; 8192], &[7; 8192]).unwrap();
    assert_eq!(edges.spiderize(), Err(at(Refusal::ResultLimit, 0)));
}

#[test]
fn a_drawing_outgrows_version_1_and_comes_back() {
    let full = drawn(2048, &[(9, &[2047], &[0])]);
    assert_eq!(full.as_bytes()[..5], *b"OHG\x01\0");
    let mut graph = full.clone();
    assert_eq!(graph.new_node(8), Ok(NodeId(2048)));
    let mut numbers = vec![2049, 1, 0, 0, 0];
    numbers.extend([7; 2048]);
    numbers.extend([8, 9, 1, 1, 2047, 0]);
    assert_eq!(graph.as_bytes(), stored_larger(&numbers));
    assert_eq!(
        Graph::from_bytes(stored_larger(&numbers)).as_ref(),
        Ok(&graph)
    );

    let edge = graph.new_edge(10, &nodes(&[0]), &nodes(&[2048, 2047]));
    assert_eq!(edge, Ok(EdgeId(1)));
    let operation = graph.new_operation(4, &[7], &[7, 7]);
    let interface = (nodes(&[2049]), nodes(&[2050, 2051]));
    assert_eq!(operation, Ok((EdgeId(2), interface)));
    assert_eq!(graph.delete_edges(&[EdgeId(2), EdgeId(1)]), Ok(()));

    // The map has an entry for each of the nodes that were read, of version 2, though what is left is of version 1.
    let map = graph.delete_nodes(&nodes(&[2051, 2048, 2049, 2050]));
    let stayed = (0..2048).map(|id| Some(NodeId(id)));
    assert_eq!(map, Ok(stayed.chain([None; 4]).collect()));
    assert_eq!(graph, full);
}

#[test]
fn a_deletion_that_stays_in_version_2_says_where_nodes_went() {
    let mut graph = larger_p6();
    let map = graph.delete_nodes(&nodes(&[5])).unwrap();
    assert_eq!(map.len(), 2050);
    assert_eq!(map[4..7], [Some(NodeId(4)), None, Some(NodeId(5))]);
    assert_eq!(map[2049], Some(NodeId(2048)));
    let smaller = drawn(2049, &[(9, &[2047], &[2048]), (10, &[2048], &[2047])]);
    assert_eq!(graph, smaller);
}

#[test]
fn loops_are_cut_in_version_2() {
    let graph = larger_p6();
    let choice = graph.cycle_breaking_nodes();
    assert_eq!(choice, chosen(&[2048], 2051));
    assert_eq!(graph.no_loop(), Ok(false));
    let cut = graph.spiderize_nodes(&nodes(&[2048])).unwrap();
    assert_eq!((cut.sizes().nodes, cut.no_loop()), (2052, Ok(true)));
}

#[test]
fn version_1_outgrown_by_spiders_is_answered_in_version_2() {
    // Each of the 2,048 nodes has two entries, and so gets two fresh nodes and two spiders, of four ports in all.
    let edge = Graph::singleton(9, &[7; 1024], &[7; 1024]).unwrap();
    assert_eq!(edge.as_bytes()[3], 1);
    let explicit = edge.spiderize().unwrap();
    assert_eq!(explicit.as_bytes()[3], 2);
    let sizes = explicit.sizes();
    assert_eq!((sizes.nodes, sizes.edges), (3 * 2048, 1 + 2 * 2048));
    assert_eq!(sizes.ports, 2048 + 4 * 2048);
    assert_eq!(explicit.once_fed(), Ok(true));
}

#[test]
fn the_largest_form_fits() {
    let mut numbers = vec![16_384, 16_384, 8192, 8192, 8192];
    numbers.extend([7; 16_384 + 16_384]); // labels
    numbers.extend([2, 2, 0, 1, 2, 3].repeat(16_384)); // 65,536 ports
    numbers.extend([16_383; 8192 + 8192 + 2 * 8192]); // global lists and pairs
    let bytes = stored_larger(&numbers);
    assert_eq!(bytes.len(), 655_385);
    let mut graph = Graph::from_bytes(bytes.clone()).unwrap();
    assert_eq!(graph.delete_edges(&[]), Ok(()));
    assert_eq!(graph.delete_nodes(&[]).unwrap().len(), 16_384);
    assert_eq!(graph.as_bytes(), bytes);
    // Its pairs join the last node with itself.
    assert_eq!(graph.quotient().unwrap().len(), 16_384);
    assert_eq!(graph.as_bytes().len(), 655_385 - 8192 * 8);
}

#[test]
fn the_largest_form_of_version_1_fits() {
    let mut numbers = vec![2048, 2048, 1024, 1024, 1024];
    numbers.extend([7; 2 * (2048 + 2048)]); // labels
    numbers.extend([2, 2, 0, 1, 2, 3].repeat(2048)); // 8,192 ports
    numbers.extend([2047; 1024 + 1024 + 2 * 1024]); // global lists and pairs
    let bytes = stored(&numbers);
    assert_eq!(bytes.len(), 49_167);
    let mut graph = Graph::from_bytes(bytes.clone()).unwrap();
    assert_eq!(graph.delete_edges(&[]), Ok(()));
    assert_eq!(graph.delete_nodes(&[]).unwrap().len(), 2048);
    assert_eq!(graph.as_bytes(), bytes);
    assert_eq!(graph.quotient().unwrap().len(), 2048);
    assert_eq!(graph.as_bytes().len(), 49_167 - 1024 * 4);
}

#[test]
fn threads_do_not_share_what_they_lend() {
    let calls = || (0..100).all(|_| p7().cycle_breaking_nodes() == chosen(&[0, 1, 2], 2));
    let threads: Vec<_> = (0..4).map(|_| thread::spawn(calls)).collect();
    assert!(threads.into_iter().all(|t| t.join().unwrap()));
}

#[test]
fn a_refusal_says_its_number_its_place_and_what_to_do() {
    let text = "6 at byte 43: a node id is not below the node count; get the file again, undamaged";
    assert_eq!(at(Refusal::ForeignId, 43).to_string(), text);
    assert_eq!(Refusal::ForeignId.number(), 6);
    let text = "7 at entry 2: an id in the call is not below its count; check it against the graph's sizes";
    assert_eq!(at(Refusal::BadList, 2).to_string(), text);
    let text = "13: a form of version 2 whose graph fits version 1; write it by version 1";
    assert_eq!(at(Refusal::OtherForm, 0).to_string(), text);
    let text = "11: nodes that pairs join have different labels; give them one, or delete the pair's nodes";
    assert_eq!(at(Refusal::LabelsDiffer, 0).to_string(), text);
    let text =
        "16: some directed cycle has only kept nodes; free one of these wires, or redraw the loop";
    assert_eq!(at(Refusal::KeptCycle, 0).to_string(), text);
}
