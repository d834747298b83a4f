//! Steps sent in one call, beside the single calls.

use ohg::{EdgeId, Graph, NodeId, Refusal, Refused, RefusedStep, SPIDER};

fn nodes(ids: &[u32]) -> Vec<NodeId> {
    ids.iter().copied().map(NodeId).collect()
}

fn at_step(by: Refusal, step: usize, place: usize) -> Result<(), RefusedStep> {
    Err(RefusedStep {
        by,
        place,
        step: Some(step),
    })
}

/// Each step is held beside the single call, and each id beside the one that it answers.
#[test]
fn steps_give_what_single_calls_give() {
    let mut one = Graph::singleton(4, &[5, 6], &[8]).unwrap();
    let mut many = one.clone();
    let mut steps = many.build();
    for label in 0..700 {
        assert_eq!(one.new_node(label), Ok(steps.next_node()));
        steps = steps.new_node(label);
        let (source, target) = (NodeId(label), NodeId(2 * label / 3));
        let edge = one.new_edge(label, &[source, target], &[source]);
        assert_eq!(edge, Ok(steps.next_edge()));
        steps = steps.new_edge(label, &[source, target], &[source]);
        let operation = one.new_operation(SPIDER, &[label, 2], &[3]);
        let predicted = (steps.next_edge(), steps.next_interface(2, 1));
        assert_eq!(operation, Ok(predicted));
        steps = steps.new_operation(SPIDER, &[label, 2], &[3]);
        let edge = EdgeId(label);
        assert_eq!(one.add_edge_source(edge, 1), Ok(steps.next_node()));
        steps = steps.add_edge_source(edge, 1);
        assert_eq!(one.add_edge_target(edge, 2), Ok(steps.next_node()));
        steps = steps.add_edge_target(edge, 2);
        one.unify(source, target).unwrap();
        steps = steps.unify(source, target);
        if label % 100 == 50 {
            let gone = nodes(&[label, 3, label]);
            one.delete_nodes(&gone).unwrap();
            steps = steps.delete_nodes(&gone);
            one.delete_edges(&[EdgeId(7), EdgeId(7)]).unwrap();
            steps = steps.delete_edges(&[EdgeId(7), EdgeId(7)]);
        }
    }
    assert_eq!(steps.finish(), Ok(()));
    assert_eq!(many, one);
    assert_eq!(one.as_bytes()[3], 2, "version 1 was outgrown");
}

#[test]
fn no_steps_leave_the_graph() {
    let mut graph = Graph::identity(&[5, 6]).unwrap();
    let before = graph.clone();
    assert_eq!(graph.build().finish(), Ok(()));
    assert_eq!(graph, before);
}

#[test]
fn version_1_is_outgrown_and_fits_again() {
    let mut graph = Graph::discrete(&[7; 2048]).unwrap();
    let before = graph.clone();
    let steps = graph.build().new_node(7).new_node(7);
    let gone = nodes(&[4, 2049]);
    assert_eq!(steps.delete_nodes(&gone).finish(), Ok(()));
    assert_eq!(graph, before);
    assert_eq!(graph.build().new_node(7).finish(), Ok(()));
    assert_eq!(graph.as_bytes()[3], 2);
}

#[test]
fn a_refused_step_refuses_all() {
    let mut graph = Graph::discrete(&[7, 7, 7]).unwrap();
    let before = graph.clone();
    let bad = graph.build().new_node(7).unify(NodeId(3), NodeId(4));
    assert_eq!(bad.finish(), at_step(Refusal::BadList, 1, 0));
    let bad = graph.build().new_edge(9, &nodes(&[0, 1, 3]), &[]);
    assert_eq!(bad.finish(), at_step(Refusal::BadList, 0, 2));
    let gone = graph.build().delete_nodes(&nodes(&[0]));
    let bad = gone.new_edge(9, &nodes(&[1]), &nodes(&[1, 2]));
    assert_eq!(bad.finish(), at_step(Refusal::BadList, 1, 1));
    let bad = graph.build().add_edge_source(EdgeId(0), 7);
    assert_eq!(bad.finish(), at_step(Refusal::BadList, 0, 0));
    assert_eq!(graph, before);
}

/// A limit that is passed refuses, also where a later step would come back.
#[test]
fn limits_hold_at_every_step() {
    let mut graph = Graph::discrete(&[7; 16_384]).unwrap();
    let before = graph.clone();
    let gone = nodes(&[0]);
    let back = graph.build().new_node(7).delete_nodes(&gone);
    assert_eq!(back.finish(), at_step(Refusal::ResultLimit, 0, 0));
    assert_eq!(
        graph.build().delete_nodes(&gone).new_node(7).finish(),
        Ok(())
    );
    assert_eq!(graph, before);
}

/// An index has 24 bits, and the steps are more.
#[test]
fn a_step_far_down_the_list_is_told_as_the_highest() {
    let mut graph = Graph::empty();
    let mut steps = graph.build();
    for _ in 0..16_777_217 {
        steps = steps.delete_edges(&[]);
    }
    let bad = steps.unify(NodeId(0), NodeId(0));
    assert_eq!(bad.finish(), at_step(Refusal::BadList, 16_777_215, 0));
}

#[test]
fn a_refusal_says_its_step() {
    let mut graph = Graph::empty();
    let bad = graph.build().new_node(7).delete_nodes(&nodes(&[0, 1]));
    let text = "7 at step 1, entry 1: an id in the call is not below its count; check it against the graph's sizes";
    assert_eq!(bad.finish().unwrap_err().to_string(), text);
    let labels = vec![7; 16_385];
    let bad = graph.build().new_operation(9, &labels, &[]);
    let text = "9 at step 0: the result would pass a limit; split the drawing";
    assert_eq!(bad.finish().unwrap_err().to_string(), text);
}

/// Where the step is not asked for, `?` gives what every other call gives.
#[test]
fn a_refused_step_is_a_refused_call() {
    fn joined(graph: &mut Graph) -> Result<NodeId, Refused> {
        let node = graph.new_node(7)?;
        let steps = graph.build().new_node(7);
        steps.new_edge(9, &[], &nodes(&[0, 1, 2])).finish()?;
        Ok(node)
    }
    let bad = joined(&mut Graph::empty());
    let (by, place) = (Refusal::BadList, 2);
    assert_eq!(bad, Err(Refused { by, place }));
}

/// A mismatched archive alone may refuse what is no step; it is told as of any other call.
#[test]
fn a_refusal_of_no_step_says_none() {
    let (by, place, step) = (Refusal::ShortBuffer, 0, None);
    let bad = RefusedStep { by, place, step };
    assert_eq!(bad.to_string(), Refused { by, place }.to_string());
}
