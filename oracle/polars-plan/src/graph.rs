//! The traversal graph as it stands before the walks, and whose each edge is.
use polars_core::prelude::PlIndexMap;
use polars_utils::arena::{Arena, Node};
use slotmap::Key;

use crate::plans::IR;
use crate::plans::simplify_ordering::ir_graph::{IRNodeEdgeKeys, build_ir_traversal_graph};
use crate::plans::simplify_ordering::ir_node_key::IRNodeKey;
use crate::plans::simplify_ordering::{Edge, EdgeKey};

/// A step, and which of its inputs.
pub type Slot = (Node, usize);

/// The visiting list, and the consumer and slot of each edge by number.
pub fn visiting_list_and_edges(roots: &[Node], steps: &mut Arena<IR>) -> (Vec<Node>, Vec<Slot>) {
    let (list, edge_keys, _, _) = build_ir_traversal_graph::<EdgeKey, Edge>(roots, steps);
    let slots = slots_by_edge(&edge_keys, steps);
    (list, slots)
}

/// The consumer and slot of each edge, by number.
pub fn slots_by_edge(edge_keys: &PlIndexMap<IRNodeKey, IRNodeEdgeKeys<EdgeKey>>, steps: &Arena<IR>) -> Vec<Slot> {
    let edges = edge_keys.values().map(|keys| keys.in_edges.len()).sum();
    let mut slots = vec![(Node(0), 0); edges];

    for step in (0..steps.items().count()).map(Node) {
        if let Some(keys) = edge_keys.get(&IRNodeKey::new(step, steps)) {
            for (slot, edge) in keys.in_edges.iter().enumerate() {
                slots[edge.number()] = (step, slot);
            }
        }
    }

    // Cache steps with one id have one key; which of them has the edge, the step below it knows.
    for keys in edge_keys.values() {
        for (edge, consumer) in keys.out_edges.iter().zip(&keys.out_nodes) {
            slots[edge.number()].0 = *consumer;
        }
    }

    slots
}
