//! An entry of a list of expressions.
use polars_utils::arena::Node;

#[derive(Clone, Debug, PartialEq)]
pub struct ExprIR {
    node: Node,
}

impl ExprIR {
    pub fn from_node(node: Node) -> Self {
        Self { node }
    }

    pub fn node(&self) -> Node {
        self.node
    }

    pub fn set_node(&mut self, node: Node) {
        self.node = node;
    }
}
