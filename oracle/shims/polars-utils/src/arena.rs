//! The arena: items in a row, named by their place. Beside each item it keeps the facts that a sheet states about it.

#[derive(Clone, Copy, Debug, PartialEq, Eq, Hash)]
pub struct Node(pub usize);

/// What an arena can hold.
pub trait Item: Sized {
    /// Stated by the sheet and kept beside the item.
    type Facts: Copy;

    /// The facts of an item that the ported code adds.
    fn facts_when_added(&self) -> Self::Facts;

    /// The facts of an item that the ported code is about to put in `place` of another.
    fn facts_when_replacing(&self, place: Node, arena: &Arena<Self>) -> Self::Facts;
}

#[derive(Clone)]
pub struct Arena<T: Item> {
    items: Vec<T>,
    facts: Vec<T::Facts>,
}

impl<T: Item> Default for Arena<T> {
    fn default() -> Self {
        Self { items: Vec::new(), facts: Vec::new() }
    }
}

impl<T: Item> Arena<T> {
    /// Adds an item as the sheet states it.
    pub fn add_with_facts(&mut self, item: T, facts: T::Facts) -> Node {
        self.items.push(item);
        self.facts.push(facts);
        Node(self.items.len() - 1)
    }

    pub fn facts(&self, node: Node) -> T::Facts {
        self.facts[node.0]
    }

    pub fn items(&self) -> impl Iterator<Item = (&T, T::Facts)> {
        self.items.iter().zip(self.facts.iter().copied())
    }

    pub fn add(&mut self, item: T) -> Node {
        let facts = item.facts_when_added();
        self.add_with_facts(item, facts)
    }

    pub fn get(&self, node: Node) -> &T {
        &self.items[node.0]
    }

    pub fn get_mut(&mut self, node: Node) -> &mut T {
        &mut self.items[node.0]
    }

    pub fn replace(&mut self, node: Node, item: T) -> T {
        self.facts[node.0] = item.facts_when_replacing(node, self);
        std::mem::replace(&mut self.items[node.0], item)
    }
}
