//! The order of the page's section "Reaching the root": which updates have reached each node, and in which order.
//! It is kept from what was seen of the calls, and knows nothing of versions.

use super::tables::{Node, Size};

/// An update's number in its history, counted by starts from 0.
#[derive(Clone, Copy, Debug, PartialEq, Eq)]
pub struct UpdateNumber(pub usize);

/// How many updates had reached a node when it was read.
#[derive(Clone, Copy, Debug, PartialEq, Eq)]
pub struct Seen(usize);

impl Seen {
    pub const NONE: Seen = Seen(0);
}

/// The lists of one node.
#[derive(Clone, Default)]
struct Arrivals {
    /// Those that have reached the node, in order.
    reached: Vec<UpdateNumber>,
    /// How many of them, from the first on, have reached the node's parent.
    passed_up: usize,
    /// At a leaf: those that have read it and are to swap, in the order of their reads.
    waiting: Vec<UpdateNumber>,
}

pub struct Order {
    nodes: Vec<Arrivals>,
}

impl Order {
    pub fn new(size: Size) -> Order {
        Order { nodes: vec![Arrivals::default(); 2 * size.cells as usize] }
    }

    fn at(&mut self, node: Node) -> &mut Arrivals {
        &mut self.nodes[node.0 as usize]
    }

    /// The page: "finding the cell already as wanted, at its read".
    pub fn finds_as_wanted(&mut self, leaf: Node, update: UpdateNumber) {
        self.at(leaf).reached.push(update);
    }

    pub fn waits_to_swap(&mut self, leaf: Node, update: UpdateNumber) {
        self.at(leaf).waiting.push(update);
    }

    pub fn is_waiting(&self, leaf: Node, update: UpdateNumber) -> bool {
        self.nodes[leaf.0 as usize].waiting.contains(&update)
    }

    /// The page: the others reach the leaf "just behind that swap's own update (several such in the order of their reads)".
    pub fn swaps_at_leaf(&mut self, leaf: Node, update: UpdateNumber) {
        let arrivals = self.at(leaf);
        let others = std::mem::take(&mut arrivals.waiting).into_iter().filter(|&waiting| waiting != update);
        arrivals.reached.push(update);
        arrivals.reached.extend(others);
    }

    pub fn seen_at(&self, node: Node) -> Seen {
        Seen(self.nodes[node.0 as usize].reached.len())
    }

    /// A successful swap at an inner node: "those through the left child come first, each side in its order at that child".
    /// Gives the updates that reach the node with it.
    pub fn swaps_at_inner(&mut self, node: Node, left: Seen, right: Seen) -> Vec<UpdateNumber> {
        let mut arriving = self.pass_up(node.left(), left);
        arriving.extend(self.pass_up(node.right(), right));
        self.at(node).reached.extend(&arriving);
        arriving
    }

    fn pass_up(&mut self, child: Node, seen: Seen) -> Vec<UpdateNumber> {
        let arrivals = self.at(child);
        assert!(arrivals.passed_up <= seen.0, "a later swap at a node has read its children later");
        let first = std::mem::replace(&mut arrivals.passed_up, seen.0);
        arrivals.reached[first..seen.0].to_vec()
    }

    /// The updates placed so far, in the order of the root.
    pub fn at_root(&self) -> &[UpdateNumber] {
        &self.nodes[Node::ROOT.0 as usize].reached
    }
}
