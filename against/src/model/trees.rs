//! "An ordinal tree has a root, and each node has an ordered list of children."

use super::answers::{number, Refusal};

/// "A tree here has 1 to 65,535 nodes."
pub const MOST_NODES: usize = 65_535;

/// "Number 0 is never a node": in the model it is the super-root, whose only child is the root.
pub const SUPER_ROOT: usize = 0;

/// "Nodes are numbered 1 to n in level order."
#[derive(Clone, Debug, PartialEq, Eq)]
pub struct Tree {
    /// The parent of node x at index x; the entry of the super-root itself is never asked for.
    parent: Vec<usize>,
    /// The children of node x, in order, at index x.
    children: Vec<Vec<usize>>,
}

impl Tree {
    /// The tree of a parent list, or its lowest offending entry.
    pub fn of_parent_list(list: &[u32]) -> Result<Tree, Refusal> {
        if let Some(entry) = (1..=list.len()).find(|&entry| offends(list, entry)) {
            return Err(Refusal::NotAParentList { entry });
        }
        let mut parent = vec![SUPER_ROOT];
        let mut children = vec![Vec::new(); list.len() + 1];
        for (index, &entry) in list.iter().enumerate() {
            parent.push(entry as usize);
            children[entry as usize].push(index + 1);
        }
        Ok(Tree { parent, children })
    }

    /// "n numbers of 32 bits, the parent of each node in level order."
    pub fn parent_list(&self) -> Vec<u32> {
        self.nodes().map(|node| number(self.parent(node))).collect()
    }

    pub fn node_count(&self) -> usize {
        self.parent.len() - 1
    }

    /// All nodes, in level order.
    pub fn nodes(&self) -> std::ops::RangeInclusive<usize> {
        1..=self.node_count()
    }

    /// The parent of a node; for the root it is 0, "none".
    pub fn parent(&self, node: usize) -> usize {
        self.parent[node]
    }

    pub fn children(&self, node: usize) -> &[usize] {
        &self.children[node]
    }

    /// The node and its siblings in order; the root is alone under the super-root.
    pub fn siblings(&self, node: usize) -> &[usize] {
        self.children(self.parent(node))
    }
}

/// "It is a tree exactly if the first is 0 and each later entry i is between 1 and i - 1 and not below the entry before
/// it." Of two entries out of order the later one offends.
fn offends(list: &[u32], entry: usize) -> bool {
    let value = list[entry - 1];
    if entry == 1 {
        return value != 0;
    }
    let before = list[entry - 2];
    !(1..entry).contains(&(value as usize)) || value < before
}
