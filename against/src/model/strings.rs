//! "Tree string (LBS, source document 003, section 3)."

use super::answers::Refusal;
use super::trees::{Tree, MOST_NODES, SUPER_ROOT};
use std::collections::VecDeque;

/// "L is at most 131,071."
pub const MOST_BITS: usize = 131_071;

/// "First 10 for the super-root, then for each node in level order as many 1s as it has children and one 0."
pub fn string_of_tree(tree: &Tree) -> Vec<bool> {
    let mut bits = vec![true, false];
    for node in tree.nodes() {
        bits.extend(tree.children(node).iter().map(|_| true));
        bits.push(false);
    }
    bits
}

/// The tree whose string these bits are.
pub fn tree_of_string(bits: &[bool]) -> Result<Tree, Refusal> {
    let (tree, end) = read_tree(bits, 0)?;
    if end < bits.len() {
        // the string was over before this bit, so nothing that goes on begins a string
        return Err(Refusal::NotAString { bit: end + 1 });
    }
    Ok(tree)
}

/// Reads one string from index `begin` on; gives its tree and the index after its last bit.
///
/// The nodes whose children are still to come wait in a queue: "a tree is over at the first bit where no node is
/// pending". The place of a refusal is "first p whose first p bits begin no string of a tree of 1 to 65,535 nodes",
/// which is the first bit that has no way on, for whatever has a way on can be ended by zeros; "L + 1 if there is
/// no such p".
pub fn read_tree(bits: &[bool], begin: usize) -> Result<(Tree, usize), Refusal> {
    let mut parents = Vec::new();
    let mut pending = VecDeque::from([SUPER_ROOT]);
    for (index, &bit) in bits.iter().enumerate().skip(begin) {
        let refusal = Err(Refusal::NotAString { bit: index + 1 });
        let node = *pending.front().expect("left when no node is pending");
        if bit {
            // one more child: the super-root has one, and a tree has no node after the 65,535th
            if node == SUPER_ROOT && parents.len() == 1 || parents.len() == MOST_NODES {
                return refusal;
            }
            parents.push(u32::try_from(node).expect("a node's number"));
            pending.push_back(parents.len());
        } else {
            // no more children
            if node == SUPER_ROOT && parents.is_empty() {
                return refusal;
            }
            pending.pop_front();
            if pending.is_empty() {
                let tree = Tree::of_parent_list(&parents).expect("read in level order");
                return Ok((tree, index + 1));
            }
        }
    }
    Err(Refusal::NotAString { bit: bits.len() + 1 })
}
