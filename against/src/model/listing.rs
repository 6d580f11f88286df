//! "The listing writes node and depth for node x and everything below it, parents first, children in order, depth 0
//! at x."

use super::answers::Refusal;
use super::trees::Tree;

/// "It is refused where some depth would be 64 or more."
const FIRST_DEPTH_REFUSED: usize = 64;

/// A line of a listing.
pub struct Entry {
    pub node: usize,
    pub depth: usize,
}

/// The listing from a node of the tree, or the "first node in listing order at depth 64".
pub fn listing_from(tree: &Tree, node: usize) -> Result<Vec<Entry>, Refusal> {
    let mut entries = Vec::new();
    let mut to_come = vec![Entry { node, depth: 0 }];
    while let Some(entry) = to_come.pop() {
        if entry.depth == FIRST_DEPTH_REFUSED {
            return Err(Refusal::TooDeep { node: entry.node });
        }
        // the first child comes next, so it is put down last
        for &child in tree.children(entry.node).iter().rev() {
            to_come.push(Entry { node: child, depth: entry.depth + 1 });
        }
        entries.push(entry);
    }
    Ok(entries)
}
