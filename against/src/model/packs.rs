//! "A pack is a number of trees k, 0 to 256, and their strings end to end, at most 131,071 bits in all."

use super::answers::Refusal;
use super::strings::read_tree;
use super::trees::Tree;

/// "At most 256" trees.
pub const MOST_TREES: usize = 256;

/// One tree of a pack.
pub struct Part {
    /// The number of its first bit, from 1.
    pub first_bit: usize,
    pub tree: Tree,
}

/// The trees of the bits, however many; "pack: no list of such strings, however long".
pub fn parts_of_bits(bits: &[bool]) -> Result<Vec<Part>, Refusal> {
    let mut parts = Vec::new();
    let mut begin = 0;
    while begin < bits.len() {
        let (tree, end) = read_tree(bits, begin)?;
        parts.push(Part { first_bit: begin + 1, tree });
        begin = end;
    }
    Ok(parts)
}

/// The trees of a pack that should have `count` of them.
pub fn parts_of_pack(bits: &[bool], count: usize) -> Result<Vec<Part>, Refusal> {
    let parts = parts_of_bits(bits)?;
    if parts.len() != count {
        return Err(Refusal::OtherTrees { found: parts.len() });
    }
    Ok(parts)
}
