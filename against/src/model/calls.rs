//! The thirteen calls as total functions: what comes back for any input, and what every lent list holds after it.
//!
//! Each asks for its refusals in the order of the table and writes only when none is left, for "On refusal the
//! counts are 0 and no lent buffer changes"; and then "only the needed first part of the output (for joining, the
//! new bits) is written".

use super::answers::{number, Counts, Refusal};
use super::bits::{bits_of_bytes, bytes_for, bytes_of_bits};
use super::images::{block_count, content_of_image, image_of_tree, m_of};
use super::listing::listing_from;
use super::packs::{parts_of_pack, MOST_TREES};
use super::questions::{answers_to, question_count};
use super::strings::{string_of_tree, tree_of_string, MOST_BITS};
use super::texts::{text_of_tree, tree_of_text, Node, MOST_LEVELS, MOST_TEXT_BYTES};
use super::trees::{Tree, MOST_NODES};

/// Counts: "bits and trees (string made, ..)".
pub fn string_of_parents(parents: &[u32], bytes: &mut [u8]) -> Result<Counts, Refusal> {
    demand_node_count(parents)?;
    let string = string_of_tree(&Tree::of_parent_list(parents)?);
    write_first_part(&bytes_of_bits(&string), bytes)?;
    Ok((string.len(), 1))
}

/// Counts: "n and 0 (parent list made)".
pub fn parents_of_string(bytes: &[u8], bits: usize, parents: &mut [u32]) -> Result<Counts, Refusal> {
    demand_bytes_of(bits, bytes)?;
    let tree = tree_of_string(&bits_without_leftover(bytes, bits)?)?;
    write_first_part(&tree.parent_list(), parents)?;
    Ok((tree.node_count(), 0))
}

/// An image of version 1.
pub fn image_of_parents(parents: &[u32], image: &mut [u8]) -> Result<Counts, Refusal> {
    demand_node_count(parents)?;
    write_image(parents, None, image)
}

/// An image of version 2. "Code 2 .. for a list of metres whose length isn't n", and none is no list of n numbers.
pub fn image_with_metres(parents: &[u32], metres: &[u32], image: &mut [u8]) -> Result<Counts, Refusal> {
    demand_node_count(parents)?;
    demand(metres.len() == parents.len())?;
    write_image(parents, Some(metres), image)
}

/// Counts: "n and m (image made or checked)".
fn write_image(parents: &[u32], metres: Option<&[u32]>, image: &mut [u8]) -> Result<Counts, Refusal> {
    let tree = Tree::of_parent_list(parents)?;
    write_first_part(&image_of_tree(&tree, metres), image)?;
    Ok((tree.node_count(), m_of(&tree)))
}

/// Counts: "n and 0 (parent list made)".
pub fn parents_of_image(image: &[u8], parents: &mut [u32]) -> Result<Counts, Refusal> {
    let tree = content_of_image(image)?.tree;
    write_first_part(&tree.parent_list(), parents)?;
    Ok((tree.node_count(), 0))
}

/// Counts: "Metres read back count n and 0."
pub fn metres_of_image(image: &[u8], metres: &mut [u32]) -> Result<Counts, Refusal> {
    // of version 1, "reading its metres back (place 1)"
    let stored = content_of_image(image)?.metres.ok_or(Refusal::NotAllowed { question: 1 })?;
    write_first_part(&stored, metres)?;
    Ok((stored.len(), 0))
}

/// Counts: "n and m (image made or checked)".
pub fn check_image(image: &[u8]) -> Result<Counts, Refusal> {
    let tree = content_of_image(image)?.tree;
    Ok((tree.node_count(), m_of(&tree)))
}

/// Counts: "questions answered and 0".
pub fn ask(image: &[u8], questions: &[i32], answers: &mut [u32]) -> Result<Counts, Refusal> {
    // both are code 2, which comes before what is wrong inside the image
    block_count(image)?;
    let count = question_count(questions)?;
    let content = content_of_image(image)?;
    write_first_part(&answers_to(&content, questions)?, answers)?;
    Ok((count, 0))
}

/// "Splitting writes for each tree its first bit and its node count". Counts: "bits and trees (.., pack split or
/// joined)".
pub fn split(
    bytes: &[u8],
    bits: usize,
    trees: usize,
    starts: &mut [u32],
    sizes: &mut [u32],
) -> Result<Counts, Refusal> {
    demand_bytes_of(bits, bytes)?;
    demand(trees <= MOST_TREES)?;
    let parts = parts_of_pack(&bits_without_leftover(bytes, bits)?, trees)?;
    let first_bits = numbers_of(parts.iter().map(|part| part.first_bit));
    let node_counts = numbers_of(parts.iter().map(|part| part.tree.node_count()));
    if starts.len() < trees || sizes.len() < trees {
        return Err(Refusal::NoRoom);
    }
    write_first_part(&first_bits, starts)?;
    write_first_part(&node_counts, sizes)?;
    Ok((bits, trees))
}

/// "Joining adds one tree, given as a parent list, to a pack in a lent buffer at least as long as the pack's bytes".
/// "It answers the new length and k + 1."
pub fn join(pack: &mut [u8], bits: usize, trees: usize, parents: &[u32]) -> Result<Counts, Refusal> {
    demand_node_count(parents)?;
    demand(bits <= MOST_BITS && bytes_for(bits) <= pack.len())?;
    // "k over 256 (joining: over 255)"
    demand(trees < MOST_TREES)?;
    let joined_bits = bits + 2 * parents.len() + 1;
    demand(joined_bits <= MOST_BITS)?;
    let mut joined = bits_without_leftover(&pack[..bytes_for(bits)], bits)?;
    parts_of_pack(&joined, trees)?;
    joined.extend(string_of_tree(&Tree::of_parent_list(parents)?));
    // "earlier bits stay, new leftover bits are zero, bytes after the new last one stay"
    write_first_part(&bytes_of_bits(&joined), pack)?;
    Ok((joined_bits, trees + 1))
}

/// Counts: "nodes listed and 0". "Two numbers to a node."
pub fn list(image: &[u8], node: u32, pairs: &mut [u32]) -> Result<Counts, Refusal> {
    let tree = content_of_image(image)?.tree;
    if !tree.nodes().contains(&(node as usize)) {
        // "listing of a node not in 1..n": "for a listing 1"
        return Err(Refusal::NotAllowed { question: 1 });
    }
    let entries = listing_from(&tree, node as usize)?;
    let made = numbers_of(entries.iter().flat_map(|entry| [entry.node, entry.depth]));
    write_first_part(&made, pairs)?;
    Ok((entries.len(), 0))
}

/// "Code 2 first for a text over 1,048,576 bytes; 16 .. 17 .., then code 2 for too many nodes, then 1".
pub fn parents_of_text(text: &[u8], parents: &mut [u32]) -> Result<Counts, Refusal> {
    demand(text.len() <= MOST_TEXT_BYTES)?;
    write_nodes(&tree_of_text(text, MOST_LEVELS)?, parents)
}

/// What is left to do with a text that has been read. Counts: "n and 0 (parent list made)".
pub fn write_nodes(root: &Node, parents: &mut [u32]) -> Result<Counts, Refusal> {
    let made = root.parent_list();
    demand_node_count(&made)?;
    write_first_part(&made, parents)?;
    Ok((made.len(), 0))
}

/// Counts: "Writing counts bytes and 0."
pub fn text_of_parents(parents: &[u32], text: &mut [u8]) -> Result<Counts, Refusal> {
    demand_node_count(parents)?;
    let made = text_of_tree(&Tree::of_parent_list(parents)?)?;
    write_first_part(&made, text)?;
    Ok((made.len(), 0))
}

/// Code 2 unless the size is within its limits.
fn demand(within_limits: bool) -> Result<(), Refusal> {
    within_limits.then_some(()).ok_or(Refusal::WrongSize)
}

/// "Parent list not of 1 to 65,535 numbers".
fn demand_node_count(parents: &[u32]) -> Result<(), Refusal> {
    demand((1..=MOST_NODES).contains(&parents.len()))
}

/// "L over 131,071; byte count not that of L".
fn demand_bytes_of(bits: usize, bytes: &[u8]) -> Result<(), Refusal> {
    demand(bits <= MOST_BITS && bytes_for(bits) == bytes.len())
}

/// The first bits of the bytes that they take, where no bit after them is set.
fn bits_without_leftover(bytes: &[u8], count: usize) -> Result<Vec<bool>, Refusal> {
    let mut bits = bits_of_bytes(bytes);
    let leftover = bits.split_off(count);
    if leftover.contains(&true) {
        return Err(Refusal::LeftoverSet);
    }
    Ok(bits)
}

fn numbers_of(counts: impl IntoIterator<Item = usize>) -> Vec<u32> {
    counts.into_iter().map(number).collect()
}

/// Writes to the beginning of an output, or finds too little room in it.
fn write_first_part<T: Copy>(made: &[T], output: &mut [T]) -> Result<(), Refusal> {
    let first_part = output.get_mut(..made.len()).ok_or(Refusal::NoRoom)?;
    first_part.copy_from_slice(made);
    Ok(())
}
