//! "Partitioned strings" and "Image", and of document 02 "Metres on each node".

use super::answers::{number, Refusal};
use super::bits::{bits_of_bytes, bytes_of_bits};
use super::strings::{string_of_tree, tree_of_string};
use super::trees::{Tree, MOST_NODES};

/// "Blocks of 512 bytes".
pub const BLOCK_BYTES: usize = 512;
/// "Each has 504 bytes of payload, read as 126 little-endian 32-bit words".
pub const PAYLOAD_BYTES: usize = 504;
pub const PAYLOAD_WORDS: usize = 126;
/// "Then 500 bytes, 4,000 bits", after the word with the count of earlier ones.
pub const BITS_IN_BLOCK: usize = 4_000;
pub const COUNT_BYTES: usize = 4;
/// "Ones number 1, 65, 129 and so on".
pub const SAMPLE_STEP: usize = 64;
/// "Images not of 5 to 574 blocks", whatever their version.
const FEWEST_BLOCKS: usize = 5;
pub const MOST_BLOCKS: usize = 574;
/// The versions of images without metres and with them.
pub const WITHOUT_METRES: u32 = 1;
pub const WITH_METRES: u32 = 2;

/// What an image holds: "tree and its metres, if it has any".
pub struct Content {
    pub tree: Tree,
    /// "One 32-bit number of metres for each node". "Version 1 images .. show no metres, which isn't 0 metres."
    pub metres: Option<Vec<u32>>,
}

/// "A run of l equal bits becomes l - 1 zeros and a 1. R1 is made of the runs of ones, R0 of the runs of zeros."
pub fn partition(string: &[bool]) -> (Vec<bool>, Vec<bool>) {
    let mut r1 = Vec::new();
    let mut r0 = Vec::new();
    for (index, &bit) in string.iter().enumerate() {
        let run_ends = string.get(index + 1) != Some(&bit);
        if bit {
            r1.push(run_ends);
        } else {
            r0.push(run_ends);
        }
    }
    (r1, r0)
}

pub fn ones_in(string: &[bool]) -> usize {
    string.iter().filter(|&&bit| bit).count()
}

/// The image of a tree and its metres, if it has any.
pub fn image_of_tree(tree: &Tree, metres: Option<&[u32]>) -> Vec<u8> {
    let (r1, r0) = partition(&string_of_tree(tree));
    image_of_strings(&r1, &r0, metres)
}

/// The image made of two partitioned strings, whether or not they come from a tree, and of metres: "An image of version
/// 2 has, after the samples, one 32-bit number of metres for each node, 126 to a block."
pub fn image_of_strings(r1: &[bool], r0: &[bool], metres: Option<&[u32]>) -> Vec<u8> {
    let (version, listed) = metres.map_or((WITHOUT_METRES, [].as_slice()), |metres| (WITH_METRES, metres));
    let lists = [samples_of(r1).as_slice(), &samples_of(r0), listed].map(list_blocks);
    let after_header = [string_blocks(r1), string_blocks(r0), lists.concat()].concat();
    let (n, m) = (number(r1.len()), number(ones_in(r1)));
    let header = payload_of_words(&[version, n, m, number(1 + after_header.len())]);
    let mut image = Vec::new();
    for payload in std::iter::once(&header).chain(&after_header) {
        image.extend(payload);
        image.extend([0; BLOCK_BYTES - PAYLOAD_BYTES]);
    }
    seal(&mut image);
    image
}

/// Words at the beginning of a payload; "Unused payload is zero."
fn payload_of_words(words: &[u32]) -> Vec<u8> {
    let mut payload: Vec<u8> = words.iter().flat_map(|word| word.to_le_bytes()).collect();
    payload.resize(PAYLOAD_BYTES, 0);
    payload
}

/// "Word 0 is the number of ones in earlier R1 blocks; then 500 bytes, 4,000 bits, most significant bit first".
fn string_blocks(string: &[bool]) -> Vec<Vec<u8>> {
    let mut payloads = Vec::new();
    let mut ones_before = 0;
    for bits in string.chunks(BITS_IN_BLOCK) {
        let mut payload = number(ones_before).to_le_bytes().to_vec();
        payload.extend(bytes_of_bits(bits));
        payload.resize(PAYLOAD_BYTES, 0);
        payloads.push(payload);
        ones_before += ones_in(bits);
    }
    payloads
}

/// "Positions, from 1 in the whole string, of ones number 1, 65, 129 and so on".
fn samples_of(string: &[bool]) -> Vec<u32> {
    let positions_of_ones = (1..=string.len()).filter(|&position| string[position - 1]);
    positions_of_ones.step_by(SAMPLE_STEP).map(number).collect()
}

/// "One word each, 126 to a block".
fn list_blocks(words: &[u32]) -> Vec<Vec<u8>> {
    words.chunks(PAYLOAD_WORDS).map(payload_of_words).collect()
}

/// "For block b: start with s = b and t = 0; for each payload word add it to s, then add s to t, both modulo 2^32."
pub fn sums_of_block(block: usize, payload: &[u8]) -> (u32, u32) {
    let (mut s, mut t) = (number(block), 0u32);
    for word in payload.chunks(4) {
        s = s.wrapping_add(u32::from_le_bytes(word.try_into().expect("four bytes")));
        t = t.wrapping_add(s);
    }
    (s, t)
}

/// Writes the right sums after every payload: "then s and t, four bytes each, little-endian".
pub fn seal(image: &mut [u8]) {
    for (number, block) in image.chunks_exact_mut(BLOCK_BYTES).enumerate() {
        let (payload, sums) = block.split_at_mut(PAYLOAD_BYTES);
        let (s, t) = sums_of_block(number, payload);
        sums[..4].copy_from_slice(&s.to_le_bytes());
        sums[4..].copy_from_slice(&t.to_le_bytes());
    }
}

/// The number of blocks, where it is one that an image can have.
pub fn block_count(image: &[u8]) -> Result<usize, Refusal> {
    let blocks = image.len() / BLOCK_BYTES;
    if !image.len().is_multiple_of(BLOCK_BYTES) || !(FEWEST_BLOCKS..=MOST_BLOCKS).contains(&blocks) {
        return Err(Refusal::WrongSize);
    }
    Ok(blocks)
}

/// The whole check: what gives this image, or what is wrong with it, asked for in the order of the codes.
pub fn content_of_image(image: &[u8]) -> Result<Content, Refusal> {
    block_count(image)?;
    if let Some(block) = lowest_wrong_block(image) {
        return Err(Refusal::WrongSums { block });
    }
    let version = word(image, 0, 0);
    if version != WITHOUT_METRES && version != WITH_METRES {
        return Err(Refusal::OtherVersion);
    }
    if !header_is_of_a_tree(image) {
        return Err(Refusal::WrongHeader);
    }
    let m = word(image, 0, 2) as usize;
    let tree = candidate(image).filter(|tree| m_of(tree) == m).ok_or(Refusal::WrongStrings)?;
    let metres = if version == WITH_METRES { metres_in(image, &tree) } else { None };
    let content = Content { tree, metres };
    let WrongWords { samples, others } = wrong_words(image, &content);
    if let Some(&(block, _)) = others.first() {
        return Err(Refusal::WrongCounts { block });
    }
    if let Some(&(block, _)) = samples.first() {
        return Err(Refusal::WrongSamples { block });
    }
    Ok(content)
}

fn lowest_wrong_block(image: &[u8]) -> Option<usize> {
    let mut unsealed = image.to_vec();
    seal(&mut unsealed);
    let pairs = image.chunks(BLOCK_BYTES).zip(unsealed.chunks(BLOCK_BYTES));
    pairs.enumerate().find(|(_, (given, right))| given != right).map(|(block, _)| block)
}

/// "m is one more than the number of nodes with children"; that it is also the number of ones of R1 is held against
/// it here.
pub fn m_of(tree: &Tree) -> usize {
    let with_children = tree.nodes().filter(|&node| !tree.children(node).is_empty()).count();
    debug_assert_eq!(ones_in(&partition(&string_of_tree(tree)).0), with_children + 1);
    with_children + 1
}

/// Whether some tree "of this image length" has all words of this header. The words and the length follow from n, m and
/// the version, so it is enough to look at one tree that has both numbers, and at one list of metres.
fn header_is_of_a_tree(image: &[u8]) -> bool {
    let [n, m] = [1, 2].map(|index| word(image, 0, index) as usize);
    let right = tree_with(n, m).map(|tree| {
        let metres = vec![0; n];
        image_of_tree(&tree, (word(image, 0, 0) == WITH_METRES).then_some(&metres))
    });
    right.is_some_and(|right| right.len() == image.len() && right[..PAYLOAD_BYTES] == image[..PAYLOAD_BYTES])
}

/// A tree of n nodes of which m - 1 have children, where there is one: these are a path, and all later nodes are
/// children of the last of them. Where there is none this is no tree, or one with another m.
fn tree_with(n: usize, m: usize) -> Option<Tree> {
    if !(1..=MOST_NODES).contains(&n) {
        return None;
    }
    let with_children = m.checked_sub(1)?;
    let parents: Vec<u32> = (0..n).map(|nodes_before| number(nodes_before.min(with_children))).collect();
    Tree::of_parent_list(&parents).ok()
}

/// The metres of an image of this tree, where it is long enough: they begin where the image without them ends.
pub fn metres_in(image: &[u8], tree: &Tree) -> Option<Vec<u32>> {
    let blocks_before = image_of_tree(tree, None).len() / BLOCK_BYTES;
    let blocks = blocks_before..image.len() / BLOCK_BYTES;
    let words = blocks.flat_map(|block| (0..PAYLOAD_WORDS).map(move |index| word(image, block, index)));
    let metres: Vec<u32> = words.take(tree.node_count()).collect();
    (metres.len() == tree.node_count()).then_some(metres)
}

/// The words of an image, as block and word in it, that are not those of the right image, the lowest block first.
pub struct WrongWords {
    /// Samples of R1 and R0.
    pub samples: Vec<(usize, usize)>,
    /// All others.
    pub others: Vec<(usize, usize)>,
}

/// The words that are not those of the image of this content, which is as long as this one. Where header and strings
/// are the tree's, and the metres were read from the image itself, those that are no samples are counts of earlier ones
/// and "unused payload".
pub fn wrong_words(image: &[u8], content: &Content) -> WrongWords {
    let right = image_of_tree(&content.tree, content.metres.as_deref());
    let n = content.tree.node_count();
    let samples_begin = 1 + n.div_ceil(BITS_IN_BLOCK) + (n + 1).div_ceil(BITS_IN_BLOCK);
    // samples are "positions, from 1", "unused payload is zero", and metres are never wrong
    let is_sample = |block: usize, index: usize| block >= samples_begin && word(&right, block, index) != 0;
    let blocks = 0..image.len() / BLOCK_BYTES;
    let places = blocks.flat_map(|block| (0..PAYLOAD_WORDS).map(move |index| (block, index)));
    let wrong = places.filter(|&(block, index)| word(image, block, index) != word(&right, block, index));
    let (samples, others) = wrong.partition(|&(block, index)| is_sample(block, index));
    WrongWords { samples, others }
}

/// The only tree that could give this image, from n, R1 and R0 alone: they are where the images of that tree have them.
pub fn candidate(image: &[u8]) -> Option<Tree> {
    let n = word(image, 0, 1) as usize;
    if !(1..=MOST_NODES).contains(&n) {
        return None;
    }
    let r1_begin = 1;
    let r0_begin = r1_begin + n.div_ceil(BITS_IN_BLOCK);
    let r1 = string_in_blocks(image, r1_begin, n)?;
    let r0 = string_in_blocks(image, r0_begin, n + 1)?;
    tree_of_strings(&r1, &r0)
}

/// The tree that has these two partitioned strings, if there is one.
pub fn tree_of_strings(r1: &[bool], r0: &[bool]) -> Option<Tree> {
    tree_of_string(&unite(r1, r0)?).ok()
}

/// Word `index` of the payload of a block.
fn word(image: &[u8], block: usize, index: usize) -> u32 {
    let begin = block * BLOCK_BYTES + 4 * index;
    u32::from_le_bytes(image[begin..begin + 4].try_into().expect("four bytes"))
}

/// The first `length` bits of a string whose first block is `begin`, where the image has so many blocks.
fn string_in_blocks(image: &[u8], begin: usize, length: usize) -> Option<Vec<bool>> {
    let end = begin + length.div_ceil(BITS_IN_BLOCK);
    let blocks = image.get(begin * BLOCK_BYTES..end * BLOCK_BYTES)?;
    let mut bits = Vec::new();
    for block in blocks.chunks(BLOCK_BYTES) {
        bits.extend(bits_of_bytes(&block[COUNT_BYTES..PAYLOAD_BYTES]));
    }
    bits.truncate(length);
    Some(bits)
}

/// The string that begins with a run of ones, then has a run of zeros, and so on in turn, with the runs of R1 and R0.
fn unite(r1: &[bool], r0: &[bool]) -> Option<Vec<bool>> {
    let (runs_of_ones, runs_of_zeros) = (run_lengths(r1)?, run_lengths(r0)?);
    if runs_of_ones.len() != runs_of_zeros.len() {
        return None;
    }
    let mut string = Vec::new();
    for (ones, zeros) in runs_of_ones.into_iter().zip(runs_of_zeros) {
        string.resize(string.len() + ones, true);
        string.resize(string.len() + zeros, false);
    }
    Some(string)
}

/// How long each run of a partitioned string is, unless its last run has no end.
fn run_lengths(partitioned: &[bool]) -> Option<Vec<usize>> {
    let mut lengths = Vec::new();
    let mut length = 0;
    for &run_ends in partitioned {
        length += 1;
        if run_ends {
            lengths.push(length);
            length = 0;
        }
    }
    (length == 0).then_some(lengths)
}
