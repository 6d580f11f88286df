//! Sizes of buffers, for trees of 1 to [`MOST_NODES`](crate::MOST_NODES) nodes: the `PLQ_` macros of
//! `include/parlaqen.h` as constant functions.
//!
//! Numbers that no tree has give some size too, never a panic, and never one that has wrapped to a small number.
//!
//! ```
//! use parlaqen::{size, Image};
//!
//! let mut room = [0; size::image_room(7)];
//! let image = Image::seal_in(&[0, 1, 1, 1, 2, 2, 4], &mut room)?;
//! assert_eq!(image.nodes(), 7);
//! # Ok::<(), parlaqen::Error>(())
//! ```

use crate::BLOCK_BYTES;

/// The bits of R1 or of R0 in a block of the image.
const BITS_OF_BLOCK: usize = 4000;
/// The samples in a block of the image, or the metres.
const WORDS_OF_BLOCK: usize = 126;
/// The ones from one sample to the next.
const ONES_OF_SAMPLE: usize = 64;

/// The bytes of the image of a tree without metres, by the two counts of sealing and of the check: its nodes and the
/// runs of ones in its string, which are one more than it has nodes with children.
///
/// [`Counts::image_bytes`](crate::calls::Counts::image_bytes) is the same for counts that are at hand.
///
/// ```
/// use parlaqen::size::image_bytes;
///
/// assert_eq!(image_bytes(7, 4), 2_560);
/// assert_eq!(image_bytes(65_535, 65_535), parlaqen::MOST_TREE_IMAGE_BYTES);
/// ```
#[must_use]
pub const fn image_bytes(nodes: usize, runs_of_ones: usize) -> usize {
    let blocks_of_r1 = nodes.div_ceil(BITS_OF_BLOCK);
    let blocks_of_r0 = nodes.saturating_add(1).div_ceil(BITS_OF_BLOCK);
    let blocks_of_samples = runs_of_ones.div_ceil(ONES_OF_SAMPLE).div_ceil(WORDS_OF_BLOCK);
    BLOCK_BYTES * (1 + blocks_of_r1 + blocks_of_r0 + 2 * blocks_of_samples)
}

/// The bytes that are enough for the image of any tree of so many nodes without metres.
///
/// ```
/// use parlaqen::size::image_room;
///
/// assert_eq!(image_room(3_999), 5 * parlaqen::BLOCK_BYTES);
/// assert_eq!(image_room(4_000), 6 * parlaqen::BLOCK_BYTES);
/// ```
#[must_use]
pub const fn image_room(nodes: usize) -> usize {
    image_bytes(nodes, nodes)
}

/// The bytes to add to those of an image, or to the room for one, for the metres of so many nodes.
///
/// ```
/// use parlaqen::size::{image_room, metres_bytes};
///
/// assert_eq!((metres_bytes(126), metres_bytes(127)), (512, 1_024));
/// assert_eq!(image_room(65_535) + metres_bytes(65_535), parlaqen::MOST_IMAGE_BYTES);
/// ```
#[must_use]
pub const fn metres_bytes(nodes: usize) -> usize {
    BLOCK_BYTES.saturating_mul(nodes.div_ceil(WORDS_OF_BLOCK))
}

/// The bits of the tree string of so many nodes.
///
/// ```
/// assert_eq!(parlaqen::size::string_bits(7), 15);
/// ```
#[must_use]
pub const fn string_bits(nodes: usize) -> usize {
    nodes.saturating_mul(2).saturating_add(1)
}

/// The bytes of the tree string of so many nodes.
///
/// ```
/// assert_eq!(parlaqen::size::string_bytes(7), 2);
/// ```
#[must_use]
pub const fn string_bytes(nodes: usize) -> usize {
    bytes_of_bits(string_bits(nodes))
}

/// The bytes that so many bits of a tree string or of a pack take.
///
/// ```
/// use parlaqen::size::bytes_of_bits;
///
/// assert_eq!((bytes_of_bits(0), bytes_of_bits(8), bytes_of_bits(9)), (0, 1, 2));
/// ```
#[must_use]
pub const fn bytes_of_bits(bits: usize) -> usize {
    bits.div_ceil(8)
}

/// The numbers of a listing of so many nodes, which are enough for listing any node of a tree of so many.
///
/// ```
/// assert_eq!(parlaqen::size::listing_numbers(7), 14);
/// ```
#[must_use]
pub const fn listing_numbers(nodes: usize) -> usize {
    nodes.saturating_mul(2)
}

/// The bytes of the parenthesis text of so many nodes as it is written, without blanks.
///
/// ```
/// assert_eq!(parlaqen::size::text_bytes(7), 14);
/// ```
#[must_use]
pub const fn text_bytes(nodes: usize) -> usize {
    nodes.saturating_mul(2)
}
