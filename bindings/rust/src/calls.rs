//! The thirteen calls of the header over lent slices; nothing is allocated, and a refused call
//! leaves every slice as it was.
//!
//! A list goes in as a slice, and a result comes out in the beginning of a slice that has the room for it; what lies
//! after the result stays. [`size`] has the rooms that are enough. Bytes that others can change during a call, such as
//! a map of a file that others write, must not be lent, as [`Image`](crate::Image) says.
//!
//! ```
//! use parlaqen::calls::{ask, image_of_parents};
//! use parlaqen::{size, Node, Question};
//!
//! let mut image = [0; size::image_room(7)];
//! let counts = image_of_parents(&[0, 1, 1, 1, 2, 2, 4], &mut image)?;
//! let mut answers = [0; 1];
//! ask(&image[..counts.image_bytes()], &Question::Parent(Node::try_from(7)?).numbers(), &mut answers)?;
//! assert_eq!(answers, [4]);
//! # Ok::<(), parlaqen::Error>(())
//! ```

use crate::error::Handed;
use crate::{size, sys, Error, Result, MOST_NODES};

/// The two counts of a call that was not refused.
pub(crate) fn counts(answer: sys::Answer, handed: Handed<'_>) -> Result<(u32, u32)> {
    match answer.code {
        0 => Ok((answer.first, answer.second)),
        code => Err(Error::new(code, answer.place, handed)),
    }
}

/// What sealing and the check count in a tree.
///
/// ```
/// let counts = parlaqen::calls::image_of_parents(&[0, 1, 1, 1, 2, 2, 4], &mut [0; 4_096])?;
/// assert_eq!((counts.nodes, counts.runs_of_ones), (7, 4)); // nodes 1, 2 and 4 have children
/// # Ok::<(), parlaqen::Error>(())
/// ```
#[derive(Clone, Copy, Debug, PartialEq, Eq, Hash)]
pub struct Counts {
    /// The number of nodes.
    pub nodes: u32,
    /// The runs of ones in the tree string: one more than there are nodes with children.
    pub runs_of_ones: u32,
}

impl Counts {
    /// The bytes of the image of a tree with these counts, without metres.
    ///
    /// ```
    /// use parlaqen::{calls::Counts, BLOCK_BYTES};
    ///
    /// assert_eq!(Counts { nodes: 7, runs_of_ones: 4 }.image_bytes(), 5 * BLOCK_BYTES);
    /// ```
    #[must_use]
    pub const fn image_bytes(self) -> usize {
        size::image_bytes(self.nodes as usize, self.runs_of_ones as usize)
    }

    /// The bytes of the image of a tree with these counts, with metres.
    ///
    /// ```
    /// use parlaqen::{calls::Counts, BLOCK_BYTES};
    ///
    /// assert_eq!(Counts { nodes: 7, runs_of_ones: 4 }.image_bytes_with_metres(), 6 * BLOCK_BYTES);
    /// ```
    #[must_use]
    pub const fn image_bytes_with_metres(self) -> usize {
        self.image_bytes() + size::metres_bytes(self.nodes as usize)
    }
}

fn counts_of_tree(answer: sys::Answer, handed: Handed<'_>) -> Result<Counts> {
    let (nodes, runs_of_ones) = counts(answer, handed)?;
    // rooms are made and nodes are counted by these, so those that no tree has go no further
    if nodes as usize > MOST_NODES || !(1..=nodes).contains(&runs_of_ones) {
        return Err(Error::UNLISTED_COUNTS);
    }
    Ok(Counts { nodes, runs_of_ones })
}

/// Writes the tree string of a parent list into `bytes` and gives its number of bits.
///
/// It takes [`size::string_bytes`] bytes; what lies after them in `bytes` stays.
/// [`TreeString::of_parents`](crate::TreeString::of_parents) makes the room itself.
///
/// ```
/// let mut bytes = [0xFF; 4];
/// assert_eq!(parlaqen::calls::string_of_parents(&[0, 1, 1, 1, 2, 2, 4], &mut bytes), Ok(15));
/// assert_eq!(bytes, [0b1011_1011, 0b0010_0000, 0xFF, 0xFF]);
/// ```
///
/// # Errors
///
/// [`Error::WrongSize`], [`Error::NotParents`], [`Error::NoRoom`].
pub fn string_of_parents(parents: &[u32], bytes: &mut [u8]) -> Result<usize> {
    let handed = Handed::Parents { nodes: parents.len() };
    counts(sys::string_of_parents(parents, bytes), handed).map(|(bits, _)| bits as usize)
}

/// Reads a tree string of `bits` bits, in exactly as many bytes as they take, writes its parent list into `parents` and
/// gives the number of nodes.
///
/// [`TreeString`](crate::TreeString) makes the room itself.
///
/// ```
/// let mut parents = [99; 8];
/// assert_eq!(parlaqen::calls::parents_of_string(&[0b1011_1011, 0b0010_0000], 15, &mut parents), Ok(7));
/// assert_eq!(parents, [0, 1, 1, 1, 2, 2, 4, 99]);
/// ```
///
/// # Errors
///
/// [`Error::WrongSize`], [`Error::LeftoverSet`], [`Error::NotString`], [`Error::EndsTooEarly`], [`Error::NoRoom`].
pub fn parents_of_string(bytes: &[u8], bits: usize, parents: &mut [u32]) -> Result<usize> {
    let handed = Handed::String { bytes: bytes.len(), bits };
    counts(sys::parents_of_string(bytes, bits, parents), handed).map(|(nodes, _)| nodes as usize)
}

/// Writes the sealed image of a parent list, without metres, into `image`.
///
/// [`size::image_room`] bytes are always enough. The image then has [`Counts::image_bytes`] of them; what lies after
/// them in `image` stays. [`Image::seal_in`](crate::Image::seal_in) gives an image of just these bytes, and
/// [`seal`](crate::seal) makes the room itself.
///
/// ```
/// use parlaqen::calls::{check_image, image_of_parents};
/// use parlaqen::size;
///
/// let mut room = [0; size::image_room(7)];
/// let counts = image_of_parents(&[0, 1, 1, 1, 2, 2, 4], &mut room)?;
/// assert_eq!(check_image(&room[..counts.image_bytes()]), Ok(counts));
/// # Ok::<(), parlaqen::Error>(())
/// ```
///
/// # Errors
///
/// [`Error::WrongSize`], [`Error::NotParents`], [`Error::NoRoom`].
pub fn image_of_parents(parents: &[u32], image: &mut [u8]) -> Result<Counts> {
    let handed = Handed::Parents { nodes: parents.len() };
    counts_of_tree(sys::image_of_parents(parents, image), handed)
}

/// Writes the sealed image of a parent list and of the metres of each node into `image`.
///
/// [`size::image_room`] and [`size::metres_bytes`] bytes together are always enough. The image then has
/// [`Counts::image_bytes_with_metres`] of them; what lies after them in `image` stays. [`Seal`](crate::Seal) gives an
/// image of just these bytes, and makes the room itself too.
///
/// ```
/// use parlaqen::calls::{image_with_metres, metres_of_image};
/// use parlaqen::{size, Error, WrongSize};
///
/// let (parents, metres) = ([0, 1, 1, 1, 2, 2, 4], [10, 20, 30, 40, 50, 60, 70]);
/// let mut room = [0; size::image_room(7) + size::metres_bytes(7)];
/// let counts = image_with_metres(&parents, &metres, &mut room)?;
/// let mut back = [0; 7];
/// metres_of_image(&room[..counts.image_bytes_with_metres()], &mut back)?;
/// assert_eq!(back, metres);
///
/// let too_few = Error::WrongSize(WrongSize::Metres { metres: 6, nodes: 7 });
/// assert_eq!(image_with_metres(&parents, &metres[..6], &mut room), Err(too_few));
/// # Ok::<(), Error>(())
/// ```
///
/// # Errors
///
/// [`Error::WrongSize`], also where there are not as many metres as nodes, [`Error::NotParents`], [`Error::NoRoom`].
pub fn image_with_metres(parents: &[u32], metres: &[u32], image: &mut [u8]) -> Result<Counts> {
    let handed = Handed::ParentsAndMetres { nodes: parents.len(), metres: metres.len() };
    counts_of_tree(sys::image_with_metres(parents, metres, image), handed)
}

/// Makes the whole check of an image, writes its parent list into `parents` and gives the number of nodes.
///
/// [`Image::parents`](crate::Image::parents) makes the room itself.
///
/// ```
/// use parlaqen::{calls::parents_of_image, size, Image};
///
/// let mut room = [0; size::image_room(7)];
/// let image = Image::seal_in(&[0, 1, 1, 1, 2, 2, 4], &mut room)?;
/// let mut parents = [99; 8];
/// assert_eq!(parents_of_image(image.as_bytes(), &mut parents)?, 7);
/// assert_eq!(parents, [0, 1, 1, 1, 2, 2, 4, 99]);
/// # Ok::<(), parlaqen::Error>(())
/// ```
///
/// # Errors
///
/// [`Error::WrongSize`], [`Error::WrongSums`], [`Error::OtherVersion`], [`Error::WrongHeader`], [`Error::WrongStrings`],
/// [`Error::WrongCounts`], [`Error::WrongSamples`], [`Error::NoRoom`].
pub fn parents_of_image(image: &[u8], parents: &mut [u32]) -> Result<usize> {
    let handed = Handed::Image { bytes: image.len() };
    counts(sys::parents_of_image(image, parents), handed).map(|(nodes, _)| nodes as usize)
}

/// Makes the whole check of an image, writes the metres of each node into `metres` and gives the number of nodes.
///
/// [`Image::metres`](crate::Image::metres) makes the room itself. An image without metres is refused in every room, so
/// with no room this tells whether an image has some:
///
/// ```
/// use parlaqen::{calls::metres_of_image, size, Error, Seal};
///
/// let mut room = [0; size::image_room(3) + size::metres_bytes(3)];
/// let image = Seal::of(&[0, 1, 1]).metres(&[0, 5_000, 8_000]).image_in(&mut room)?;
/// let mut metres = [99; 4];
/// assert_eq!(metres_of_image(image.as_bytes(), &mut metres)?, 3);
/// assert_eq!(metres, [0, 5_000, 8_000, 99]);
/// assert_eq!(metres_of_image(image.as_bytes(), &mut []), Err(Error::NoRoom));
///
/// let image = Seal::of(&[0, 1, 1]).image_in(&mut room)?;
/// assert_eq!(metres_of_image(image.as_bytes(), &mut []), Err(Error::NoMetres));
/// # Ok::<(), Error>(())
/// ```
///
/// # Errors
///
/// [`Error::WrongSize`], [`Error::WrongSums`], [`Error::OtherVersion`], [`Error::WrongHeader`], [`Error::WrongStrings`],
/// [`Error::WrongCounts`], [`Error::WrongSamples`], [`Error::NoMetres`], [`Error::NoRoom`].
pub fn metres_of_image(image: &[u8], metres: &mut [u32]) -> Result<usize> {
    let handed = Handed::ImageForMetres { bytes: image.len() };
    counts(sys::metres_of_image(image, metres), handed).map(|(nodes, _)| nodes as usize)
}

/// Makes the whole check: accepts exactly the bytes that some tree of 1 to 65,535 nodes, with metres or without, gives.
///
/// [`Image::check`](crate::Image::check) keeps the bytes that were checked.
///
/// ```
/// use parlaqen::calls::{check_image, image_of_parents, Counts};
/// use parlaqen::{Error, BLOCK_BYTES};
///
/// let mut image = [0; 5 * BLOCK_BYTES];
/// image_of_parents(&[0, 1, 1, 1, 2, 2, 4], &mut image)?;
/// assert_eq!(check_image(&image), Ok(Counts { nodes: 7, runs_of_ones: 4 }));
/// image[3 * BLOCK_BYTES + 77] ^= 0x20;
/// assert_eq!(check_image(&image), Err(Error::WrongSums { block: 3 }));
/// image[3 * BLOCK_BYTES + 77] ^= 0x20;
/// image[..BLOCK_BYTES].fill(0); // the header is lost; a block 0 of zeros has right sums
/// assert_eq!(check_image(&image), Err(Error::OtherVersion));
/// # Ok::<(), parlaqen::Error>(())
/// ```
///
/// # Errors
///
/// [`Error::WrongSize`], [`Error::WrongSums`], [`Error::OtherVersion`], [`Error::WrongHeader`], [`Error::WrongStrings`],
/// [`Error::WrongCounts`], [`Error::WrongSamples`].
pub fn check_image(image: &[u8]) -> Result<Counts> {
    let handed = Handed::Image { bytes: image.len() };
    counts_of_tree(sys::check_image(image), handed)
}

/// Makes the whole check of an image, answers up to 256 questions and gives their number.
///
/// A question is three numbers: kind, node, argument, as [`Question::numbers`](crate::Question::numbers) gives them.
/// [`Image::ask_into`](crate::Image::ask_into) takes questions as such, and [`Image::ask`](crate::Image::ask) makes the
/// room itself.
///
/// ```
/// use parlaqen::{calls::ask, size, Image};
///
/// let mut room = [0; size::image_room(7)];
/// let image = Image::seal_in(&[0, 1, 1, 1, 2, 2, 4], &mut room)?;
/// let mut answers = [0; 2];
/// assert_eq!(ask(image.as_bytes(), &[1, 7, 0, 8, 2, 2], &mut answers)?, 2);
/// assert_eq!(answers, [4, 6]); // the parent of node 7, the second child of node 2
/// # Ok::<(), parlaqen::Error>(())
/// ```
///
/// # Errors
///
/// [`Error::WrongSize`], [`Error::WrongSums`], [`Error::OtherVersion`], [`Error::WrongHeader`], [`Error::WrongStrings`],
/// [`Error::WrongCounts`], [`Error::WrongSamples`], [`Error::NotAllowed`], [`Error::NoRoom`].
pub fn ask(image: &[u8], questions: &[i32], answers: &mut [u32]) -> Result<usize> {
    let handed = Handed::ImageAndNumbers { bytes: image.len(), numbers: questions.len() };
    counts(sys::ask(image, questions, answers), handed).map(|(answered, _)| answered as usize)
}

/// Splits a pack, which is `trees` tree strings end to end, in exactly as many bytes as its `bits` bits take: writes
/// the first bit of each tree, from 1, into `starts` and its number of nodes into `sizes`.
///
/// [`Pack`](crate::Pack) makes the room itself and reads the trees back.
///
/// ```
/// let (mut starts, mut sizes) = ([0; 2], [0; 2]);
/// parlaqen::calls::split(&[0b1001_0000], 6, 2, &mut starts, &mut sizes)?;
/// assert_eq!((starts, sizes), ([1, 4], [1, 1]));
/// # Ok::<(), parlaqen::Error>(())
/// ```
///
/// # Errors
///
/// [`Error::WrongSize`], [`Error::LeftoverSet`], [`Error::NotString`], [`Error::EndsTooEarly`], [`Error::OtherTrees`],
/// [`Error::NoRoom`].
pub fn split(bytes: &[u8], bits: usize, trees: usize, starts: &mut [u32], sizes: &mut [u32]) -> Result<()> {
    let handed = Handed::Pack { bytes: bytes.len(), bits, trees };
    counts(sys::split(bytes, bits, trees, starts, sizes), handed).map(|_| ())
}

/// Adds the tree of a parent list after a pack, in a buffer that may be longer than the pack, and gives the new number
/// of bits. There are `trees + 1` trees then.
///
/// [`Pack`](crate::Pack) makes the room itself.
///
/// ```
/// let mut pack = [0; 4];
/// let bits = parlaqen::calls::join(&mut pack, 0, 0, &[0])?;
/// let bits = parlaqen::calls::join(&mut pack, bits, 1, &[0, 1])?;
/// assert_eq!((bits, pack), (8, [0b1001_0100, 0, 0, 0]));
/// # Ok::<(), parlaqen::Error>(())
/// ```
///
/// # Errors
///
/// [`Error::WrongSize`], [`Error::LeftoverSet`], [`Error::NotString`], [`Error::EndsTooEarly`], [`Error::OtherTrees`],
/// [`Error::NotParents`], [`Error::NoRoom`].
pub fn join(pack: &mut [u8], bits: usize, trees: usize, parents: &[u32]) -> Result<usize> {
    let handed = Handed::PackAndParents { bytes: pack.len(), bits, trees, nodes: parents.len() };
    counts(sys::join(pack, bits, trees, parents), handed).map(|(bits, _)| bits as usize)
}

/// Makes the whole check of an image, writes node and depth, two numbers each, for `node` and everything below it into
/// `pairs`, and gives the number of nodes listed. Parents come first, children in order; the depth of `node` is 0.
///
/// [`size::listing_numbers`] are always enough. [`Image::list_in`](crate::Image::list_in) gives an iterator over them,
/// and [`Image::list`](crate::Image::list) makes the room itself.
///
/// ```
/// use parlaqen::{calls::list, size, Image};
///
/// let mut room = [0; size::image_room(7)];
/// let image = Image::seal_in(&[0, 1, 1, 1, 2, 2, 4], &mut room)?;
/// let mut pairs = [0; size::listing_numbers(7)];
/// assert_eq!(list(image.as_bytes(), 2, &mut pairs)?, 3);
/// assert_eq!(pairs[..6], [2, 0, 5, 1, 6, 1]);
/// # Ok::<(), parlaqen::Error>(())
/// ```
///
/// # Errors
///
/// [`Error::WrongSize`], [`Error::WrongSums`], [`Error::OtherVersion`], [`Error::WrongHeader`], [`Error::WrongStrings`],
/// [`Error::WrongCounts`], [`Error::WrongSamples`], [`Error::NoSuchNode`], [`Error::TooDeep`], [`Error::NoRoom`].
pub fn list(image: &[u8], node: u32, pairs: &mut [u32]) -> Result<usize> {
    let handed = Handed::ImageAndNode { bytes: image.len(), node };
    counts(sys::list(image, node, pairs), handed).map(|(listed, _)| listed as usize)
}

/// Reads a tree as parenthesis text, writes its parent list into `parents` and gives the number of
/// nodes.
///
/// A node is `(`, its children, `)`; the bytes 32, 10 and 13 may be anywhere and mean nothing, and
/// no other byte may be there. Read is exactly a text of at most [`MOST_TEXT`](crate::MOST_TEXT)
/// bytes that is one tree of at most [`MOST_NODES`] nodes on at most 64 levels. It has at most half
/// as many nodes as bytes, so room for so many is enough. [`TreeText`](crate::TreeText) makes the
/// room itself.
///
/// ```
/// use parlaqen::{calls::parents_of_text, Error};
///
/// let mut parents = [99; 8];
/// assert_eq!(parents_of_text(b"( (()()) () (()) )\r\n", &mut parents), Ok(7));
/// assert_eq!(parents, [0, 1, 1, 1, 2, 2, 4, 99]);
/// assert_eq!(parents_of_text(b"(()) ()", &mut parents), Err(Error::NotText { byte: 6 }));
/// assert_eq!(parents_of_text(b"(()", &mut parents), Err(Error::NotText { byte: 4 }));
/// assert_eq!(parents_of_text(&[b'('; 99], &mut parents), Err(Error::TooNested { byte: 65 }));
/// ```
///
/// # Errors
///
/// [`Error::WrongSize`] for too many bytes, [`Error::NotText`] or [`Error::TooNested`], whichever
/// has the earlier byte, [`Error::WrongSize`] for too many nodes, [`Error::NoRoom`].
pub fn parents_of_text(text: &[u8], parents: &mut [u32]) -> Result<usize> {
    let handed = Handed::Text { text };
    counts(sys::parents_of_text(text, parents), handed).map(|(nodes, _)| nodes as usize)
}

/// Writes the tree of a parent list as parenthesis text into `text` and gives its number of bytes.
///
/// It has brackets alone, [`size::text_bytes`] of them; what lies after them in `text` stays.
/// [`TreeText::of_parents`](crate::TreeText::of_parents) makes the room itself.
///
/// ```
/// let mut text = [b'.'; 16];
/// assert_eq!(parlaqen::calls::text_of_parents(&[0, 1, 1, 1, 2, 2, 4], &mut text), Ok(14));
/// assert_eq!(&text, b"((()())()(()))..");
/// ```
///
/// # Errors
///
/// [`Error::WrongSize`], [`Error::NotParents`], [`Error::TooDeep`], [`Error::NoRoom`].
pub fn text_of_parents(parents: &[u32], text: &mut [u8]) -> Result<usize> {
    let handed = Handed::Parents { nodes: parents.len() };
    counts(sys::text_of_parents(parents, text), handed).map(|(bytes, _)| bytes as usize)
}

#[cfg(test)]
mod tests {
    use super::{counts_of_tree, Counts};
    use crate::error::Handed;
    use crate::{sys, Error};

    #[test]
    fn counts_that_no_tree_has_are_refused() {
        let counted = |first, second| {
            let answer = sys::Answer { code: 0, place: 0, first, second };
            counts_of_tree(answer, Handed::Image { bytes: 2_560 })
        };
        for (nodes, runs_of_ones) in [(1, 1), (2, 1), (7, 4), (65_535, 1), (65_535, 65_535)] {
            assert_eq!(counted(nodes, runs_of_ones), Ok(Counts { nodes, runs_of_ones }));
        }
        let wrong = Error::Unlisted { code: 0, place: 0 };
        for (nodes, runs_of_ones) in [(0, 0), (0, 1), (1, 0), (7, 8), (65_536, 1), (u32::MAX, u32::MAX)] {
            assert_eq!(counted(nodes, runs_of_ones), Err(wrong));
        }
    }
}
