use alloc::{vec, vec::Vec};
use core::fmt;

use crate::calls::{join, parents_of_string, split, string_of_parents};
use crate::{size, Error, Result, MOST_NODES, MOST_TREES};

/// A tree string: its bits, most significant first, in exactly as many bytes as they take. Needs the feature `alloc`.
///
/// ```
/// use parlaqen::TreeString;
///
/// let sent = TreeString::of_parents(&[0, 1, 1, 1, 2, 2, 4])?;
/// assert_eq!((sent.bits(), sent.as_bytes()), (15, &[0xBB, 0x20][..]));
///
/// let got = TreeString::received(sent.as_bytes().to_vec(), sent.bits())?;
/// assert_eq!(got.parents()?, [0, 1, 1, 1, 2, 2, 4]);
/// # Ok::<(), parlaqen::Error>(())
/// ```
#[derive(Clone, PartialEq, Eq, Hash)]
pub struct TreeString {
    bytes: Vec<u8>,
    bits: usize,
}

impl TreeString {
    /// The string of a parent list.
    ///
    /// ```
    /// use parlaqen::{Error, TreeString};
    ///
    /// assert_eq!(TreeString::of_parents(&[0])?.as_bytes(), [0b1000_0000]);
    /// assert_eq!(TreeString::of_parents(&[0, 0]), Err(Error::NotParents { entry: 2 }));
    /// # Ok::<(), Error>(())
    /// ```
    ///
    /// # Errors
    ///
    /// [`Error::WrongSize`], [`Error::NotParents`].
    pub fn of_parents(parents: &[u32]) -> Result<Self> {
        // a longer list is refused before room matters
        let mut bytes = vec![0; size::string_bytes(parents.len().min(MOST_NODES))];
        let bits = string_of_parents(parents, &mut bytes)?;
        Ok(Self { bytes, bits })
    }

    /// A string that came from elsewhere, if its bits are those of a tree.
    ///
    /// ```
    /// use parlaqen::{Error, TreeString};
    ///
    /// assert_eq!(TreeString::received(vec![0xBB, 0x20], 15)?.nodes(), 7);
    /// assert_eq!(TreeString::received(vec![0xBB, 0x20], 14), Err(Error::EndsTooEarly { bits: 14 }));
    /// assert_eq!(TreeString::received(vec![0xFB, 0x20], 15), Err(Error::NotString { bit: 2 }));
    /// # Ok::<(), Error>(())
    /// ```
    ///
    /// # Errors
    ///
    /// [`Error::WrongSize`], [`Error::LeftoverSet`], [`Error::NotString`], [`Error::EndsTooEarly`].
    pub fn received(bytes: Vec<u8>, bits: usize) -> Result<Self> {
        // The library looks at the room last, and every tree has a node, which needs some: a string is refused for the
        // lack of it exactly if there is nothing else wrong.
        match parents_of_string(&bytes, bits, &mut []) {
            Ok(_) | Err(Error::NoRoom) => Ok(Self { bytes, bits }),
            Err(refused) => Err(refused),
        }
    }

    /// The bytes that hold the bits, exactly as many as they take.
    ///
    /// ```
    /// assert_eq!(parlaqen::TreeString::of_parents(&[0, 1])?.as_bytes(), [0b1010_0000]);
    /// # Ok::<(), parlaqen::Error>(())
    /// ```
    #[must_use]
    pub fn as_bytes(&self) -> &[u8] {
        &self.bytes
    }

    /// The bytes that hold the bits, owned.
    ///
    /// ```
    /// let kept: Vec<u8> = parlaqen::TreeString::of_parents(&[0, 1])?.into_bytes();
    /// assert_eq!(kept, [0b1010_0000]);
    /// # Ok::<(), parlaqen::Error>(())
    /// ```
    #[must_use]
    pub fn into_bytes(self) -> Vec<u8> {
        self.bytes
    }

    /// The number of bits.
    ///
    /// ```
    /// assert_eq!(parlaqen::TreeString::of_parents(&[0, 1])?.bits(), 5);
    /// # Ok::<(), parlaqen::Error>(())
    /// ```
    #[must_use]
    pub const fn bits(&self) -> usize {
        self.bits
    }

    /// The number of nodes of the tree.
    ///
    /// ```
    /// assert_eq!(parlaqen::TreeString::of_parents(&[0, 1])?.nodes(), 2);
    /// # Ok::<(), parlaqen::Error>(())
    /// ```
    #[must_use]
    pub const fn nodes(&self) -> u32 {
        (self.bits / 2) as u32
    }

    /// The parent list.
    ///
    /// ```
    /// assert_eq!(parlaqen::TreeString::received(vec![0b1010_0000], 5)?.parents()?, [0, 1]);
    /// # Ok::<(), parlaqen::Error>(())
    /// ```
    ///
    /// # Errors
    ///
    /// None are known, since these bits were found to be a tree string; the library, which looks again, would say.
    pub fn parents(&self) -> Result<Vec<u32>> {
        let mut parents = vec![0; self.nodes() as usize];
        parents_of_string(&self.bytes, self.bits, &mut parents)?;
        Ok(parents)
    }
}

impl AsRef<[u8]> for TreeString {
    fn as_ref(&self) -> &[u8] {
        self.as_bytes()
    }
}

impl fmt::Debug for TreeString {
    fn fmt(&self, f: &mut fmt::Formatter<'_>) -> fmt::Result {
        f.debug_struct("TreeString").field("nodes", &self.nodes()).field("bits", &self.bits).finish_non_exhaustive()
    }
}

/// Tree strings laid end to end, with no mark between them. Needs the feature `alloc`.
///
/// ```
/// use parlaqen::{Error, Pack, Part};
///
/// let mut sent = Pack::new();
/// sent.join(&[0, 1, 1])?;
/// sent.join(&[0])?;
///
/// let got = Pack::received(sent.as_bytes().to_vec(), sent.bits(), sent.trees())?;
/// assert_eq!(got.split()?, [Part { start: 1, nodes: 3 }, Part { start: 8, nodes: 1 }]);
/// assert_eq!(got.parent_lists()?, [vec![0, 1, 1], vec![0]]);
///
/// let mut damaged = sent.as_bytes().to_vec();
/// damaged[0] ^= 0b0010_0000; // now two trees of one node, and at bit 7 none begins
/// assert_eq!(Pack::received(damaged, sent.bits(), 2), Err(Error::NotString { bit: 7 }));
/// # Ok::<(), Error>(())
/// ```
#[derive(Clone, Default, PartialEq, Eq, Hash)]
pub struct Pack {
    bytes: Vec<u8>,
    bits: usize,
    trees: usize,
}

/// Where a tree is in a pack. Needs the feature `alloc`.
///
/// ```
/// let mut pack = parlaqen::Pack::new();
/// pack.join(&[0, 1, 1])?;
/// pack.join(&[0])?;
/// let last = pack.split()?[1];
/// assert_eq!((last.start, last.nodes), (8, 1));
/// # Ok::<(), parlaqen::Error>(())
/// ```
#[derive(Clone, Copy, Debug, PartialEq, Eq, Hash)]
pub struct Part {
    /// Its first bit, from 1.
    pub start: u32,
    /// Its number of nodes; its string has [`size::string_bits`] bits.
    pub nodes: u32,
}

impl Pack {
    /// A pack of no trees.
    ///
    /// ```
    /// let pack = parlaqen::Pack::new();
    /// assert_eq!((pack.trees(), pack.bits()), (0, 0));
    /// ```
    #[must_use]
    pub const fn new() -> Self {
        Self { bytes: Vec::new(), bits: 0, trees: 0 }
    }

    /// A pack that came from elsewhere, if its bits are the strings of so many trees.
    ///
    /// ```
    /// use parlaqen::{Error, Pack};
    ///
    /// assert_eq!(Pack::received(vec![0b1001_0000], 6, 2)?.trees(), 2);
    /// assert_eq!(Pack::received(vec![0b1001_0000], 6, 3), Err(Error::OtherTrees { found: 2, given: 3 }));
    /// # Ok::<(), Error>(())
    /// ```
    ///
    /// # Errors
    ///
    /// [`Error::WrongSize`], [`Error::LeftoverSet`], [`Error::NotString`], [`Error::EndsTooEarly`],
    /// [`Error::OtherTrees`].
    pub fn received(bytes: Vec<u8>, bits: usize, trees: usize) -> Result<Self> {
        let pack = Self { bytes, bits, trees };
        pack.split()?;
        Ok(pack)
    }

    /// The bytes that hold the bits, exactly as many as they take.
    ///
    /// ```
    /// let mut pack = parlaqen::Pack::new();
    /// pack.join(&[0])?;
    /// assert_eq!(pack.as_bytes(), [0b1000_0000]);
    /// # Ok::<(), parlaqen::Error>(())
    /// ```
    #[must_use]
    pub fn as_bytes(&self) -> &[u8] {
        &self.bytes
    }

    /// The bytes that hold the bits, owned.
    ///
    /// ```
    /// let mut pack = parlaqen::Pack::new();
    /// pack.join(&[0])?;
    /// let kept: Vec<u8> = pack.into_bytes();
    /// assert_eq!(kept, [0b1000_0000]);
    /// # Ok::<(), parlaqen::Error>(())
    /// ```
    #[must_use]
    pub fn into_bytes(self) -> Vec<u8> {
        self.bytes
    }

    /// The number of bits.
    ///
    /// ```
    /// let mut pack = parlaqen::Pack::new();
    /// pack.join(&[0])?;
    /// assert_eq!(pack.bits(), 3);
    /// # Ok::<(), parlaqen::Error>(())
    /// ```
    #[must_use]
    pub const fn bits(&self) -> usize {
        self.bits
    }

    /// The number of trees.
    ///
    /// ```
    /// let mut pack = parlaqen::Pack::new();
    /// pack.join(&[0])?;
    /// assert_eq!(pack.trees(), 1);
    /// # Ok::<(), parlaqen::Error>(())
    /// ```
    #[must_use]
    pub const fn trees(&self) -> usize {
        self.trees
    }

    /// Adds the tree of a parent list at the end. If that is refused, the pack stays as it was.
    ///
    /// ```
    /// use parlaqen::{Error, Pack};
    ///
    /// let mut pack = Pack::new();
    /// pack.join(&[0, 1, 1])?;
    /// assert_eq!(pack.join(&[0, 2]), Err(Error::NotParents { entry: 2 }));
    /// assert_eq!((pack.trees(), pack.bits()), (1, 7));
    /// # Ok::<(), Error>(())
    /// ```
    ///
    /// # Errors
    ///
    /// [`Error::WrongSize`], [`Error::NotParents`].
    pub fn join(&mut self, parents: &[u32]) -> Result<()> {
        // a longer list is refused before room matters
        let room = size::bytes_of_bits(self.bits + size::string_bits(parents.len().min(MOST_NODES)));
        self.bytes.resize(room, 0);
        let joined = join(&mut self.bytes, self.bits, self.trees, parents);
        if let Ok(bits) = joined {
            self.bits = bits;
            self.trees += 1;
        }
        self.bytes.truncate(size::bytes_of_bits(self.bits));
        joined.map(|_| ())
    }

    /// Where each tree is.
    ///
    /// ```
    /// let mut pack = parlaqen::Pack::new();
    /// pack.join(&[0, 1, 1])?;
    /// assert_eq!(pack.split()?, [parlaqen::Part { start: 1, nodes: 3 }]);
    /// # Ok::<(), parlaqen::Error>(())
    /// ```
    ///
    /// # Errors
    ///
    /// None are known, since these bits were found to be a pack; the library, which looks again, would say.
    pub fn split(&self) -> Result<Vec<Part>> {
        // more trees are refused before room matters
        let room = self.trees.min(MOST_TREES);
        let (mut starts, mut sizes) = (vec![0; room], vec![0; room]);
        split(&self.bytes, self.bits, self.trees, &mut starts, &mut sizes)?;
        let parts = starts.into_iter().zip(sizes);
        Ok(parts.map(|(start, nodes)| Part { start, nodes }).collect())
    }

    /// The parent list of each tree.
    ///
    /// ```
    /// let mut pack = parlaqen::Pack::new();
    /// pack.join(&[0, 1, 1])?;
    /// pack.join(&[0])?;
    /// assert_eq!(pack.parent_lists()?, [vec![0, 1, 1], vec![0]]);
    /// # Ok::<(), parlaqen::Error>(())
    /// ```
    ///
    /// # Errors
    ///
    /// None are known, since these bits were found to be a pack; the library, which looks again, would say.
    pub fn parent_lists(&self) -> Result<Vec<Vec<u32>>> {
        let parts = self.split()?;
        parts.into_iter().map(|part| self.moved(part).ok_or(Error::UNLISTED_COUNTS)?.parents()).collect()
    }

    /// The bits of a part of this pack, moved to begin at the first bit; none where the pack does not have them all.
    fn moved(&self, part: Part) -> Option<TreeString> {
        let bits = size::string_bits(part.nodes as usize);
        let before = part.start.checked_sub(1)? as usize;
        let (first, shift) = (before / 8, before % 8);
        let end = first + size::bytes_of_bits(bits);
        let moved = self.bytes.get(first..end)?.iter().enumerate().map(|(at, byte)| {
            let next = self.bytes.get(first + at + 1).copied().unwrap_or_default();
            let [moved, _] = (u16::from_be_bytes([*byte, next]) << shift).to_be_bytes();
            moved
        });
        let mut bytes: Vec<u8> = moved.collect();
        // what came along of the next tree
        let leftover = 8 * bytes.len() - bits;
        if let Some(last) = bytes.last_mut() {
            *last = *last >> leftover << leftover;
        }
        Some(TreeString { bytes, bits })
    }
}

impl AsRef<[u8]> for Pack {
    fn as_ref(&self) -> &[u8] {
        self.as_bytes()
    }
}

impl fmt::Debug for Pack {
    fn fmt(&self, f: &mut fmt::Formatter<'_>) -> fmt::Result {
        f.debug_struct("Pack").field("trees", &self.trees).field("bits", &self.bits).finish_non_exhaustive()
    }
}
