use core::fmt;
use core::hash::{Hash, Hasher};
use core::iter::FusedIterator;
use core::num::NonZeroU32;
use core::ops::Range;

use crate::Error;

/// The number of a node: from 1, in level order.
///
/// It is a number alone and belongs to no image: one that a tree does not have is refused where it is asked for, with
/// [`Error::NoSuchNode`] or [`Error::NoSuchNodeAsked`]. No node has the number 0, so an `Option<Node>` is as small as a
/// `Node`, and `None` is what the library writes as 0.
///
/// The numbers of nodes shift when a longer diary is sealed anew. What lasts is the path from the root: the number of
/// each node among its siblings.
///
/// ```
/// use parlaqen::Node;
///
/// let node = Node::try_from(7)?;
/// assert_eq!(Node::new(7), Some(node));
/// assert_eq!(Node::new(0), None);
/// assert_eq!(node.to_string(), "7");
/// assert_eq!(std::mem::size_of::<Option<Node>>(), 4);
/// # Ok::<(), parlaqen::Error>(())
/// ```
///
/// A bare number is no node, so 0 is not asked about by mistake:
///
/// ```compile_fail
/// let question = parlaqen::Question::Parent(0);
/// ```
#[derive(Clone, Copy, Debug, PartialEq, Eq, PartialOrd, Ord, Hash)]
pub struct Node(NonZeroU32);

impl Node {
    /// Node 1, which every tree has.
    ///
    /// ```
    /// assert_eq!(parlaqen::Node::ROOT.get(), 1);
    /// ```
    pub const ROOT: Self = Self(NonZeroU32::MIN);

    /// The node of that number; none for 0. `Node::try_from` makes an [`Error`] of 0.
    ///
    /// ```
    /// use parlaqen::Node;
    ///
    /// assert_eq!(Node::new(1), Some(Node::ROOT));
    /// assert_eq!(Node::new(0), None);
    /// ```
    #[must_use]
    pub const fn new(number: u32) -> Option<Self> {
        match NonZeroU32::new(number) {
            Some(number) => Some(Self(number)),
            None => None,
        }
    }

    /// The node whose data are at that place of an array that has those of all nodes in level order: the one of the
    /// next number. None where that number does not fit.
    ///
    /// ```
    /// use parlaqen::Node;
    ///
    /// let names = ["season", "week", "run"];
    /// let found = names.iter().position(|name| *name == "run").and_then(Node::from_index);
    /// assert_eq!(found, Node::new(3));
    /// assert_eq!(Node::from_index(usize::MAX), None);
    /// ```
    #[must_use]
    pub const fn from_index(index: usize) -> Option<Self> {
        if index < u32::MAX as usize {
            Self::new(index as u32 + 1)
        } else {
            None
        }
    }

    /// The number, from 1.
    ///
    /// ```
    /// assert_eq!(parlaqen::Node::new(7).map(|node| node.get()), Some(7));
    /// ```
    #[must_use]
    pub const fn get(self) -> u32 {
        self.0.get()
    }

    /// The number less 1: where a node's data are in an array that has those of all nodes in level order.
    ///
    /// ```
    /// use parlaqen::Node;
    ///
    /// let names = ["season", "week", "run"];
    /// assert_eq!(names[Node::ROOT.index()], "season");
    /// assert_eq!(names[Node::try_from(3)?.index()], "run");
    /// # Ok::<(), parlaqen::Error>(())
    /// ```
    ///
    /// [`from_index`](Self::from_index) is the way back.
    #[must_use]
    pub const fn index(self) -> usize {
        self.get() as usize - 1
    }
}

impl fmt::Display for Node {
    fn fmt(&self, f: &mut fmt::Formatter<'_>) -> fmt::Result {
        self.0.fmt(f)
    }
}

impl From<NonZeroU32> for Node {
    fn from(number: NonZeroU32) -> Self {
        Self(number)
    }
}

impl From<Node> for NonZeroU32 {
    fn from(node: Node) -> Self {
        node.0
    }
}

impl From<Node> for u32 {
    fn from(node: Node) -> Self {
        node.get()
    }
}

impl TryFrom<u32> for Node {
    type Error = Error;

    /// The node of that number; [`Error::NoSuchNode`] for 0, which no tree has.
    fn try_from(number: u32) -> Result<Self, Error> {
        Self::new(number).ok_or(Error::NoSuchNode { node: number })
    }
}

/// Nodes with consecutive numbers, from left to right: the children of a node, or a node with its siblings.
///
/// An iterator that begins at both ends, knows its length and is empty for a leaf. It holds numbers alone and asks the
/// image nothing more. Two are equal if they have the same nodes left, so all empty ones are.
///
/// ```
/// use parlaqen::{size, Image, Node};
///
/// let mut room = [0; size::image_room(7)];
/// let image = Image::seal_in(&[0, 1, 1, 1, 2, 2, 4], &mut room)?;
/// let mut children = image.children(Node::ROOT)?;
/// assert_eq!(children.len(), 3);
/// assert_eq!((children.next(), children.next_back()), (Node::new(2), Node::new(4)));
/// assert!(children.eq([Node::try_from(3)?]));
/// # Ok::<(), parlaqen::Error>(())
/// ```
#[derive(Clone, Debug)]
#[must_use = "these nodes are an iterator, which gives them only when it is asked for them"]
pub struct Nodes(Range<u32>);

impl Nodes {
    /// From one node to another; none at all where one of the two is missing.
    pub(crate) const fn between(first: Option<Node>, last: Option<Node>) -> Self {
        match (first, last) {
            (Some(first), Some(last)) => Self(first.get()..last.get().saturating_add(1)),
            _ => Self(0..0),
        }
    }

    /// Is this node among those that are left?
    ///
    /// ```
    /// # use parlaqen::{size, Image, Node};
    /// # let mut room = [0; size::image_room(7)];
    /// # let image = Image::seal_in(&[0, 1, 1, 1, 2, 2, 4], &mut room)?;
    /// let children = image.children(Node::ROOT)?;
    /// assert!(children.contains(Node::try_from(4)?));
    /// assert!(!children.contains(Node::ROOT));
    /// # Ok::<(), parlaqen::Error>(())
    /// ```
    #[must_use]
    pub const fn contains(&self, node: Node) -> bool {
        self.0.start <= node.get() && node.get() < self.0.end
    }

    /// The leftmost node of those that are left. It stays among them.
    ///
    /// ```
    /// # use parlaqen::{size, Image, Node};
    /// # let mut room = [0; size::image_room(7)];
    /// # let image = Image::seal_in(&[0, 1, 1, 1, 2, 2, 4], &mut room)?;
    /// let children = image.children(Node::ROOT)?;
    /// assert_eq!(children.leftmost(), Node::new(2));
    /// assert_eq!(children.len(), 3);
    /// # Ok::<(), parlaqen::Error>(())
    /// ```
    #[must_use]
    pub const fn leftmost(&self) -> Option<Node> {
        if self.is_empty() {
            None
        } else {
            Node::new(self.0.start)
        }
    }

    /// The rightmost node of those that are left. It stays among them.
    ///
    /// ```
    /// # use parlaqen::{size, Image, Node};
    /// # let mut room = [0; size::image_room(7)];
    /// # let image = Image::seal_in(&[0, 1, 1, 1, 2, 2, 4], &mut room)?;
    /// let children = image.children(Node::ROOT)?;
    /// assert_eq!(children.rightmost(), Node::new(4));
    /// assert_eq!(children.len(), 3);
    /// # Ok::<(), parlaqen::Error>(())
    /// ```
    #[must_use]
    pub const fn rightmost(&self) -> Option<Node> {
        if self.is_empty() {
            None
        } else {
            Node::new(self.0.end - 1)
        }
    }

    /// Is none left?
    ///
    /// ```
    /// # use parlaqen::{size, Image, Node};
    /// # let mut room = [0; size::image_room(7)];
    /// # let image = Image::seal_in(&[0, 1, 1, 1, 2, 2, 4], &mut room)?;
    /// assert!(image.children(Node::try_from(3)?)?.is_empty());
    /// assert!(!image.siblings(Node::try_from(3)?)?.is_empty());
    /// # Ok::<(), parlaqen::Error>(())
    /// ```
    #[must_use]
    pub const fn is_empty(&self) -> bool {
        self.0.start >= self.0.end
    }
}

impl PartialEq for Nodes {
    fn eq(&self, other: &Self) -> bool {
        (self.leftmost(), self.rightmost()) == (other.leftmost(), other.rightmost())
    }
}

impl Eq for Nodes {}

impl Hash for Nodes {
    fn hash<H: Hasher>(&self, state: &mut H) {
        (self.leftmost(), self.rightmost()).hash(state);
    }
}

impl Iterator for Nodes {
    type Item = Node;

    fn next(&mut self) -> Option<Node> {
        self.0.next().and_then(Node::new)
    }

    fn size_hint(&self) -> (usize, Option<usize>) {
        self.0.size_hint()
    }

    fn nth(&mut self, skipped: usize) -> Option<Node> {
        self.0.nth(skipped).and_then(Node::new)
    }

    fn last(self) -> Option<Node> {
        self.rightmost()
    }
}

impl DoubleEndedIterator for Nodes {
    fn next_back(&mut self) -> Option<Node> {
        self.0.next_back().and_then(Node::new)
    }

    fn nth_back(&mut self, skipped: usize) -> Option<Node> {
        self.0.nth_back(skipped).and_then(Node::new)
    }
}

impl ExactSizeIterator for Nodes {}

impl FusedIterator for Nodes {}
