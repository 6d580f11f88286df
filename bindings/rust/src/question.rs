use crate::Node;

/// A question about a node of an image. Its [`Answer`] is a node, or that there is none, unless said otherwise.
///
/// A node that the tree does not have is refused, and so are metres where the image has none. Any argument is allowed:
/// one that leads to no node has the answer that there is none.
///
/// ```
/// use parlaqen::{size, Answer, Image, Node, Question};
///
/// let mut room = [0; size::image_room(7)];
/// let image = Image::seal_in(&[0, 1, 1, 1, 2, 2, 4], &mut room)?;
/// let mut answers = [Answer::default(); 3];
/// let node = Node::try_from(2)?;
/// image.ask_into(&[Question::Parent(node), Question::Degree(node), Question::Leaf(node)], &mut answers)?;
/// assert_eq!(answers, [Answer::Node(Some(Node::ROOT)), Answer::Number(2), Answer::Leaf(false)]);
/// let ranks = image.ask_into(&[Question::ChildRank(node), Question::ChildRank(Node::ROOT)], &mut answers)?;
/// assert_eq!(ranks, [Answer::Rank(Some(1)), Answer::Rank(None)]); // the root has no rank
/// # Ok::<(), parlaqen::Error>(())
/// ```
#[derive(Clone, Copy, Debug, PartialEq, Eq, Hash)]
#[non_exhaustive]
pub enum Question {
    /// Kind 1: the parent; none for the root.
    Parent(Node),
    /// Kind 2: the first child.
    FirstChild(Node),
    /// Kind 3: the last child.
    LastChild(Node),
    /// Kind 4: the sibling to the right.
    NextSibling(Node),
    /// Kind 5: the sibling to the left.
    PreviousSibling(Node),
    /// Kind 6: the answer is the number of children.
    Degree(Node),
    /// Kind 7: the answer is the rank of the node, its number among its siblings, from 1; the root has none.
    ChildRank(Node),
    /// Kind 8: the child of that number.
    ChildNumber {
        /// The node whose child is asked for.
        node: Node,
        /// Which child, from 1.
        number: u32,
    },
    /// Kind 9: the answer says whether the node is a leaf, which has no children.
    Leaf(Node),
    /// Kind 10: the sibling that many places away; 0 places away is the node itself.
    SiblingAt {
        /// The node to count from.
        node: Node,
        /// How many places to the right, to the left where negative.
        right: i32,
    },
    /// Kind 11: the answer is the number of metres of the node.
    Metres(Node),
}

impl Question {
    /// The question as the function [`ask`](crate::calls::ask) takes it: kind, node, argument.
    ///
    /// ```
    /// use parlaqen::{Node, Question};
    ///
    /// assert_eq!(Question::Parent(Node::ROOT).numbers(), [1, 1, 0]);
    /// assert_eq!(Question::SiblingAt { node: Node::try_from(7)?, right: -2 }.numbers(), [10, 7, -2]);
    /// # Ok::<(), parlaqen::Error>(())
    /// ```
    #[must_use]
    pub const fn numbers(self) -> [i32; 3] {
        let (kind, node, argument) = match self {
            Self::Parent(node) => (1, node, 0),
            Self::FirstChild(node) => (2, node, 0),
            Self::LastChild(node) => (3, node, 0),
            Self::NextSibling(node) => (4, node, 0),
            Self::PreviousSibling(node) => (5, node, 0),
            Self::Degree(node) => (6, node, 0),
            Self::ChildRank(node) => (7, node, 0),
            Self::ChildNumber { node, number } => (8, node, number as i32),
            Self::Leaf(node) => (9, node, 0),
            Self::SiblingAt { node, right } => (10, node, right),
            Self::Metres(node) => (11, node, 0),
        };
        // A node or a child over i32::MAX becomes a negative one. No tree has either, and the library says so of both.
        [kind, node.get() as i32, argument]
    }

    /// The node that is asked about.
    pub(crate) const fn node(self) -> Node {
        match self {
            Self::Parent(node)
            | Self::FirstChild(node)
            | Self::LastChild(node)
            | Self::NextSibling(node)
            | Self::PreviousSibling(node)
            | Self::Degree(node)
            | Self::ChildRank(node)
            | Self::ChildNumber { node, .. }
            | Self::Leaf(node)
            | Self::SiblingAt { node, .. }
            | Self::Metres(node) => node,
        }
    }

    /// The library's answer to this question.
    pub(crate) fn answer(self, number: u32) -> Answer {
        match self {
            Self::Degree(_) | Self::Metres(_) => Answer::Number(number),
            Self::ChildRank(_) => Answer::Rank(rank(number)),
            Self::Leaf(_) => Answer::Leaf(number != 0),
            Self::Parent(_)
            | Self::FirstChild(_)
            | Self::LastChild(_)
            | Self::NextSibling(_)
            | Self::PreviousSibling(_)
            | Self::ChildNumber { .. }
            | Self::SiblingAt { .. } => Answer::Node(Node::new(number)),
        }
    }
}

/// The answer to a [`Question`], of the sort that the question has.
///
/// ```
/// use parlaqen::{Answer, Node};
///
/// let said = |answer| match answer {
///     Answer::Node(Some(node)) => format!("node {node}"),
///     Answer::Node(None) => "no node".to_string(),
///     Answer::Number(number) => format!("the number {number}"),
///     Answer::Rank(Some(rank)) => format!("number {rank} among its siblings"),
///     Answer::Rank(None) => "the root, which has no rank".to_string(),
///     Answer::Leaf(leaf) => format!("a leaf: {leaf}"),
/// };
/// assert_eq!(said(Answer::Node(Some(Node::ROOT))), "node 1");
/// assert_eq!(said(Answer::default()), "no node"); // what a list of answers can be made of before it is filled
/// ```
#[derive(Clone, Copy, Debug, PartialEq, Eq, Hash)]
pub enum Answer {
    /// The node asked for, or that there is none.
    Node(Option<Node>),
    /// The number asked for.
    Number(u32),
    /// The number of the node among its siblings, from 1, or that it has none, as the root.
    Rank(Option<u32>),
    /// Whether the node is a leaf.
    Leaf(bool),
}

impl Answer {
    /// The node, if the answer is one. None also if it is of another sort: [`Answer::Node`] can be matched for that.
    ///
    /// ```
    /// use parlaqen::{Answer, Node};
    ///
    /// assert_eq!(Answer::Node(Some(Node::ROOT)).node(), Some(Node::ROOT));
    /// assert_eq!(Answer::Number(1).node(), None);
    /// ```
    #[must_use]
    pub const fn node(self) -> Option<Node> {
        match self {
            Self::Node(node) => node,
            Self::Number(_) | Self::Rank(_) | Self::Leaf(_) => None,
        }
    }

    /// The number, if the answer is one, which is so for a degree, for metres, and for a rank but that of the root.
    ///
    /// ```
    /// use parlaqen::{Answer, Node};
    ///
    /// assert_eq!(Answer::Number(3).number(), Some(3));
    /// assert_eq!((Answer::Rank(Some(3)).number(), Answer::Rank(None).number()), (Some(3), None));
    /// assert_eq!(Answer::Node(Some(Node::ROOT)).number(), None);
    /// ```
    #[must_use]
    pub const fn number(self) -> Option<u32> {
        match self {
            Self::Number(number) => Some(number),
            Self::Rank(rank) => rank,
            Self::Node(_) | Self::Leaf(_) => None,
        }
    }

    /// Whether the node is a leaf, if that was the question.
    ///
    /// ```
    /// use parlaqen::Answer;
    ///
    /// assert_eq!(Answer::Leaf(true).leaf(), Some(true));
    /// assert_eq!(Answer::Number(1).leaf(), None);
    /// ```
    #[must_use]
    pub const fn leaf(self) -> Option<bool> {
        match self {
            Self::Leaf(leaf) => Some(leaf),
            Self::Node(_) | Self::Number(_) | Self::Rank(_) => None,
        }
    }
}

/// The library's answer to the question for a rank: 0 is none.
pub(crate) fn rank(number: u32) -> Option<u32> {
    (number != 0).then_some(number)
}

impl Default for Answer {
    /// That there is no node.
    fn default() -> Self {
        Self::Node(None)
    }
}
