#[cfg(feature = "alloc")]
use alloc::{vec, vec::Vec};
use core::fmt;
use core::hash::{Hash, Hasher};

#[cfg(feature = "alloc")]
use crate::calls::parents_of_image;
use crate::calls::{check_image, counts, list, metres_of_image, Counts};
use crate::error::{question_at, Handed, NUMBERS_OF_QUESTION};
use crate::question::rank;
#[cfg(feature = "alloc")]
use crate::size;
use crate::{sys, Answer, Error, Listing, Node, Nodes, Question, Result, Seal, MOST_QUESTIONS};

/// A sealed image that was found to be one, with the bytes that were checked: owned, as in `Image<Vec<u8>>`, borrowed,
/// as in `Image<&[u8]>`, or shared, as in `Image<Arc<[u8]>>`.
///
/// Copy the image out of its container, let go of the lock, then check and ask the copy.
///
/// Whatever asks the image calls `bytes.as_ref()` once and makes the whole check of what it gives, so it is best to ask
/// many questions at once: [`Image::ask`], [`Image::ask_into`]. Bytes may change between calls without harm: an answer
/// is a refusal or that of the other bytes. [`nodes`](Self::nodes), [`all_nodes`](Self::all_nodes) and
/// [`nodes_with_children`](Self::nodes_with_children) stay those of the check.
///
/// Bytes that can change *during* a call must not be lent, such as a map of a file that others write, or memory that is
/// shared with another process: a call may then read and write anywhere. Copy them first.
///
/// Two images are equal if their bytes are, whatever they are kept in.
///
/// A [`Node`] may be of another image, so whatever asks about one can be refused.
///
/// ```
/// use parlaqen::{calls::image_of_parents, Error, Image, Node, BLOCK_BYTES};
///
/// let mut bytes = [0; 5 * BLOCK_BYTES];
/// image_of_parents(&[0, 1, 1, 1, 2, 2, 4], &mut bytes)?;
///
/// let image = Image::check(bytes)?;
/// assert_eq!(image.nodes(), 7);
/// assert_eq!(image.first_child(Node::ROOT)?, Node::new(2));
/// assert_eq!(image.parent(Node::ROOT)?, None);
/// assert_eq!(image.parent(Node::try_from(9)?), Err(Error::NoSuchNode { node: 9 }));
///
/// bytes[1_000] ^= 1;
/// assert_eq!(Image::check(&bytes), Err(Error::WrongSums { block: 1 }));
/// # Ok::<(), Error>(())
/// ```
#[derive(Clone, Copy)]
pub struct Image<B> {
    bytes: B,
    counts: Counts,
}

impl<'a> Image<&'a [u8]> {
    /// Seals a parent list, without metres, into a lent buffer and gives the image over that part of it which was used.
    ///
    /// [`size::image_room`](crate::size::image_room) bytes are always enough. What lies after the image stays.
    /// [`Seal`] does the same with metres.
    ///
    /// ```
    /// use parlaqen::{size, Image, BLOCK_BYTES};
    ///
    /// let mut room = [0xEE; size::image_room(7) + 1];
    /// let image = Image::seal_in(&[0, 1, 1, 1, 2, 2, 4], &mut room)?;
    /// assert_eq!(image.as_bytes().len(), 5 * BLOCK_BYTES);
    /// assert_eq!(room[5 * BLOCK_BYTES], 0xEE);
    /// # Ok::<(), parlaqen::Error>(())
    /// ```
    ///
    /// The buffer is borrowed as long as the image is used, so it does not change under it:
    ///
    /// ```compile_fail
    /// # use parlaqen::{size, Image};
    /// let mut room = [0; size::image_room(1)];
    /// let image = Image::seal_in(&[0], &mut room)?;
    /// room[0] = 7;
    /// assert_eq!(image.nodes(), 1);
    /// # Ok::<(), parlaqen::Error>(())
    /// ```
    ///
    /// # Errors
    ///
    /// [`Error::WrongSize`], [`Error::NotParents`], [`Error::NoRoom`].
    pub fn seal_in(parents: &[u32], buffer: &'a mut [u8]) -> Result<Self> {
        Seal::of(parents).image_in(buffer)
    }
}

impl<B> Image<B> {
    /// An image over bytes that the library has just sealed, with the counts that it gave.
    pub(crate) const fn sealed(bytes: B, counts: Counts) -> Self {
        Self { bytes, counts }
    }

    /// What the image was made of: its bytes, owned if they were.
    ///
    /// ```
    /// # use parlaqen::{size, Image};
    /// # let mut room = [0; size::image_room(7)];
    /// # let image = Image::seal_in(&[0, 1, 1, 1, 2, 2, 4], &mut room)?;
    /// let bytes: &[u8] = image.into_bytes();
    /// assert_eq!(bytes.len(), parlaqen::calls::Counts { nodes: 7, runs_of_ones: 4 }.image_bytes());
    /// # Ok::<(), parlaqen::Error>(())
    /// ```
    #[must_use]
    pub fn into_bytes(self) -> B {
        self.bytes
    }

    /// The number of nodes.
    ///
    /// ```
    /// # use parlaqen::{size, Image};
    /// # let mut room = [0; size::image_room(7)];
    /// # let image = Image::seal_in(&[0, 1, 1, 1, 2, 2, 4], &mut room)?;
    /// assert_eq!(image.nodes(), 7);
    /// # Ok::<(), parlaqen::Error>(())
    /// ```
    #[must_use]
    pub const fn nodes(&self) -> u32 {
        self.counts.nodes
    }

    /// The number of nodes that have children.
    ///
    /// ```
    /// # use parlaqen::{size, Image};
    /// # let mut room = [0; size::image_room(7)];
    /// # let image = Image::seal_in(&[0, 1, 1, 1, 2, 2, 4], &mut room)?;
    /// assert_eq!(image.nodes_with_children(), 3);
    /// # Ok::<(), parlaqen::Error>(())
    /// ```
    #[must_use]
    pub const fn nodes_with_children(&self) -> u32 {
        self.counts.runs_of_ones - 1
    }

    /// Every node, in level order.
    ///
    /// ```
    /// # use parlaqen::{size, Image, Node};
    /// # let mut room = [0; size::image_room(7)];
    /// # let image = Image::seal_in(&[0, 1, 1, 1, 2, 2, 4], &mut room)?;
    /// assert_eq!(image.all_nodes().len(), 7);
    /// assert_eq!(image.all_nodes().leftmost(), Some(Node::ROOT));
    /// # Ok::<(), parlaqen::Error>(())
    /// ```
    pub const fn all_nodes(&self) -> Nodes {
        Nodes::between(Some(Node::ROOT), Node::new(self.counts.nodes))
    }
}

impl<B: AsRef<[u8]>> Image<B> {
    /// Makes the whole check and keeps the bytes. Where it is refused they are dropped, so a caller who still needs
    /// them lends them.
    ///
    /// ```
    /// use parlaqen::{calls::image_of_parents, Error, Image, WrongSize, BLOCK_BYTES};
    ///
    /// let mut bytes = [0; 5 * BLOCK_BYTES];
    /// image_of_parents(&[0, 1, 1], &mut bytes)?;
    /// assert_eq!(Image::check(&bytes)?.nodes(), 3);
    /// let cut_off = Error::WrongSize(WrongSize::ImageBlocks { blocks: 4 });
    /// assert_eq!(Image::check(&bytes[..4 * BLOCK_BYTES]), Err(cut_off));
    /// # Ok::<(), Error>(())
    /// ```
    ///
    /// # Errors
    ///
    /// [`Error::WrongSize`], [`Error::WrongSums`], [`Error::OtherVersion`], [`Error::WrongHeader`],
    /// [`Error::WrongStrings`], [`Error::WrongCounts`], [`Error::WrongSamples`].
    pub fn check(bytes: B) -> Result<Self> {
        let counts = check_image(bytes.as_ref())?;
        Ok(Self { bytes, counts })
    }

    /// The bytes of the image.
    ///
    /// ```
    /// # use parlaqen::{size, Image};
    /// # let mut room = [0; size::image_room(7)];
    /// # let image = Image::seal_in(&[0, 1, 1, 1, 2, 2, 4], &mut room)?;
    /// assert_eq!(image.as_bytes()[..8], [1, 0, 0, 0, 7, 0, 0, 0]); // the version, and the number of nodes
    /// # Ok::<(), parlaqen::Error>(())
    /// ```
    #[must_use]
    pub fn as_bytes(&self) -> &[u8] {
        self.bytes.as_ref()
    }

    /// The parent; none for the root.
    ///
    /// ```
    /// # use parlaqen::{size, Image, Node};
    /// # let mut room = [0; size::image_room(7)];
    /// # let image = Image::seal_in(&[0, 1, 1, 1, 2, 2, 4], &mut room)?;
    /// assert_eq!(image.parent(Node::try_from(7)?)?, Node::new(4));
    /// assert_eq!(image.parent(Node::ROOT)?, None);
    /// # Ok::<(), parlaqen::Error>(())
    /// ```
    ///
    /// # Errors
    ///
    /// [`Error::NoSuchNode`]; if the bytes have changed, those of [`Image::check`].
    pub fn parent(&self, node: Node) -> Result<Option<Node>> {
        one_node(self.as_bytes(), node, Question::Parent(node))
    }

    /// The first child; none for a leaf.
    ///
    /// ```
    /// # use parlaqen::{size, Image, Node};
    /// # let mut room = [0; size::image_room(7)];
    /// # let image = Image::seal_in(&[0, 1, 1, 1, 2, 2, 4], &mut room)?;
    /// assert_eq!(image.first_child(Node::try_from(2)?)?, Node::new(5));
    /// assert_eq!(image.first_child(Node::try_from(3)?)?, None);
    /// # Ok::<(), parlaqen::Error>(())
    /// ```
    ///
    /// # Errors
    ///
    /// [`Error::NoSuchNode`]; if the bytes have changed, those of [`Image::check`].
    pub fn first_child(&self, node: Node) -> Result<Option<Node>> {
        one_node(self.as_bytes(), node, Question::FirstChild(node))
    }

    /// The last child; none for a leaf.
    ///
    /// ```
    /// # use parlaqen::{size, Image, Node};
    /// # let mut room = [0; size::image_room(7)];
    /// # let image = Image::seal_in(&[0, 1, 1, 1, 2, 2, 4], &mut room)?;
    /// assert_eq!(image.last_child(Node::try_from(2)?)?, Node::new(6));
    /// assert_eq!(image.last_child(Node::try_from(3)?)?, None);
    /// # Ok::<(), parlaqen::Error>(())
    /// ```
    ///
    /// # Errors
    ///
    /// [`Error::NoSuchNode`]; if the bytes have changed, those of [`Image::check`].
    pub fn last_child(&self, node: Node) -> Result<Option<Node>> {
        one_node(self.as_bytes(), node, Question::LastChild(node))
    }

    /// The sibling to the right; none for the last of them.
    ///
    /// ```
    /// # use parlaqen::{size, Image, Node};
    /// # let mut room = [0; size::image_room(7)];
    /// # let image = Image::seal_in(&[0, 1, 1, 1, 2, 2, 4], &mut room)?;
    /// assert_eq!(image.next_sibling(Node::try_from(2)?)?, Node::new(3));
    /// assert_eq!(image.next_sibling(Node::try_from(4)?)?, None);
    /// # Ok::<(), parlaqen::Error>(())
    /// ```
    ///
    /// # Errors
    ///
    /// [`Error::NoSuchNode`]; if the bytes have changed, those of [`Image::check`].
    pub fn next_sibling(&self, node: Node) -> Result<Option<Node>> {
        one_node(self.as_bytes(), node, Question::NextSibling(node))
    }

    /// The sibling to the left; none for the first of them.
    ///
    /// ```
    /// # use parlaqen::{size, Image, Node};
    /// # let mut room = [0; size::image_room(7)];
    /// # let image = Image::seal_in(&[0, 1, 1, 1, 2, 2, 4], &mut room)?;
    /// assert_eq!(image.previous_sibling(Node::try_from(4)?)?, Node::new(3));
    /// assert_eq!(image.previous_sibling(Node::try_from(2)?)?, None);
    /// # Ok::<(), parlaqen::Error>(())
    /// ```
    ///
    /// # Errors
    ///
    /// [`Error::NoSuchNode`]; if the bytes have changed, those of [`Image::check`].
    pub fn previous_sibling(&self, node: Node) -> Result<Option<Node>> {
        one_node(self.as_bytes(), node, Question::PreviousSibling(node))
    }

    /// The number of children.
    ///
    /// ```
    /// # use parlaqen::{size, Image, Node};
    /// # let mut room = [0; size::image_room(7)];
    /// # let image = Image::seal_in(&[0, 1, 1, 1, 2, 2, 4], &mut room)?;
    /// assert_eq!(image.degree(Node::ROOT)?, 3);
    /// assert_eq!(image.degree(Node::try_from(3)?)?, 0);
    /// # Ok::<(), parlaqen::Error>(())
    /// ```
    ///
    /// # Errors
    ///
    /// [`Error::NoSuchNode`]; if the bytes have changed, those of [`Image::check`].
    pub fn degree(&self, node: Node) -> Result<u32> {
        one_number(self.as_bytes(), node, Question::Degree(node))
    }

    /// The rank of the node, its number among its siblings, from 1; none for the root.
    ///
    /// For every other node, [`child`](Self::child) of its parent and this number is the node again. So a screen that
    /// shows "2 of 3" beside a node, its rank and the [`degree`](Self::degree) of its parent, shows nothing beside the
    /// root.
    ///
    /// ```
    /// # use parlaqen::{size, Image, Node};
    /// # let mut room = [0; size::image_room(7)];
    /// # let image = Image::seal_in(&[0, 1, 1, 1, 2, 2, 4], &mut room)?;
    /// assert_eq!(image.child_rank(Node::try_from(6)?)?, Some(2));
    /// assert_eq!(image.child_rank(Node::ROOT)?, None);
    /// # Ok::<(), parlaqen::Error>(())
    /// ```
    ///
    /// # Errors
    ///
    /// [`Error::NoSuchNode`]; if the bytes have changed, those of [`Image::check`].
    pub fn child_rank(&self, node: Node) -> Result<Option<u32>> {
        one_number(self.as_bytes(), node, Question::ChildRank(node)).map(rank)
    }

    /// The child of that number, from 1; none for 0 and where there are not so many children.
    ///
    /// ```
    /// # use parlaqen::{size, Image, Node};
    /// # let mut room = [0; size::image_room(7)];
    /// # let image = Image::seal_in(&[0, 1, 1, 1, 2, 2, 4], &mut room)?;
    /// let node = Node::try_from(2)?;
    /// assert_eq!(image.child(node, 2)?, Node::new(6));
    /// assert_eq!((image.child(node, 0)?, image.child(node, 3)?), (None, None));
    /// # Ok::<(), parlaqen::Error>(())
    /// ```
    ///
    /// # Errors
    ///
    /// [`Error::NoSuchNode`]; if the bytes have changed, those of [`Image::check`].
    pub fn child(&self, node: Node, number: u32) -> Result<Option<Node>> {
        one_node(self.as_bytes(), node, Question::ChildNumber { node, number })
    }

    /// The sibling so many places to the right, to the left where negative; 0 places away is the node itself.
    ///
    /// ```
    /// # use parlaqen::{size, Image, Node};
    /// # let mut room = [0; size::image_room(7)];
    /// # let image = Image::seal_in(&[0, 1, 1, 1, 2, 2, 4], &mut room)?;
    /// let node = Node::try_from(3)?;
    /// assert_eq!((image.sibling_at(node, -1)?, image.sibling_at(node, 1)?), (Node::new(2), Node::new(4)));
    /// assert_eq!(image.sibling_at(node, 2)?, None);
    /// # Ok::<(), parlaqen::Error>(())
    /// ```
    ///
    /// # Errors
    ///
    /// [`Error::NoSuchNode`]; if the bytes have changed, those of [`Image::check`].
    pub fn sibling_at(&self, node: Node, right: i32) -> Result<Option<Node>> {
        one_node(self.as_bytes(), node, Question::SiblingAt { node, right })
    }

    /// Has the node no children?
    ///
    /// ```
    /// # use parlaqen::{size, Image, Node};
    /// # let mut room = [0; size::image_room(7)];
    /// # let image = Image::seal_in(&[0, 1, 1, 1, 2, 2, 4], &mut room)?;
    /// assert!(image.is_leaf(Node::try_from(3)?)?);
    /// assert!(!image.is_leaf(Node::ROOT)?);
    /// # Ok::<(), parlaqen::Error>(())
    /// ```
    ///
    /// # Errors
    ///
    /// [`Error::NoSuchNode`]; if the bytes have changed, those of [`Image::check`].
    pub fn is_leaf(&self, node: Node) -> Result<bool> {
        Ok(one_number(self.as_bytes(), node, Question::Leaf(node))? != 0)
    }

    /// The children, from first to last; none for a leaf.
    ///
    /// ```
    /// # use parlaqen::{size, Image, Node};
    /// # let mut room = [0; size::image_room(7)];
    /// # let image = Image::seal_in(&[0, 1, 1, 1, 2, 2, 4], &mut room)?;
    /// let children = image.children(Node::ROOT)?;
    /// assert!(children.map(Node::get).eq([2, 3, 4]));
    /// assert!(image.children(Node::try_from(3)?)?.is_empty());
    /// # Ok::<(), parlaqen::Error>(())
    /// ```
    ///
    /// # Errors
    ///
    /// [`Error::NoSuchNode`]; if the bytes have changed, those of [`Image::check`].
    pub fn children(&self, node: Node) -> Result<Nodes> {
        children_of(self.as_bytes(), node)
    }

    /// The node and its siblings, from first to last; the root alone for the root.
    ///
    /// ```
    /// # use parlaqen::{size, Image, Node};
    /// # let mut room = [0; size::image_room(7)];
    /// # let image = Image::seal_in(&[0, 1, 1, 1, 2, 2, 4], &mut room)?;
    /// let siblings = image.siblings(Node::try_from(3)?)?;
    /// assert!(siblings.map(Node::get).eq([2, 3, 4]));
    /// assert!(image.siblings(Node::ROOT)?.eq([Node::ROOT]));
    /// # Ok::<(), parlaqen::Error>(())
    /// ```
    ///
    /// # Errors
    ///
    /// [`Error::NoSuchNode`]; if the bytes have changed, those of [`Image::check`].
    pub fn siblings(&self, node: Node) -> Result<Nodes> {
        let image = self.as_bytes();
        match one_node(image, node, Question::Parent(node))? {
            Some(parent) => children_of(image, parent),
            None => Ok(Nodes::between(Some(node), Some(node))),
        }
    }

    /// One answer to each question, for any number of questions. Needs the feature `alloc`.
    ///
    /// They are handed over in as few calls as there can be, of up to 256 questions each; a list of no questions is one
    /// call too, which makes the check. If one of these is refused, there are no answers.
    ///
    /// ```
    /// use parlaqen::{seal, Answer, Error, Node, Question};
    ///
    /// let image = seal(&[0, 1, 1, 1, 2, 2, 4])?;
    /// let degrees: Vec<Question> = image.all_nodes().map(Question::Degree).collect();
    /// assert_eq!(image.ask(&degrees)?, [3, 2, 0, 1, 0, 0, 0].map(Answer::Number));
    ///
    /// let mut many = vec![Question::Parent(Node::ROOT); 1_000];
    /// many[699] = Question::Leaf(Node::try_from(8)?);
    /// assert_eq!(image.ask(&many), Err(Error::NoSuchNodeAsked { question: 700, node: 8 }));
    /// # Ok::<(), Error>(())
    /// ```
    ///
    /// # Errors
    ///
    /// [`Error::NoSuchNodeAsked`] with the lowest question, from 1 in the whole list, about a node that the tree does
    /// not have; [`Error::NoMetresAsked`] with the lowest one for metres, where the image has none; if the bytes have
    /// changed, those of [`Image::check`].
    #[cfg(feature = "alloc")]
    pub fn ask(&self, questions: &[Question]) -> Result<Vec<Answer>> {
        let image = self.as_bytes();
        let mut answers = vec![Answer::default(); questions.len()];
        if questions.is_empty() {
            answer_into(image, questions, &mut answers)?; // there is no chunk below, and the check is still to be made
        }
        let calls = questions.chunks(MOST_QUESTIONS).zip(answers.chunks_mut(MOST_QUESTIONS));
        for (call, (questions, answers)) in calls.enumerate() {
            let answered = answer_into(image, questions, answers);
            answered.map_err(|error| error.after_questions(call * MOST_QUESTIONS))?;
        }
        Ok(answers)
    }

    /// One answer to each of up to 256 questions, in the beginning of a lent slice. It gives that part of the slice;
    /// what lies after it stays.
    ///
    /// The numbers that are handed over and those that come back take 4 KiB of stack, beside that of the library.
    ///
    /// ```
    /// use parlaqen::{size, Answer, Error, Image, Node, Question};
    ///
    /// let mut room = [0; size::image_room(7)];
    /// let image = Image::seal_in(&[0, 1, 1, 1, 2, 2, 4], &mut room)?;
    /// let mut answers = [Answer::default(); 4];
    /// let asked = [Question::Degree(Node::ROOT), Question::Leaf(Node::ROOT)];
    /// assert_eq!(image.ask_into(&asked, &mut answers)?, [Answer::Number(3), Answer::Leaf(false)]);
    /// assert_eq!(image.ask_into(&asked, &mut answers[..1]), Err(Error::NoRoom));
    /// # Ok::<(), Error>(())
    /// ```
    ///
    /// # Errors
    ///
    /// [`Error::WrongSize`] for more than 256 questions; [`Error::NoSuchNodeAsked`] with the lowest question, from 1,
    /// about a node that the tree does not have; [`Error::NoMetresAsked`] with the lowest one for metres, where the
    /// image has none; [`Error::NoRoom`] for fewer answers than questions; if the bytes have changed, those of
    /// [`Image::check`].
    pub fn ask_into<'a>(&self, questions: &[Question], answers: &'a mut [Answer]) -> Result<&'a [Answer]> {
        answer_into(self.as_bytes(), questions, answers)
    }

    /// `node` and everything below it, parents first, children in order. Needs the feature `alloc`.
    ///
    /// ```
    /// use parlaqen::{seal, Node};
    ///
    /// let image = seal(&[0, 1, 1, 1, 2, 2, 4])?;
    /// let mut outline = String::new();
    /// for listed in image.list(Node::ROOT)? {
    ///     outline += &format!("{:1$}{2}\n", "", listed.depth as usize, listed.node);
    /// }
    /// assert_eq!(outline, "1\n 2\n  5\n  6\n 3\n 4\n  7\n");
    /// # Ok::<(), parlaqen::Error>(())
    /// ```
    ///
    /// # Errors
    ///
    /// [`Error::NoSuchNode`], [`Error::TooDeep`]; if the bytes have changed, those of [`Image::check`] and
    /// [`Error::NoRoom`].
    #[cfg(feature = "alloc")]
    pub fn list(&self, node: Node) -> Result<Listing<Vec<u32>>> {
        let mut numbers = vec![0; size::listing_numbers(self.counts.nodes as usize)];
        let listed = list(self.as_bytes(), node.get(), &mut numbers)?;
        numbers.truncate(size::listing_numbers(listed));
        Listing::new(numbers, listed)
    }

    /// `node` and everything below it, parents first, children in order, with its numbers in a lent slice.
    ///
    /// [`size::listing_numbers`](crate::size::listing_numbers) are always enough. What lies after those used stays.
    ///
    /// ```
    /// use parlaqen::{size, Image, Listed, Node};
    ///
    /// let mut room = [0; size::image_room(7)];
    /// let image = Image::seal_in(&[0, 1, 1, 1, 2, 2, 4], &mut room)?;
    /// let (four, seven) = (Node::try_from(4)?, Node::try_from(7)?);
    /// let mut numbers = [0; size::listing_numbers(2)];
    /// let listing = image.list_in(four, &mut numbers)?;
    /// assert!(listing.eq([Listed { node: four, depth: 0 }, Listed { node: seven, depth: 1 }]));
    /// # Ok::<(), parlaqen::Error>(())
    /// ```
    ///
    /// # Errors
    ///
    /// [`Error::NoSuchNode`], [`Error::TooDeep`], [`Error::NoRoom`]; if the bytes have changed, those of
    /// [`Image::check`].
    pub fn list_in<'a>(&self, node: Node, numbers: &'a mut [u32]) -> Result<Listing<&'a [u32]>> {
        let listed = list(self.as_bytes(), node.get(), numbers)?;
        Listing::new(numbers, listed)
    }

    /// The parent list of the tree. Needs the feature `alloc`; without it there is [`parents_of_image`].
    ///
    /// ```
    /// let image = parlaqen::seal(&[0, 1, 1, 1, 2, 2, 4])?;
    /// assert_eq!(image.parents()?, [0, 1, 1, 1, 2, 2, 4]);
    /// # Ok::<(), parlaqen::Error>(())
    /// ```
    ///
    /// # Errors
    ///
    /// None but, if the bytes have changed, those of [`Image::check`] and [`Error::NoRoom`].
    #[cfg(feature = "alloc")]
    pub fn parents(&self) -> Result<Vec<u32>> {
        let mut parents = vec![0; self.counts.nodes as usize];
        let nodes = parents_of_image(self.as_bytes(), &mut parents)?;
        parents.truncate(nodes);
        Ok(parents)
    }

    /// The metres of each node, in level order; none where the image has no metres, which is not 0 metres. Needs the
    /// feature `alloc`; without it there is [`metres_of_image`].
    ///
    /// [`Question::Metres`] asks for those of one node.
    ///
    /// ```
    /// use parlaqen::{seal, Seal};
    ///
    /// let image = Seal::of(&[0, 1, 1]).metres(&[0, 5_000, 8_000]).image()?;
    /// assert_eq!(image.metres()?, Some(vec![0, 5_000, 8_000]));
    /// assert_eq!(seal(&[0, 1, 1])?.metres()?, None);
    /// # Ok::<(), parlaqen::Error>(())
    /// ```
    ///
    /// # Errors
    ///
    /// None but, if the bytes have changed, those of [`Image::check`] and [`Error::NoRoom`].
    #[cfg(feature = "alloc")]
    pub fn metres(&self) -> Result<Option<Vec<u32>>> {
        let mut metres = vec![0; self.counts.nodes as usize];
        match metres_of_image(self.as_bytes(), &mut metres) {
            Ok(nodes) => {
                metres.truncate(nodes);
                Ok(Some(metres))
            }
            Err(Error::NoMetres) => Ok(None),
            Err(refused) => Err(refused),
        }
    }
}

// The following take bytes and no image. A method of the image asks for its bytes once and hands them down, so that all
// of its calls to the library are about the same bytes, even if its container gives others every time.

/// The library's answers to questions that are all about one node.
fn ask_of<const N: usize>(image: &[u8], node: Node, questions: [Question; N]) -> Result<[u32; N]> {
    let numbers = questions.map(Question::numbers);
    let mut answers = [0; N];
    let answer = sys::ask(image, numbers.as_flattened(), &mut answers);
    counts(answer, Handed::ImageAndNode { bytes: image.len(), node: node.get() })?;
    Ok(answers)
}

/// The answer to a question about a node, which is a number.
fn one_number(image: &[u8], node: Node, question: Question) -> Result<u32> {
    let [number] = ask_of(image, node, [question])?;
    Ok(number)
}

/// The answer to a question about a node, which is a node or that there is none.
fn one_node(image: &[u8], node: Node, question: Question) -> Result<Option<Node>> {
    one_number(image, node, question).map(Node::new)
}

fn children_of(image: &[u8], node: Node) -> Result<Nodes> {
    let [first, last] = ask_of(image, node, [Question::FirstChild(node), Question::LastChild(node)])?;
    Ok(Nodes::between(Node::new(first), Node::new(last)))
}

/// One answer to each of up to 256 questions, in the beginning of `answers`.
fn answer_into<'a>(image: &[u8], questions: &[Question], answers: &'a mut [Answer]) -> Result<&'a [Answer]> {
    // To the library one question too many is as wrong as more of them, so no more need be handed over.
    let mut numbers = [[0; NUMBERS_OF_QUESTION]; MOST_QUESTIONS + 1];
    let handed_over = questions.len().min(numbers.len());
    for (numbers, question) in numbers.iter_mut().zip(questions) {
        *numbers = question.numbers();
    }
    let mut given = [0; MOST_QUESTIONS];
    let room = answers.len().min(given.len());
    let answer = sys::ask(image, numbers[..handed_over].as_flattened(), &mut given[..room]);
    let answered = counts(answer, Handed::ImageAndQuestions { bytes: image.len(), questions });
    let (answered, _) = answered.map_err(|refused| or_no_metres(image, questions, refused))?;
    let answered = answers.get_mut(..answered as usize).ok_or(Error::UNLISTED_COUNTS)?;
    for ((answer, question), number) in answered.iter_mut().zip(questions).zip(given) {
        *answer = question.answer(number);
    }
    Ok(answered)
}

/// The refusal of a list of questions, or that the image has no metres, if that is why: the library has one code for
/// both.
fn or_no_metres(image: &[u8], questions: &[Question], refused: Error) -> Error {
    let Error::NoSuchNodeAsked { question, .. } = refused else { return refused };
    let asked_for_metres = matches!(question_at(questions, question), Some(Question::Metres(_)));
    if asked_for_metres && metres_of_image(image, &mut []) == Err(Error::NoMetres) {
        return Error::NoMetresAsked { question };
    }
    refused
}

impl<B: AsRef<[u8]>> AsRef<[u8]> for Image<B> {
    fn as_ref(&self) -> &[u8] {
        self.as_bytes()
    }
}

impl<B: AsRef<[u8]>, C: AsRef<[u8]>> PartialEq<Image<C>> for Image<B> {
    fn eq(&self, other: &Image<C>) -> bool {
        self.as_bytes() == other.as_bytes()
    }
}

impl<B: AsRef<[u8]>> Eq for Image<B> {}

impl<B: AsRef<[u8]>> Hash for Image<B> {
    fn hash<H: Hasher>(&self, state: &mut H) {
        self.as_bytes().hash(state);
    }
}

impl<B: AsRef<[u8]>> fmt::Debug for Image<B> {
    fn fmt(&self, f: &mut fmt::Formatter<'_>) -> fmt::Result {
        f.debug_struct("Image")
            .field("nodes", &self.nodes())
            .field("nodes_with_children", &self.nodes_with_children())
            .field("bytes", &self.as_bytes().len())
            .finish_non_exhaustive()
    }
}
