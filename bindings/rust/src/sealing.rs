#[cfg(feature = "alloc")]
use alloc::{vec, vec::Vec};
use core::fmt;

use crate::calls::{image_of_parents, image_with_metres, Counts};
#[cfg(feature = "alloc")]
use crate::{size, MOST_NODES};
use crate::{Error, Image, Result};

/// The sealed image of a parent list, without metres, in as many bytes as it takes. Needs the feature `alloc`.
///
/// Without it there is [`Image::seal_in`]. [`Seal`] takes metres too.
///
/// A parent list has for each node, in level order, the number of its parent: the first number is 0; number i, for each
/// later node i, is from 1 to i - 1 and not below the one before it. Going through nested records breadth first makes
/// one, and an array of other data in the same order, where [`Node::index`](crate::Node::index) finds them:
///
/// ```
/// use parlaqen::{seal, Node};
/// use std::collections::VecDeque;
///
/// struct Record {
///     name: &'static str,
///     children: Vec<Record>,
/// }
///
/// fn in_level_order(root: &Record) -> (Vec<u32>, Vec<&'static str>) {
///     let (mut parents, mut names) = (Vec::new(), Vec::new());
///     let mut waiting = VecDeque::from([(0, root)]);
///     while let Some((parent, record)) = waiting.pop_front() {
///         parents.push(parent);
///         names.push(record.name);
///         let node = parents.len() as u32;
///         waiting.extend(record.children.iter().map(|child| (node, child)));
///     }
///     (parents, names)
/// }
///
/// let record = |name, children| Record { name, children };
/// let week_1 = record("week 1", vec![record("Monday", vec![]), record("Thursday", vec![])]);
/// let week_2 = record("week 2", vec![record("Tuesday", vec![])]);
/// let (parents, names) = in_level_order(&record("season", vec![week_1, week_2]));
/// assert_eq!(parents, [0, 1, 1, 2, 2, 3]);
/// assert_eq!(names, ["season", "week 1", "week 2", "Monday", "Thursday", "Tuesday"]);
///
/// let image = seal(&parents)?;
/// let run = image.last_child(Node::try_from(2)?)?;
/// assert_eq!(run.map(|node| names[node.index()]), Some("Thursday"));
/// # Ok::<(), parlaqen::Error>(())
/// ```
///
/// # Errors
///
/// [`Error::WrongSize`], [`Error::NotParents`].
#[cfg(feature = "alloc")]
pub fn seal(parents: &[u32]) -> Result<Image<Vec<u8>>> {
    Seal::of(parents).image()
}

/// What is to be sealed: a parent list and, if they are given, the metres of each node.
///
/// Without metres the image is one of version 1, and it has no metres, which is not 0 metres.
///
/// ```
/// use parlaqen::{size, Answer, Node, Question, Seal};
///
/// let mut room = [0; size::image_room(3) + size::metres_bytes(3)];
/// let image = Seal::of(&[0, 1, 1]).metres(&[0, 5_000, 8_000]).image_in(&mut room)?;
/// let mut answers = [Answer::default(); 1];
/// image.ask_into(&[Question::Metres(Node::try_from(3)?)], &mut answers)?;
/// assert_eq!(answers, [Answer::Number(8_000)]);
/// # Ok::<(), parlaqen::Error>(())
/// ```
#[derive(Clone, Copy)]
#[must_use = "nothing is sealed before the image is asked for"]
pub struct Seal<'a> {
    parents: &'a [u32],
    metres: Option<&'a [u32]>,
}

impl<'a> Seal<'a> {
    /// Begins with a parent list, and no metres.
    ///
    /// ```
    /// use parlaqen::{size, Image, Seal};
    ///
    /// let (mut room, mut other_room) = ([0; size::image_room(3)], [0; size::image_room(3)]);
    /// let image = Seal::of(&[0, 1, 1]).image_in(&mut room)?;
    /// assert_eq!(image, Image::seal_in(&[0, 1, 1], &mut other_room)?);
    /// # Ok::<(), parlaqen::Error>(())
    /// ```
    pub const fn of(parents: &'a [u32]) -> Self {
        Self { parents, metres: None }
    }

    /// Adds the metres of each node, in level order; any number is right for any node. There must be as many as nodes:
    /// an empty list is not the same as none, and is refused when the image is made.
    ///
    /// ```
    /// use parlaqen::{Error, Seal, WrongSize};
    ///
    /// let too_few = Error::WrongSize(WrongSize::Metres { metres: 0, nodes: 3 });
    /// assert_eq!(Seal::of(&[0, 1, 1]).metres(&[]).image_in(&mut [0; 4_096]), Err(too_few));
    /// ```
    pub const fn metres(self, metres: &'a [u32]) -> Self {
        Self { metres: Some(metres), ..self }
    }

    /// The sealed image, in as many bytes as it takes. Needs the feature `alloc`.
    ///
    /// ```
    /// use parlaqen::Seal;
    ///
    /// let image = Seal::of(&[0, 1, 1]).metres(&[0, 5_000, 8_000]).image()?;
    /// assert_eq!(image.metres()?, Some(vec![0, 5_000, 8_000]));
    /// # Ok::<(), parlaqen::Error>(())
    /// ```
    ///
    /// # Errors
    ///
    /// [`Error::WrongSize`], [`Error::NotParents`].
    #[cfg(feature = "alloc")]
    pub fn image(self) -> Result<Image<Vec<u8>>> {
        // a list of another length is refused before room matters
        let nodes = self.parents.len().min(MOST_NODES);
        let for_metres = self.metres.map_or(0, |_| size::metres_bytes(nodes));
        let mut bytes = vec![0; size::image_room(nodes) + for_metres];
        let (counts, used) = self.write(&mut bytes)?;
        bytes.truncate(used);
        bytes.shrink_to_fit();
        Ok(Image::sealed(bytes, counts))
    }

    /// The sealed image, over that part of a lent buffer which it takes. What lies after it stays.
    ///
    /// [`size::image_room`](crate::size::image_room) bytes are always enough, and with metres
    /// [`size::metres_bytes`](crate::size::metres_bytes) more.
    ///
    /// ```
    /// use parlaqen::{size, Seal, BLOCK_BYTES};
    ///
    /// let mut room = [0xEE; size::image_room(3) + size::metres_bytes(3) + 1];
    /// let image = Seal::of(&[0, 1, 1]).metres(&[0, 5_000, 8_000]).image_in(&mut room)?;
    /// assert_eq!(image.as_bytes().len(), 6 * BLOCK_BYTES);
    /// assert_eq!(room[6 * BLOCK_BYTES], 0xEE);
    /// # Ok::<(), parlaqen::Error>(())
    /// ```
    ///
    /// # Errors
    ///
    /// [`Error::WrongSize`], [`Error::NotParents`], [`Error::NoRoom`].
    pub fn image_in(self, buffer: &mut [u8]) -> Result<Image<&[u8]>> {
        let (counts, used) = self.write(buffer)?;
        let bytes = buffer.get(..used).ok_or(Error::UNLISTED_COUNTS)?;
        Ok(Image::sealed(bytes, counts))
    }

    /// Writes the image into `room`, and gives its counts and its number of bytes.
    fn write(self, room: &mut [u8]) -> Result<(Counts, usize)> {
        match self.metres {
            Some(metres) => {
                let counts = image_with_metres(self.parents, metres, room)?;
                Ok((counts, counts.image_bytes_with_metres()))
            }
            None => {
                let counts = image_of_parents(self.parents, room)?;
                Ok((counts, counts.image_bytes()))
            }
        }
    }
}

impl fmt::Debug for Seal<'_> {
    fn fmt(&self, f: &mut fmt::Formatter<'_>) -> fmt::Result {
        f.debug_struct("Seal")
            .field("nodes", &self.parents.len())
            .field("metres", &self.metres.map(<[u32]>::len))
            .finish_non_exhaustive()
    }
}
