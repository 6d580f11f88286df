use alloc::string::String;
use alloc::{vec, vec::Vec};
use core::fmt;
use core::str::FromStr;

use crate::calls::{parents_of_text, text_of_parents};
use crate::{size, Error, Result, MOST_NODES};

/// A tree as parenthesis text: a node is `(`, its children, `)`. Needs the feature `alloc`.
///
/// As with [`TreeString`](crate::TreeString), [`Pack`](crate::Pack) and [`Image`](crate::Image),
/// who has one knows that it was found to be one: the check is made when it is made, by
/// [`received`](Self::received) or by `parse`, and not when it is read. Blanks, which are spaces and
/// ends of lines, may be anywhere in what is received. They mean nothing and are not kept, so two
/// texts are equal exactly if their trees are, and what is printed has brackets alone.
///
/// ```
/// use parlaqen::{seal, Error, TreeText};
///
/// let written = TreeText::of_parents(&[0, 1, 1, 1, 2, 2, 4])?;
/// assert_eq!(written.to_string(), "((()())()(()))");
///
/// let read: TreeText = "(\n  (() ())\n  ()\n  (())\n)\n".parse()?;
/// assert_eq!(read, written);
/// assert_eq!(read.parents()?, [0, 1, 1, 1, 2, 2, 4]);
/// assert_eq!(seal(&read.parents()?)?.nodes(), 7);
///
/// assert_eq!("(()".parse::<TreeText>(), Err(Error::NotText { byte: 4 }));
/// # Ok::<(), Error>(())
/// ```
#[derive(Clone, PartialEq, Eq, Hash)]
pub struct TreeText {
    /// One tree on at most 64 levels, without blanks.
    text: String,
}

impl TreeText {
    /// The text of a parent list.
    ///
    /// ```
    /// use parlaqen::{Error, TreeText};
    ///
    /// assert_eq!(TreeText::of_parents(&[0])?.as_str(), "()");
    /// assert_eq!(TreeText::of_parents(&[0, 0]), Err(Error::NotParents { entry: 2 }));
    /// let path: Vec<u32> = (0..65).collect(); // each node below the one before it
    /// assert_eq!(TreeText::of_parents(&path), Err(Error::TooDeep { node: 65 }));
    /// # Ok::<(), Error>(())
    /// ```
    ///
    /// # Errors
    ///
    /// [`Error::WrongSize`], [`Error::NotParents`], [`Error::TooDeep`].
    pub fn of_parents(parents: &[u32]) -> Result<Self> {
        // a longer list is refused before room matters
        let mut text = vec![0; size::text_bytes(parents.len().min(MOST_NODES))];
        text_of_parents(parents, &mut text)?;
        Self::of_brackets(text)
    }

    /// A text that came from elsewhere, with blanks or without, if it is one tree.
    ///
    /// ```
    /// use parlaqen::{Error, TreeText};
    ///
    /// assert_eq!(TreeText::received(b"( ( ) )\r\n".to_vec())?.as_str(), "(())");
    /// assert_eq!(TreeText::received(b"(())\0".to_vec()), Err(Error::NotText { byte: 5 }));
    /// assert_eq!(TreeText::received(vec![b'('; 65]), Err(Error::TooNested { byte: 65 }));
    /// # Ok::<(), Error>(())
    /// ```
    ///
    /// # Errors
    ///
    /// [`Error::WrongSize`], [`Error::NotText`], [`Error::TooNested`].
    pub fn received(text: Vec<u8>) -> Result<Self> {
        // The library looks at the room last, and every tree has a node, which needs some: a text is
        // refused for the lack of it exactly if there is nothing else wrong.
        match parents_of_text(&text, &mut []) {
            Ok(_) | Err(Error::NoRoom) => {
                let mut brackets = text;
                brackets.retain(|byte| !matches!(byte, b' ' | b'\n' | b'\r'));
                Self::of_brackets(brackets)
            }
            Err(refused) => Err(refused),
        }
    }

    /// What the library wrote, or accepted: bytes that are all of ASCII.
    fn of_brackets(brackets: Vec<u8>) -> Result<Self> {
        let text = String::from_utf8(brackets).map_err(|_| Error::UNLISTED_COUNTS)?;
        Ok(Self { text })
    }

    /// The text, brackets alone.
    ///
    /// ```
    /// assert_eq!(parlaqen::TreeText::of_parents(&[0, 1, 1])?.as_str(), "(()())");
    /// # Ok::<(), parlaqen::Error>(())
    /// ```
    #[must_use]
    pub fn as_str(&self) -> &str {
        &self.text
    }

    /// The bytes of the text, brackets alone.
    ///
    /// ```
    /// assert_eq!(parlaqen::TreeText::of_parents(&[0, 1])?.as_bytes(), b"(())");
    /// # Ok::<(), parlaqen::Error>(())
    /// ```
    #[must_use]
    pub fn as_bytes(&self) -> &[u8] {
        self.text.as_bytes()
    }

    /// The text, owned.
    ///
    /// ```
    /// let kept: String = parlaqen::TreeText::of_parents(&[0, 1])?.into_string();
    /// assert_eq!(kept, "(())");
    /// # Ok::<(), parlaqen::Error>(())
    /// ```
    #[must_use]
    pub fn into_string(self) -> String {
        self.text
    }

    /// The number of nodes of the tree.
    ///
    /// ```
    /// let text: parlaqen::TreeText = "(() ())".parse()?;
    /// assert_eq!(text.nodes(), 3);
    /// # Ok::<(), parlaqen::Error>(())
    /// ```
    #[must_use]
    pub fn nodes(&self) -> u32 {
        (self.text.len() / 2) as u32
    }

    /// The parent list.
    ///
    /// ```
    /// let text: parlaqen::TreeText = "(() (()))".parse()?;
    /// assert_eq!(text.parents()?, [0, 1, 1, 3]);
    /// # Ok::<(), parlaqen::Error>(())
    /// ```
    ///
    /// # Errors
    ///
    /// None are known, since this text was found to be one tree; the library, which looks again,
    /// would say.
    pub fn parents(&self) -> Result<Vec<u32>> {
        let mut parents = vec![0; self.nodes() as usize];
        parents_of_text(self.as_bytes(), &mut parents)?;
        Ok(parents)
    }
}

/// The same check as [`TreeText::received`]; bytes are counted as those of UTF-8, which is what a
/// `str` is.
impl FromStr for TreeText {
    type Err = Error;

    fn from_str(text: &str) -> Result<Self> {
        Self::received(text.as_bytes().to_vec())
    }
}

/// Brackets alone.
impl fmt::Display for TreeText {
    fn fmt(&self, f: &mut fmt::Formatter<'_>) -> fmt::Result {
        f.pad(&self.text)
    }
}

impl AsRef<str> for TreeText {
    fn as_ref(&self) -> &str {
        self.as_str()
    }
}

impl AsRef<[u8]> for TreeText {
    fn as_ref(&self) -> &[u8] {
        self.as_bytes()
    }
}

impl From<TreeText> for String {
    fn from(text: TreeText) -> Self {
        text.text
    }
}

impl fmt::Debug for TreeText {
    fn fmt(&self, f: &mut fmt::Formatter<'_>) -> fmt::Result {
        f.debug_struct("TreeText").field("nodes", &self.nodes()).finish_non_exhaustive()
    }
}
