//! A sealed store for one tree of up to 65,535 nodes (LOUDS++), tree strings laid end to end, and trees as parenthesis
//! text: the thirteen calls of `include/parlaqen.h` for Rust.
//!
//! A parent list, with the metres of each node or without, is sealed to an [`Image`], which answers by itself: the
//! parent, children and siblings of a [`Node`], lists of [`Question`]s, listings, and metres. [`TreeString`] and
//! [`Pack`] are what is sent, and a [`TreeText`] is what is exchanged with tools that have trees as text. All of them
//! only hand over to the library, which makes every check itself: whatever is handed in, the answer is a result or an
//! [`Error`] that says in words what is wrong and where, and has the library's code and place.
//!
//! Every method that asks an image makes the whole check of it, so ask many questions at once.
//!
#![cfg_attr(feature = "alloc", doc = "```")]
#![cfg_attr(not(feature = "alloc"), doc = "```text")]
//! use parlaqen::{seal, Answer, Error, Image, Node, Question};
//!
//! let sealed = seal(&[0, 1, 1, 1, 2, 2, 4])?; // the parent of each node, in level order
//! let copy: Vec<u8> = sealed.into_bytes(); // what a container keeps
//!
//! let diary = Image::check(copy)?; // a `Vec<u8>`, a `&[u8]`, an `Arc<[u8]>`
//! let weeks = diary.children(Node::ROOT)?;
//! let runs_of_each: Vec<Question> = weeks.map(Question::Degree).collect();
//! assert_eq!(diary.ask(&runs_of_each)?, [2, 0, 1].map(Answer::Number));
//! assert_eq!(diary.parent(Node::try_from(7)?)?, Node::new(4));
//!
//! let refused = diary.parent(Node::try_from(9)?).unwrap_err();
//! assert_eq!(refused, Error::NoSuchNode { node: 9 });
//! assert_eq!(refused.to_string(), "the tree has no node 9");
//! # Ok::<(), Error>(())
//! ```
//!
//! # Linking
//!
//! The archive `libparlaqen.a` is linked from the directory that the environment variable `PARLAQEN_LIB_DIR` names
//! when the crate is built, or else from `target/lib` of the repository, where `tools/archive` puts it. Where programs
//! are built for several machines, `PARLAQEN_LIB_DIR_<target>` names the directory for one of them, and goes before
//! the other; `<target>` is for example `aarch64-unknown-linux-gnu` or `aarch64_unknown_linux_gnu`. A relative
//! directory counts from that of this crate. Checking and documenting need no archive.
//!
//! # Features
//!
//! The crate uses no `std`. The feature `alloc`, which is on by default, has everything that makes the room for its
//! results itself: [`seal`], [`Seal::image`], [`Image::ask`], [`Image::list`], [`Image::parents`], [`Image::metres`],
//! [`TreeString`], [`Pack`] and [`TreeText`]. Without it there are [`Image::seal_in`], [`Seal::image_in`],
//! [`Image::ask_into`], [`Image::list_in`], and the thirteen calls of the header in [`calls`]. Those take lent slices,
//! for which [`size`] has the sizes; a refused call leaves every slice as it was.
//!
//! # Fields
//!
//! Plain records of results, such as [`calls::Counts`], [`Part`] and [`Listed`], have public fields and no rule between
//! them. Types that keep something true, such as [`Image`], [`Node`], [`Nodes`], [`Listing`], [`TreeString`], [`Pack`]
//! and [`TreeText`], have private ones, and so has [`Seal`], which is made step by step.

#![no_std]
// Links to what needs `alloc` lead nowhere without it; their names are still right.
#![cfg_attr(not(feature = "alloc"), allow(rustdoc::broken_intra_doc_links))]

// The library's sizes have 64 bits on every machine. A call with shorter ones would hand it lists of other lengths.
#[cfg(not(target_pointer_width = "64"))]
compile_error!("parlaqen: a size must have 64 bits, as in the library; else a call would answer 'done' and do nothing");

#[cfg(feature = "alloc")]
extern crate alloc;
#[cfg(test)]
extern crate std;

pub mod calls;
mod error;
mod image;
mod listing;
mod node;
mod question;
mod sealing;
pub mod size;
#[cfg(feature = "alloc")]
mod strings;
#[allow(unsafe_code)]
mod sys;
#[cfg(feature = "alloc")]
mod text;

pub use error::{Error, WrongSize};
pub use image::Image;
pub use listing::{Listed, Listing};
pub use node::{Node, Nodes};
pub use question::{Answer, Question};
#[cfg(feature = "alloc")]
pub use sealing::seal;
pub use sealing::Seal;
#[cfg(feature = "alloc")]
pub use strings::{Pack, Part, TreeString};
#[cfg(feature = "alloc")]
pub use text::TreeText;

/// What every call gives: its result, or why it was refused and where.
///
/// ```
/// fn bits(parents: &[u32]) -> parlaqen::Result<usize> {
///     parlaqen::calls::string_of_parents(parents, &mut [0; 9])
/// }
/// assert_eq!(bits(&[0, 1]), Ok(5));
/// ```
pub type Result<T> = core::result::Result<T, Error>;

/// The version of this crate, which is that of the header it binds.
///
/// ```
/// assert!(parlaqen::VERSION.starts_with("0.6."));
/// ```
pub const VERSION: &str = env!("CARGO_PKG_VERSION");
/// The most nodes that a tree has.
///
/// ```
/// assert_eq!(parlaqen::MOST_NODES, 65_535);
/// ```
pub const MOST_NODES: usize = 65_535;
/// The most bits that a tree string or a pack has.
///
/// ```
/// assert_eq!(parlaqen::MOST_BITS, parlaqen::size::string_bits(parlaqen::MOST_NODES));
/// ```
pub const MOST_BITS: usize = 131_071;
/// The most trees that a pack has.
///
/// ```
/// let (mut starts, mut sizes) = ([0; parlaqen::MOST_TREES], [0; parlaqen::MOST_TREES]);
/// parlaqen::calls::split(&[0b1001_0000], 6, 2, &mut starts, &mut sizes)?;
/// # Ok::<(), parlaqen::Error>(())
/// ```
pub const MOST_TREES: usize = 256;
/// The most questions that one call answers.
///
/// ```
/// use parlaqen::{Answer, MOST_QUESTIONS};
///
/// let answers = [Answer::default(); MOST_QUESTIONS]; // room for any one call
/// assert_eq!(answers.len(), 256);
/// ```
pub const MOST_QUESTIONS: usize = 256;
/// The most bytes that a text has when it is read, its blanks among them.
///
/// ```
/// use parlaqen::{calls::parents_of_text, Error, WrongSize, MOST_TEXT};
///
/// let mut text = vec![b' '; MOST_TEXT + 1];
/// text[..2].copy_from_slice(b"()");
/// assert_eq!(parents_of_text(&text[..MOST_TEXT], &mut [0]), Ok(1));
/// let too_long = Error::WrongSize(WrongSize::TextTooLong { bytes: 1_048_577 });
/// assert_eq!(parents_of_text(&text, &mut [0]), Err(too_long));
/// ```
pub const MOST_TEXT: usize = 1_048_576;
/// The bytes of a block of an image.
///
/// ```
/// assert_eq!(parlaqen::size::image_room(1) / parlaqen::BLOCK_BYTES, 5);
/// ```
pub const BLOCK_BYTES: usize = 512;
/// The bytes of the largest image without metres.
///
/// ```
/// assert_eq!(parlaqen::MOST_TREE_IMAGE_BYTES, parlaqen::size::image_room(parlaqen::MOST_NODES));
/// ```
pub const MOST_TREE_IMAGE_BYTES: usize = 27_136;
/// The bytes of the largest image, which has metres: no longer one is accepted.
///
/// ```
/// use parlaqen::{size, MOST_IMAGE_BYTES, MOST_NODES};
///
/// assert_eq!(MOST_IMAGE_BYTES, size::image_room(MOST_NODES) + size::metres_bytes(MOST_NODES));
/// ```
pub const MOST_IMAGE_BYTES: usize = 293_888;
