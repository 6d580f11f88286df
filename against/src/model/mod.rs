//! What document 01 says, with what the items of document 02 change and add, written down in the plainest form that
//! computes: parent lists, lists of children, queues and lists of bits. Nothing here ranks, selects or packs words, and
//! speed does not matter.
//!
//! Words in quotation marks in the comments are those of the two documents.

pub mod answers;
pub mod bits;
pub mod calls;
pub mod images;
pub mod listing;
pub mod outline;
pub mod packs;
pub mod questions;
pub mod strings;
pub mod texts;
pub mod trees;
