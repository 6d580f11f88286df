//! An independent model of Parlaqen, written from documents 01 and 02 alone, and its comparison with the library.
//!
//! - [`model`] says what each call answers and what it leaves in every lent list;
//! - [`library`] makes the same calls to the linked archive, on lists that end or begin at unreadable pages
//!   ([`pages`]);
//! - [`compare`] makes up the calls, in groups, and holds the two against each other;
//! - [`script`] says what the program `cases` prints for its script.

pub mod compare;
pub mod library;
pub mod model;
pub mod pages;
pub mod script;
