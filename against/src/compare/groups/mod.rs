//! The groups of calls. Each is a function that makes calls up and hands them to a comparison.

mod demand_three;
mod every_byte;
mod every_small;
mod forms;
mod image_damage;
mod image_faults;
mod limits;
mod metres;
mod pages_and_rooms;
mod parent_lists;
mod questions_and_listings;
mod strings_and_packs;
mod texts;

use super::comparison::{Comparison, Enough};
use super::random::Random;
use super::twelve_cases::{self, Case};

/// A group of calls.
pub struct Group {
    pub name: &'static str,
    /// Whether another seed gives calls that are worth another run; elsewhere little more than what is in the
    /// outputs before the call depends on it.
    pub drawn: bool,
    pub run: fn(&mut Comparison, &mut Random) -> Result<(), Enough>,
}

const fn fixed(name: &'static str, run: fn(&mut Comparison, &mut Random) -> Result<(), Enough>) -> Group {
    Group { name, drawn: false, run }
}

const fn drawn(name: &'static str, run: fn(&mut Comparison, &mut Random) -> Result<(), Enough>) -> Group {
    Group { name, drawn: true, run }
}

/// All groups, the cheapest first.
pub const GROUPS: &[Group] = &[
    fixed("the twelve cases", the_twelve_cases),
    fixed("T with metres", t_with_metres),
    fixed("the root of T", the_root_of_t),
    fixed("texts by hand", texts_by_hand),
    fixed("unreadable pages, every call", pages_and_rooms::every_call_at_pages),
    fixed("empty lists", pages_and_rooms::empty_lists),
    fixed("every room up to two too many", pages_and_rooms::every_room),
    fixed("every parent list up to 5 numbers", every_small::parent_lists),
    fixed("every string up to 11 bits", every_small::strings),
    fixed("every tree up to 7 nodes", every_small::trees),
    fixed("every R1 and R0 up to 6 nodes", every_small::partitioned_strings),
    fixed("every text up to 8 bytes", texts::every_text),
    fixed("every byte in every place of a text", texts::every_byte),
    fixed("every byte of R1 and R0", every_byte::partitioned_strings),
    fixed("every two bytes of R1 and R0", every_byte::two_bytes),
    fixed("every byte of a string", every_byte::strings),
    fixed("every byte of a pack", every_byte::packs),
    fixed("every byte of a pack joined to", every_byte::joined_packs),
    fixed("lists of metres", metres::lists_of_metres),
    fixed("the root of trees of every size", questions_and_listings::the_root),
    drawn("trees of every shape", limits::trees_of_every_shape),
    drawn("parent lists with bad entries", parent_lists::bad_entries),
    drawn("questions", questions_and_listings::questions),
    drawn("listings", questions_and_listings::listings),
    drawn("damaged strings", strings_and_packs::damaged_strings),
    drawn("packs", strings_and_packs::packs),
    drawn("damaged packs", strings_and_packs::damaged_packs),
    drawn("packs around the limits", strings_and_packs::packs_around_the_limits),
    drawn("texts of trees", texts::texts_of_trees),
    drawn("damaged texts", texts::damaged_texts),
    drawn("texts around 64 levels", texts::texts_around_64_levels),
    drawn("images with flipped bits", image_damage::flipped_bits),
    drawn("images edited, sums right again", image_damage::edits_with_right_sums),
    drawn("images with one fault", image_faults::one_fault),
    drawn("images with two faults", image_faults::two_faults),
    fixed("headers of all numbers", image_faults::headers),
    drawn("images of no tree", image_damage::images_of_no_tree),
    drawn("images cut, lengthened, exchanged", image_damage::moved_blocks),
    drawn("demand 3", demand_three::demand_three),
    fixed("every byte at the last node", every_byte::most_nodes),
    drawn("trees around the limits", limits::trees_around_the_limits),
    drawn("texts around the limits", texts::texts_around_the_limits),
];

/// "Twelve checked by hand", with what comes back written down by hand.
fn the_twelve_cases(comparison: &mut Comparison, _: &mut Random) -> Result<(), Enough> {
    expected(comparison, twelve_cases::table())
}

/// The same for the tree of these cases with metres.
fn t_with_metres(comparison: &mut Comparison, _: &mut Random) -> Result<(), Enough> {
    expected(comparison, twelve_cases::with_metres())
}

/// What is asked about its root, which has no rank.
fn the_root_of_t(comparison: &mut Comparison, _: &mut Random) -> Result<(), Enough> {
    expected(comparison, twelve_cases::of_the_root())
}

/// Trees as text, with what comes back written down by hand too.
fn texts_by_hand(comparison: &mut Comparison, _: &mut Random) -> Result<(), Enough> {
    expected(comparison, twelve_cases::as_text())
}

fn expected(comparison: &mut Comparison, cases: Vec<Case>) -> Result<(), Enough> {
    for case in cases {
        comparison.expect(case.call, case.answer, case.after)?;
    }
    Ok(())
}
