//! Every call with its lists at unreadable pages, with empty lists, and with every room.
//!
//! All comparisons of all groups lend their lists at unreadable pages, in three placements by turns (see
//! `library.rs`). The groups here make each call three times in a row, so each is seen in all three.

use super::forms::{allowed_questions, Forms};
use crate::compare::call::Call;
use crate::compare::comparison::{Comparison, Enough};
use crate::compare::random::Random;
use crate::compare::shapes::Shape;
use crate::compare::twelve_cases::T;

const PLACEMENTS: usize = 3;

fn in_all_placements(comparison: &mut Comparison, call: &Call) -> Result<(), Enough> {
    for _ in 0..PLACEMENTS {
        comparison.compare(call.clone())?;
    }
    Ok(())
}

/// Every call on one tree, of those that make an image the one for its version, with each output `spare` longer than it
/// needs to be, or shorter.
fn calls_on(random: &mut Random, forms: &Forms, spare: isize) -> Vec<Call> {
    let (n, bits) = (forms.node_count(), forms.string.len());
    let parents = || forms.parents.clone();
    let bytes = || forms.bytes.clone();
    let image = || forms.image.clone();
    let questions = allowed_questions(random, n, forms.metres.is_some(), 100);
    let mut words = |needed: usize| random.words(needed.saturating_add_signed(spare));
    let (one_parents, other_parents, metres) = (words(n), words(n), words(n));
    let (starts, sizes, answers) = (words(1), words(1), words(100));
    let pairs = words(forms.numbers_listed(1));
    let parents_of_text = words(n);
    let mut room = |needed: usize| random.bytes(needed.saturating_add_signed(spare));
    let (string_room, image_room, pack) = (room(bytes().len()), room(image().len()), room(bytes().len()));
    let text_room = room(2 * n);
    vec![
        Call::StringOfParents { parents: parents(), bytes: string_room },
        Call::ParentsOfString { bytes: bytes(), bits, parents: one_parents },
        forms.sealing(image_room),
        Call::ParentsOfImage { image: image(), parents: other_parents },
        Call::MetresOfImage { image: image(), metres },
        Call::CheckImage { image: image() },
        Call::Ask { image: image(), questions, answers },
        Call::Split { bytes: bytes(), bits, trees: 1, starts, sizes },
        Call::Join { pack, bits: 0, trees: 0, parents: parents() },
        Call::List { image: image(), node: 1, pairs },
        Call::ParentsOfText { text: forms.text(), parents: parents_of_text },
        Call::TextOfParents { parents: parents(), text: text_room },
    ]
}

/// Trees of many sizes and shapes, so that strings end in every way inside a byte and a word; rooms that do, one
/// short, and longer.
pub fn every_call_at_pages(comparison: &mut Comparison, random: &mut Random) -> Result<(), Enough> {
    for n in (1..=40).chain([63, 64, 125, 126, 127, 300, 3_999, 4_000, 4_100, 8_100]) {
        for shape in [Shape::Path, Shape::Star, Shape::Bushy, Shape::Even] {
            let forms = Forms::of_shape(random, shape, n);
            for spare in [-1, 0, 5] {
                for call in calls_on(random, &forms, spare) {
                    in_all_placements(comparison, &call)?;
                }
            }
        }
    }
    Ok(())
}

/// Every call with each of its lists empty, alone and together, also with numbers that would ask for more.
pub fn empty_lists(comparison: &mut Comparison, random: &mut Random) -> Result<(), Enough> {
    for forms in Forms::of_both_versions(random, &T) {
        for call in calls_on(random, &forms, 0) {
            for choice in 0..8 {
                in_all_placements(comparison, &emptied(call.clone(), choice))?;
            }
        }
    }
    for bits in [0, 1, 8, 131_071, 131_072, usize::MAX, usize::MAX - 6, usize::MAX - 7] {
        for trees in [0, 1, 255, 256, 257, usize::MAX] {
            let (bytes, starts, sizes) = (Vec::new(), Vec::new(), Vec::new());
            in_all_placements(comparison, &Call::Split { bytes, bits, trees, starts, sizes })?;
            let (bytes, parents) = (Vec::new(), Vec::new());
            in_all_placements(comparison, &Call::ParentsOfString { bytes, bits, parents })?;
            for parents in [Vec::new(), T.to_vec()] {
                in_all_placements(comparison, &Call::Join { pack: Vec::new(), bits, trees, parents })?;
            }
        }
    }
    Ok(())
}

/// The call without those of its lists whose bit is set in the choice.
fn emptied(mut call: Call, choice: usize) -> Call {
    let empty = |list: usize| choice >> list & 1 == 1;
    match &mut call {
        Call::StringOfParents { parents, bytes } => {
            keep_unless(empty(0), parents);
            keep_unless(empty(1), bytes);
        }
        Call::ParentsOfString { bytes, bits, parents } => {
            keep_unless(empty(0), bytes);
            keep_unless(empty(1), parents);
            *bits = if empty(2) { 0 } else { *bits };
        }
        Call::ImageOfParents { parents, image } => {
            keep_unless(empty(0), parents);
            keep_unless(empty(1), image);
        }
        Call::ImageWithMetres { parents, metres, image } => {
            keep_unless(empty(0), parents);
            keep_unless(empty(1), metres);
            keep_unless(empty(2), image);
        }
        Call::ParentsOfImage { image, parents } => {
            keep_unless(empty(0), image);
            keep_unless(empty(1), parents);
        }
        Call::MetresOfImage { image, metres } => {
            keep_unless(empty(0), image);
            keep_unless(empty(1), metres);
        }
        Call::CheckImage { image } => keep_unless(empty(0), image),
        Call::Ask { image, questions, answers } => {
            keep_unless(empty(0), image);
            keep_unless(empty(1), questions);
            keep_unless(empty(2), answers);
        }
        Call::Split { bytes, starts, sizes, .. } => {
            keep_unless(empty(0), bytes);
            keep_unless(empty(1), starts);
            keep_unless(empty(2), sizes);
        }
        Call::Join { pack, parents, .. } => {
            keep_unless(empty(0), pack);
            keep_unless(empty(1), parents);
        }
        Call::List { image, pairs, .. } => {
            keep_unless(empty(0), image);
            keep_unless(empty(1), pairs);
        }
        Call::ParentsOfText { text, parents } => {
            keep_unless(empty(0), text);
            keep_unless(empty(1), parents);
        }
        Call::TextOfParents { parents, text } => {
            keep_unless(empty(0), parents);
            keep_unless(empty(1), text);
        }
    }
    call
}

fn keep_unless<T>(empty: bool, list: &mut Vec<T>) {
    if empty {
        list.clear();
    }
}

/// Every room from none to two too many, for every output.
pub fn every_room(comparison: &mut Comparison, random: &mut Random) -> Result<(), Enough> {
    for parents in [vec![0], vec![0, 1, 2], T.to_vec()] {
        for forms in Forms::of_both_versions(random, &parents) {
            let longest = forms.image.len();
            for room in 0..=longest + 2 {
                let spare = room as isize - longest as isize;
                // the other outputs need 100 elements or less, so before the last rounds they have no room at all
                let others_have_room = spare >= -100;
                for call in calls_on(random, &forms, spare) {
                    if others_have_room || matches!(call, Call::ImageOfParents { .. } | Call::ImageWithMetres { .. }) {
                        comparison.compare(call)?;
                    }
                }
            }
        }
    }
    Ok(())
}
