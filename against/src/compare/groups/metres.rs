//! Lists of metres of every length, made into images and read back.

use super::forms::{drawn_metres, Forms};
use crate::compare::call::Call;
use crate::compare::comparison::{Comparison, Enough};
use crate::compare::random::Random;
use crate::compare::shapes::{parent_list, Shape};
use crate::model::answers::number;
use crate::model::questions::MOST_QUESTIONS;
use std::collections::BTreeSet;

/// Sizes where a block of metres is just full, or one node short of it, or goes on in another one; and the limits.
const SIZES: [usize; 13] = [1, 2, 7, 125, 126, 127, 251, 252, 253, 3_999, 4_000, 4_001, 65_535];

/// Trees of these sizes with lists of all lengths, and both versions read back.
pub fn lists_of_metres(comparison: &mut Comparison, random: &mut Random) -> Result<(), Enough> {
    for n in SIZES {
        for shape in [Shape::Path, Shape::Star, Shape::Even] {
            let parents = parent_list(shape, n, random);
            let [without, with] = Forms::of_both_versions(random, &parents);
            every_length(comparison, random, &with)?;
            for forms in [without, with] {
                read_back(comparison, random, &forms)?;
            }
        }
    }
    Ok(())
}

/// Lists as long as the parent list, shorter and longer; with parents that are a tree's and that are none; with rooms
/// that do, and that are short.
fn every_length(comparison: &mut Comparison, random: &mut Random, forms: &Forms) -> Result<(), Enough> {
    let (n, needed) = (forms.node_count(), forms.image.len());
    let mut no_tree = forms.parents.clone();
    no_tree[n - 1] = number(n);
    for count in BTreeSet::from([0, 1, n - 1, n, n + 1, n + 126, 2 * n, 65_535, 65_536]) {
        let metres = drawn_metres(random, count);
        for parents in [&forms.parents, &no_tree] {
            for room in [0, needed - 1, needed, needed + 1] {
                let (parents, metres) = (parents.clone(), metres.clone());
                comparison.compare(Call::ImageWithMetres { parents, metres, image: random.bytes(room) })?;
            }
        }
    }
    Ok(())
}

/// All metres at once, with rooms that do and that are short; and those of the first nodes and the last by questions.
fn read_back(comparison: &mut Comparison, random: &mut Random, forms: &Forms) -> Result<(), Enough> {
    let n = forms.node_count();
    for room in [0, n - 1, n, n + 1] {
        let metres = random.words(room);
        comparison.compare(Call::MetresOfImage { image: forms.image.clone(), metres })?;
    }
    let asked = n.min(MOST_QUESTIONS);
    for begin in BTreeSet::from([1, n + 1 - asked]) {
        let questions = (begin..begin + asked).flat_map(|node| [11, node as i32, 0]).collect();
        let answers = random.words(asked);
        comparison.compare(Call::Ask { image: forms.image.clone(), questions, answers })?;
    }
    Ok(())
}
