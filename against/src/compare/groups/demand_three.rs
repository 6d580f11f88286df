//! Demand 3, asked of the library itself beside the comparison with the model.

use super::forms::{small_size, tree_of_size, Forms};
use super::strings_and_packs::flip_bits;
use crate::compare::call::Call;
use crate::compare::comparison::{Compared, Comparison, Enough};
use crate::compare::random::Random;
use crate::compare::shapes::all_trees;
use crate::model::bits::bytes_of_bits;

const DONE: u32 = 0;
const NOT_A_STRING: u32 = 4;

pub fn demand_three(comparison: &mut Comparison, random: &mut Random) -> Result<(), Enough> {
    no_string_begins_another(comparison)?;
    for _ in 0..4_000 {
        let count = random.between(1, 8);
        let mut trees = Vec::new();
        for _ in 0..count {
            let n = small_size(random);
            trees.push(tree_of_size(random, n));
        }
        parts_give_the_list_back(comparison, random, &trees)?;
        changed_bits_show(comparison, random, &trees)?;
    }
    Ok(())
}

/// "No tree's string is the beginning of another tree's", for all trees of up to 7 nodes, as the library makes the
/// strings. And a string cut short or with one bit more is no string, at the bit after it.
fn no_string_begins_another(comparison: &mut Comparison) -> Result<(), Enough> {
    let mut strings: Vec<Vec<bool>> = Vec::new();
    for parents in (1..=7).flat_map(all_trees) {
        let forms = Forms::of(parents.clone(), None);
        let made = Call::StringOfParents { parents, bytes: vec![0; forms.bytes.len()] };
        let compared = comparison.compare(made)?;
        let string = string_left(&compared);
        let begins = strings.iter().any(|other| other.starts_with(&string) || string.starts_with(other));
        comparison.demand(!begins, "no tree's string is the beginning of another's", &compared)?;
        for length in (0..string.len()).chain([string.len() + 1]) {
            let mut bits = string.clone();
            bits.resize(length, true);
            let place = length.min(string.len()) + 1;
            let parents = vec![0; 9];
            let read = Call::ParentsOfString { bytes: bytes_of_bits(&bits), bits: length, parents };
            let compared = comparison.compare(read)?;
            let refused = compared.answer.code == NOT_A_STRING;
            let there = compared.answer.place as usize == place;
            comparison.demand(refused && there, "refused at the bit after it", &compared)?;
        }
        strings.push(string);
    }
    Ok(())
}

/// The string that the library wrote.
fn string_left(compared: &Compared) -> Vec<bool> {
    let Call::StringOfParents { bytes, .. } = &compared.call else { unreachable!("a string") };
    let bits = compared.answer.first as usize;
    (0..bits).map(|index| bytes[index / 8] >> (7 - index % 8) & 1 == 1).collect()
}

fn split_call(random: &mut Random, bits: &[bool], trees: usize) -> Call {
    let (starts, sizes) = (random.words(trees), random.words(trees));
    Call::Split { bytes: bytes_of_bits(bits), bits: bits.len(), trees, starts, sizes }
}

fn end_to_end(trees: &[Vec<u32>]) -> Vec<bool> {
    trees.iter().flat_map(|parents| Forms::of(parents.clone(), None).string).collect()
}

/// "Our splitter gives each tree's start and size, and reading those parts gives the list back."
fn parts_give_the_list_back(
    comparison: &mut Comparison,
    random: &mut Random,
    trees: &[Vec<u32>],
) -> Result<(), Enough> {
    let pack = end_to_end(trees);
    let call = split_call(random, &pack, trees.len());
    let compared = comparison.compare(call)?;
    let Call::Split { starts, sizes, .. } = &compared.call else { unreachable!("a split") };
    let accepted = compared.answer.code == DONE;
    comparison.demand(accepted, "strings end to end are accepted", &compared)?;
    if !accepted {
        return Ok(());
    }
    for (index, tree) in trees.iter().enumerate() {
        let (start, size) = (starts[index] as usize, sizes[index] as usize);
        let part = start.checked_sub(1).and_then(|begin| pack.get(begin..begin + 2 * size + 1));
        comparison.demand(part.is_some(), "a part lies inside the pack", &compared)?;
        let Some(part) = part else { continue };
        let (bytes, bits) = (bytes_of_bits(part), part.len());
        let read = Call::ParentsOfString { bytes, bits, parents: vec![0; size] };
        let read = comparison.compare(read)?;
        let Call::ParentsOfString { parents, .. } = &read.call else { unreachable!("a string") };
        comparison.demand(parents == tree, "reading a part gives its tree back", &read)?;
    }
    Ok(())
}

/// "When the number of trees is known, changing an odd number of the bits never yields bits that are accepted with
/// that number. However many bits are changed, a refusal that names a bit never names one before the first changed
/// bit."
fn changed_bits_show(comparison: &mut Comparison, random: &mut Random, trees: &[Vec<u32>]) -> Result<(), Enough> {
    let pack = end_to_end(trees);
    for _ in 0..3 {
        let mut changed = pack.clone();
        let flips = random.between(1, 9);
        flip_bits(random, &mut changed, flips);
        // a bit changed twice is not changed
        let places: Vec<usize> = (1..=pack.len()).filter(|&p| pack[p - 1] != changed[p - 1]).collect();
        let Some(&first) = places.first() else { continue };
        let odd = places.len() % 2 == 1;
        let mut calls = vec![split_call(random, &changed, trees.len())];
        if let [tree] = trees {
            // a single tree is a string too
            let parents = random.words(tree.len() + 5);
            let (bytes, bits) = (bytes_of_bits(&changed), changed.len());
            calls.push(Call::ParentsOfString { bytes, bits, parents });
        }
        for call in calls {
            let compared = comparison.compare(call)?;
            let answer = compared.answer;
            let shows = !(odd && answer.code == DONE);
            comparison.demand(shows, "an odd number of changed bits is never accepted", &compared)?;
            let not_before = answer.code != NOT_A_STRING || answer.place as usize >= first;
            comparison.demand(not_before, "no bit before the first changed one is named", &compared)?;
        }
    }
    Ok(())
}
