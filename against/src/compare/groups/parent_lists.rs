//! Parent lists that are none.

use super::forms::{offered_metres, small_size, tree_of_size};
use crate::compare::call::Call;
use crate::compare::comparison::{Comparison, Enough};
use crate::compare::random::Random;
use crate::model::answers::number;

/// Trees with one entry or two changed, offered to all five calls that take a parent list.
pub fn bad_entries(comparison: &mut Comparison, random: &mut Random) -> Result<(), Enough> {
    for _ in 0..4_000 {
        let n = small_size(random);
        let mut parents = tree_of_size(random, n);
        for _ in 0..random.between(1, 2) {
            change_entry(random, &mut parents);
        }
        offer(comparison, random, parents)?;
    }
    for n in [4_000, 65_535] {
        for _ in 0..6 {
            let mut parents = tree_of_size(random, n);
            change_entry(random, &mut parents);
            change_entry(random, &mut parents);
            offer(comparison, random, parents)?;
        }
    }
    // lists whose length alone is refused, whatever they hold
    for n in [0, 65_536, 65_537, 70_000] {
        let parents = random.words(n);
        offer(comparison, random, parents)?;
        offer(comparison, random, vec![0; n])?;
    }
    Ok(())
}

/// Another number at some entry: its own number and the neighbours of it, entries around, and numbers far away.
pub fn change_entry(random: &mut Random, parents: &mut [u32]) {
    let index = random.below(parents.len());
    let entry = number(index) + 1;
    let (before, own) = (parents[index.saturating_sub(1)], parents[index]);
    // two entries may be changed in turn, so what is there may be any number already
    let around = [own.wrapping_sub(1), own.wrapping_add(1), before.wrapping_sub(1)];
    let near = [around, [entry - 1, entry, entry + 1]].concat();
    let far = [0, 1, number(parents.len()), 65_535, 65_536, 1 << 31, u32::MAX, random.word()];
    parents[index] = if random.one_in(2) { random.pick(&near) } else { random.pick(&far) };
}

fn offer(comparison: &mut Comparison, random: &mut Random, parents: Vec<u32>) -> Result<(), Enough> {
    let string_room = (2 * parents.len() + 8) / 8;
    let bytes = random.bytes(string_room);
    comparison.compare(Call::StringOfParents { parents: parents.clone(), bytes })?;
    let image = random.bytes(6 * 512);
    comparison.compare(Call::ImageOfParents { parents: parents.clone(), image: image.clone() })?;
    let metres = offered_metres(random, parents.len());
    comparison.compare(Call::ImageWithMetres { parents: parents.clone(), metres, image })?;
    // after one tree, 100, in a buffer that mostly has room
    let room = if random.one_in(8) { 0 } else { string_room };
    let pack = [&[0b1000_0000], random.bytes(room).as_slice()].concat();
    comparison.compare(Call::Join { pack, bits: 3, trees: 1, parents: parents.clone() })?;
    let text = random.bytes(2 * parents.len());
    comparison.compare(Call::TextOfParents { parents, text })?;
    Ok(())
}
