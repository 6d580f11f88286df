//! Everything that is small enough to be tried in full.

use super::forms::{arguments, ask, drawn_metres, kinds, offered_metres, takes_argument, Forms};
use super::image_damage::sealed_image_of;
use crate::compare::call::Call;
use crate::compare::comparison::{Comparison, Enough};
use crate::compare::random::Random;
use crate::compare::shapes::all_trees;
use crate::model::answers::number;
use crate::model::bits::bytes_of_bits;

/// The lowest `length` bits of a number, highest first.
fn bits_of(value: usize, length: usize) -> Vec<bool> {
    (0..length).rev().map(|place| value >> place & 1 == 1).collect()
}

/// All lists of up to 5 numbers, each from 0 to one more than it may be anywhere, whether trees or not.
pub fn parent_lists(comparison: &mut Comparison, random: &mut Random) -> Result<(), Enough> {
    for length in 0..=5usize {
        let base = length + 1;
        for value in 0..base.pow(number(length)) {
            let parents: Vec<u32> = (0..length).map(|place| number(value / base.pow(number(place)) % base)).collect();
            let bytes = random.bytes(2);
            comparison.compare(Call::StringOfParents { parents: parents.clone(), bytes })?;
            let image = random.bytes(6 * 512);
            comparison.compare(Call::ImageOfParents { parents: parents.clone(), image: image.clone() })?;
            let metres = offered_metres(random, length);
            comparison.compare(Call::ImageWithMetres { parents: parents.clone(), metres, image })?;
            let pack = [&[0b1000_0000], random.bytes(3).as_slice()].concat();
            comparison.compare(Call::Join { pack, bits: 3, trees: 1, parents: parents.clone() })?;
            let text = random.bytes(10);
            comparison.compare(Call::TextOfParents { parents, text })?;
        }
    }
    Ok(())
}

/// All strings of up to 11 bits: read as a string, as a pack of 0 to 4 trees, joined to, and with a leftover bit set.
pub fn strings(comparison: &mut Comparison, random: &mut Random) -> Result<(), Enough> {
    for bits in 0..=11 {
        for value in 0..1 << bits {
            let bytes = bytes_of_bits(&bits_of(value, bits));
            read_both_ways(comparison, random, &bytes, bits, 0..=4)?;
            let trees = random.below(4);
            let pack = [bytes.as_slice(), &random.bytes(2)].concat();
            comparison.compare(Call::Join { pack, bits, trees, parents: vec![0, 1, 1] })?;
            if bits % 8 != 0 {
                let mut leftover_set = bytes;
                let place = random.below(8 - bits % 8);
                *leftover_set.last_mut().expect("has bits") |= 1 << place;
                read_both_ways(comparison, random, &leftover_set, bits, trees..=trees)?;
            }
        }
    }
    Ok(())
}

fn read_both_ways(
    comparison: &mut Comparison,
    random: &mut Random,
    bytes: &[u8],
    bits: usize,
    counts_of_trees: std::ops::RangeInclusive<usize>,
) -> Result<(), Enough> {
    let parents = random.words(6);
    comparison.compare(Call::ParentsOfString { bytes: bytes.to_vec(), bits, parents })?;
    for trees in counts_of_trees {
        let (starts, sizes) = (random.words(4), random.words(4));
        comparison.compare(Call::Split { bytes: bytes.to_vec(), bits, trees, starts, sizes })?;
    }
    Ok(())
}

/// All trees of up to 7 nodes in both versions, all calls: there and back, all questions, listings from every node.
pub fn trees(comparison: &mut Comparison, random: &mut Random) -> Result<(), Enough> {
    for parents in (1..=7).flat_map(all_trees) {
        for forms in Forms::of_both_versions(random, &parents) {
            there_and_back(comparison, random, &forms)?;
            every_question(comparison, random, &forms)?;
            every_listing(comparison, random, &forms)?;
        }
    }
    Ok(())
}

/// The forms into one another, each output with the room it needs, one more and one less.
fn there_and_back(comparison: &mut Comparison, random: &mut Random, forms: &Forms) -> Result<(), Enough> {
    let (n, bits) = (forms.node_count(), forms.string.len());
    let parents = || forms.parents.clone();
    for room in [n - 1, n, n + 1] {
        let output = random.words(room);
        let bytes = forms.bytes.clone();
        comparison.compare(Call::ParentsOfString { bytes, bits, parents: output.clone() })?;
        let image = forms.image.clone();
        comparison.compare(Call::ParentsOfImage { image: image.clone(), parents: output.clone() })?;
        comparison.compare(Call::MetresOfImage { image, metres: output.clone() })?;
        comparison.compare(Call::ParentsOfText { text: forms.text(), parents: output })?;
    }
    for room in [2 * n - 1, 2 * n, 2 * n + 1] {
        let text = random.bytes(room);
        comparison.compare(Call::TextOfParents { parents: parents(), text })?;
    }
    let needed = forms.bytes.len();
    for room in [needed - 1, needed, needed + 1] {
        let bytes = random.bytes(room);
        comparison.compare(Call::StringOfParents { parents: parents(), bytes: bytes.clone() })?;
        comparison.compare(Call::Join { pack: bytes, bits: 0, trees: 0, parents: parents() })?;
        // after a pack of two trees: 10100 and 100
        let pack = [&[0b1010_0100], random.bytes(room).as_slice()].concat();
        comparison.compare(Call::Join { pack, bits: 8, trees: 2, parents: parents() })?;
    }
    let needed = forms.image.len();
    for room in [needed - 1, needed, needed + 1] {
        let image = random.bytes(room);
        comparison.compare(forms.sealing(image))?;
    }
    for (starts_room, sizes_room) in [(0, 1), (1, 0), (1, 1), (2, 2)] {
        let (starts, sizes) = (random.words(starts_room), random.words(sizes_room));
        let bytes = forms.bytes.clone();
        comparison.compare(Call::Split { bytes, bits, trees: 1, starts, sizes })?;
    }
    comparison.compare(Call::CheckImage { image: forms.image.clone() })?;
    Ok(())
}

/// All kinds, all nodes, all arguments worth asking, in lists of up to 256; then each kind of odd question, after
/// good ones.
fn every_question(comparison: &mut Comparison, random: &mut Random, forms: &Forms) -> Result<(), Enough> {
    let n = forms.node_count() as i32;
    let kinds = kinds(forms.metres.is_some());
    let mut allowed = Vec::new();
    for kind in kinds.clone() {
        for node in 1..=n {
            for argument in arguments(forms.node_count()) {
                if argument == 0 || takes_argument(kind) {
                    allowed.push([kind, node, argument]);
                }
            }
        }
    }
    for questions in allowed.chunks(256) {
        ask(comparison, random, forms, questions.concat())?;
    }
    let odd_kinds = [0, -1, kinds.end() + 1, i32::MIN, i32::MAX].map(|kind| [kind, 1, 0]);
    let odd_nodes = [0, -1, n + 1, i32::MIN, i32::MAX].map(|node| [random.pick(&[6, *kinds.end()]), node, 0]);
    let without_argument: Vec<i32> = kinds.filter(|&kind| !takes_argument(kind)).collect();
    let odd_arguments = [1, -1, n, i32::MIN, i32::MAX];
    let odd_arguments = odd_arguments.map(|argument| [random.pick(&without_argument), 1, argument]);
    for odd in [odd_kinds, odd_nodes, odd_arguments].concat() {
        let good = random.below(4);
        let before = allowed[..good.min(allowed.len())].concat();
        ask(comparison, random, forms, [before, odd.to_vec()].concat())?;
    }
    Ok(())
}

/// From every node and from numbers that are none, with the room needed, one more and one less.
fn every_listing(comparison: &mut Comparison, random: &mut Random, forms: &Forms) -> Result<(), Enough> {
    for node in forms.tree.nodes() {
        let needed = forms.numbers_listed(node);
        for room in [needed - 1, needed, needed + 1] {
            let (image, pairs) = (forms.image.clone(), random.words(room));
            comparison.compare(Call::List { image, node: number(node), pairs })?;
        }
    }
    for node in [0, number(forms.node_count()) + 1, u32::MAX, 1 << 31] {
        let (image, pairs) = (forms.image.clone(), random.words(2 * forms.node_count()));
        comparison.compare(Call::List { image, node, pairs })?;
    }
    Ok(())
}

/// All pairs of strings that could be R1 and R0 of up to 6 nodes, with header, counts, samples and sums that fit them,
/// without metres and with them.
pub fn partitioned_strings(comparison: &mut Comparison, random: &mut Random) -> Result<(), Enough> {
    for n in 1..=6 {
        for r1 in 0..1 << n {
            for r0 in 0..1 << (n + 1) {
                let metres = drawn_metres(random, n);
                for metres in [None, Some(metres.as_slice())] {
                    let image = sealed_image_of(&bits_of(r1, n), &bits_of(r0, n + 1), metres);
                    comparison.compare(Call::CheckImage { image })?;
                }
            }
        }
    }
    Ok(())
}
