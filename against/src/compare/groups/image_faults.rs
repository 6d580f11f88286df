//! What is wrong with an image whose sums are right: every kind of fault, in every block that it can be in, alone, two
//! at once, and with wrong sums as well; and headers of all numbers.

use super::forms::{check_and_one_reading, readings, Forms};
use crate::compare::comparison::{Comparison, Enough};
use crate::compare::layout::{place_of_bit, place_of_word, with_words, Layout};
use crate::compare::random::Random;
use crate::compare::shapes::{all_trees, parent_list, Shape};
use crate::compare::twelve_cases::T;
use crate::model::answers::number;
use crate::model::images::{
    image_of_tree, seal, BITS_IN_BLOCK, BLOCK_BYTES, MOST_BLOCKS, PAYLOAD_WORDS, WITHOUT_METRES, WITH_METRES,
};
use crate::model::trees::{Tree, MOST_NODES};
use std::collections::BTreeSet;
use std::ops::Range;

/// Which bits of which bytes of the payload are changed.
type Fault = Vec<(usize, u8)>;

fn put(fault: &Fault, image: &mut [u8]) {
    for &(byte, bits) in fault {
        image[byte] ^= bits;
    }
}

/// A tree's image, for which faults are made up.
struct Undamaged<'a> {
    image: &'a [u8],
    layout: Layout,
}

impl Undamaged<'_> {
    /// Other bytes from this one on.
    fn bytes(&self, first: usize, bytes: &[u8]) -> Fault {
        let pairs = (first..).zip(self.image[first..].iter().zip(bytes));
        pairs.filter(|(_, (old, new))| old != new).map(|(byte, (old, new))| (byte, old ^ new)).collect()
    }

    /// A word with each of these values in its place.
    fn word(&self, first_block: usize, index: usize, values: &[u32]) -> Vec<Fault> {
        let of_value = |value: &u32| self.bytes(place_of_word(first_block, index), &value.to_le_bytes());
        values.iter().map(of_value).collect()
    }

    /// A word that is one more, one less, or zero.
    fn near(&self, block: usize, index: usize) -> Vec<Fault> {
        let word = self.image[place_of_word(block, index)..].first_chunk().expect("four bytes");
        let value = u32::from_le_bytes(*word);
        self.word(block, index, &[value.wrapping_add(1), value.wrapping_sub(1), 0])
    }

    fn bit(&self, first_block: usize, index: usize) -> Fault {
        vec![place_of_bit(first_block, index)]
    }

    /// The bits of both strings are those of another tree of as many nodes, and nothing else changes.
    fn strings_of(&self, other: &Tree) -> Fault {
        let theirs = image_of_tree(other, None);
        let bits_of = |first_block: usize, bits: usize| (0..bits).map(move |index| place_of_bit(first_block, index));
        let Layout { r1, r0, n, .. } = &self.layout;
        let mut changed = self.image.to_vec();
        for (byte, mask) in bits_of(r1.start, *n).chain(bits_of(r0.start, n + 1)) {
            changed[byte] = changed[byte] & !mask | theirs[byte] & mask;
        }
        self.bytes(0, &changed)
    }

    /// The header: version, n, m, number of blocks, reserved words.
    fn header(&self) -> Vec<Vec<Fault>> {
        let versions = [0, WITHOUT_METRES, WITH_METRES, 3];
        let other_order = [WITHOUT_METRES, WITH_METRES].map(u32::swap_bytes);
        let more_than_nodes = number(self.layout.n) + 1;
        let reserved = [4, 5, 64, PAYLOAD_WORDS - 1].map(|index| self.word(0, index, &[1, 1 << 31]));
        vec![
            self.word(0, 0, &[versions.as_slice(), &other_order, &[u32::MAX]].concat()),
            [self.near(0, 1), self.word(0, 1, &[65_536, u32::MAX])].concat(),
            [self.near(0, 2), self.word(0, 2, &[1, more_than_nodes])].concat(),
            [self.near(0, 3), self.word(0, 3, &[u32::MAX])].concat(),
            reserved.concat(),
        ]
    }

    /// A bit of R1 or of R0; the bits of other trees, mostly with another m.
    fn strings(&self, random: &mut Random) -> Vec<Vec<Fault>> {
        let n = self.layout.n;
        let bits = |blocks: &Range<usize>, bits: usize| -> Vec<Fault> {
            let ends = [0, BITS_IN_BLOCK - 1, BITS_IN_BLOCK, bits / 2, bits - 1];
            ends.into_iter().filter(|&index| index < bits).map(|index| self.bit(blocks.start, index)).collect()
        };
        let others = [Shape::Path, Shape::Star, Shape::Comb, Shape::Even].map(|shape| {
            let parents = parent_list(shape, n, random);
            self.strings_of(&Tree::of_parent_list(&parents).expect("made as a tree"))
        });
        vec![bits(&self.layout.r1, n), bits(&self.layout.r0, n + 1), others.to_vec()]
    }

    /// The count of each block of a string, and bits after its last one.
    fn counts(&self) -> Vec<Vec<Fault>> {
        let Layout { r1, r0, n, .. } = &self.layout;
        let mut places: Vec<Vec<Fault>> = (r1.start..r0.end).map(|block| self.near(block, 0)).collect();
        for (blocks, bits) in [(r1, *n), (r0, n + 1)] {
            let all = blocks.len() * BITS_IN_BLOCK;
            let unused = [bits, bits + 1, all - 1].into_iter().filter(|&index| index < all);
            places.push(unused.map(|index| self.bit(blocks.start, index)).collect());
        }
        places
    }

    /// The samples of each block, and words after the last one; the same for the metres, of which none is a fault.
    fn lists(&self) -> Vec<Vec<Fault>> {
        let mut places = Vec::new();
        for (blocks, words) in self.layout.lists() {
            for (block, before) in blocks.clone().zip((0..words).step_by(PAYLOAD_WORDS)) {
                let in_block = (words - before).min(PAYLOAD_WORDS);
                places.push([0, in_block / 2, in_block - 1].map(|index| self.near(block, index)).concat());
            }
            let all = blocks.len() * PAYLOAD_WORDS;
            let unused = [words, words + 1, all.saturating_sub(1)].into_iter().filter(|&index| index < all);
            places.push(unused.flat_map(|index| self.word(blocks.start, index, &[1, 1 << 31])).collect());
        }
        places
    }
}

/// The faults that a tree's image can have, a list for each place that some can be in.
fn faults(random: &mut Random, forms: &Forms) -> Vec<Vec<Fault>> {
    let undamaged = Undamaged { image: &forms.image, layout: forms.layout() };
    let places =
        [undamaged.header(), undamaged.strings(random), undamaged.counts(), undamaged.lists()].into_iter().flatten();
    let places = places.map(|mut place| {
        // a word may have had the value that it was to get
        place.retain(|fault| !fault.is_empty());
        place.sort();
        place.dedup();
        place
    });
    places.filter(|place| !place.is_empty()).collect()
}

/// T and other trees of a few blocks, in both versions.
fn small_trees(random: &mut Random) -> Vec<Forms> {
    let others = [
        (Shape::Path, 1),
        (Shape::Path, 2),
        (Shape::Star, 3),
        (Shape::Path, 64),
        (Shape::Path, 65),
        (Shape::Bushy, 130),
        (Shape::Even, 400),
    ];
    let others = others.map(|(shape, n)| parent_list(shape, n, random));
    let trees = [T.to_vec()].into_iter().chain(others);
    trees.flat_map(|parents| Forms::of_both_versions(random, &parents)).collect()
}

/// Trees whose strings, samples or metres end with a block, or go on in another one, in both versions.
fn large_trees(random: &mut Random) -> Vec<Forms> {
    let trees = [
        (Shape::Path, 3_999),
        (Shape::Star, 4_000),
        (Shape::Even, 4_000),
        (Shape::Comb, 4_001),
        (Shape::LongRuns, 8_000),
        (Shape::Path, 8_064),
        (Shape::Path, 8_065),
        (Shape::Path, 16_129),
        (Shape::Comb, 16_131),
        (Shape::Path, 65_535),
    ];
    let trees = trees.map(|(shape, n)| parent_list(shape, n, random));
    trees.into_iter().flat_map(|parents| Forms::of_both_versions(random, &parents)).collect()
}

/// How many faults of a large tree are tried, one at a time and two at a time; of a small one all are.
const OF_LARGE: usize = 60;

/// Puts as many of these as are wanted first, each as likely.
fn draw_first<T>(random: &mut Random, list: &mut [T], wanted: usize) {
    for place in 0..wanted.min(list.len()) {
        list.swap(place, random.between(place, list.len() - 1));
    }
}

/// Every fault by itself, with the sums made right again.
pub fn one_fault(comparison: &mut Comparison, random: &mut Random) -> Result<(), Enough> {
    for forms in small_trees(random) {
        for fault in faults(random, &forms).concat() {
            readings(comparison, random, &with_faults(&forms, &[&fault]), forms.node_count())?;
        }
    }
    for forms in large_trees(random) {
        let mut faults = faults(random, &forms).concat();
        draw_first(random, &mut faults, OF_LARGE);
        for fault in faults.iter().take(OF_LARGE) {
            check_and_one_reading(comparison, random, &with_faults(&forms, &[fault]), forms.node_count())?;
        }
    }
    Ok(())
}

fn with_faults(forms: &Forms, faults: &[&Fault]) -> Vec<u8> {
    let mut image = forms.image.clone();
    faults.iter().for_each(|fault| put(fault, &mut image));
    seal(&mut image);
    image
}

/// Two faults at two places, any pair of them: with the sums made right again, and with those wrong that the second
/// fault changes.
pub fn two_faults(comparison: &mut Comparison, random: &mut Random) -> Result<(), Enough> {
    for forms in small_trees(random) {
        let places = faults(random, &forms);
        for (one, other) in pairs(places.len()) {
            let [one, other] = [one, other].map(|place| &places[place][random.below(places[place].len())]);
            readings(comparison, random, &with_faults(&forms, &[one, other]), forms.node_count())?;
            let mut damaged_later = with_faults(&forms, &[one]);
            put(other, &mut damaged_later);
            check_and_one_reading(comparison, random, &damaged_later, forms.node_count())?;
        }
    }
    for forms in large_trees(random) {
        let places = faults(random, &forms);
        let mut pairs = pairs(places.len());
        draw_first(random, &mut pairs, OF_LARGE);
        for (one, other) in pairs.into_iter().take(OF_LARGE) {
            let [one, other] = [one, other].map(|place| &places[place][random.below(places[place].len())]);
            check_and_one_reading(comparison, random, &with_faults(&forms, &[one, other]), forms.node_count())?;
        }
    }
    Ok(())
}

fn pairs(places: usize) -> Vec<(usize, usize)> {
    (0..places).flat_map(|one| (one + 1..places).map(move |other| (one, other))).collect()
}

/// Header numbers "taken together": small ones with the strings of small trees, then all around the limits.
pub fn headers(comparison: &mut Comparison, random: &mut Random) -> Result<(), Enough> {
    for parents in (1..=4).flat_map(all_trees) {
        for forms in Forms::of_both_versions(random, &parents) {
            for n in 0..=6 {
                for m in 0..=6 {
                    for blocks in 4..=7 {
                        let version = random.pick(&[WITHOUT_METRES, WITH_METRES]);
                        let header = [(0, 0, version), (0, 1, n), (0, 2, m), (0, 3, blocks)];
                        let image = with_words(&forms.image, &header);
                        check_and_one_reading(comparison, random, &image, forms.node_count())?;
                    }
                }
            }
        }
    }
    const NODES: [u32; 19] = [
        0,
        1,
        2,
        3,
        64,
        65,
        3_998,
        3_999,
        4_000,
        4_001,
        7_999,
        8_000,
        8_001,
        8_064,
        8_065,
        16_129,
        65_535,
        65_536,
        u32::MAX,
    ];
    for n in NODES {
        let near = [n.wrapping_sub(1), n, n.wrapping_add(1)];
        let others = [0, 1, 2, 8_064, 8_065, 65_535, 65_536, u32::MAX];
        for m in BTreeSet::from_iter(near.into_iter().chain(others)) {
            for version in [WITHOUT_METRES, WITH_METRES] {
                for blocks in numbers_of_blocks(n, m) {
                    // there is nothing after the header, so the strings are wrong at least
                    let zeros = vec![0; blocks * BLOCK_BYTES];
                    let header = [(0, 0, version), (0, 1, n), (0, 2, m), (0, 3, number(blocks))];
                    check_and_one_reading(comparison, random, &with_words(&zeros, &header), 7)?;
                }
            }
        }
    }
    Ok(())
}

/// Numbers of blocks to try with n and m: those of an image of either version, one less and one more, and a few others.
fn numbers_of_blocks(n: u32, m: u32) -> BTreeSet<usize> {
    let [n, m] = [n, m].map(|count| (count as usize).min(MOST_NODES + 1));
    let near = [false, true].map(|measured| {
        let blocks = Layout::of(n, m, measured).blocks();
        [blocks - 1, blocks, blocks + 1]
    });
    near.concat().into_iter().chain([5, 6, 37, 53, 54, MOST_BLOCKS]).collect()
}
