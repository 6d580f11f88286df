//! Each of the 256 bytes where it is read as a whole: in R1 and R0, which are asked for the places of its ones, and in
//! tree strings and packs, after every small number of pending nodes.

use super::forms::{ask, drawn_metres, takes_argument, tree_of_size, Forms};
use super::image_damage::sealed_image_of;
use super::strings_and_packs::pack_of;
use crate::compare::call::Call;
use crate::compare::comparison::{Comparison, Enough};
use crate::compare::random::Random;
use crate::model::answers::number;
use crate::model::bits::{bits_of_bytes, bytes_of_bits};
use crate::model::images::{ones_in, tree_of_strings, BITS_IN_BLOCK, SAMPLE_STEP};
use crate::model::packs::parts_of_bits;
use crate::model::trees::MOST_NODES;

/// Where a byte stands in a string, and after how many ones.
#[derive(Clone, Copy)]
struct Place {
    bytes_before: usize,
    ones_before: usize,
}

impl Place {
    /// A place where the byte's one number `sampled`, or the one after the byte, has a sample.
    fn of_sample(bytes_before: usize, samples_before: usize, sampled: usize) -> Place {
        Place { bytes_before, ones_before: SAMPLE_STEP * samples_before + 1 - sampled }
    }

    /// A string that has the byte there, after bits in any order but for a one at first, and ends with two ones after.
    fn string_with(self, random: &mut Random, byte: u8) -> Vec<bool> {
        let mut bits: Vec<bool> = (0..8 * self.bytes_before).map(|index| index < self.ones_before).collect();
        random.shuffle(bits.get_mut(1..).unwrap_or_default());
        bits.extend(bits_of_bytes(&[byte]));
        bits.extend([true, true]);
        bits
    }
}

/// R1 and R0 with the ones of two strings that begin and end with a one. Where the two strings are the same, R1 and R0
/// are in step, and would not be with any one of R1 earlier; with `later` the root has so many children more, and all
/// ones of R1 but the first come later.
fn strings_of(ones_of_r1: &[bool], ones_of_r0: &[bool], later: usize) -> (Vec<bool>, Vec<bool>) {
    let (first, rest) = ones_of_r1.split_at(1);
    let (others, last) = ones_of_r0.split_at(ones_of_r0.len() - 1);
    let r1 = [first, &vec![false; later], rest].concat();
    let r0 = [others, &vec![false; later + 1], last].concat();
    (r1, r0)
}

/// Bytes that have room for the ones before a second sample; the byte after them is each one of eight in turn.
const BYTES_BEFORE_SAMPLE: std::ops::RangeInclusive<usize> = 9..=16;

/// Trees with every byte in R1 and in R0: each one of it, and then the one after it, is in turn the one that has a
/// sample. Then among the first bytes of the strings and the last ones of a block, and first in the next block.
pub fn partitioned_strings(comparison: &mut Comparison, random: &mut Random) -> Result<(), Enough> {
    for bytes_before in BYTES_BEFORE_SAMPLE {
        for sampled in 1..=9 {
            for byte in 0..=u8::MAX {
                if sampled <= ones_of(byte) + 1 {
                    image_with(comparison, random, byte, Place::of_sample(bytes_before, 1, sampled))?;
                }
            }
        }
    }
    // the first bit of both strings is a one
    for byte in 0b1000_0000..=u8::MAX {
        image_with(comparison, random, byte, Place { bytes_before: 0, ones_before: 0 })?;
    }
    for bytes_before in 1..*BYTES_BEFORE_SAMPLE.start() {
        for byte in 0..=u8::MAX {
            let ones_before = random.between(1, 8 * bytes_before);
            image_with(comparison, random, byte, Place { bytes_before, ones_before })?;
        }
    }
    let bytes_in_block = BITS_IN_BLOCK / 8;
    for byte in 0..=u8::MAX {
        for bytes_before in [bytes_in_block - random.between(2, 8), bytes_in_block - 1, bytes_in_block] {
            let (samples_before, sampled) = (random.between(1, 61), random.between(1, ones_of(byte) + 1));
            image_with(comparison, random, byte, Place::of_sample(bytes_before, samples_before, sampled))?;
        }
    }
    Ok(())
}

fn ones_of(byte: u8) -> usize {
    byte.count_ones() as usize
}

/// A tree with the byte at this place of R0, and at the same of R1 or a few bytes later: sealed, asked about the nodes
/// of all its bits and those next to them, and read back or listed from there.
fn image_with(comparison: &mut Comparison, random: &mut Random, byte: u8, place: Place) -> Result<(), Enough> {
    let string = place.string_with(random, byte);
    // the first byte of R1 would not be a whole one
    let later = if place.bytes_before == 0 { 0 } else { 8 * random.below(3) };
    let (r1, r0) = strings_of(&string, &string, later);
    let tree = tree_of_strings(&r1, &r0).expect("in step");
    let forms = Forms::of_either_version(random, tree.parent_list());
    let image = random.bytes(forms.image.len());
    comparison.compare(forms.sealing(image))?;
    let bit_before = 8 * place.bytes_before;
    let first = bit_before.max(1);
    let in_r0 = first..=bit_before + 10;
    let nodes = in_r0.clone().chain(in_r0.map(|node| node + later));
    let questions = nodes.flat_map(|node| (1..=10).map(move |kind| [kind, node as i32, takes_argument(kind).into()]));
    ask(comparison, random, &forms, questions.flatten().collect())?;
    let (listed, nodes) = (forms.numbers_listed(first), forms.node_count());
    comparison.compare(match random.one_in(2) {
        true => Call::List { image: forms.image, node: number(first), pairs: random.words(listed) },
        false => Call::ParentsOfImage { image: forms.image, parents: random.words(nodes) },
    })?;
    Ok(())
}

/// Every two bytes with as many ones, one in R1 and the other at the same place of R0, where all else is in step.
pub fn two_bytes(comparison: &mut Comparison, random: &mut Random) -> Result<(), Enough> {
    for in_r0 in 0..=u8::MAX {
        for in_r1 in (0..=u8::MAX).filter(|byte| byte.count_ones() == in_r0.count_ones()) {
            let bytes_before = random.between(*BYTES_BEFORE_SAMPLE.start(), *BYTES_BEFORE_SAMPLE.end());
            let sampled = random.between(1, ones_of(in_r0) + 1);
            let ones_of_r0 = Place::of_sample(bytes_before, 1, sampled).string_with(random, in_r0);
            let mut ones_of_r1 = ones_of_r0.clone();
            ones_of_r1[8 * bytes_before..][..8].copy_from_slice(&bits_of_bytes(&[in_r1]));
            let (r1, r0) = strings_of(&ones_of_r1, &ones_of_r0, 0);
            let metres = random.one_in(2).then(|| drawn_metres(random, r1.len()));
            comparison.compare(Call::CheckImage { image: sealed_image_of(&r1, &r0, metres.as_deref()) })?;
        }
    }
    Ok(())
}

/// Numbers of nodes that are pending besides the one being read.
const PENDING: [usize; 20] = [0, 1, 2, 3, 4, 5, 6, 7, 8, 9, 10, 15, 16, 31, 32, 62, 63, 64, 65, 66];

/// The first bits of a tree string, after which so many nodes are pending besides the one being read: all are children
/// of the root, and the first of them are over. Each bit changes the number by one, so both are even, or both odd; the
/// length is the greater by 2 at least.
fn beginning(length: usize, pending: usize) -> Vec<bool> {
    let zeros = (length - pending) / 2;
    let mut bits = vec![true; length];
    bits[1] = false;
    bits[length - (zeros - 1)..].fill(false);
    bits
}

/// Bits that end with each of the bytes: trees, the beginning of a tree up to the end of a byte, and then the byte. The
/// beginning is nothing, a first bit, or as much as leaves so many nodes pending, sometimes at the end of a path.
fn up_to_every_byte(random: &mut Random, trees_before: &[bool]) -> Vec<Vec<bool>> {
    let ends_with_byte = |length: usize| (trees_before.len() + length).is_multiple_of(8);
    let mut beginnings: Vec<Vec<bool>> =
        (0..2).filter(|&length| ends_with_byte(length)).map(|length| vec![true; length]).collect();
    for pending in PENDING {
        let length = (pending + 2..).find(|&length| ends_with_byte(length)).expect("one of eight");
        if length % 2 == pending % 2 {
            let path = [true, false].repeat(4 * random.below(3));
            beginnings.push([path, beginning(length, pending)].concat());
        }
    }
    let mut strings = Vec::new();
    for beginning in beginnings {
        strings.extend((0..=u8::MAX).map(|byte| [trees_before, &beginning, &bits_of_bytes(&[byte])].concat()));
    }
    strings
}

/// The bits with as many zeros after them as end the last tree of a pack, if they begin one.
fn ended(bits: &[bool]) -> Vec<bool> {
    let mut pending = 0usize;
    for &bit in bits {
        // the super-root of the next tree
        pending = pending.max(1);
        pending = if bit { pending + 1 } else { pending - 1 };
    }
    [bits, &vec![false; pending]].concat()
}

/// Strings with every byte after every small number of pending nodes, which is even here: with the zeros that end the
/// tree, as they are, and with the last bits of the byte left over.
pub fn strings(comparison: &mut Comparison, random: &mut Random) -> Result<(), Enough> {
    for string in up_to_every_byte(random, &[]) {
        let whole = ended(&string);
        read(comparison, random, &whole, whole.len())?;
    }
    for string in up_to_every_byte(random, &[]) {
        read(comparison, random, &string, string.len())?;
    }
    for string in up_to_every_byte(random, &[]) {
        for leftover in 1..8 {
            read(comparison, random, &string, string.len() - leftover)?;
        }
    }
    Ok(())
}

/// Reads the first bits of some bytes as a string, with room for as many nodes as they have ones.
fn read(comparison: &mut Comparison, random: &mut Random, bits: &[bool], length: usize) -> Result<(), Enough> {
    let room = ones_in(bits) + random.below(3);
    let parents = random.words(room);
    comparison.compare(Call::ParentsOfString { bytes: bytes_of_bits(bits), bits: length, parents })?;
    Ok(())
}

/// The nodes of the trees before the one that goes on with a whole byte: it begins at each of the eight bits of a byte.
const TREES_BEFORE: [&[usize]; 9] = [&[1], &[2], &[3], &[4], &[1, 1], &[1, 2], &[1, 3], &[1, 4], &[]];

/// The strings of trees of these sizes, end to end.
fn strings_of_sizes(random: &mut Random, sizes: &[usize]) -> Vec<bool> {
    pack_of(sizes.iter().map(|&n| tree_of_size(random, n)).collect()).bits
}

/// Does something with packs that end with every byte, after every small number of pending nodes, in a tree that begins
/// at each bit of a byte.
fn for_each_pack(
    comparison: &mut Comparison,
    random: &mut Random,
    call: fn(&mut Comparison, &mut Random, &[bool]) -> Result<(), Enough>,
) -> Result<(), Enough> {
    for sizes in TREES_BEFORE {
        let trees_before = strings_of_sizes(random, sizes);
        for bits in up_to_every_byte(random, &trees_before) {
            call(comparison, random, &bits)?;
        }
    }
    Ok(())
}

/// Packs with every byte split: with the zeros that end the last tree, and the same by another number of trees; as they
/// are.
pub fn packs(comparison: &mut Comparison, random: &mut Random) -> Result<(), Enough> {
    for_each_pack(comparison, random, |comparison, random, bits| {
        let whole = ended(bits);
        split(comparison, random, &whole, trees_in(&whole))
    })?;
    for_each_pack(comparison, random, |comparison, random, bits| {
        let whole = ended(bits);
        let trees = trees_in(&whole);
        let other = if random.one_in(2) { trees + 1 } else { trees - 1 };
        split(comparison, random, &whole, other)
    })?;
    for_each_pack(comparison, random, |comparison, random, bits| split(comparison, random, bits, trees_in(bits)))
}

/// Packs with every byte joined to: with the zeros that end the last tree, and as they are.
pub fn joined_packs(comparison: &mut Comparison, random: &mut Random) -> Result<(), Enough> {
    for_each_pack(comparison, random, |comparison, random, bits| join(comparison, random, &ended(bits)))?;
    for_each_pack(comparison, random, join)
}

/// The number of trees of a pack, or 1.
fn trees_in(bits: &[bool]) -> usize {
    parts_of_bits(bits).map_or(1, |parts| parts.len())
}

fn split(comparison: &mut Comparison, random: &mut Random, pack: &[bool], trees: usize) -> Result<(), Enough> {
    let rooms = [trees + random.below(2), trees + random.below(2)];
    let [starts, sizes] = rooms.map(|room| random.words(room));
    comparison.compare(Call::Split { bytes: bytes_of_bits(pack), bits: pack.len(), trees, starts, sizes })?;
    Ok(())
}

fn join(comparison: &mut Comparison, random: &mut Random, bits: &[bool]) -> Result<(), Enough> {
    let pack = [bytes_of_bits(bits), random.bytes(2)].concat();
    comparison.compare(Call::Join { pack, bits: bits.len(), trees: trees_in(bits), parents: vec![0, 1, 1] })?;
    Ok(())
}

/// Every byte whose last one is a tree's 65,535th, whose last one is the 65,536th, and whose first one is: where few
/// nodes are pending, and, after another tree, where many are.
pub fn most_nodes(comparison: &mut Comparison, random: &mut Random) -> Result<(), Enough> {
    for byte in 0..=u8::MAX {
        let ones = ones_of(byte);
        for too_many in (0..=ones).filter(|&too_many| too_many <= 1 || too_many == ones) {
            let ones_before = MOST_NODES + too_many - ones;
            let up_to_byte = |trees_before: &[bool], length: usize| {
                let beginning = beginning(length, 2 * ones_before - length);
                [trees_before, &beginning, &bits_of_bytes(&[byte])].concat()
            };
            // no fewer than eight, so that the byte does not end the tree
            let mut string = up_to_byte(&[], (2 * ones_before - 8) / 8 * 8);
            if too_many == 0 {
                string = ended(&string);
            }
            read(comparison, random, &string, string.len())?;
            split(comparison, random, &string, 1)?;
            // after 100; too long to be ended
            let length = (3 + ones_before + 1).next_multiple_of(8) - 3;
            split(comparison, random, &up_to_byte(&[true, false, false], length), 2)?;
        }
    }
    Ok(())
}

#[cfg(test)]
mod tests {
    use super::*;
    use std::collections::BTreeSet;

    #[test]
    fn every_byte_follows_every_number_of_pending_nodes() {
        let mut random = Random::new(1);
        let mut seen = BTreeSet::new();
        for sizes in TREES_BEFORE {
            let trees_before = strings_of_sizes(&mut random, sizes);
            for bits in up_to_every_byte(&mut random, &trees_before) {
                let (up_to_byte, byte) = bits.split_at(bits.len() - 8);
                let pending = ended(up_to_byte).len() - up_to_byte.len();
                assert!(up_to_byte.len().is_multiple_of(8));
                seen.insert((trees_before.len() % 8, pending, bytes_of_bits(byte)));
            }
        }
        for byte in 0..=u8::MAX {
            assert!(seen.contains(&(0, 0, vec![byte])), "{byte} at the beginning of a tree");
            for begins in 0..8 {
                for others in PENDING.into_iter().filter(|pending| pending % 2 == begins % 2) {
                    assert!(
                        seen.contains(&(begins, others + 1, vec![byte])),
                        "{byte} after {others}, from bit {begins}"
                    );
                }
            }
        }
    }
}
