//! Strings and packs, whole and damaged, small and around the limits.

use super::forms::{room_near, small_size, tree_of_size, Forms};
use crate::compare::call::Call;
use crate::compare::comparison::{Comparison, Enough};
use crate::compare::random::Random;
use crate::compare::shapes::{parent_list, Shape};
use crate::model::answers::number;
use crate::model::bits::{bytes_for, bytes_of_bits};
use crate::model::strings::MOST_BITS;

/// Lengths that no buffer has or that pass a limit; the last ones wrap around when rounded up to bytes.
const ODD_LENGTHS: [usize; 12] = [
    0,
    1,
    7,
    MOST_BITS,
    MOST_BITS + 1,
    1 << 20,
    u32::MAX as usize,
    1 << 32,
    usize::MAX / 2,
    usize::MAX - 7,
    usize::MAX - 6,
    usize::MAX,
];

/// Numbers of trees that no pack has or that pass a limit.
const ODD_COUNTS: [usize; 9] = [0, 1, 255, 256, 257, 1 << 32, usize::MAX / 2, usize::MAX - 1, usize::MAX];

/// Bits changed in some way; the same each time for the same random numbers.
pub fn flip_bits(random: &mut Random, bits: &mut [bool], flips: usize) {
    for _ in 0..flips {
        let index = random.below(bits.len());
        bits[index] ^= true;
    }
}

/// A string changed, cut or lengthened, with a leftover bit set, of another length than said.
pub fn damaged_strings(comparison: &mut Comparison, random: &mut Random) -> Result<(), Enough> {
    for _ in 0..8_000 {
        let n = small_size(random);
        let forms = Forms::drawn(random, n);
        for _ in 0..3 {
            let string = damage(random, &forms.string);
            let (bytes, bits) = bytes_and_length(random, &string);
            let room = room_near(random, n);
            let parents = random.words(room);
            comparison.compare(Call::ParentsOfString { bytes, bits, parents })?;
        }
    }
    Ok(())
}

fn damage(random: &mut Random, whole: &[bool]) -> Vec<bool> {
    let mut string = whole.to_vec();
    match random.below(6) {
        0 => flip_bits(random, &mut string, 1),
        1 => flip_bits(random, &mut string, 2),
        2 => {
            let flips = random.between(3, 9);
            flip_bits(random, &mut string, flips);
        }
        3 => string.truncate(random.below(whole.len())),
        4 => {
            let more = random.between(1, 20);
            string.extend(random.bits(more));
        }
        _ => {}
    }
    string
}

/// The bytes of the bits and their number, sometimes with a leftover bit set or one of the two being another than
/// it should.
fn bytes_and_length(random: &mut Random, string: &[bool]) -> (Vec<u8>, usize) {
    let mut bytes = bytes_of_bits(string);
    let mut bits = string.len();
    match random.below(8) {
        0 if !bits.is_multiple_of(8) => {
            *bytes.last_mut().expect("has bits") |= 1 << random.below(8 - bits % 8);
        }
        1 => bits = random.pick(&ODD_LENGTHS),
        2 => bits = random.pick(&[bits.saturating_sub(1), bits + 1, bits + 8, bits + (1 << 32)]),
        3 => bytes.truncate(random.below(bytes.len() + 1)),
        4 => {
            let more = random.between(1, 9);
            bytes.extend(random.bytes(more));
        }
        _ => {}
    }
    (bytes, bits)
}

/// A few trees and their strings end to end.
pub struct Pack {
    trees: Vec<Vec<u32>>,
    pub bits: Vec<bool>,
}

pub fn pack_of(trees: Vec<Vec<u32>>) -> Pack {
    let bits = trees.iter().flat_map(|parents| Forms::of(parents.clone(), None).string).collect();
    Pack { trees, bits }
}

fn drawn_pack(random: &mut Random) -> Pack {
    let count = if random.one_in(10) { random.between(0, 60) } else { random.between(0, 6) };
    let mut trees = Vec::new();
    for _ in 0..count {
        let n = small_size(random);
        trees.push(tree_of_size(random, n));
    }
    pack_of(trees)
}

/// Packs split, the parts read as strings, and the same packs built by joining.
pub fn packs(comparison: &mut Comparison, random: &mut Random) -> Result<(), Enough> {
    for _ in 0..2_000 {
        let pack = drawn_pack(random);
        split(comparison, random, &pack.bits, pack.trees.len())?;
        // each part "moved to begin at bit 1 of a buffer by the caller and read as a string"
        let mut begin = 0;
        for parents in &pack.trees {
            let bits = 2 * parents.len() + 1;
            let bytes = bytes_of_bits(&pack.bits[begin..begin + bits]);
            let read = Call::ParentsOfString { bytes, bits, parents: random.words(parents.len()) };
            comparison.compare(read)?;
            begin += bits;
        }
        join_one_by_one(comparison, random, &pack)?;
    }
    Ok(())
}

fn split(comparison: &mut Comparison, random: &mut Random, string: &[bool], trees: usize) -> Result<(), Enough> {
    let rooms = [room_near(random, trees.min(300)), room_near(random, trees.min(300))];
    let [starts, sizes] = rooms.map(|room| random.words(room));
    let (bytes, bits) = (bytes_of_bits(string), string.len());
    comparison.compare(Call::Split { bytes, bits, trees, starts, sizes })?;
    Ok(())
}

/// The pack built in a buffer that is filled with anything, tree after tree, as the library leaves it.
fn join_one_by_one(comparison: &mut Comparison, random: &mut Random, pack: &Pack) -> Result<(), Enough> {
    let spare = random.below(3);
    let mut buffer = random.bytes(bytes_for(pack.bits.len()) + spare);
    let mut bits = 0;
    for (trees, parents) in pack.trees.iter().enumerate() {
        let join = Call::Join { pack: buffer, bits, trees, parents: parents.clone() };
        let compared = comparison.compare(join)?;
        let Call::Join { pack: joined, .. } = compared.call else { unreachable!("a join") };
        buffer = joined;
        bits += 2 * parents.len() + 1;
    }
    Ok(())
}

/// Packs changed, cut or lengthened, with other numbers than theirs, split and joined to.
pub fn damaged_packs(comparison: &mut Comparison, random: &mut Random) -> Result<(), Enough> {
    for _ in 0..5_000 {
        let pack = drawn_pack(random);
        let count = pack.trees.len();
        for _ in 0..3 {
            let damaged = if pack.bits.is_empty() { random.bits(5) } else { damage(random, &pack.bits) };
            let (bytes, bits) = bytes_and_length(random, &damaged);
            let trees = match random.below(8) {
                0 => count + 1,
                1 => count.saturating_sub(1),
                2 => random.pick(&ODD_COUNTS),
                3 => count + (1 << 32),
                _ => count,
            };
            let rooms = [room_near(random, count), room_near(random, count)];
            let [starts, sizes] = rooms.map(|room| random.words(room));
            comparison.compare(Call::Split { bytes: bytes.clone(), bits, trees, starts, sizes })?;
            join_to(comparison, random, bytes, bits, trees)?;
        }
    }
    Ok(())
}

/// Joins a tree, seldom a bad one, to bytes that may be anything.
fn join_to(
    comparison: &mut Comparison,
    random: &mut Random,
    bytes: Vec<u8>,
    bits: usize,
    trees: usize,
) -> Result<(), Enough> {
    let n = small_size(random);
    let mut parents = tree_of_size(random, n);
    if random.one_in(8) {
        let index = random.below(n);
        parents[index] = random.pick(&[0, 1, number(n), u32::MAX]);
    }
    let more = room_near(random, bytes_for(2 * n + 1));
    let pack = [bytes, random.bytes(more)].concat();
    comparison.compare(Call::Join { pack, bits, trees, parents })?;
    Ok(())
}

/// Around 256 trees, around 131,071 bits, and around the 65,536th one of a tree.
pub fn packs_around_the_limits(comparison: &mut Comparison, random: &mut Random) -> Result<(), Enough> {
    for count in [254, 255, 256, 257, 300] {
        let pack = pack_of(vec![vec![0]; count]);
        for trees in [count - 1, count, count + 1, 255, 256, 257] {
            split(comparison, random, &pack.bits, trees)?;
            let bytes = bytes_of_bits(&pack.bits);
            join_to(comparison, random, bytes, pack.bits.len(), trees)?;
        }
    }
    joined_lengths(comparison, random)?;
    ones_of_a_tree(comparison, random)
}

/// Joined lengths of 131,070 and 131,071 bits, and those that are over, with room for all of them.
fn joined_lengths(comparison: &mut Comparison, random: &mut Random) -> Result<(), Enough> {
    for trees in [1, 2] {
        let mut sizes = vec![40_000; trees];
        sizes[0] = if trees == 1 { 40_000 } else { 5_000 };
        let pack = pack_of(sizes.iter().map(|&n| tree_of_size(random, n)).collect());
        let bits = pack.bits.len();
        let most = (MOST_BITS - bits - 1) / 2;
        for n in [most - 1, most, most + 1] {
            for room in [bytes_for(bits + 2 * n + 1) - 1, bytes_for(bits + 2 * n + 1), 16_400] {
                let mut buffer = bytes_of_bits(&pack.bits);
                buffer.resize(room, 0xC3);
                let mut parents = tree_of_size(random, n);
                comparison.compare(Call::Join { pack: buffer.clone(), bits, trees, parents: parents.clone() })?;
                // a bad entry is found after a wrong length only
                parents[n / 2] = u32::MAX;
                comparison.compare(Call::Join { pack: buffer, bits, trees, parents })?;
            }
        }
    }
    Ok(())
}

/// Strings whose tree goes on to its 65,535th or 65,536th one, alone and after another tree.
fn ones_of_a_tree(comparison: &mut Comparison, random: &mut Random) -> Result<(), Enough> {
    let largest = Forms::of(parent_list(Shape::Star, 65_535, random), None).string;
    let last_one = largest.iter().rposition(|&bit| bit).expect("has ones");
    let mut one_more = largest.clone();
    one_more[last_one + 1] = true;
    let path = Forms::of(parent_list(Shape::Path, 65_535, random), None).string;
    let mut path_goes_on = path.clone();
    *path_goes_on.last_mut().expect("not empty") = true;
    for string in [&largest, &one_more, &path, &path_goes_on] {
        for length in [MOST_BITS, MOST_BITS - 1, last_one + 3, last_one + 2, last_one + 1] {
            let bytes = bytes_of_bits(&string[..length]);
            let parents = random.words(65_535);
            comparison.compare(Call::ParentsOfString { bytes, bits: length, parents })?;
            split(comparison, random, &string[..length], 1)?;
            // after 100
            let after = [&[true, false, false], &string[..length - 3]].concat();
            split(comparison, random, &after, 2)?;
        }
    }
    Ok(())
}
