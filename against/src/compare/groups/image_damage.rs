//! Images damaged in every way: with sums that show it, and with the sums made right again.

use super::forms::{check_and_one_reading, readings, small_size, Forms};
use crate::compare::comparison::{Comparison, Enough};
use crate::compare::layout::{place_of_bit, with_words, word_at, Layout};
use crate::compare::random::Random;
use crate::compare::shapes::{parent_list, Shape};
use crate::model::answers::number;
use crate::model::images::{
    image_of_strings, ones_in, partition, seal, BITS_IN_BLOCK, BLOCK_BYTES, MOST_BLOCKS, PAYLOAD_BYTES, PAYLOAD_WORDS,
};

/// A tree to damage: mostly small, sometimes with several blocks of bits, seldom with several of samples or of the
/// largest.
fn tree_to_damage(random: &mut Random) -> Forms {
    let n = match random.below(900) {
        0 => random.between(65_500, 65_535),
        1..=15 => random.between(8_100, 9_000),
        16..=45 => random.between(3_990, 4_200),
        _ => small_size(random),
    };
    Forms::drawn(random, n)
}

/// How often a tree is damaged: a large one once, for it takes its time.
fn damages_of(forms: &Forms, of_small: usize) -> usize {
    if forms.node_count() > 10_000 {
        1
    } else {
        of_small
    }
}

/// One bit changed, two, or several: found by the sums. With the sums made right: seldom an image, mostly of no tree.
pub fn flipped_bits(comparison: &mut Comparison, random: &mut Random) -> Result<(), Enough> {
    for _ in 0..2_500 {
        let forms = tree_to_damage(random);
        for _ in 0..damages_of(&forms, 4) {
            let mut image = forms.image.clone();
            let flips = if random.one_in(3) { random.between(3, 9) } else { random.between(1, 2) };
            for _ in 0..flips {
                let byte = random.below(image.len());
                image[byte] ^= 1 << random.below(8);
            }
            check_and_one_reading(comparison, random, &image, forms.node_count())?;
            seal(&mut image);
            check_and_one_reading(comparison, random, &image, forms.node_count())?;
        }
    }
    Ok(())
}

/// The first block of R1 or of R0, how many blocks it has, and how many bits.
fn either_string(random: &mut Random, layout: &Layout) -> (usize, usize, usize) {
    let (blocks, bits) = match random.one_in(2) {
        true => (&layout.r1, layout.n),
        false => (&layout.r0, layout.n + 1),
    };
    (blocks.start, blocks.len(), bits)
}

/// The first block of one of the lists, how many blocks it has, and how many words.
fn one_list(random: &mut Random, layout: &Layout) -> (usize, usize, usize) {
    let lists = layout.lists();
    // in version 1 there are no metres, which come last
    let (blocks, words) = lists[random.below(if layout.metres.is_empty() { 2 } else { 3 })];
    (blocks.start, blocks.len(), words)
}

/// Another value for a word: next to it, or one that a limit is made of, or any.
fn change_word(random: &mut Random, word: &mut [u8; 4]) {
    let value = u32::from_le_bytes(*word);
    let near = [value.wrapping_add(1), value.wrapping_sub(1), value ^ 1 << random.below(32)];
    let known = [0, 1, 2, 3, 5, 6, 53, 54, 574, 575, 65_535, 65_536, 65_537, 1 << 31, u32::MAX, random.word()];
    let changed = if random.one_in(2) { random.pick(&near) } else { random.pick(&known) };
    *word = changed.to_le_bytes();
}

/// One edit of the payload.
fn edit(random: &mut Random, image: &mut [u8], layout: &Layout) {
    match random.below(9) {
        0 => {
            let word = random.pick(&[0, 0, 1, 1, 2, 2, 3, 3, 4, 5, 64, 125]);
            change_word(random, word_at(image, 0, word));
        }
        1 => {
            // the count of earlier ones
            let (first, blocks, _) = either_string(random, layout);
            let block = first + random.below(blocks);
            change_word(random, word_at(image, block, 0));
        }
        2 => {
            // a sample, or the metres of a node: the first, the last, or any
            let (first, _, words) = one_list(random, layout);
            let any = random.below(words);
            let word = random.pick(&[0, words - 1, any]);
            change_word(random, word_at(image, first, word));
        }
        3 => {
            // two of them exchanged, or one said twice
            let (first, _, words) = one_list(random, layout);
            let [one, other] = [0, 1].map(|_| random.below(words));
            let value = *word_at(image, first, one);
            let replaced = std::mem::replace(word_at(image, first, other), value);
            if random.one_in(2) {
                *word_at(image, first, one) = replaced;
            }
        }
        4 => {
            // unused bits after a string: the first of them, or any
            let (first, blocks, bits) = either_string(random, layout);
            let unused = blocks * BITS_IN_BLOCK - bits;
            if unused > 0 {
                let index = bits + if random.one_in(2) { 0 } else { random.below(unused) };
                let (byte, mask) = place_of_bit(first, index);
                image[byte] |= mask;
            }
        }
        5 => {
            // unused words after the samples or the metres: the first of them, or any
            let (first, blocks, words) = one_list(random, layout);
            let unused = blocks * PAYLOAD_WORDS - words;
            if unused > 0 {
                let word = words + if random.one_in(2) { 0 } else { random.below(unused) };
                change_word(random, word_at(image, first, word));
            }
        }
        6 => {
            // one bit of a string
            let (first, _, bits) = either_string(random, layout);
            let (byte, mask) = place_of_bit(first, random.below(bits));
            image[byte] ^= mask;
        }
        7 => {
            // two bits of a string exchanged, often neighbours: as many ones as before
            let (first, _, bits) = either_string(random, layout);
            let one = random.below(bits);
            let other = if random.one_in(2) { (one + 1) % bits } else { random.below(bits) };
            let [(byte, mask), (other_byte, other_mask)] = [one, other].map(|index| place_of_bit(first, index));
            if (image[byte] & mask == 0) != (image[other_byte] & other_mask == 0) {
                image[byte] ^= mask;
                image[other_byte] ^= other_mask;
            }
        }
        _ => {
            // any word of any block
            let word = random.below(image.len() / BLOCK_BYTES * PAYLOAD_WORDS);
            change_word(random, word_at(image, 0, word));
        }
    }
}

/// Header words, counts, samples, metres, padding and bits edited, once or twice, and the sums made right again.
pub fn edits_with_right_sums(comparison: &mut Comparison, random: &mut Random) -> Result<(), Enough> {
    for _ in 0..4_000 {
        let forms = tree_to_damage(random);
        let layout = forms.layout();
        for _ in 0..damages_of(&forms, 8) {
            let mut image = forms.image.clone();
            for _ in 0..random.pick(&[1, 1, 1, 2]) {
                edit(random, &mut image, &layout);
            }
            seal(&mut image);
            check_and_one_reading(comparison, random, &image, forms.node_count())?;
        }
    }
    Ok(())
}

/// The image that two strings would have, of at least five blocks even where there are no samples.
pub fn sealed_image_of(r1: &[bool], r0: &[bool], metres: Option<&[u32]>) -> Vec<u8> {
    let image = image_of_strings(r1, r0, metres);
    let blocks = image.len() / BLOCK_BYTES;
    lengthened(&image, blocks.max(5))
}

/// The image cut off after so many blocks or with zeros up to there, with this number in its header and right sums.
fn lengthened(image: &[u8], blocks: usize) -> Vec<u8> {
    let mut image = image.to_vec();
    image.resize(blocks * BLOCK_BYTES, 0);
    with_words(&image, &[(0, 3, number(blocks))])
}

/// Strings of no tree with header, counts, samples and sums computed from them as if they were of one.
pub fn images_of_no_tree(comparison: &mut Comparison, random: &mut Random) -> Result<(), Enough> {
    for _ in 0..8_000 {
        let forms = tree_to_damage(random);
        let (r1, r0) = strings_of_no_tree(random, &forms);
        let image = sealed_image_of(&r1, &r0, forms.metres.as_deref());
        readings(comparison, random, &image, forms.node_count())?;
    }
    // no node at all
    for r0 in [[true], [false]] {
        for metres in [None, Some([].as_slice())] {
            readings(comparison, random, &sealed_image_of(&[], &r0, metres), 1)?;
        }
    }
    // right in all but that there are too many nodes; 574 blocks would hold most of them
    for n in [65_536, 65_537, 67_999, 68_000, 68_001] {
        for shape in [Shape::Star, Shape::LongRuns] {
            let parents = parent_list(shape, n, random);
            for forms in Forms::of_both_versions(random, &parents) {
                readings(comparison, random, &forms.image, n)?;
            }
        }
    }
    Ok(())
}

/// R1 and R0 that are, but for a few by chance, those of no tree.
fn strings_of_no_tree(random: &mut Random, forms: &Forms) -> (Vec<bool>, Vec<bool>) {
    let mut string = forms.string.clone();
    let bits = string.len();
    let (mut r1, mut r0) = partition(&string);
    match random.below(9) {
        0 => {
            // as many ones and zeros as a tree's string, but two of them exchanged
            string.swap(random.below(bits), random.below(bits));
            partition(&string)
        }
        1 => {
            // the same, turned so that it begins elsewhere: a tree is over too soon
            string.rotate_left(random.below(bits));
            partition(&string)
        }
        2 => {
            // two trees end to end, one zero removed for the length of a single tree's string
            let n = small_size(random);
            string.extend(&Forms::drawn(random, n).string);
            let zero = string.iter().rposition(|bit| !bit).expect("ends with a zero");
            string.remove(zero);
            partition(&string)
        }
        3 => {
            // as a tree's string to its last bit, which is one
            *string.last_mut().expect("not empty") = true;
            partition(&string)
        }
        4 => {
            // runs in step, of any lengths: both strings end with a one and have as many ones
            let n = forms.node_count();
            let (mut r1, mut r0) = (random.bits(n), random.bits(n + 1));
            (r1[n - 1], r0[n]) = (true, true);
            let ones = ones_in(&r1).min(ones_in(&r0));
            remove_first_ones(&mut r1, ones);
            remove_first_ones(&mut r0, ones);
            (r1, r0)
        }
        5 => (random.bits(r1.len()), random.bits(r0.len())),
        6 => {
            // one bit changed in one of them
            let index = random.below(r1.len());
            if random.one_in(2) {
                r1[index] ^= true;
            } else {
                r0[index] ^= true;
            }
            (r1, r0)
        }
        7 => {
            // R0 one bit too short or too long
            if random.one_in(2) {
                r0.pop();
            } else {
                r0.push(true);
            }
            (r1, r0)
        }
        _ => (r0, r1),
    }
}

/// Makes ones into zeros, from the first on, until only so many are left.
fn remove_first_ones(bits: &mut [bool], left: usize) {
    let mut too_many = ones_in(bits) - left;
    for bit in bits.iter_mut() {
        if *bit && too_many > 0 {
            *bit = false;
            too_many -= 1;
        }
    }
}

/// Sizes of all kinds with nothing in them; blocks cut off, added, exchanged, said twice; bytes cut off and added.
pub fn moved_blocks(comparison: &mut Comparison, random: &mut Random) -> Result<(), Enough> {
    for blocks in [0, 1, 4, 5, 6, 53, 54, 96, 97, MOST_BLOCKS - 1, MOST_BLOCKS, MOST_BLOCKS + 1] {
        for more in [-1, 0, 1, 256] {
            let length = (blocks * BLOCK_BYTES).saturating_add_signed(more);
            for filled in [vec![0; length], random.bytes(length)] {
                let mut image = filled;
                readings(comparison, random, &image, 7)?;
                seal(&mut image);
                readings(comparison, random, &image, 7)?;
            }
        }
    }
    for _ in 0..3_000 {
        let forms = tree_to_damage(random);
        let mut image = move_blocks(random, &forms.image);
        check_and_one_reading(comparison, random, &image, forms.node_count())?;
        seal(&mut image);
        check_and_one_reading(comparison, random, &image, forms.node_count())?;
        if image.len() >= PAYLOAD_BYTES {
            // and with the number of blocks made right as well
            let blocks = number(image.len() / BLOCK_BYTES);
            *word_at(&mut image, 0, 3) = blocks.to_le_bytes();
            seal(&mut image);
            check_and_one_reading(comparison, random, &image, forms.node_count())?;
        }
    }
    Ok(())
}

fn move_blocks(random: &mut Random, image: &[u8]) -> Vec<u8> {
    let mut blocks: Vec<Vec<u8>> = image.chunks(BLOCK_BYTES).map(<[u8]>::to_vec).collect();
    let one = random.below(blocks.len());
    let other = random.below(blocks.len());
    match random.below(8) {
        0 => blocks.swap(one, other),
        1 => {
            blocks.remove(one);
        }
        2 => blocks.insert(one, blocks[other].clone()),
        3 => blocks.insert(one, vec![0; BLOCK_BYTES]),
        4 => blocks.push(vec![0; BLOCK_BYTES]),
        5 => {
            // more than a tree's image without metres can have, and more than any
            let more = random.pick(&[54, 96, 97, 573, 574, 575, 576]);
            return lengthened(image, more);
        }
        6 => {
            let length = random.below(image.len() + 1);
            return image[..length].to_vec();
        }
        _ => {
            let more = random.pick(&[1, 4, 8, 504, 511, 1_024]);
            blocks.push(random.bytes(more));
        }
    }
    blocks.concat()
}
