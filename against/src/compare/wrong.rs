//! Deliberately wrong functions around the library, to show that the comparison finds them.

use super::call::Call;
use super::layout::{place_of_bit, with_words, word_at, Layout};
use super::run::{first_difference, DEFAULT_SEED};
use crate::library::{Library, Returned};
use crate::model::answers::{number, Answer, Refusal};
use crate::model::bits::{bits_of_bytes, bytes_of_bits};
use crate::model::calls;
use crate::model::images::{
    candidate, image_of_tree, metres_in, partition, seal, wrong_words, Content, WrongWords, BITS_IN_BLOCK, BLOCK_BYTES,
    COUNT_BYTES, MOST_BLOCKS, PAYLOAD_BYTES, PAYLOAD_WORDS, SAMPLE_STEP, WITHOUT_METRES, WITH_METRES,
};
use crate::model::listing::listing_from;
use crate::model::strings::{string_of_tree, MOST_BITS};
use crate::model::texts::{tree_of_text, Node, BLANKS, CLOSES, MOST_LEVELS, MOST_TEXT_BYTES, OPENS};
use crate::model::trees::{Tree, MOST_NODES};

/// A function that does as the library, but for one thing.
pub struct Wrong {
    pub name: &'static str,
    pub what: &'static str,
    /// Makes what the library left and answered wrong; the call is given as it was before, too.
    spoil: fn(before: &Call, after: &mut Call, answer: &mut Answer),
}

impl Wrong {
    pub fn run(&self, library: &mut Library, call: &mut Call) -> Returned {
        let before = call.clone();
        let mut returned = library.run(call);
        (self.spoil)(&before, call, &mut returned.answer);
        returned
    }
}

/// How far into each group a wrong function is looked for.
const COMPARISONS: u64 = 1_500;

/// The wrong function of this name.
pub fn wrong_named(name: &str) -> Option<&'static Wrong> {
    WRONG.iter().find(|wrong| wrong.name == name)
}

/// Compares each wrong function with the model and prints the first difference; gives how many were not found.
pub fn find_all_wrong() -> usize {
    let mut library = Library::new();
    let mut missed = 0;
    for wrong in WRONG {
        println!("{}: {}", wrong.name, wrong.what);
        let mut subject = |call: &mut Call| wrong.run(&mut library, call);
        match first_difference(&mut subject, DEFAULT_SEED, COMPARISONS) {
            Some(difference) => println!("found, {difference}"),
            None => {
                println!("NOT FOUND");
                missed += 1;
            }
        }
    }
    println!("wrong functions: {}, found {}, missed {missed}", WRONG.len(), WRONG.len() - missed);
    missed
}

pub const WRONG: &[Wrong] = &[
    Wrong {
        name: "string-refuses-everything",
        what: "plq_string_of_parents finds the first entry wrong, always",
        spoil: |before, after, answer| {
            if matches!(after, Call::StringOfParents { .. }) {
                *after = before.clone();
                *answer = refused(3, 1);
            }
        },
    },
    Wrong {
        name: "string-writes-nothing",
        what: "plq_string_of_parents answers as it should and writes nothing",
        spoil: |before, after, _| {
            if matches!(after, Call::StringOfParents { .. }) {
                *after = before.clone();
            }
        },
    },
    Wrong {
        name: "string-names-earlier-entry",
        what: "plq_string_of_parents takes the earlier of two entries out of order for the offender",
        spoil: |_, after, answer| {
            if let (3, Call::StringOfParents { parents, .. }) = (answer.code, after) {
                let index = answer.place as usize - 1;
                if index > 0 && parents[index] > 0 && parents[index] < parents[index - 1] {
                    answer.place -= 1;
                }
            }
        },
    },
    Wrong {
        name: "parents-of-string-place-off-by-one",
        what: "plq_parents_of_string names the bit before the refusing one",
        spoil: |_, after, answer| {
            if let (4, Call::ParentsOfString { .. }) = (answer.code, after) {
                answer.place -= 1;
            }
        },
    },
    Wrong {
        name: "parents-of-string-wraps-length",
        what: "plq_parents_of_string takes the length modulo 2^32",
        spoil: |before, after, answer| {
            if let Call::ParentsOfString { bytes, bits, parents } = before {
                let wrapped = *bits % (1 << 32);
                if wrapped != *bits && wrapped <= MOST_BITS {
                    let mut parents = parents.clone();
                    *answer = Answer::of(calls::parents_of_string(bytes, wrapped, &mut parents));
                    *after = Call::ParentsOfString { bytes: bytes.clone(), bits: *bits, parents };
                }
            }
        },
    },
    Wrong {
        name: "parents-of-string-counts-seven-bits-of-a-byte",
        what: "plq_parents_of_string takes the last bit of the byte 01001011 for a zero",
        spoil: |before, after, answer| {
            if let (0 | 1 | 4, Call::ParentsOfString { bytes, bits, parents }) = (answer.code, before) {
                if let Some(taken) = taken_for(bytes, *bits, 0b0100_1011, 0b0100_1010) {
                    let mut parents = parents.clone();
                    *answer = Answer::of(calls::parents_of_string(&taken, *bits, &mut parents));
                    *after = Call::ParentsOfString { bytes: bytes.clone(), bits: *bits, parents };
                }
            }
        },
    },
    Wrong {
        name: "parents-of-string-counts-nodes-by-bytes",
        what: "plq_parents_of_string names the first bit of the byte 00110101 that has a tree's 65,536th one",
        spoil: |_, after, answer| {
            if let (4, Call::ParentsOfString { bytes, bits, .. }) = (answer.code, after) {
                let index = answer.place as usize - 1;
                let is_too_many = || bits_of_bytes(bytes)[..index].iter().filter(|&&bit| bit).count() == MOST_NODES;
                if index < *bits && bytes[index / 8] == 0b0011_0101 && is_too_many() {
                    answer.place = number(index / 8 * 8 + 1);
                }
            }
        },
    },
    Wrong {
        name: "image-changes-byte-after",
        what: "plq_image_of_parents clears the byte after the image, where there is one",
        spoil: |_, after, answer| {
            if let (0, Call::ImageOfParents { parents, image }) = (answer.code, after) {
                let tree = Tree::of_parent_list(parents).expect("accepted");
                let length = image_of_tree(&tree, None).len();
                image[length..].iter_mut().take(1).for_each(|byte| *byte = 0);
            }
        },
    },
    Wrong {
        name: "image-invents-count",
        what: "plq_image_of_parents answers the nodes with children, not one more, for m",
        spoil: |_, after, answer| {
            if let (0, Call::ImageOfParents { .. }) = (answer.code, after) {
                answer.second -= 1;
            }
        },
    },
    Wrong {
        name: "image-with-metres-takes-any-number",
        what: "plq_image_with_metres takes lists of metres of any length, and zeros for those that are missing",
        spoil: |before, after, answer| {
            if let (2, Call::ImageWithMetres { parents, metres, image }) = (answer.code, before) {
                let (mut as_many, mut image) = (metres.clone(), image.clone());
                as_many.resize(parents.len(), 0);
                *answer = Answer::of(calls::image_with_metres(parents, &as_many, &mut image));
                *after = Call::ImageWithMetres { parents: parents.clone(), metres: metres.clone(), image };
            }
        },
    },
    Wrong {
        name: "image-with-metres-takes-none-for-version-1",
        what: "plq_image_with_metres makes an image of version 1 where the list of metres is empty",
        spoil: |before, after, answer| {
            if let (2, Call::ImageWithMetres { parents, metres, image }) = (answer.code, before) {
                if metres.is_empty() {
                    let mut image = image.clone();
                    *answer = Answer::of(calls::image_of_parents(parents, &mut image));
                    *after = Call::ImageWithMetres { parents: parents.clone(), metres: Vec::new(), image };
                }
            }
        },
    },
    Wrong {
        name: "image-with-metres-looks-at-parents-first",
        what: "plq_image_with_metres refuses a bad parent list before another number of metres",
        spoil: |_, after, answer| {
            if let (2, Call::ImageWithMetres { parents, .. }) = (answer.code, after) {
                if let (1..=MOST_NODES, Err(refusal)) = (parents.len(), Tree::of_parent_list(parents)) {
                    *answer = Answer::of(Err(refusal));
                }
            }
        },
    },
    Wrong {
        name: "image-with-metres-says-version-1",
        what: "plq_image_with_metres writes version 1 into the header",
        spoil: |_, after, answer| {
            seal_otherwise(after, answer, |image, _| *word_at(image, 0, 0) = WITHOUT_METRES.to_le_bytes());
        },
    },
    Wrong {
        name: "image-with-metres-does-not-count-them",
        what: "plq_image_with_metres leaves the blocks of metres out of the number of blocks in the header",
        spoil: |_, after, answer| {
            seal_otherwise(after, answer, |image, layout| {
                *word_at(image, 0, 3) = number(layout.metres.start).to_le_bytes();
            });
        },
    },
    Wrong {
        name: "image-with-metres-writes-none",
        what: "plq_image_with_metres writes zeros for the metres",
        spoil: |_, after, answer| {
            seal_otherwise(after, answer, |image, layout| image[layout.metres.start * BLOCK_BYTES..].fill(0));
        },
    },
    Wrong {
        name: "image-with-metres-writes-one-block",
        what: "plq_image_with_metres writes the first block of metres, and zeros after it",
        spoil: |_, after, answer| {
            seal_otherwise(after, answer, |image, layout| image[(layout.metres.start + 1) * BLOCK_BYTES..].fill(0));
        },
    },
    Wrong {
        name: "image-with-metres-puts-127-to-a-block",
        what: "plq_image_with_metres puts 127 metres to a block, and the sums over the last of them",
        spoil: |_, after, answer| {
            seal_otherwise(after, answer, |image, layout| {
                let first = layout.metres.start;
                let metres: Vec<[u8; 4]> = (0..layout.n).map(|node| *word_at(image, first, node)).collect();
                image[first * BLOCK_BYTES..].fill(0);
                for (block, metres) in (first..).zip(metres.chunks(PAYLOAD_WORDS + 1)) {
                    image[block * BLOCK_BYTES..][..4 * metres.len()].copy_from_slice(metres.as_flattened());
                }
            });
        },
    },
    Wrong {
        name: "image-with-metres-samples-last-one-of-a-byte",
        what: "plq_image_with_metres takes the last one of the byte 10101001 of R0 for any that has a sample",
        spoil: |_, after, answer| {
            seal_otherwise(after, answer, |image, layout| {
                let r0 = r0_of(&candidate(image).expect("just made"));
                for index in 0..layout.samples {
                    let sample = word_at(image, layout.r0_samples.start, index);
                    let place = u32::from_le_bytes(*sample);
                    *sample = find_otherwise(&r0, place, 0b1010_1001, |ones, _| ones[ones.len() - 1]).to_le_bytes();
                }
            });
        },
    },
    Wrong {
        name: "parents-of-image-fills-short-room",
        what: "plq_parents_of_image writes what fits before it refuses for too little room",
        spoil: |_, after, answer| {
            if let (1, Call::ParentsOfImage { image, parents }) = (answer.code, after) {
                let all = candidate(image).expect("accepted but for the room").parent_list();
                parents.iter_mut().zip(all).for_each(|(entry, parent)| *entry = parent);
            }
        },
    },
    Wrong {
        name: "metres-of-image-refuses-everything",
        what: "plq_metres_of_image finds no metres, always",
        spoil: |before, after, answer| {
            if let (0, Call::MetresOfImage { .. }) = (answer.code, before) {
                *after = before.clone();
                *answer = refused(8, 1);
            }
        },
    },
    Wrong {
        name: "metres-of-image-gives-zeros",
        what: "plq_metres_of_image gives every node 0 metres",
        spoil: |_, after, answer| read_otherwise(after, answer, |_, metres| metres.fill(0)),
    },
    Wrong {
        name: "metres-of-image-gives-next-nodes",
        what: "plq_metres_of_image gives each node the metres of the next one, and the last node those of the first",
        spoil: |_, after, answer| read_otherwise(after, answer, |_, metres| metres.rotate_left(1)),
    },
    Wrong {
        name: "metres-of-image-reads-one-block",
        what: "plq_metres_of_image gives the metres of the first block, and zeros after them",
        spoil: |_, after, answer| {
            read_otherwise(after, answer, |_, metres| metres.iter_mut().skip(PAYLOAD_WORDS).for_each(|word| *word = 0));
        },
    },
    Wrong {
        name: "metres-of-image-gives-parents",
        what: "plq_metres_of_image gives each node's parent",
        spoil: |_, after, answer| {
            read_otherwise(after, answer, |image, metres| {
                metres.copy_from_slice(&candidate(image).expect("accepted").parent_list());
            });
        },
    },
    Wrong {
        name: "metres-of-image-invents-count",
        what: "plq_metres_of_image answers m for its second count",
        spoil: |_, after, answer| {
            if let (0, Call::MetresOfImage { image, .. }) = (answer.code, after) {
                answer.second = header_word(image, 2);
            }
        },
    },
    Wrong {
        name: "metres-of-image-gives-zeros-for-version-1",
        what: "plq_metres_of_image gives every node of an image without metres 0 metres",
        spoil: |_, after, answer| {
            if let (8, Call::MetresOfImage { image, metres }) = (answer.code, after) {
                let n = header_word(image, 1);
                *answer = match metres.get_mut(..n as usize) {
                    Some(metres) => {
                        metres.fill(0);
                        Answer { code: 0, place: 0, first: n, second: 0 }
                    }
                    None => refused(1, 0),
                };
            }
        },
    },
    Wrong {
        name: "metres-of-image-looks-at-room-first",
        what: "plq_metres_of_image refuses for too little room before it refuses an image without metres",
        spoil: |_, after, answer| {
            if let (8, Call::MetresOfImage { image, metres }) = (answer.code, after) {
                if metres.len() < header_word(image, 1) as usize {
                    *answer = refused(1, 0);
                }
            }
        },
    },
    Wrong {
        name: "metres-of-image-fills-short-room",
        what: "plq_metres_of_image writes what fits before it refuses for too little room",
        spoil: |_, after, answer| {
            if let (1, Call::MetresOfImage { image, metres }) = (answer.code, after) {
                let all =
                    content_by_length(image).and_then(|content| content.metres).expect("accepted but for the room");
                metres.iter_mut().zip(all).for_each(|(entry, metres)| *entry = metres);
            }
        },
    },
    Wrong {
        name: "check-answers-constant",
        what: "plq_check_image answers what it should for a single node, always",
        spoil: |_, after, answer| {
            if matches!(after, Call::CheckImage { .. }) {
                *answer = Answer { code: 0, place: 0, first: 1, second: 1 };
            }
        },
    },
    Wrong {
        name: "check-ignores-second-sum",
        what: "plq_check_image looks at s only",
        spoil: |_, after, answer| {
            if let (6, Call::CheckImage { image }) = (answer.code, after) {
                let mut resealed = image.clone();
                seal(&mut resealed);
                for block in 0..image.len() / BLOCK_BYTES {
                    let first_sum = block * BLOCK_BYTES + PAYLOAD_BYTES..block * BLOCK_BYTES + PAYLOAD_BYTES + 4;
                    resealed[first_sum.clone()].copy_from_slice(&image[first_sum]);
                }
                *answer = Call::CheckImage { image: resealed }.by_model();
            }
        },
    },
    Wrong {
        name: "check-names-highest-block",
        what: "plq_check_image names the highest damaged block",
        spoil: |_, after, answer| {
            if let (6, Call::CheckImage { image }) = (answer.code, after) {
                answer.place = *wrong_blocks(image).last().expect("one is damaged");
            }
        },
    },
    Wrong {
        name: "check-keeps-to-53-blocks",
        what: "plq_check_image takes no more blocks than an image of version 1 can have",
        spoil: |_, after, answer| {
            if let Call::CheckImage { image } = after {
                if image.len() > 53 * BLOCK_BYTES {
                    *answer = refused(2, 0);
                }
            }
        },
    },
    Wrong {
        name: "check-takes-575-blocks",
        what: "plq_check_image finds no fault with 575 blocks before it looks at the header",
        spoil: |_, after, answer| {
            if let (2, Call::CheckImage { image }) = (answer.code, after) {
                if image.len() == (MOST_BLOCKS + 1) * BLOCK_BYTES {
                    *answer = wrong_blocks(image).first().map_or(refused(12, 0), |&block| refused(6, block));
                }
            }
        },
    },
    Wrong {
        name: "check-ignores-version",
        what: "plq_check_image takes the version that an image of this length would have for that in the header",
        spoil: |_, after, answer| {
            accept_where(after, answer, |image, right, _| *word_at(image, 0, 0) = *word_at(right, 0, 0));
        },
    },
    Wrong {
        name: "check-ignores-m",
        what: "plq_check_image does not look at m in the header",
        spoil: |_, after, answer| {
            accept_where(after, answer, |image, right, _| *word_at(image, 0, 2) = *word_at(right, 0, 2));
        },
    },
    Wrong {
        name: "check-ignores-number-of-blocks",
        what: "plq_check_image does not look at the number of blocks in the header",
        spoil: |_, after, answer| {
            accept_where(after, answer, |image, right, _| *word_at(image, 0, 3) = *word_at(right, 0, 3));
        },
    },
    Wrong {
        name: "check-ignores-header-zeros",
        what: "plq_check_image does not look at the header after its fourth word",
        spoil: |_, after, answer| accept_where(after, answer, |image, _, _| image[16..PAYLOAD_BYTES].fill(0)),
    },
    Wrong {
        name: "check-ignores-early-counts",
        what: "plq_check_image does not look at the counts of earlier ones",
        spoil: |_, after, answer| {
            accept_where(after, answer, |image, right, layout| {
                for block in layout.r1.start..layout.r0.end {
                    *word_at(image, block, 0) = *word_at(right, block, 0);
                }
            });
        },
    },
    Wrong {
        name: "check-ignores-unused-bits",
        what: "plq_check_image does not look at the bits after R0",
        spoil: |_, after, answer| {
            accept_where(after, answer, |image, _, layout| {
                for index in layout.n + 1..layout.r0.len() * BITS_IN_BLOCK {
                    let (byte, mask) = place_of_bit(layout.r0.start, index);
                    image[byte] &= !mask;
                }
            });
        },
    },
    Wrong {
        name: "check-ignores-last-sample",
        what: "plq_check_image does not look at the last sample of R0",
        spoil: |_, after, answer| {
            accept_where(after, answer, |image, right, layout| {
                let (first, last) = (layout.r0_samples.start, layout.samples - 1);
                *word_at(image, first, last) = *word_at(right, first, last);
            });
        },
    },
    Wrong {
        name: "check-ignores-unused-words",
        what: "plq_check_image does not look at the words after the samples of R1",
        spoil: |_, after, answer| {
            accept_where(after, answer, |image, _, layout| {
                for word in layout.samples..layout.r1_samples.len() * PAYLOAD_WORDS {
                    *word_at(image, layout.r1_samples.start, word) = [0; 4];
                }
            });
        },
    },
    Wrong {
        name: "check-ignores-words-after-metres",
        what: "plq_check_image does not look at the words after the metres",
        spoil: |_, after, answer| {
            accept_where(after, answer, |image, _, layout| {
                for word in layout.n..layout.metres.len() * PAYLOAD_WORDS {
                    *word_at(image, layout.metres.start, word) = [0; 4];
                }
            });
        },
    },
    Wrong {
        name: "check-finds-fault-with-metres",
        what: "plq_check_image refuses the greatest number of metres",
        spoil: |_, after, answer| {
            if let (0, Call::CheckImage { image }) = (answer.code, after) {
                let metres = content_by_length(image).and_then(|content| content.metres).unwrap_or_default();
                if metres.contains(&u32::MAX) {
                    *answer = refused(14, number(image.len() / BLOCK_BYTES) - 1);
                }
            }
        },
    },
    Wrong {
        name: "check-does-not-count-metres",
        what: "plq_check_image wants a number of blocks in the header that leaves the blocks of metres out",
        spoil: |_, after, answer| {
            if let (0, Call::CheckImage { image }) = (answer.code, after) {
                if header_word(image, 0) == WITH_METRES {
                    *answer = refused(12, 0);
                }
            }
        },
    },
    Wrong {
        name: "check-takes-other-length-for-version",
        what: "plq_check_image answers a version that no image of this length has with the code of another version",
        spoil: |_, after, answer| {
            if let (12, Call::CheckImage { image }) = (answer.code, after) {
                let other = if header_word(image, 0) == WITH_METRES { WITHOUT_METRES } else { WITH_METRES };
                if with_header_word(image, 0, other).code != 12 {
                    *answer = refused(11, 0);
                }
            }
        },
    },
    Wrong {
        name: "check-still-answers-7",
        what: "plq_check_image answers with the code that 11 to 15 took the place of",
        spoil: |_, after, answer| {
            if let (11..=15, Call::CheckImage { .. }) = (answer.code, after) {
                *answer = refused(7, 0);
            }
        },
    },
    Wrong {
        name: "check-takes-version-for-header",
        what: "plq_check_image answers another version with the code of a wrong header",
        spoil: |_, after, answer| {
            if let (11, Call::CheckImage { .. }) = (answer.code, after) {
                *answer = refused(12, 0);
            }
        },
    },
    Wrong {
        name: "check-looks-at-version-first",
        what: "plq_check_image looks at the version before the sums",
        spoil: |_, after, answer| {
            if let (6, Call::CheckImage { image }) = (answer.code, after) {
                if ![WITHOUT_METRES, WITH_METRES].contains(&header_word(image, 0)) {
                    *answer = refused(11, 0);
                }
            }
        },
    },
    Wrong {
        name: "check-looks-at-version-late",
        what: "plq_check_image looks at the version after all else in the image",
        spoil: |_, after, answer| {
            if let (11, Call::CheckImage { image }) = (answer.code, after) {
                let all_else = [WITHOUT_METRES, WITH_METRES].map(|version| with_header_word(image, 0, version));
                if all_else.iter().all(|answer| answer.code != 0) {
                    *answer = all_else[0];
                }
            }
        },
    },
    Wrong {
        name: "check-allows-m-of-1",
        what: "plq_check_image finds no fault with m = 1 in a header of two nodes or more",
        spoil: |_, after, answer| {
            if let (12, Call::CheckImage { image }) = (answer.code, after) {
                let is_right_but_for_m = with_header_word(image, 2, 2).code != 12;
                if header_word(image, 2) == 1 && is_right_but_for_m {
                    *answer = refused(13, 1);
                }
            }
        },
    },
    Wrong {
        name: "check-names-header-for-strings",
        what: "plq_check_image gives place 0 for wrong strings",
        spoil: |_, after, answer| {
            if let (13, Call::CheckImage { .. }) = (answer.code, after) {
                answer.place = 0;
            }
        },
    },
    Wrong {
        name: "check-names-r0-for-strings",
        what: "plq_check_image names the first block of R0 for wrong strings, where R1 begins and ends with a one",
        spoil: |_, after, answer| {
            if let (13, Call::CheckImage { image }) = (answer.code, after) {
                let n = header_word(image, 1) as usize;
                let is_one = |index: usize| {
                    let (byte, mask) = place_of_bit(1, index);
                    image[byte] & mask != 0
                };
                if is_one(0) && is_one(n - 1) {
                    answer.place = number(first_block_of_r0(image));
                }
            }
        },
    },
    Wrong {
        name: "check-takes-other-m-for-header",
        what: "plq_check_image answers strings of a tree with another m with the code of a wrong header",
        spoil: |_, after, answer| {
            if let (13, Call::CheckImage { image }) = (answer.code, after) {
                if candidate(image).is_some() {
                    *answer = refused(12, 0);
                }
            }
        },
    },
    Wrong {
        name: "check-takes-two-bytes-for-in-step",
        what: "plq_check_image finds no fault with 00010110 in R1 at the place of 00001110 in R0",
        spoil: |_, after, answer| {
            if let (13, Call::CheckImage { image }) = (answer.code, after) {
                let first_bytes =
                    |block: usize| &image[block * BLOCK_BYTES + COUNT_BYTES..][..PAYLOAD_BYTES - COUNT_BYTES];
                let mut bytes = first_bytes(1).iter().zip(first_bytes(first_block_of_r0(image)));
                if bytes.any(|pair| pair == (&0b0001_0110, &0b0000_1110)) {
                    *answer = Answer { code: 0, place: 0, first: header_word(image, 1), second: header_word(image, 2) };
                }
            }
        },
    },
    Wrong {
        name: "check-looks-at-counts-first",
        what: "plq_check_image looks at the counts of the first blocks of R1 and R0 before the strings",
        spoil: |_, after, answer| {
            if let (13, Call::CheckImage { image }) = (answer.code, after) {
                let first_blocks = [1, first_block_of_r0(image)];
                if let Some(block) = first_blocks.into_iter().find(|&block| image[block * BLOCK_BYTES] != 0) {
                    *answer = refused(14, number(block));
                }
            }
        },
    },
    Wrong {
        name: "check-names-highest-count",
        what: "plq_check_image names the highest block with a wrong count or unused payload",
        spoil: |_, after, answer| {
            answer_by_words(after, answer, 14, |_, wrong| refused(14, wrong.others.last().map_or(0, block_of)));
        },
    },
    Wrong {
        name: "check-names-highest-samples",
        what: "plq_check_image names the highest block with a wrong sample",
        spoil: |_, after, answer| {
            answer_by_words(after, answer, 15, |_, wrong| refused(15, wrong.samples.last().map_or(0, block_of)));
        },
    },
    Wrong {
        name: "check-samples-before-counts",
        what: "plq_check_image looks at the samples before counts and unused payload",
        spoil: |_, after, answer| {
            answer_by_words(after, answer, 14, |_, wrong| match wrong.samples.first() {
                Some(sample) => refused(15, block_of(sample)),
                None => refused(14, block_of(&wrong.others[0])),
            });
        },
    },
    Wrong {
        name: "check-goes-by-blocks",
        what: "plq_check_image answers wrong samples where a higher block has a wrong count or unused payload",
        spoil: |_, after, answer| {
            answer_by_words(after, answer, 14, |_, wrong| match wrong.samples.first() {
                Some(sample) if sample.0 < wrong.others[0].0 => refused(15, block_of(sample)),
                _ => refused(14, block_of(&wrong.others[0])),
            });
        },
    },
    Wrong {
        name: "check-takes-unused-words-for-samples",
        what: "plq_check_image answers words after the samples with the code of wrong samples",
        spoil: |_, after, answer| {
            answer_by_words(after, answer, 14, |image, wrong| {
                let lowest = wrong.others[0];
                if lowest.0 < first_block_of_samples(image) {
                    return refused(14, block_of(&lowest));
                }
                refused(15, block_of(wrong.samples.first().unwrap_or(&lowest).min(&lowest)))
            });
        },
    },
    Wrong {
        name: "check-takes-unused-bits-for-strings",
        what: "plq_check_image answers bits after a string with the code of wrong strings",
        spoil: |_, after, answer| {
            answer_by_words(after, answer, 14, |image, wrong| {
                let bits = 1..first_block_of_samples(image);
                // word 0 of these blocks is a count
                match wrong.others.iter().any(|(block, word)| bits.contains(block) && *word > 0) {
                    true => refused(13, 1),
                    false => refused(14, block_of(&wrong.others[0])),
                }
            });
        },
    },
    Wrong {
        name: "parents-of-image-names-no-block",
        what: "plq_parents_of_image gives place 0 with codes 13 to 15",
        spoil: |_, after, answer| {
            if let (13..=15, Call::ParentsOfImage { .. }) = (answer.code, after) {
                answer.place = 0;
            }
        },
    },
    Wrong {
        name: "ask-takes-samples-for-counts",
        what: "plq_ask answers wrong samples with the code of wrong counts",
        spoil: |_, after, answer| {
            if let (15, Call::Ask { .. }) = (answer.code, after) {
                answer.code = 14;
            }
        },
    },
    Wrong {
        name: "list-looks-at-node-first",
        what: "plq_list refuses a node that no tree has before it looks into the image",
        spoil: |_, after, answer| {
            if let (11..=15, Call::List { node: 0, .. }) = (answer.code, after) {
                *answer = refused(8, 1);
            }
        },
    },
    Wrong {
        name: "ask-answers-only-first",
        what: "plq_ask answers the first question and gives 0 for the rest",
        spoil: |_, after, answer| {
            if let (0, Call::Ask { answers, .. }) = (answer.code, after) {
                answers[..answer.first as usize].iter_mut().skip(1).for_each(|answer| *answer = 0);
            }
        },
    },
    Wrong {
        name: "ask-finds-no-last-sibling",
        what: "plq_ask answers kind 4 with 0 where the next sibling is the last",
        spoil: |_, after, answer| {
            answer_otherwise(after, answer, |tree, question, answer| {
                let last = *tree.siblings(question[1] as usize).last().expect("itself");
                if question[0] == 4 && *answer == number(last) {
                    *answer = 0;
                }
            });
        },
    },
    Wrong {
        name: "ask-root-has-rank",
        what: "plq_ask answers kind 7 with 1 for the root",
        spoil: |_, after, answer| {
            answer_otherwise(after, answer, |_, question, answer| {
                if let [7, 1, _] = question {
                    *answer = 1;
                }
            });
        },
    },
    Wrong {
        name: "ask-counts-siblings-from-rank",
        what: "plq_ask answers kinds 4, 5 and 10 for the root as if it had place 0 among its siblings",
        spoil: |_, after, answer| {
            answer_otherwise(after, answer, |_, question, answer| match question {
                [4, 1, _] => *answer = 1,
                [5, 1, _] => *answer = 0,
                [10, 1, places] => *answer = u32::from(*places == 1),
                _ => {}
            });
        },
    },
    Wrong {
        name: "ask-only-child-has-no-rank",
        what: "plq_ask answers kind 7 with 0 for every only child",
        spoil: |_, after, answer| {
            answer_otherwise(after, answer, |tree, question, answer| {
                if question[0] == 7 && tree.siblings(question[1] as usize).len() == 1 {
                    *answer = 0;
                }
            });
        },
    },
    Wrong {
        name: "ask-counts-ones-of-a-byte-from-the-last",
        what: "plq_ask answers kind 1 by the ones of the byte 10110110 of R0 counted from the last to the first",
        spoil: |_, after, answer| {
            let otherwise: Otherwise = |ones, which| ones[ones.len() - 1 - which];
            select_otherwise(after, answer, 1, r0_of, 0b1011_0110, otherwise);
        },
    },
    Wrong {
        name: "ask-removes-last-ones-of-a-byte",
        what: "plq_ask answers kind 3 by the first one of the byte 01101101 of R1 for any of its ones",
        spoil: |_, after, answer| {
            let otherwise: Otherwise = |ones, _| ones[0];
            select_otherwise(after, answer, 3, r1_of, 0b0110_1101, otherwise);
        },
    },
    Wrong {
        name: "ask-counts-places-of-a-byte-from-zero",
        what: "plq_ask answers kind 1 by the places of the byte 01011010 of R0 counted from 0",
        spoil: |_, after, answer| {
            let otherwise: Otherwise = |ones, which| ones[which] - 1;
            select_otherwise(after, answer, 1, r0_of, 0b0101_1010, otherwise);
        },
    },
    Wrong {
        name: "ask-removes-one-too-many-of-a-byte",
        what: "plq_ask answers kind 3 by the next one of the byte 11000111 of R1, where it has one more",
        spoil: |_, after, answer| {
            let otherwise: Otherwise = |ones, which| ones[(which + 1).min(ones.len() - 1)];
            select_otherwise(after, answer, 3, r1_of, 0b1100_0111, otherwise);
        },
    },
    Wrong {
        name: "ask-counts-seven-bits-of-a-byte",
        what: "plq_ask answers kind 1 by the next one of R0 where a byte 10010011 was passed since the last sample",
        spoil: |_, after, answer| {
            answer_otherwise(after, answer, |tree, question, answer| {
                if question[0] == 1 && *answer > 0 {
                    let r0 = r0_of(tree);
                    let ones: Vec<usize> = (0..r0.len()).filter(|&index| r0[index]).collect();
                    let which = ones.iter().position(|&index| index + 1 == *answer as usize).expect("has a child");
                    let passed = ones[which / SAMPLE_STEP * SAMPLE_STEP] / 8..ones[which] / 8;
                    if bytes_of_bits(&r0)[passed].contains(&0b1001_0011) {
                        *answer = number(ones[which + 1] + 1);
                    }
                }
            });
        },
    },
    Wrong {
        name: "ask-refuses-least-argument",
        what: "plq_ask does not allow the argument -2^31",
        spoil: |before, after, answer| {
            if let (0, Call::Ask { questions, .. }) = (answer.code, before) {
                if let Some(index) = questions.chunks(3).position(|question| question[2] == i32::MIN) {
                    *after = before.clone();
                    *answer = refused(8, number(index) + 1);
                }
            }
        },
    },
    Wrong {
        name: "ask-gives-metres-of-parent",
        what: "plq_ask answers kind 11 with the metres of the node's parent, and of the root with its own",
        spoil: |_, after, answer| {
            if let (0, Call::Ask { image, questions, answers }) = (answer.code, after) {
                let Some(Content { tree, metres: Some(metres) }) = content_by_length(image) else { return };
                for (question, answer) in questions.chunks(3).zip(answers).filter(|(question, _)| question[0] == 11) {
                    *answer = metres[tree.parent(question[1] as usize).max(1) - 1];
                }
            }
        },
    },
    Wrong {
        name: "ask-ignores-argument-of-metres",
        what: "plq_ask takes any argument for kind 11",
        spoil: |before, after, answer| {
            ask_otherwise(before, after, answer, |question| {
                if question[0] == 11 {
                    question[2] = 0;
                }
            });
        },
    },
    Wrong {
        name: "ask-gives-0-metres-for-version-1",
        what: "plq_ask answers kind 11 with 0 where the image has no metres",
        spoil: |before, after, answer| {
            // the answer for child number 0 is 0 as well
            if let Call::Ask { image, .. } = before {
                if image.starts_with(&WITHOUT_METRES.to_le_bytes()) {
                    ask_otherwise(before, after, answer, |question| {
                        if let [11, _, 0] = question {
                            question[0] = 8;
                        }
                    });
                }
            }
        },
    },
    Wrong {
        name: "ask-takes-257",
        what: "plq_ask answers 257 questions",
        spoil: |before, after, answer| {
            if let (2, Call::Ask { image, questions, answers }) = (answer.code, before) {
                if questions.len() == 3 * 257 && answers.len() >= 257 {
                    let ask = |questions: &[i32], answers: &[u32]| Call::Ask {
                        image: image.clone(),
                        questions: questions.to_vec(),
                        answers: answers.to_vec(),
                    };
                    let most = ask(&questions[..3 * 256], answers).by_model();
                    if most.code == 0 {
                        *answer = Answer { first: 257, ..most };
                        *after = before.clone();
                    }
                }
            }
        },
    },
    Wrong {
        name: "split-sizes-off-by-one",
        what: "plq_split gives each tree one node more",
        spoil: |_, after, answer| {
            if let (0, Call::Split { trees, sizes, .. }) = (answer.code, after) {
                sizes[..*trees].iter_mut().for_each(|size| *size += 1);
            }
        },
    },
    Wrong {
        name: "split-only-first-tree",
        what: "plq_split writes the first tree's numbers for all of them",
        spoil: |_, after, answer| {
            if let (0, Call::Split { trees: 1.., starts, sizes, .. }) = (answer.code, after) {
                let (start, size) = (starts[0], sizes[0]);
                starts[..answer.second as usize].fill(start);
                sizes[..answer.second as usize].fill(size);
            }
        },
    },
    Wrong {
        name: "split-ignores-number-of-trees",
        what: "plq_split accepts a pack of fewer trees than said",
        spoil: |before, after, answer| {
            if let (10, Call::Split { bytes, bits, trees, starts, sizes }) = (answer.code, before) {
                let found = answer.place as usize;
                if found < *trees {
                    let (mut starts, mut sizes) = (starts.clone(), sizes.clone());
                    *answer = Answer::of(calls::split(bytes, *bits, found, &mut starts, &mut sizes));
                    *after = Call::Split { bytes: bytes.clone(), bits: *bits, trees: *trees, starts, sizes };
                }
            }
        },
    },
    Wrong {
        name: "split-counts-one-more-pending",
        what: "plq_split counts a pending node too many before the byte 00101100",
        spoil: |before, after, answer| {
            split_otherwise(before, after, answer, |pending, byte| pending + usize::from(byte == 0b0010_1100));
        },
    },
    Wrong {
        name: "split-passes-end-in-a-byte",
        what: "plq_split sees no end of a tree in the byte 01000000 where six nodes are pending before it",
        spoil: |before, after, answer| {
            split_otherwise(before, after, answer, |pending, byte| {
                pending + usize::from((pending, byte) == (6, 0b0100_0000))
            });
        },
    },
    Wrong {
        name: "split-changes-its-input",
        what: "plq_split sets a bit of the string that it reads",
        spoil: |_, after, _| {
            if let Call::Split { bytes, .. } = after {
                bytes.iter_mut().take(1).for_each(|byte| *byte |= 1);
            }
        },
    },
    Wrong {
        name: "split-looks-at-one-room",
        what: "plq_split refuses for too little room for the starts only",
        spoil: |_, after, answer| {
            if let (1, Call::Split { bits, trees, starts, .. }) = (answer.code, after) {
                if starts.len() >= *trees {
                    *answer = Answer { code: 0, place: 0, first: number(*bits), second: number(*trees) };
                }
            }
        },
    },
    Wrong {
        name: "join-clears-all-after",
        what: "plq_join clears the bytes after the new last one",
        spoil: |_, after, answer| {
            if let (0, Call::Join { pack, .. }) = (answer.code, after) {
                pack[answer.first.div_ceil(8) as usize..].fill(0);
            }
        },
    },
    Wrong {
        name: "join-keeps-leftover",
        what: "plq_join leaves what stood in the leftover bits of the new last byte",
        spoil: |before, after, answer| {
            if let (0, Call::Join { pack, .. }, Call::Join { pack: old, .. }) = (answer.code, after, before) {
                let (last, used) = (answer.first as usize / 8, answer.first % 8);
                if used > 0 {
                    pack[last] |= old[last] & (0xFF >> used);
                }
            }
        },
    },
    Wrong {
        name: "join-skips-first-bit-of-a-byte",
        what: "plq_join takes the first bit of the byte 11100010 of the pack for a zero",
        spoil: |before, after, answer| {
            if let (0 | 1 | 3 | 4 | 10, Call::Join { pack, bits, trees, parents }) = (answer.code, before) {
                let Some(mut taken) = taken_for(pack, *bits, 0b1110_0010, 0b0110_0010) else { return };
                if let Err(refusal) = calls::join(&mut taken, *bits, *trees, parents) {
                    *after = before.clone();
                    *answer = Answer::of(Err(refusal));
                }
            }
        },
    },
    Wrong {
        name: "join-takes-256-trees",
        what: "plq_join finds no fault with k = 256",
        spoil: |_, after, answer| {
            if let (2, Call::Join { trees: 256, bits, parents, .. }) = (answer.code, after) {
                answer.code = 0;
                answer.first = number(*bits + 2 * parents.len() + 1);
                answer.second = 257;
            }
        },
    },
    Wrong {
        name: "join-checks-parents-first",
        what: "plq_join refuses a bad parent list before a joined length over 131,071",
        spoil: |_, after, answer| {
            if let (2, Call::Join { bits, parents, .. }) = (answer.code, after) {
                let length_of_tree = 2 * parents.len() + 1;
                let fits_alone = *bits <= MOST_BITS && length_of_tree <= MOST_BITS;
                if fits_alone && *bits + length_of_tree > MOST_BITS {
                    if let Err(refusal) = Tree::of_parent_list(parents) {
                        *answer = Answer::of(Err(refusal));
                    }
                }
            }
        },
    },
    Wrong {
        name: "list-children-in-reverse",
        what: "plq_list lists the children of a node from the last to the first",
        spoil: |_, after, answer| {
            if let (0, Call::List { image, node, pairs }) = (answer.code, after) {
                let tree = candidate(image).expect("accepted");
                let listed = listed_in_reverse(&tree, *node as usize, 0);
                pairs[..listed.len()].copy_from_slice(&listed);
            }
        },
    },
    Wrong {
        name: "list-depth-from-root",
        what: "plq_list counts depth from the root, not from the node asked for",
        spoil: |_, after, answer| {
            if let (0, Call::List { image, node: 2.., pairs }) = (answer.code, after) {
                let tree = candidate(image).expect("accepted");
                for pair in pairs.chunks_exact_mut(2).take(answer.first as usize) {
                    let ancestors = std::iter::successors(Some(pair[0] as usize), |&node| Some(tree.parent(node)));
                    pair[1] = number(ancestors.take_while(|&node| node != 1).count());
                }
            }
        },
    },
    Wrong {
        name: "list-place-off-by-one",
        what: "plq_list names the node before the first one at depth 64",
        spoil: |_, after, answer| {
            if let (9, Call::List { .. }) = (answer.code, after) {
                answer.place -= 1;
            }
        },
    },
    Wrong {
        name: "parents-of-text-takes-tab-for-blank",
        what: "plq_parents_of_text passes over tabs too",
        spoil: |before, after, answer| {
            read_text_otherwise(before, after, answer, |text| {
                let with_spaces: Vec<u8> = text.iter().map(|&byte| if byte == b'\t' { b' ' } else { byte }).collect();
                tree_of_text(&with_spaces, MOST_LEVELS)
            });
        },
    },
    Wrong {
        name: "parents-of-text-does-not-know-13",
        what: "plq_parents_of_text does not take byte 13 for a blank",
        spoil: |before, after, answer| {
            read_text_otherwise(before, after, answer, |text| {
                let with_letters: Vec<u8> = text.iter().map(|&byte| if byte == 13 { b'x' } else { byte }).collect();
                tree_of_text(&with_letters, MOST_LEVELS)
            });
        },
    },
    Wrong {
        name: "parents-of-text-numbers-depth-first",
        what: "plq_parents_of_text numbers the nodes in the order of their brackets",
        spoil: |_, after, answer| {
            if let (0, Call::ParentsOfText { text, parents }) = (answer.code, after) {
                let (mut open, mut nodes) = (vec![0], 0);
                for &byte in text.iter() {
                    if byte == OPENS {
                        parents[nodes] = *open.last().expect("not closed before the end");
                        nodes += 1;
                        open.push(number(nodes));
                    } else if byte == CLOSES {
                        open.pop();
                    }
                }
            }
        },
    },
    Wrong {
        name: "parents-of-text-takes-65-levels",
        what: "plq_parents_of_text refuses the 66th level, not the 65th",
        spoil: |before, after, answer| {
            read_text_otherwise(before, after, answer, |text| tree_of_text(text, MOST_LEVELS + 1));
        },
    },
    Wrong {
        name: "parents-of-text-refuses-64-levels",
        what: "plq_parents_of_text refuses the 64th level",
        spoil: |before, after, answer| {
            read_text_otherwise(before, after, answer, |text| tree_of_text(text, MOST_LEVELS - 1));
        },
    },
    Wrong {
        name: "parents-of-text-place-off-by-one",
        what: "plq_parents_of_text names the byte before the one at which the text cannot be continued",
        spoil: |_, after, answer| {
            if let (16, Call::ParentsOfText { .. }) = (answer.code, after) {
                answer.place -= 1;
            }
        },
    },
    Wrong {
        name: "parents-of-text-does-not-count-blanks",
        what: "plq_parents_of_text counts the brackets up to the byte that it names, not the blanks",
        spoil: |_, after, answer| {
            if let (16 | 17, Call::ParentsOfText { text, .. }) = (answer.code, after) {
                let before = &text[..answer.place as usize - 1];
                answer.place -= number(before.iter().filter(|byte| BLANKS.contains(byte)).count());
            }
        },
    },
    Wrong {
        name: "parents-of-text-looks-at-nodes-first",
        what: "plq_parents_of_text refuses more than 65,535 opening brackets before it refuses a text that is no tree",
        spoil: |_, after, answer| {
            if let (16 | 17, Call::ParentsOfText { text, .. }) = (answer.code, after) {
                if text.iter().filter(|&&byte| byte == OPENS).count() > MOST_NODES {
                    *answer = refused(2, 0);
                }
            }
        },
    },
    Wrong {
        name: "parents-of-text-looks-at-levels-first",
        what: "plq_parents_of_text refuses a 65th level before a text that is no tree at an earlier byte",
        spoil: |_, after, answer| {
            if let (16, Call::ParentsOfText { text, .. }) = (answer.code, after) {
                let mut level = 0;
                for (place, &byte) in (1..).zip(text.iter()) {
                    level += i64::from(byte == OPENS) - i64::from(byte == CLOSES);
                    if byte == OPENS && level == 65 {
                        *answer = refused(17, place);
                        return;
                    }
                }
            }
        },
    },
    Wrong {
        name: "parents-of-text-looks-at-bytes-first",
        what: "plq_parents_of_text refuses a byte that stands in no text before a 65th level at an earlier byte",
        spoil: |_, after, answer| {
            if let (17, Call::ParentsOfText { text, .. }) = (answer.code, after) {
                let known = |byte: &u8| [OPENS, CLOSES].contains(byte) || BLANKS.contains(byte);
                if let Some(index) = text.iter().position(|byte| !known(byte)) {
                    *answer = refused(16, number(index) + 1);
                }
            }
        },
    },
    Wrong {
        name: "parents-of-text-looks-for-the-end-first",
        what: "plq_parents_of_text refuses a text that ends inside the tree before it refuses a 65th level",
        spoil: |_, after, answer| {
            if let (17, Call::ParentsOfText { text, .. }) = (answer.code, after) {
                let count = |bracket: u8| text.iter().filter(|&&byte| byte == bracket).count();
                if count(OPENS) > count(CLOSES) {
                    *answer = refused(16, number(text.len()) + 1);
                }
            }
        },
    },
    Wrong {
        name: "parents-of-text-ignores-what-follows",
        what: "plq_parents_of_text does not look at what is after the tree",
        spoil: |before, after, answer| {
            if let (16, Call::ParentsOfText { text, parents }) = (answer.code, before) {
                let mut parents = parents.clone();
                let by_beginning = calls::parents_of_text(&text[..answer.place as usize - 1], &mut parents);
                if !matches!(by_beginning, Err(Refusal::NotAText { .. })) {
                    *answer = Answer::of(by_beginning);
                    *after = Call::ParentsOfText { text: text.clone(), parents };
                }
            }
        },
    },
    Wrong {
        name: "parents-of-text-takes-longer-ones",
        what: "plq_parents_of_text reads texts of any length",
        spoil: |before, after, answer| {
            if let (2, Call::ParentsOfText { text, parents }) = (answer.code, before) {
                if text.len() > MOST_TEXT_BYTES {
                    let mut parents = parents.clone();
                    let read = tree_of_text(text, MOST_LEVELS);
                    *answer = Answer::of(read.and_then(|root| calls::write_nodes(&root, &mut parents)));
                    *after = Call::ParentsOfText { text: text.clone(), parents };
                }
            }
        },
    },
    Wrong {
        name: "parents-of-text-refuses-the-longest",
        what: "plq_parents_of_text refuses a text of 1,048,576 bytes",
        spoil: |before, after, answer| {
            if matches!(before, Call::ParentsOfText { text, .. } if text.len() == MOST_TEXT_BYTES) {
                *after = before.clone();
                *answer = refused(2, 0);
            }
        },
    },
    Wrong {
        name: "parents-of-text-takes-65536-nodes",
        what: "plq_parents_of_text finds no fault with 65,536 nodes",
        spoil: |before, after, answer| {
            if let (2, Call::ParentsOfText { text, parents }) = (answer.code, before) {
                let read = tree_of_text(text, MOST_LEVELS).map(|root| root.parent_list()).unwrap_or_default();
                if read.len() == MOST_NODES + 1 && read.len() <= parents.len() {
                    let parents = [&read, &parents[read.len()..]].concat();
                    *after = Call::ParentsOfText { text: text.clone(), parents };
                    *answer = Answer { code: 0, place: 0, first: number(read.len()), second: 0 };
                }
            }
        },
    },
    Wrong {
        name: "parents-of-text-looks-at-room-first",
        what: "plq_parents_of_text refuses for too little room before it refuses too many nodes",
        spoil: |before, _, answer| {
            if let (2, Call::ParentsOfText { text, parents }) = (answer.code, before) {
                if text.len() <= MOST_TEXT_BYTES && parents.len() <= MOST_NODES {
                    *answer = refused(1, 0);
                }
            }
        },
    },
    Wrong {
        name: "parents-of-text-fills-short-room",
        what: "plq_parents_of_text writes what fits before it refuses for too little room",
        spoil: |_, after, answer| {
            if let (1, Call::ParentsOfText { text, parents }) = (answer.code, after) {
                let all = tree_of_text(text, MOST_LEVELS).expect("accepted but for the room").parent_list();
                parents.iter_mut().zip(all).for_each(|(entry, parent)| *entry = parent);
            }
        },
    },
    Wrong {
        name: "text-of-parents-siblings-in-reverse",
        what: "plq_text_of_parents writes the children of a node from the last to the first",
        spoil: |_, after, answer| {
            if let (0, Call::TextOfParents { text, .. }) = (answer.code, after) {
                // backwards, with each bracket turned
                let written = &mut text[..answer.first as usize];
                written.reverse();
                written.iter_mut().for_each(|byte| *byte = if *byte == OPENS { CLOSES } else { OPENS });
            }
        },
    },
    Wrong {
        name: "text-of-parents-wants-room-for-nodes",
        what: "plq_text_of_parents wants room for one byte to a node and writes no further than there is room",
        spoil: |_, after, answer| {
            if let (1, Call::TextOfParents { parents, text }) = (answer.code, after) {
                if parents.len() <= text.len() {
                    let mut whole = vec![0; 2 * parents.len()];
                    *answer = Answer::of(calls::text_of_parents(parents, &mut whole));
                    text.iter_mut().zip(whole).for_each(|(byte, right)| *byte = right);
                }
            }
        },
    },
    Wrong {
        name: "text-of-parents-counts-nodes",
        what: "plq_text_of_parents answers the nodes, not the bytes",
        spoil: |_, after, answer| {
            if let (0, Call::TextOfParents { .. }) = (answer.code, after) {
                answer.first /= 2;
            }
        },
    },
    Wrong {
        name: "text-of-parents-ends-the-line",
        what: "plq_text_of_parents writes a line end after the text, where there is room",
        spoil: |_, after, answer| {
            if let (0, Call::TextOfParents { text, .. }) = (answer.code, after) {
                text[answer.first as usize..].iter_mut().take(1).for_each(|byte| *byte = b'\n');
            }
        },
    },
    Wrong {
        name: "text-of-parents-takes-65-levels",
        what: "plq_text_of_parents writes a path of 65 nodes",
        spoil: |_, after, answer| {
            if let (9, Call::TextOfParents { parents, text }) = (answer.code, after) {
                if parents.len() == 65 && text.len() >= 130 {
                    text[..65].fill(OPENS);
                    text[65..130].fill(CLOSES);
                    *answer = Answer { code: 0, place: 0, first: 130, second: 0 };
                }
            }
        },
    },
    Wrong {
        name: "text-of-parents-refuses-64-levels",
        what: "plq_text_of_parents refuses a tree with a node at depth 63",
        spoil: |before, after, answer| {
            if let (0, Call::TextOfParents { parents, .. }) = (answer.code, before) {
                let tree = Tree::of_parent_list(parents).expect("accepted");
                let listing = listing_from(&tree, 1).expect("accepted");
                if let Some(entry) = listing.iter().find(|entry| entry.depth == 63) {
                    *after = before.clone();
                    *answer = refused(9, number(entry.node));
                }
            }
        },
    },
    Wrong {
        name: "text-of-parents-names-place-in-listing",
        what: "plq_text_of_parents names how many nodes come up to the first one at depth 64, not its number",
        spoil: |_, after, answer| {
            if let (9, Call::TextOfParents { parents, .. }) = (answer.code, after) {
                let tree = Tree::of_parent_list(parents).expect("refused for its depth alone");
                answer.place = nodes_up_to(&tree, answer.place as usize);
            }
        },
    },
    Wrong {
        name: "text-of-parents-looks-at-room-first",
        what: "plq_text_of_parents refuses for too little room before it refuses a tree that is too deep",
        spoil: |_, after, answer| {
            if let (9, Call::TextOfParents { parents, text }) = (answer.code, after) {
                if text.len() < 2 * parents.len() {
                    *answer = refused(1, 0);
                }
            }
        },
    },
];

fn refused(code: u32, place: u32) -> Answer {
    Answer { code, place, first: 0, second: 0 }
}

/// The only tree that could give an image of this length and its metres, whatever version the header says.
fn content_by_length(image: &[u8]) -> Option<Content> {
    let tree = candidate(image)?;
    let metres = metres_in(image, &tree);
    let right = image_of_tree(&tree, metres.as_deref());
    (right.len() == image.len()).then_some(Content { tree, metres })
}

/// A sealing with metres that writes other blocks; the sums are made right afterwards.
fn seal_otherwise(call: &mut Call, answer: &Answer, change: fn(&mut [u8], &Layout)) {
    let (0, Call::ImageWithMetres { image, .. }) = (answer.code, call) else { return };
    let layout = Layout::of(answer.first as usize, answer.second as usize, true);
    let image = &mut image[..layout.blocks() * BLOCK_BYTES];
    change(image, &layout);
    seal(image);
}

/// A reading of metres that gives others: `change` gets the image and what is right.
fn read_otherwise(call: &mut Call, answer: &Answer, change: fn(&[u8], &mut [u32])) {
    let (0, Call::MetresOfImage { image, metres }) = (answer.code, call) else { return };
    change(image, &mut metres[..answer.first as usize]);
}

/// Questions that are answered, some of them otherwise: `change` gets the tree, a question and its answer.
fn answer_otherwise(call: &mut Call, answer: &Answer, change: fn(&Tree, &[i32], &mut u32)) {
    let (0, Call::Ask { image, questions, answers }) = (answer.code, call) else { return };
    let tree = candidate(image).expect("accepted");
    for (question, answer) in questions.chunks(3).zip(answers) {
        change(&tree, question, answer);
    }
}

/// Questions that are refused, taken for others.
fn ask_otherwise(before: &Call, after: &mut Call, answer: &mut Answer, change: fn(&mut [i32])) {
    let (8, Call::Ask { image, questions, answers }) = (answer.code, before) else { return };
    let (mut others, mut answers) = (questions.clone(), answers.clone());
    others.chunks_mut(3).for_each(change);
    *answer = Answer::of(calls::ask(image, &others, &mut answers));
    *after = Call::Ask { image: image.clone(), questions: questions.clone(), answers };
}

/// R1 of a tree.
fn r1_of(tree: &Tree) -> Vec<bool> {
    partition(&string_of_tree(tree)).0
}

/// R0 of a tree.
fn r0_of(tree: &Tree) -> Vec<bool> {
    partition(&string_of_tree(tree)).1
}

/// Another place in a byte: of all its ones, from 1 in it, and which of them it is, from 0.
type Otherwise = fn(&[u32], usize) -> u32;

/// Another place for a one, from 1 in the string, where it is in this byte, whole.
fn find_otherwise(string: &[bool], place: u32, byte: u8, otherwise: Otherwise) -> u32 {
    let index = place as usize - 1;
    let begin = index / 8 * 8;
    match string.get(begin..begin + 8) {
        Some(bits) if bytes_of_bits(bits) == [byte] => {
            let ones: Vec<u32> = (1..).zip(bits).filter(|(_, &bit)| bit).map(|(place, _)| place).collect();
            let which = bits[..index - begin].iter().filter(|&&bit| bit).count();
            number(begin) + otherwise(&ones, which)
        }
        _ => place,
    }
}

/// Answers to a kind, which are places of ones in a string of the tree, with other places in this byte.
fn select_otherwise(
    call: &mut Call,
    answer: &Answer,
    kind: i32,
    string_of: fn(&Tree) -> Vec<bool>,
    byte: u8,
    otherwise: Otherwise,
) {
    let (0, Call::Ask { image, questions, answers }) = (answer.code, call) else { return };
    let string = string_of(&candidate(image).expect("accepted"));
    let asked = questions.chunks(3).zip(answers).filter(|(question, place)| question[0] == kind && **place > 0);
    asked.for_each(|(_, place)| *place = find_otherwise(&string, *place, byte, otherwise));
}

/// The bytes of so many bits with another one wherever they have this one, whole, if they have it anywhere.
fn taken_for(bytes: &[u8], bits: usize, byte: u8, other: u8) -> Option<Vec<u8>> {
    let mut taken = bytes.to_vec();
    taken[..bits / 8].iter_mut().filter(|taken| **taken == byte).for_each(|taken| *taken = other);
    (taken != bytes).then_some(taken)
}

/// A splitting that miscounts: `recount` gets the number of pending nodes before a whole byte of a tree, and the byte.
fn split_otherwise(before: &Call, after: &mut Call, answer: &mut Answer, recount: fn(usize, u8) -> usize) {
    let (0 | 1 | 4 | 10, Call::Split { bytes, bits, trees, .. }) = (answer.code, before) else { return };
    let refusal = match count_trees(bytes, *bits, recount) {
        Err(place) => refused(4, place),
        Ok(found) if found != *trees => refused(10, number(found)),
        Ok(_) => return,
    };
    *after = before.clone();
    *answer = refusal;
}

/// The number of trees that are found so, or the place of the bit that refuses.
fn count_trees(bytes: &[u8], bits: usize, recount: fn(usize, u8) -> usize) -> Result<usize, u32> {
    let (mut trees, mut begin, mut nodes, mut pending) = (0, 0, 0, 0);
    for (index, &bit) in bits_of_bytes(bytes)[..bits].iter().enumerate() {
        if pending == 0 {
            (begin, nodes, pending) = (index, 0, 1);
        } else if index % 8 == 0 && index + 8 <= bits {
            pending = recount(pending, bytes[index / 8]);
        }
        nodes += usize::from(bit);
        // the super-root has one child, and a tree no node after the 65,535th
        if index - begin < 2 && bit != (index == begin) || nodes > MOST_NODES {
            return Err(number(index) + 1);
        }
        pending = if bit { pending + 1 } else { pending - 1 };
        trees += usize::from(pending == 0);
    }
    if pending > 0 {
        return Err(number(bits) + 1);
    }
    Ok(trees)
}

/// A text that is not too long, read by other rules: `read` gets it and gives the tree, or refuses.
fn read_text_otherwise(before: &Call, after: &mut Call, answer: &mut Answer, read: fn(&[u8]) -> Result<Node, Refusal>) {
    let Call::ParentsOfText { text, parents } = before else { return };
    if text.len() <= MOST_TEXT_BYTES {
        let mut parents = parents.clone();
        *answer = Answer::of(read(text).and_then(|root| calls::write_nodes(&root, &mut parents)));
        *after = Call::ParentsOfText { text: text.clone(), parents };
    }
}

/// A check that looks at less: an image refused with codes 11 to 15 is accepted if it is right once what is not looked
/// at has been made right. `repair` gets the image, the right image of the only content in question, and its layout.
fn accept_where(call: &Call, answer: &mut Answer, repair: fn(&mut [u8], &mut [u8], &Layout)) {
    let (11..=15, Call::CheckImage { image }) = (answer.code, call) else { return };
    let Some(Content { tree, metres }) = content_by_length(image) else { return };
    let mut right = image_of_tree(&tree, metres.as_deref());
    let accepted = Call::CheckImage { image: right.clone() }.by_model();
    let layout = Layout::of(accepted.first as usize, accepted.second as usize, metres.is_some());
    let mut repaired = image.clone();
    repair(&mut repaired, &mut right, &layout);
    seal(&mut repaired);
    if repaired == right {
        *answer = accepted;
    }
}

/// A check that answers otherwise, by the words that are wrong, where it should answer with this code, 14 or 15.
fn answer_by_words(call: &Call, answer: &mut Answer, code: u32, otherwise: fn(&[u8], &WrongWords) -> Answer) {
    let Call::CheckImage { image } = call else { return };
    if answer.code == code && *answer == call.clone().by_model() {
        let content = content_by_length(image).expect("header and strings are right");
        *answer = otherwise(image, &wrong_words(image, &content));
    }
}

/// The blocks whose sums are wrong.
fn wrong_blocks(image: &[u8]) -> Vec<u32> {
    let mut right = image.to_vec();
    seal(&mut right);
    let blocks = right.chunks(BLOCK_BYTES).zip(image.chunks(BLOCK_BYTES));
    (0..).zip(blocks).filter(|(_, (right, given))| right != given).map(|(block, _)| block).collect()
}

fn header_word(image: &[u8], index: usize) -> u32 {
    u32::from_le_bytes(image[4 * index..][..4].try_into().expect("four bytes"))
}

/// What is answered where the header has another word.
fn with_header_word(image: &[u8], index: usize, value: u32) -> Answer {
    Call::CheckImage { image: with_words(image, &[(0, index, value)]) }.by_model()
}

fn first_block_of_r0(image: &[u8]) -> usize {
    Layout::of(header_word(image, 1) as usize, 1, false).r0.start
}

fn first_block_of_samples(image: &[u8]) -> usize {
    Layout::of(header_word(image, 1) as usize, 1, false).r0.end
}

fn block_of(&(block, _): &(usize, usize)) -> u32 {
    number(block)
}

/// How many nodes come up to this one, itself included, parents first and children in order.
fn nodes_up_to(tree: &Tree, node: usize) -> u32 {
    let (mut to_come, mut count) = (vec![1], 0);
    while let Some(next) = to_come.pop() {
        count += 1;
        if next == node {
            break;
        }
        to_come.extend(tree.children(next).iter().rev());
    }
    count
}

fn listed_in_reverse(tree: &Tree, node: usize, depth: u32) -> Vec<u32> {
    let mut listed = vec![number(node), depth];
    for &child in tree.children(node).iter().rev() {
        listed.extend(listed_in_reverse(tree, child, depth + 1));
    }
    listed
}
