//! "The order of blocks", for those who damage images.

use crate::model::images::{seal, BITS_IN_BLOCK, BLOCK_BYTES, COUNT_BYTES, PAYLOAD_WORDS, SAMPLE_STEP};
use std::ops::Range;

/// Which blocks of an image hold what.
pub struct Layout {
    pub r1: Range<usize>,
    pub r0: Range<usize>,
    pub r1_samples: Range<usize>,
    pub r0_samples: Range<usize>,
    /// Empty in version 1.
    pub metres: Range<usize>,
    /// The bits of R1; R0 has one more. The words of the list of metres, where there is one.
    pub n: usize,
    /// The words of each list of samples.
    pub samples: usize,
}

impl Layout {
    /// The layout of a tree's image, from the numbers that its check answers and whether it has metres.
    pub fn of(n: usize, m: usize, measured: bool) -> Layout {
        let samples = m.div_ceil(SAMPLE_STEP);
        let metres = if measured { n } else { 0 };
        let r1 = 1..1 + n.div_ceil(BITS_IN_BLOCK);
        let r0 = r1.end..r1.end + (n + 1).div_ceil(BITS_IN_BLOCK);
        let r1_samples = r0.end..r0.end + samples.div_ceil(PAYLOAD_WORDS);
        let r0_samples = r1_samples.end..r1_samples.end + samples.div_ceil(PAYLOAD_WORDS);
        let metres = r0_samples.end..r0_samples.end + metres.div_ceil(PAYLOAD_WORDS);
        Layout { r1, r0, r1_samples, r0_samples, metres, n, samples }
    }

    /// How many blocks the image has.
    pub fn blocks(&self) -> usize {
        self.metres.end
    }

    /// The blocks of each list, and how many words it has there: the samples of R1 and of R0, and the metres, which in
    /// version 1 have no block.
    pub fn lists(&self) -> [(&Range<usize>, usize); 3] {
        [(&self.r1_samples, self.samples), (&self.r0_samples, self.samples), (&self.metres, self.n)]
    }
}

/// The byte of an image and the mask in it of bit `index`, from 0, of a string whose blocks begin at `first_block`.
pub fn place_of_bit(first_block: usize, index: usize) -> (usize, u8) {
    let block = first_block + index / BITS_IN_BLOCK;
    let in_block = index % BITS_IN_BLOCK;
    (block * BLOCK_BYTES + COUNT_BYTES + in_block / 8, 0x80 >> (in_block % 8))
}

/// The first byte of an image that belongs to word `index` of the payload of a block, or of the blocks after it.
pub fn place_of_word(first_block: usize, index: usize) -> usize {
    let block = first_block + index / PAYLOAD_WORDS;
    block * BLOCK_BYTES + 4 * (index % PAYLOAD_WORDS)
}

/// That word.
pub fn word_at(image: &mut [u8], first_block: usize, index: usize) -> &mut [u8; 4] {
    image[place_of_word(first_block, index)..].first_chunk_mut().expect("four bytes")
}

/// The image with other words, each as block, word in it and value, and with the sums made right again.
pub fn with_words(image: &[u8], words: &[(usize, usize, u32)]) -> Vec<u8> {
    let mut image = image.to_vec();
    for &(block, index, value) in words {
        *word_at(&mut image, block, index) = value.to_le_bytes();
    }
    seal(&mut image);
    image
}
