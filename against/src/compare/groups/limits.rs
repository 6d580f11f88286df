//! Trees of every shape, small and around the limits.

use super::forms::{allowed_questions, every_call, small_size, Forms};
use crate::compare::call::Call;
use crate::compare::comparison::{Comparison, Enough};
use crate::compare::random::Random;
use crate::compare::shapes::{parent_list, Shape, SHAPES};
use crate::model::images::{BLOCK_BYTES, MOST_BLOCKS};
use crate::model::questions::MOST_QUESTIONS;

/// Small trees, and every few ones larger, with every call each.
pub fn trees_of_every_shape(comparison: &mut Comparison, random: &mut Random) -> Result<(), Enough> {
    for _ in 0..350 {
        for shape in SHAPES {
            let n = small_size(random);
            let forms = Forms::of_shape(random, shape, n);
            every_call(comparison, random, &forms)?;
        }
    }
    Ok(())
}

/// Sizes where a block of metres or of bits is just full, where a block of samples can be, where n + 1 passes a power
/// of two.
const MIDDLE_SIZES: [usize; 17] =
    [125, 126, 127, 3_999, 4_000, 4_001, 4_095, 4_096, 4_097, 7_999, 8_000, 8_001, 8_063, 8_064, 8_065, 8_128, 16_128];
const LARGEST_SIZES: [usize; 2] = [65_534, 65_535];

/// Every shape around every limit, then what is one node too large.
pub fn trees_around_the_limits(comparison: &mut Comparison, random: &mut Random) -> Result<(), Enough> {
    for n in MIDDLE_SIZES {
        for shape in SHAPES {
            calls_on_large(comparison, random, shape, n)?;
        }
    }
    for n in LARGEST_SIZES {
        for shape in [Shape::Path, Shape::Star, Shape::Comb, Shape::Regular, Shape::LongRuns, Shape::Even] {
            calls_on_large(comparison, random, shape, n)?;
        }
    }
    for shape in [Shape::Path, Shape::Star] {
        let parents = parent_list(shape, 65_536, random);
        let bytes = random.bytes(20_000);
        comparison.compare(Call::StringOfParents { parents: parents.clone(), bytes })?;
        let (metres, image) = (random.words(65_536), random.bytes((MOST_BLOCKS + 1) * BLOCK_BYTES));
        comparison.compare(Call::ImageOfParents { parents: parents.clone(), image: image.clone() })?;
        comparison.compare(Call::ImageWithMetres { parents: parents.clone(), metres, image })?;
        let pack = random.bytes(20_000);
        comparison.compare(Call::Join { pack, bits: 0, trees: 0, parents: parents.clone() })?;
        let text = random.bytes(2 * parents.len());
        comparison.compare(Call::TextOfParents { parents, text })?;
    }
    Ok(())
}

/// Every call in both versions, and as many questions as one call takes.
fn calls_on_large(comparison: &mut Comparison, random: &mut Random, shape: Shape, n: usize) -> Result<(), Enough> {
    let parents = parent_list(shape, n, random);
    for forms in Forms::of_both_versions(random, &parents) {
        every_call(comparison, random, &forms)?;
        let questions = allowed_questions(random, n, forms.metres.is_some(), MOST_QUESTIONS);
        let answers = random.words(MOST_QUESTIONS);
        comparison.compare(Call::Ask { image: forms.image, questions, answers })?;
    }
    Ok(())
}
