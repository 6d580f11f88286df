//! Questions of every kind, about the root by themselves too, and listings from every node.

use super::forms::{
    allowed_question, allowed_questions, arguments, kinds, room_near, small_size, takes_argument, Forms,
};
use crate::compare::call::Call;
use crate::compare::comparison::{Comparison, Enough};
use crate::compare::random::Random;
use crate::compare::shapes::{parent_list, Shape};
use crate::model::answers::number;

/// Lists of up to 258 questions to trees of all shapes, good and odd ones, in threes and not.
pub fn questions(comparison: &mut Comparison, random: &mut Random) -> Result<(), Enough> {
    for round in 0..1_500 {
        // a large tree now and then, for positions in later blocks and between distant samples
        let n = if round % 150 == 0 { random.between(4_000, 20_000) } else { small_size(random) };
        let forms = Forms::drawn(random, n);
        for _ in 0..12 {
            let questions = question_list(random, n, forms.metres.is_some());
            let room = room_near(random, questions.len() / 3);
            let (image, answers) = (forms.image.clone(), random.words(room));
            comparison.compare(Call::Ask { image, questions, answers })?;
        }
    }
    Ok(())
}

fn question_list(random: &mut Random, n: usize, measured: bool) -> Vec<i32> {
    let count = match random.below(12) {
        0 => 256,
        1 => random.between(253, 258),
        2 => 0,
        _ => random.between(1, 24),
    };
    let mut questions = allowed_questions(random, n, measured, count);
    if random.one_in(3) && count > 0 {
        // one odd question or two
        for _ in 0..random.between(1, 2) {
            let at = 3 * random.below(count);
            questions[at..at + 3].copy_from_slice(&odd_question(random, n, measured));
        }
    }
    if random.one_in(12) {
        // not in threes
        questions.extend(&allowed_question(random, n, measured)[..random.between(1, 2)]);
    }
    questions
}

/// A question with one number that is out of place, or is only without metres.
fn odd_question(random: &mut Random, n: usize, measured: bool) -> [i32; 3] {
    let [mut kind, mut node, mut argument] = allowed_question(random, n, measured);
    let last = n as i32;
    match random.below(3) {
        0 => kind = random.pick(&[0, -1, -10, -11, 11, 12, 256, 257, i32::MIN, i32::MAX]),
        1 => node = random.pick(&[0, -1, -last, last + 1, 65_536, 65_537, i32::MIN, i32::MAX]),
        _ => argument = random.pick(&arguments(n)),
    }
    [kind, node, argument]
}

/// One node, a few, as many as a block of metres or bits has, and the most.
const SIZES: [usize; 13] = [1, 2, 3, 7, 64, 65, 126, 127, 3_999, 4_000, 4_001, 65_534, 65_535];

/// Every kind about the root of a path, a star and another tree, with every argument that it allows, and the ranks of
/// its first children and of the last nodes.
pub fn the_root(comparison: &mut Comparison, random: &mut Random) -> Result<(), Enough> {
    for n in SIZES {
        for shape in [Shape::Path, Shape::Star, Shape::Even] {
            let parents = parent_list(shape, n, random);
            for forms in Forms::of_both_versions(random, &parents) {
                let mut questions = Vec::new();
                for kind in kinds(forms.metres.is_some()) {
                    let arguments = arguments(n);
                    let allowed = if takes_argument(kind) { &arguments } else { &arguments[..1] };
                    questions.extend(allowed.iter().flat_map(|&argument| [kind, 1, argument]));
                }
                let (first, last) = (2..=n.min(5), n.saturating_sub(5).max(1)..=n);
                questions.extend(first.chain(last).flat_map(|node| [7, node as i32, 0]));
                let answers = random.words(questions.len() / 3 + 1);
                comparison.compare(Call::Ask { image: forms.image, questions, answers })?;
            }
        }
    }
    Ok(())
}

/// Trees around depth 64 from all kinds of nodes, and trees of every shape.
pub fn listings(comparison: &mut Comparison, random: &mut Random) -> Result<(), Enough> {
    for n in [62, 63, 64, 65, 66, 100, 300] {
        let path = Forms::of_shape(random, Shape::Path, n);
        for node in 1..=n {
            list(comparison, random, &path, node)?;
        }
        // paths with leaves beside them, so that much is listed before the depth is passed
        for shape in [Shape::Comb, Shape::Deep, Shape::Broom] {
            let forms = Forms::of_shape(random, shape, 2 * n);
            for _ in 0..40 {
                let node = random.between(1, 2 * n);
                list(comparison, random, &forms, node)?;
            }
            list(comparison, random, &forms, 1)?;
        }
    }
    for _ in 0..1_000 {
        let n = small_size(random);
        let forms = Forms::drawn(random, n);
        for _ in 0..4 {
            let node = random.between(0, n + 1);
            list(comparison, random, &forms, node)?;
        }
    }
    Ok(())
}

fn list(comparison: &mut Comparison, random: &mut Random, forms: &Forms, node: usize) -> Result<(), Enough> {
    let needed = match forms.tree.nodes().contains(&node) {
        true => forms.numbers_listed(node),
        false => 2 * forms.node_count(),
    };
    let room = room_near(random, needed);
    let (image, pairs) = (forms.image.clone(), random.words(room));
    comparison.compare(Call::List { image, node: number(node), pairs })?;
    Ok(())
}
