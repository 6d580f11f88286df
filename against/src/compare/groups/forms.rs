//! Trees in all their forms, as the model makes them, and calls that several groups make.

use crate::compare::call::Call;
use crate::compare::comparison::{Comparison, Enough};
use crate::compare::layout::Layout;
use crate::compare::random::Random;
use crate::compare::shapes::{parent_list, Shape, SHAPES};
use crate::model::answers::number;
use crate::model::bits::bytes_of_bits;
use crate::model::images::{image_of_tree, m_of, WITH_METRES};
use crate::model::listing::listing_from;
use crate::model::strings::string_of_tree;
use crate::model::texts::{CLOSES, OPENS};
use crate::model::trees::Tree;

/// One tree as parent list, string, bytes of the string, and image: with metres it is of version 2, else of version 1.
pub struct Forms {
    pub parents: Vec<u32>,
    pub metres: Option<Vec<u32>>,
    pub tree: Tree,
    pub string: Vec<bool>,
    pub bytes: Vec<u8>,
    pub image: Vec<u8>,
}

impl Forms {
    pub fn of(parents: Vec<u32>, metres: Option<Vec<u32>>) -> Forms {
        let tree = Tree::of_parent_list(&parents).expect("made as a tree");
        let string = string_of_tree(&tree);
        let bytes = bytes_of_bits(&string);
        let image = image_of_tree(&tree, metres.as_deref());
        Forms { parents, metres, tree, string, bytes, image }
    }

    /// A tree in both versions.
    pub fn of_both_versions(random: &mut Random, parents: &[u32]) -> [Forms; 2] {
        let metres = drawn_metres(random, parents.len());
        [None, Some(metres)].map(|metres| Forms::of(parents.to_vec(), metres))
    }

    /// A tree in either version.
    pub fn of_either_version(random: &mut Random, parents: Vec<u32>) -> Forms {
        let metres = random.one_in(2).then(|| drawn_metres(random, parents.len()));
        Forms::of(parents, metres)
    }

    /// A tree of `n` nodes and this shape, in either version.
    pub fn of_shape(random: &mut Random, shape: Shape, n: usize) -> Forms {
        let parents = parent_list(shape, n, random);
        Forms::of_either_version(random, parents)
    }

    /// A tree of `n` nodes and any shape, in either version.
    pub fn drawn(random: &mut Random, n: usize) -> Forms {
        let shape = random.pick(&SHAPES);
        Forms::of_shape(random, shape, n)
    }

    pub fn node_count(&self) -> usize {
        self.parents.len()
    }

    pub fn layout(&self) -> Layout {
        Layout::of(self.node_count(), m_of(&self.tree), self.metres.is_some())
    }

    /// The call that makes the image of its version.
    pub fn sealing(&self, image: Vec<u8>) -> Call {
        let parents = self.parents.clone();
        match self.metres.clone() {
            None => Call::ImageOfParents { parents, image },
            Some(metres) => Call::ImageWithMetres { parents, metres, image },
        }
    }

    /// Its text, however many levels it has.
    pub fn text(&self) -> Vec<u8> {
        brackets_of(&self.tree)
    }

    /// How many numbers a listing takes; where it is too deep, as many as all nodes would.
    pub fn numbers_listed(&self, node: usize) -> usize {
        let nodes = listing_from(&self.tree, node).map_or(self.node_count(), |listing| listing.len());
        2 * nodes
    }
}

/// The brackets of a tree of any number of levels.
pub fn brackets_of(tree: &Tree) -> Vec<u8> {
    let mut text = Vec::new();
    // a node to open, or none where one is closed
    let mut to_come = vec![Some(1)];
    while let Some(step) = to_come.pop() {
        match step {
            Some(node) => {
                text.push(OPENS);
                to_come.push(None);
                to_come.extend(tree.children(node).iter().rev().map(|&child| Some(child)));
            }
            None => text.push(CLOSES),
        }
    }
    text
}

/// A parent list of `n` numbers and any shape.
pub fn tree_of_size(random: &mut Random, n: usize) -> Vec<u32> {
    let shape = random.pick(&SHAPES);
    parent_list(shape, n, random)
}

/// Metres for so many nodes, seldom all alike; the least and the greatest are frequent.
pub fn drawn_metres(random: &mut Random, count: usize) -> Vec<u32> {
    match random.below(8) {
        0 => vec![0; count],
        1 => vec![u32::MAX; count],
        _ => {
            let mut drawn = || match random.below(6) {
                0 => 0,
                1 => 1,
                2 => u32::MAX,
                _ => random.word(),
            };
            (0..count).map(|_| drawn()).collect()
        }
    }
}

/// A list of metres for a tree of `n` nodes: mostly of n numbers, else of fewer or more.
pub fn offered_metres(random: &mut Random, n: usize) -> Vec<u32> {
    let count = room_near(random, n);
    drawn_metres(random, count)
}

/// Mostly a few nodes; sometimes around 64 ones or 126 words, or a few hundred.
pub fn small_size(random: &mut Random) -> usize {
    match random.below(10) {
        0 => random.between(60, 68),
        1 => random.between(124, 132),
        2 => random.between(9, 400),
        _ => random.between(1, 8),
    }
}

/// A length for a list that needs so much: often just that, or one short, or more, or much less.
pub fn room_near(random: &mut Random, needed: usize) -> usize {
    match random.below(10) {
        0 => needed.saturating_sub(1),
        1 => needed + 1,
        2 => needed + random.between(2, 40),
        3 => random.below(needed + 1),
        _ => needed,
    }
}

/// The kinds of questions that an image allows, without metres and with them.
pub fn kinds(measured: bool) -> std::ops::RangeInclusive<i32> {
    1..=if measured { 11 } else { 10 }
}

/// Whether every argument is allowed with this kind.
pub fn takes_argument(kind: i32) -> bool {
    kind == 8 || kind == 10
}

/// Arguments worth asking a tree of n nodes with.
pub fn arguments(n: usize) -> [i32; 12] {
    let n = n as i32;
    [0, 1, -1, 2, -2, n, -n, n - 1, n + 1, 65_536, i32::MIN, i32::MAX]
}

/// A question that an image of n nodes allows, without metres or with them.
pub fn allowed_question(random: &mut Random, n: usize, measured: bool) -> [i32; 3] {
    let kind = random.between(1, *kinds(measured).end() as usize) as i32;
    let argument = match takes_argument(kind) {
        false => 0,
        true if random.one_in(2) => random.pick(&arguments(n)),
        true => random.between(0, 12) as i32 - 6,
    };
    [kind, random.between(1, n) as i32, argument]
}

/// `count` questions that an image of n nodes allows, without metres or with them.
pub fn allowed_questions(random: &mut Random, n: usize, measured: bool, count: usize) -> Vec<i32> {
    (0..count).flat_map(|_| allowed_question(random, n, measured)).collect()
}

/// Questions with room for their answers, and sometimes for more.
pub fn ask(comparison: &mut Comparison, random: &mut Random, forms: &Forms, questions: Vec<i32>) -> Result<(), Enough> {
    let spare = random.below(3);
    let answers = random.words(questions.len() / 3 + spare);
    comparison.compare(Call::Ask { image: forms.image.clone(), questions, answers })?;
    Ok(())
}

/// Every call on one tree, of those that make an image the one for its version, with rooms that mostly do.
pub fn every_call(comparison: &mut Comparison, random: &mut Random, forms: &Forms) -> Result<(), Enough> {
    let (n, bits) = (forms.node_count(), forms.string.len());
    let room = room_near(random, forms.bytes.len());
    let bytes = random.bytes(room);
    comparison.compare(Call::StringOfParents { parents: forms.parents.clone(), bytes })?;

    let room = room_near(random, n);
    let parents = random.words(room);
    comparison.compare(Call::ParentsOfString { bytes: forms.bytes.clone(), bits, parents })?;

    let room = room_near(random, forms.image.len());
    let image = random.bytes(room);
    comparison.compare(forms.sealing(image))?;

    let (rooms, trees) = ([room_near(random, 1), room_near(random, 1)], 1);
    let [starts, sizes] = rooms.map(|room| random.words(room));
    comparison.compare(Call::Split { bytes: forms.bytes.clone(), bits, trees, starts, sizes })?;

    let room = room_near(random, forms.bytes.len());
    let pack = random.bytes(room);
    comparison.compare(Call::Join { pack, bits: 0, trees: 0, parents: forms.parents.clone() })?;

    readings(comparison, random, &forms.image, n)?;
    let node = random.between(1, n);
    let room = room_near(random, forms.numbers_listed(node));
    let pairs = random.words(room);
    comparison.compare(Call::List { image: forms.image.clone(), node: number(node), pairs })?;

    let room = room_near(random, n);
    let parents = random.words(room);
    comparison.compare(Call::ParentsOfText { text: forms.text(), parents })?;

    let room = room_near(random, 2 * n);
    let text = random.bytes(room);
    comparison.compare(Call::TextOfParents { parents: forms.parents.clone(), text })?;
    Ok(())
}

/// How many calls make the check first.
const READINGS: usize = 4;

/// All five calls that read an image, on bytes that may be anything but began as the image of n nodes.
pub fn readings(comparison: &mut Comparison, random: &mut Random, image: &[u8], n: usize) -> Result<(), Enough> {
    comparison.compare(Call::CheckImage { image: image.to_vec() })?;
    for which in 0..READINGS {
        comparison.compare(reading(random, image, n, which))?;
    }
    Ok(())
}

/// The check of bytes that may be anything, and one of the calls that make the same check first.
pub fn check_and_one_reading(
    comparison: &mut Comparison,
    random: &mut Random,
    image: &[u8],
    n: usize,
) -> Result<(), Enough> {
    comparison.compare(Call::CheckImage { image: image.to_vec() })?;
    let which = random.below(READINGS);
    comparison.compare(reading(random, image, n, which))?;
    Ok(())
}

fn reading(random: &mut Random, image: &[u8], n: usize, which: usize) -> Call {
    let image = image.to_vec();
    match which {
        0 => {
            let room = room_near(random, n);
            Call::ParentsOfImage { image, parents: random.words(room) }
        }
        1 => {
            let room = room_near(random, n);
            Call::MetresOfImage { image, metres: random.words(room) }
        }
        2 => {
            let count = random.between(0, 12);
            let room = room_near(random, count);
            // by the version; now and then metres are asked for that are not there
            let measured = image.starts_with(&WITH_METRES.to_le_bytes()) || random.one_in(12);
            let questions = allowed_questions(random, n, measured, count);
            Call::Ask { image, questions, answers: random.words(room) }
        }
        _ => {
            let room = room_near(random, 2 * n);
            let node = if random.one_in(4) { random.between(0, n + 1) } else { 1 };
            Call::List { image, node: number(node), pairs: random.words(room) }
        }
    }
}
