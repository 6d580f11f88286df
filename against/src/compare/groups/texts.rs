//! Trees as text: every small text, texts of drawn trees as they are and damaged, around 64 levels, and around the
//! limits of nodes and bytes.

use super::forms::{brackets_of, room_near, small_size, tree_of_size};
use super::parent_lists::change_entry;
use crate::compare::call::Call;
use crate::compare::comparison::{Compared, Comparison, Enough};
use crate::compare::random::Random;
use crate::model::answers::number;
use crate::model::texts::{tree_of_text, BLANKS, CLOSES, MOST_TEXT_BYTES, OPENS};
use crate::model::trees::{Tree, MOST_NODES};

const DONE: u32 = 0;

/// Bytes that stand in no text: a letter, those next to blanks and brackets, other brackets, brackets and a blank with
/// the highest bit set, the least and the greatest.
const STRANGERS: [u8; 20] = *b"x\t\x0B\x0C\x0E\0\x08\x1F!'*[]{}\xA8\xA9\xA0\x7F\xFF";

const LEAF: [u8; 2] = [OPENS, CLOSES];

/// A byte of one of four kinds.
fn byte_of_kind(random: &mut Random, kind: usize) -> u8 {
    match kind {
        0 => OPENS,
        1 => CLOSES,
        2 => random.pick(&BLANKS),
        _ => random.pick(&STRANGERS),
    }
}

fn any_byte(random: &mut Random) -> u8 {
    let kind = random.below(4);
    byte_of_kind(random, kind)
}

fn read(comparison: &mut Comparison, random: &mut Random, text: Vec<u8>, room: usize) -> Result<Compared, Enough> {
    comparison.compare(Call::ParentsOfText { text, parents: random.words(room) })
}

fn write(comparison: &mut Comparison, random: &mut Random, parents: &[u32], room: usize) -> Result<Compared, Enough> {
    comparison.compare(Call::TextOfParents { parents: parents.to_vec(), text: random.bytes(room) })
}

/// "Reading, then writing, gives the text without those bytes": asked of the library itself, where it has read.
fn write_back(comparison: &mut Comparison, random: &mut Random, read: &Compared) -> Result<(), Enough> {
    let Call::ParentsOfText { text, parents } = &read.call else { unreachable!("a reading") };
    let (DONE, Some(parents)) = (read.answer.code, parents.get(..read.answer.first as usize)) else { return Ok(()) };
    let brackets: Vec<u8> = text.iter().copied().filter(|byte| !BLANKS.contains(byte)).collect();
    let written = write(comparison, random, parents, brackets.len())?;
    let Call::TextOfParents { text, .. } = &written.call else { unreachable!("a writing") };
    comparison.demand(*text == brackets, "reading, then writing, gives the text without blanks", &written)
}

/// "Writing, then reading, gives the tree": asked of the library itself, where it has written.
fn read_back(comparison: &mut Comparison, random: &mut Random, written: &Compared) -> Result<(), Enough> {
    let Call::TextOfParents { parents, text } = &written.call else { unreachable!("a writing") };
    let (DONE, Some(text)) = (written.answer.code, text.get(..written.answer.first as usize)) else { return Ok(()) };
    let compared = read(comparison, random, text.to_vec(), parents.len())?;
    let Call::ParentsOfText { parents: found, .. } = &compared.call else { unreachable!("a reading") };
    comparison.demand(found == parents, "writing, then reading, gives the tree", &compared)
}

/// All texts of up to 8 bytes, each byte of one of the four kinds. They have 4 nodes at most; those that are trees are
/// read with less room too, and written back.
pub fn every_text(comparison: &mut Comparison, random: &mut Random) -> Result<(), Enough> {
    for length in 0..=8 {
        for value in 0..1usize << (2 * length) {
            let text: Vec<u8> = (0..length).map(|place| byte_of_kind(random, value >> (2 * place) & 3)).collect();
            let compared = read(comparison, random, text.clone(), 4)?;
            if compared.answer.code == DONE {
                let nodes = compared.answer.first.min(4) as usize;
                for room in 0..=nodes {
                    read(comparison, random, text.clone(), room)?;
                }
                write_back(comparison, random, &compared)?;
            }
        }
    }
    Ok(())
}

/// Each of the 256 bytes, put in at every place of some texts, and in the place of each of their bytes.
pub fn every_byte(comparison: &mut Comparison, random: &mut Random) -> Result<(), Enough> {
    for whole in ["", "()", "( ) ", "(())", "((()())()(()))"] {
        for place in 0..=whole.len() {
            for byte in 0..=u8::MAX {
                let mut text = whole.as_bytes().to_vec();
                text.insert(place, byte);
                read(comparison, random, text.clone(), 8)?;
                if place < whole.len() {
                    text.remove(place + 1);
                    read(comparison, random, text, 8)?;
                }
            }
        }
    }
    Ok(())
}

/// The brackets with blanks between them, before them and after them, many or few.
fn with_blanks(random: &mut Random, brackets: &[u8]) -> Vec<u8> {
    let seldom = random.pick(&[1, 2, 8, 60]);
    let mut text = Vec::new();
    for place in 0..=brackets.len() {
        if random.one_in(seldom) {
            let count = random.between(1, 3);
            text.extend((0..count).map(|_| random.pick(&BLANKS)));
        }
        text.extend(brackets.get(place));
    }
    text
}

/// Trees of all shapes, some of them too deep: their texts with blanks are read and written back, and they are written
/// as text and read back.
pub fn texts_of_trees(comparison: &mut Comparison, random: &mut Random) -> Result<(), Enough> {
    for _ in 0..3_000 {
        let n = small_size(random);
        let parents = tree_of_size(random, n);
        let text = with_blanks(random, &brackets_of_parents(&parents));
        let room = room_near(random, n);
        let compared = read(comparison, random, text, room)?;
        write_back(comparison, random, &compared)?;
        let room = room_near(random, 2 * n);
        let compared = write(comparison, random, &parents, room)?;
        read_back(comparison, random, &compared)?;
    }
    Ok(())
}

fn brackets_of_parents(parents: &[u32]) -> Vec<u8> {
    brackets_of(&Tree::of_parent_list(parents).expect("made as a tree"))
}

/// Texts of trees with bytes changed, put in, left out or exchanged, cut and lengthened, once or twice.
pub fn damaged_texts(comparison: &mut Comparison, random: &mut Random) -> Result<(), Enough> {
    for _ in 0..5_000 {
        let n = small_size(random);
        let parents = tree_of_size(random, n);
        let whole = with_blanks(random, &brackets_of_parents(&parents));
        for _ in 0..4 {
            let mut text = whole.clone();
            for _ in 0..random.between(1, 2) {
                damage(random, &mut text);
            }
            let room = room_near(random, n);
            let compared = read(comparison, random, text, room)?;
            write_back(comparison, random, &compared)?;
        }
    }
    Ok(())
}

fn damage(random: &mut Random, text: &mut Vec<u8>) {
    let length = text.len();
    let place = random.below(length + 1);
    match random.below(7) {
        0 | 1 if place < length => text[place] = any_byte(random),
        2 if place < length => {
            text.remove(place);
        }
        3 if place + 1 < length => text.swap(place, place + 1),
        4 => text.truncate(place),
        5 => {
            let more = random.between(1, 6);
            text.extend((0..more).map(|_| any_byte(random)));
        }
        _ => text.insert(place, any_byte(random)),
    }
}

/// Levels around the limit, and far more.
const LEVELS: [usize; 6] = [65, 64, 66, 63, 62, 130];

/// A path, a path with leaves, and such paths below one root, of so many levels: with faults before the 65th level and
/// after it, and written as text with every kind of room, also with a bad entry.
pub fn texts_around_64_levels(comparison: &mut Comparison, random: &mut Random) -> Result<(), Enough> {
    for levels in LEVELS {
        let path = path_of_levels(levels);
        written_in_rooms(comparison, random, &path)?;
        every_fault(comparison, random, &path)?;
        for _ in 0..30 {
            let one = path_with_leaves(random, levels);
            let branches: Vec<u8> = (0..random.between(1, 3))
                .flat_map(|_| {
                    let levels = random.pick(&LEVELS);
                    path_with_leaves(random, levels - 1)
                })
                .collect();
            let several = [&[OPENS], branches.as_slice(), &[CLOSES]].concat();
            for brackets in [one, several] {
                written_in_rooms(comparison, random, &brackets)?;
                let nodes = brackets.len() / 2;
                let mut text = with_blanks(random, &brackets);
                let compared = read(comparison, random, text.clone(), nodes)?;
                write_back(comparison, random, &compared)?;
                for _ in 0..8 {
                    damage(random, &mut text);
                    read(comparison, random, text.clone(), nodes)?;
                }
            }
        }
    }
    Ok(())
}

/// The text of a path.
fn path_of_levels(levels: usize) -> Vec<u8> {
    [vec![OPENS; levels], vec![CLOSES; levels]].concat()
}

/// The same, whose nodes but for the last may have a leaf before the next one of the path, and one after it.
fn path_with_leaves(random: &mut Random, levels: usize) -> Vec<u8> {
    let mut some_leaf = || if random.one_in(2) { LEAF.as_slice() } else { &[] };
    let mut text = Vec::new();
    for _ in 1..levels {
        text.extend([&[OPENS], some_leaf()].concat());
    }
    text.extend(LEAF);
    for _ in 1..levels {
        text.extend([some_leaf(), &[CLOSES]].concat());
    }
    text
}

/// At every place: cut there; a byte that stands in no text, a blank and each bracket put in; the other bracket in its
/// place.
fn every_fault(comparison: &mut Comparison, random: &mut Random, whole: &[u8]) -> Result<(), Enough> {
    let room = whole.len() / 2 + 1;
    for place in 0..=whole.len() {
        let (before, after) = whole.split_at(place);
        read(comparison, random, before.to_vec(), room)?;
        for byte in [random.pick(&STRANGERS), random.pick(&BLANKS), OPENS, CLOSES] {
            let put_in = [before, &[byte], after].concat();
            read(comparison, random, put_in, room)?;
        }
        if let [bracket, after @ ..] = after {
            let other = if *bracket == OPENS { CLOSES } else { OPENS };
            let instead = [before, &[other], after].concat();
            read(comparison, random, instead, room)?;
        }
    }
    Ok(())
}

/// The tree of some brackets written, with rooms that do and that are short, and with an entry changed, which makes it
/// no tree or another one.
fn written_in_rooms(comparison: &mut Comparison, random: &mut Random, brackets: &[u8]) -> Result<(), Enough> {
    let parents = tree_of_text(brackets, usize::MAX).expect("made as a tree").parent_list();
    let n = parents.len();
    let mut changed = parents.clone();
    change_entry(random, &mut changed);
    for room in [0, n, 2 * n - 1, 2 * n, 2 * n + 1] {
        let compared = write(comparison, random, &parents, room)?;
        read_back(comparison, random, &compared)?;
        write(comparison, random, &changed, room)?;
    }
    Ok(())
}

/// Around 65,535 nodes, and around 1,048,576 bytes.
pub fn texts_around_the_limits(comparison: &mut Comparison, random: &mut Random) -> Result<(), Enough> {
    for nodes in [MOST_NODES - 1, MOST_NODES, MOST_NODES + 1, 70_000] {
        for levels in [2, 64, 65] {
            let whole = wide(nodes, levels);
            for room in [nodes - 1, nodes] {
                read(comparison, random, whole.clone(), room)?;
            }
            let parents: Vec<u32> = (0..nodes).map(|before| number(before.min(levels - 1))).collect();
            for room in [nodes, 2 * nodes - 1, 2 * nodes] {
                let compared = write(comparison, random, &parents, room)?;
                read_back(comparison, random, &compared)?;
            }
            faults_of_large(comparison, random, &whole)?;
        }
        let levels = random.between(3, 63);
        let text = with_blanks(random, &wide(nodes, levels));
        let compared = read(comparison, random, text, nodes)?;
        write_back(comparison, random, &compared)?;
    }
    for length in [MOST_TEXT_BYTES - 1, MOST_TEXT_BYTES, MOST_TEXT_BYTES + 1] {
        texts_of_length(comparison, random, length)?;
    }
    Ok(())
}

/// A path of one level less, whose last node has all other nodes as children.
fn wide(nodes: usize, levels: usize) -> Vec<u8> {
    let path = levels - 1;
    [vec![OPENS; path], LEAF.repeat(nodes - path), vec![CLOSES; path]].concat()
}

/// A byte that stands in no text before all, in the middle and behind all; a bracket too few and one too many.
fn faults_of_large(comparison: &mut Comparison, random: &mut Random, whole: &[u8]) -> Result<(), Enough> {
    for place in [0, random.below(whole.len()), whole.len()] {
        let (before, after) = whole.split_at(place);
        let put_in = [before, &[random.pick(&STRANGERS)], after].concat();
        read(comparison, random, put_in, 100)?;
    }
    read(comparison, random, whole[..whole.len() - 1].to_vec(), 100)?;
    let bracket = random.pick(&LEAF);
    read(comparison, random, [whole, &[bracket]].concat(), 100)?;
    Ok(())
}

/// Texts of so many bytes: few nodes and the most, with blanks; blanks alone; more nodes than a tree has; far too many
/// levels; a byte at the end that stands in no text.
fn texts_of_length(comparison: &mut Comparison, random: &mut Random, length: usize) -> Result<(), Enough> {
    let spaced = |random: &mut Random, brackets: &[u8], before: usize| {
        let mut text: Vec<u8> = (0..length).map(|_| random.pick(&BLANKS)).collect();
        text[before..before + brackets.len()].copy_from_slice(brackets);
        text
    };
    let most = wide(MOST_NODES, 64);
    let (stranger, before) = (random.pick(&STRANGERS), random.below(length - most.len()));
    let texts = [
        spaced(random, &LEAF, 0),
        spaced(random, &LEAF, length - 2),
        spaced(random, &most, before),
        spaced(random, &[], 0),
        spaced(random, &[stranger], length - 1),
        spaced(random, &wide(length / 2, 2), 0),
        spaced(random, &path_of_levels(length / 2), 0),
        [wide(length / 2 - 1, 2), vec![stranger; length - 2 * (length / 2 - 1)]].concat(),
    ];
    for text in texts {
        read(comparison, random, text, MOST_NODES)?;
    }
    Ok(())
}
