//! Trees of many shapes, as parent lists.

use super::random::Random;
use crate::model::answers::number;

/// A shape that trees of any size can have.
#[derive(Clone, Copy, Debug)]
pub enum Shape {
    /// Each node has one child.
    Path,
    /// The root has all other nodes as children.
    Star,
    /// A path whose every node has a leaf too.
    Comb,
    /// Each node has the same number of children, as long as there are nodes.
    Regular,
    /// Each node hangs on one of the last few before it.
    Deep,
    /// Each node hangs close to the nodes before it, with up to eight siblings.
    Bushy,
    /// Long runs of ones and of zeros: nodes with many children, with many leaves between.
    LongRuns,
    /// A path, and at its end a star.
    Broom,
    /// All trees of the size are equally likely.
    Even,
}

pub const SHAPES: [Shape; 9] = [
    Shape::Path,
    Shape::Star,
    Shape::Comb,
    Shape::Regular,
    Shape::Deep,
    Shape::Bushy,
    Shape::LongRuns,
    Shape::Broom,
    Shape::Even,
];

/// A parent list of `n` numbers, at least one.
pub fn parent_list(shape: Shape, n: usize, random: &mut Random) -> Vec<u32> {
    let arity = random.between(2, 9);
    let handle = random.between(1, n);
    let parents = match shape {
        Shape::Path => each_parent(n, |node, _| node - 1),
        Shape::Star => each_parent(n, |_, _| 1),
        Shape::Comb => each_parent(n, |node, _| (node - 2) / 2 * 2 + 1),
        Shape::Regular => each_parent(n, |node, _| (node - 2) / arity + 1),
        Shape::Deep => each_parent(n, |node, _| node - random.between(1, 4.min(node - 1))),
        Shape::Bushy => each_parent(n, |_, before| before + usize::from(random.one_in(8))),
        Shape::LongRuns => each_parent(n, |node, before| match random.below(60) {
            0 => node - 1,
            1 => before + random.below(node - before),
            _ => before,
        }),
        Shape::Broom => each_parent(n, |node, _| (node - 1).min(handle)),
        Shape::Even => parents_of_degrees(&even_degrees(n, random)),
    };
    parents.into_iter().map(number).collect()
}

/// The root, and for each later node what is chosen from its number and the parent before, kept in order.
fn each_parent(n: usize, mut choose: impl FnMut(usize, usize) -> usize) -> Vec<usize> {
    let mut parents = vec![0];
    for node in 2..=n {
        let before = parents[node - 2].max(1);
        parents.push(choose(node, before).clamp(before, node - 1));
    }
    parents
}

/// Degrees in level order of a tree, all trees of n nodes being equally likely: n - 1 ones and n zeros stand for
/// the degrees, and of all turns of such a row exactly one is a tree's.
fn even_degrees(n: usize, random: &mut Random) -> Vec<usize> {
    let mut row: Vec<bool> = (0..2 * n - 1).map(|index| index < n - 1).collect();
    random.shuffle(&mut row);
    // the right turn begins after the place where zeros are ahead of ones the most, for the first time
    let (mut ahead, mut most, mut turn) = (0i64, 0i64, 0);
    for (index, &one) in row.iter().enumerate() {
        ahead += if one { -1 } else { 1 };
        if ahead > most {
            (most, turn) = (ahead, index + 1);
        }
    }
    row.rotate_left(turn);
    let mut degrees = Vec::new();
    let mut degree = 0;
    for one in row {
        if one {
            degree += 1;
        } else {
            degrees.push(degree);
            degree = 0;
        }
    }
    degrees
}

/// The parent list of the degrees in level order.
fn parents_of_degrees(degrees: &[usize]) -> Vec<usize> {
    let mut parents = vec![0];
    for (index, &degree) in degrees.iter().enumerate() {
        parents.resize(parents.len() + degree, index + 1);
    }
    parents
}

/// All parent lists of `n` numbers that are trees.
pub fn all_trees(n: usize) -> Vec<Vec<u32>> {
    let mut lists = vec![vec![0]];
    for node in 2..=number(n) {
        let mut longer = Vec::new();
        for list in &lists {
            let before = (*list.last().expect("not empty")).max(1);
            for parent in before..node {
                longer.push([list.as_slice(), &[parent]].concat());
            }
        }
        lists = longer;
    }
    lists
}
