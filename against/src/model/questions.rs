//! "Questions": "Asked in a lent list of signed 32-bit numbers, three to a question: kind, node, argument".

use super::answers::{number, Refusal};
use super::images::Content;
use super::trees::Tree;

/// "At most 256 questions, none included."
pub const MOST_QUESTIONS: usize = 256;
const NUMBERS_EACH: usize = 3;

/// "Questions not in threes or over 256" are code 2.
pub fn question_count(numbers: &[i32]) -> Result<usize, Refusal> {
    let count = numbers.len() / NUMBERS_EACH;
    if !numbers.len().is_multiple_of(NUMBERS_EACH) || count > MOST_QUESTIONS {
        return Err(Refusal::WrongSize);
    }
    Ok(count)
}

/// One answer to each question, or the lowest one that is not allowed.
pub fn answers_to(content: &Content, numbers: &[i32]) -> Result<Vec<u32>, Refusal> {
    let mut answers = Vec::new();
    for (index, question) in numbers.chunks(NUMBERS_EACH).enumerate() {
        let refusal = Refusal::NotAllowed { question: index + 1 };
        let node = node_of(&content.tree, question[1]).ok_or(refusal)?;
        answers.push(answer_to(content, question[0], node, question[2]).ok_or(refusal)?);
    }
    Ok(answers)
}

/// The number as a node of the tree, if it is one.
fn node_of(tree: &Tree, number: i32) -> Option<usize> {
    usize::try_from(number).ok().filter(|node| tree.nodes().contains(node))
}

/// The answer to one question about a node; none where kind or argument is not allowed.
fn answer_to(content: &Content, kind: i32, node: usize, argument: i32) -> Option<u32> {
    // "Kinds 1 to 7 and 9 have argument 0. For 8 and 10 every argument is allowed"; "Question 11, with argument 0"
    let takes_argument = kind == 8 || kind == 10;
    if argument != 0 && !takes_argument {
        return None;
    }
    match kind {
        // "gives a node's metres"; "question 11 on version 1" is not allowed
        11 => content.metres.as_ref().map(|metres| metres[node - 1]),
        _ => answer_of_tree(&content.tree, kind, node, argument).map(number),
    }
}

/// The answer to a question that does not ask for metres.
fn answer_of_tree(tree: &Tree, kind: i32, node: usize, argument: i32) -> Option<usize> {
    let children = tree.children(node);
    let siblings = tree.siblings(node);
    // "Kinds 4, 5 and 10 otherwise treat the root as an only child", and "keep their answers": they count from the place.
    let place = 1 + siblings.iter().position(|&sibling| sibling == node).expect("under its parent");
    // "Ranks count from 1", and "kind 7 on the root answers 0".
    let rank = if node == 1 { 0 } else { place };
    match kind {
        1 => Some(tree.parent(node)),
        2 => Some(node_at(children, 1)),
        3 => Some(node_at(children, as_place(children.len()))),
        4 => Some(node_at(siblings, as_place(place) + 1)),
        5 => Some(node_at(siblings, as_place(place) - 1)),
        6 => Some(children.len()),
        7 => Some(rank),
        8 => Some(node_at(children, i64::from(argument))),
        9 => Some(usize::from(children.is_empty())),
        // "as many places to the right as the argument says, to the left where it is negative"
        10 => Some(node_at(siblings, as_place(place) + i64::from(argument))),
        _ => None,
    }
}

/// The node at a place, counted from 1, in a list of nodes; 0, "none", where the place "leads to no node".
fn node_at(nodes: &[usize], place: i64) -> usize {
    let mut places = (1..).zip(nodes);
    places.find(|&(here, _)| here == place).map_or(0, |(_, &node)| node)
}

fn as_place(count: usize) -> i64 {
    i64::try_from(count).expect("counts of nodes are small")
}
