//! What the model finds in a text, against the sentences themselves: "a node is `(`, its children, `)`" makes the texts
//! of all trees of up to 8 nodes, and the byte that is named is the first one up to which a text begins none of them.

use against::compare::shapes::all_trees;
use against::model::answers::Refusal;
use against::model::texts::{text_of_tree, tree_of_text, BLANKS, MOST_LEVELS};
use against::model::trees::Tree;
use std::collections::HashSet;

/// The texts of up to 8 bytes begin texts of up to as many nodes, if they begin any.
const MOST: usize = 8;

/// The texts of all nodes that have so many nodes with themselves, without blanks.
fn nodes_of(count: usize) -> Vec<String> {
    lists_of(count - 1).into_iter().map(|children| format!("({children})")).collect()
}

/// The texts of all lists of nodes that have so many nodes together.
fn lists_of(count: usize) -> Vec<String> {
    if count == 0 {
        return vec![String::new()];
    }
    let mut lists = Vec::new();
    for first in 1..=count {
        for node in nodes_of(first) {
            lists.extend(lists_of(count - first).into_iter().map(|others| format!("{node}{others}")));
        }
    }
    lists
}

fn without_blanks(text: &[u8]) -> String {
    text.iter().filter(|byte| !BLANKS.contains(byte)).map(|&byte| char::from(byte)).collect()
}

/// The refusal of a text, going by all texts that there are and by all that begin them.
fn refusal_by_trying(
    text: &[u8],
    most_levels: usize,
    texts: &HashSet<String>,
    beginnings: &HashSet<String>,
) -> Option<Refusal> {
    let no_way_on = (1..=text.len()).find(|&byte| !beginnings.contains(&without_blanks(&text[..byte])));
    let no_text = (!texts.contains(&without_blanks(text))).then(|| no_way_on.unwrap_or(text.len() + 1));
    let level_of = |byte: usize| {
        let count = |bracket: u8| text[..byte].iter().filter(|&&byte| byte == bracket).count() as isize;
        count(b'(') - count(b')')
    };
    let level = (1..=text.len()).find(|&byte| text[byte - 1] == b'(' && level_of(byte) > most_levels as isize);
    match (no_text, level) {
        (Some(wrong), Some(byte)) if byte < wrong => Some(Refusal::TooManyLevels { byte }),
        (None, Some(byte)) => Some(Refusal::TooManyLevels { byte }),
        (no_text, _) => no_text.map(|byte| Refusal::NotAText { byte }),
    }
}

#[test]
fn a_text_is_refused_where_it_begins_no_text() {
    let texts: HashSet<String> = (1..=MOST).flat_map(nodes_of).collect();
    let beginnings: HashSet<String> =
        texts.iter().flat_map(|text| (0..=text.len()).map(|end| text[..end].to_string())).collect();
    let (mut trees, mut levels, mut others) = (0, 0, 0);
    for length in 0..=MOST {
        for value in 0..1usize << (2 * length) {
            let text: Vec<u8> = (0..length).map(|place| b"() x"[value >> (2 * place) & 3]).collect();
            for most_levels in [1, 2, 3, MOST_LEVELS] {
                let by_model = tree_of_text(&text, most_levels);
                let expected = refusal_by_trying(&text, most_levels, &texts, &beginnings);
                assert_eq!(by_model.as_ref().err(), expected.as_ref(), "{most_levels} levels: {text:?}");
                match (by_model, expected) {
                    (Ok(root), _) => {
                        let tree = Tree::of_parent_list(&root.parent_list()).expect("in level order");
                        assert_eq!(text_of_tree(&tree), Ok(without_blanks(&text).into_bytes()), "{text:?}");
                        trees += 1;
                    }
                    (_, Some(Refusal::TooManyLevels { .. })) => levels += 1,
                    _ => others += 1,
                }
            }
        }
    }
    assert!(trees > 500 && levels > 10_000 && others > 100_000, "{trees} {levels} {others}");
}

#[test]
fn every_tree_has_its_own_text() {
    for nodes in 1..=MOST {
        let mut texts: HashSet<String> = nodes_of(nodes).into_iter().collect();
        for parents in all_trees(nodes) {
            let text = text_of_tree(&Tree::of_parent_list(&parents).expect("a tree")).expect("not too deep");
            let root = tree_of_text(&text, MOST_LEVELS).unwrap_or_else(|refusal| panic!("{parents:?}: {refusal:?}"));
            assert_eq!(root.parent_list(), parents);
            assert!(texts.remove(&without_blanks(&text)), "{parents:?}");
        }
        assert!(texts.is_empty(), "of {nodes} nodes");
    }
}
