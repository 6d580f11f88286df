//! Every way from node to node says what the parent list says, and the nodes of a range are those it is made of.

mod common;

use common::{binary, image_of, image_of_t, path, random, star, T};
#[cfg(feature = "alloc")]
use parlaqen::{Answer, Question};
use parlaqen::{Image, Node, Nodes};

fn node(number: u32) -> Node {
    Node::new(number).unwrap()
}

/// A tree as its parent list has it, without the library.
struct Plain {
    /// The parent of each node.
    parents: Vec<u32>,
    /// The children of each node.
    children: Vec<Vec<u32>>,
}

impl Plain {
    fn new(parents: &[u32]) -> Self {
        let mut children = vec![vec![]; parents.len()];
        for (parent, child) in parents.iter().zip(1..) {
            if *parent > 0 {
                children[*parent as usize - 1].push(child);
            }
        }
        Self { parents: parents.to_vec(), children }
    }

    fn children(&self, node: Node) -> &[u32] {
        &self.children[node.index()]
    }

    /// The node and its siblings.
    fn siblings(&self, node: Node) -> Vec<u32> {
        match self.parents[node.index()] {
            0 => vec![node.get()],
            parent => self.children[parent as usize - 1].clone(),
        }
    }
}

fn numbers(nodes: &Nodes) -> Vec<u32> {
    nodes.clone().map(Node::get).collect()
}

#[test]
fn every_answer_for_every_node_is_that_of_the_parent_list() {
    let mut trees = vec![vec![0], vec![0, 1], T.to_vec(), path(40), star(40), binary(100)];
    for (nodes, seed) in [2, 3, 5, 10, 64, 65, 200, 300].into_iter().zip(1..) {
        trees.push(random(nodes, seed));
    }
    for parents in trees {
        let plain = Plain::new(&parents);
        let image = Image::check(image_of(&parents)).unwrap();
        for node in image.all_nodes() {
            let optional = |number: Option<&u32>| number.and_then(|number| Node::new(*number));
            let children = plain.children(node);
            let siblings = plain.siblings(node);
            let at = siblings.iter().position(|sibling| *sibling == node.get()).unwrap();

            assert_eq!(image.parent(node).unwrap(), Node::new(parents[node.index()]));
            assert_eq!(image.first_child(node).unwrap(), optional(children.first()));
            assert_eq!(image.last_child(node).unwrap(), optional(children.last()));
            assert_eq!(image.next_sibling(node).unwrap(), optional(siblings.get(at + 1)));
            assert_eq!(image.previous_sibling(node).unwrap(), optional(siblings[..at].last()));
            assert_eq!(image.degree(node).unwrap() as usize, children.len());
            let rank = (node != Node::ROOT).then_some(at as u32 + 1);
            assert_eq!(image.child_rank(node).unwrap(), rank);
            assert_eq!(image.is_leaf(node).unwrap(), children.is_empty());
            assert_eq!(numbers(&image.children(node).unwrap()), children);
            assert_eq!(numbers(&image.siblings(node).unwrap()), siblings);
            for number in [0, 1, 2, 3, children.len(), children.len() + 1] {
                let expected = optional(number.checked_sub(1).and_then(|index| children.get(index)));
                assert_eq!(image.child(node, number as u32).unwrap(), expected);
            }
            for right in [-2, -1, 0, 1, 2] {
                let expected = optional(at.checked_add_signed(right).and_then(|index| siblings.get(index)));
                assert_eq!(image.sibling_at(node, right as i32).unwrap(), expected);
            }
        }
    }
}

#[cfg(feature = "alloc")]
#[test]
fn every_answer_in_a_large_tree_is_that_of_the_parent_list() {
    for (parents, deep) in [(random(20_000, 9), true), (star(10_000), false), (binary(65_535), false)] {
        let plain = Plain::new(&parents);
        let image = parlaqen::seal(&parents).unwrap();
        let questions: Vec<Question> = image
            .all_nodes()
            .flat_map(|node| [Question::Parent(node), Question::Degree(node), Question::LastChild(node)])
            .collect();
        let expected = image.all_nodes().flat_map(|node| {
            let children = plain.children(node);
            [
                Answer::Node(Node::new(parents[node.index()])),
                Answer::Number(children.len() as u32),
                Answer::Node(children.last().and_then(|child| Node::new(*child))),
            ]
        });
        assert!(image.ask(&questions).unwrap().into_iter().eq(expected));
        if !deep {
            let mut listed: Vec<u32> = image.list(Node::ROOT).unwrap().map(|listed| listed.node.get()).collect();
            listed.sort_unstable();
            assert!(listed.into_iter().eq(1..=image.nodes()));
        }
    }
}

#[test]
fn a_path_of_child_ranks_leads_back() {
    let image = Image::check(image_of(&random(300, 7))).unwrap();
    for node in image.all_nodes() {
        let mut ranks = vec![];
        let mut above = node;
        while let Some(parent) = image.parent(above).unwrap() {
            ranks.push(image.child_rank(above).unwrap().expect("it is not the root"));
            above = parent;
        }
        let found = ranks.iter().rev().try_fold(Node::ROOT, |at, rank| image.child(at, *rank).unwrap());
        assert_eq!(found, Some(node));
    }
}

#[test]
fn a_range_of_nodes_is_an_iterator_from_both_ends() {
    let image = Image::check(image_of_t()).unwrap();
    let nodes = image.all_nodes();
    assert_eq!(nodes.len(), 7);
    assert_eq!(numbers(&nodes), [1, 2, 3, 4, 5, 6, 7]);
    assert!(nodes.clone().rev().map(Node::get).eq([7, 6, 5, 4, 3, 2, 1]));
    assert_eq!((nodes.leftmost(), nodes.rightmost()), (Some(node(1)), Some(node(7))));
    assert_eq!(nodes.clone().last(), Some(node(7)));
    assert_eq!((nodes.clone().nth(2), nodes.clone().nth_back(2)), (Some(node(3)), Some(node(5))));
    assert_eq!((nodes.clone().nth(7), nodes.clone().nth_back(7)), (None, None));
    assert!(nodes.contains(node(1)) && nodes.contains(node(7)));
    assert!(!nodes.contains(node(8)) && !nodes.contains(node(u32::MAX)));

    let mut left = nodes.clone();
    assert_eq!((left.next(), left.next_back()), (Some(node(1)), Some(node(7))));
    assert_eq!((left.len(), left.size_hint()), (5, (5, Some(5))));
    assert!(!left.contains(node(1)) && left.contains(node(2)) && !left.contains(node(7)));
    assert_eq!((left.leftmost(), left.rightmost()), (Some(node(2)), Some(node(6))));
    assert_ne!(left, nodes);
    assert_eq!(left.by_ref().count(), 5);
    assert_eq!((left.next(), left.next_back(), left.next()), (None, None, None));
    assert_eq!((left.leftmost(), left.rightmost(), left.len()), (None, None, 0));
    assert!(left.is_empty());
}

#[test]
fn a_leaf_has_an_empty_range_of_children() {
    let image = Image::check(image_of_t()).unwrap();
    let mut none = image.children(node(3)).unwrap();
    assert!(none.is_empty());
    assert_eq!((none.len(), none.next(), none.next_back()), (0, None, None));
    assert_eq!((none.leftmost(), none.rightmost(), none.clone().last()), (None, None, None));
    assert!((1..8).all(|number| !none.contains(node(number))));
}

#[test]
fn ranges_are_equal_exactly_if_they_have_the_same_nodes_left() {
    use std::collections::HashSet;

    let image = Image::check(image_of_t()).unwrap();
    let exhausted = |number| {
        let mut children = image.children(node(number)).unwrap();
        assert!(children.by_ref().last().is_some());
        children
    };
    let mut from_the_right = image.all_nodes();
    assert_eq!(from_the_right.by_ref().rev().count(), 7);
    let mut beyond = image.all_nodes();
    assert_eq!(beyond.nth(9), None);
    let none = [image.children(node(3)).unwrap(), exhausted(1), exhausted(4), from_the_right, beyond];
    for one in &none {
        assert!(one.is_empty());
        assert!(none.iter().all(|other| one == other));
        assert_ne!(*one, image.all_nodes());
    }
    assert_eq!(none.into_iter().collect::<HashSet<Nodes>>().len(), 1);

    let mut some = image.all_nodes();
    assert_eq!(some.next(), Some(Node::ROOT));
    assert_eq!(some.nth_back(2), Some(node(5)));
    let others = [image.children(Node::ROOT).unwrap(), image.siblings(node(3)).unwrap(), some];
    assert!(others.iter().all(|other| numbers(other) == [2, 3, 4]));
    assert_eq!(others.into_iter().collect::<HashSet<Nodes>>().len(), 1);
    assert_ne!(image.children(Node::ROOT).unwrap(), image.children(node(2)).unwrap());
}

#[test]
fn no_node_is_zero() {
    use std::mem::size_of;
    use std::num::NonZeroU32;

    assert_eq!(size_of::<Node>(), 4);
    assert_eq!(size_of::<Option<Node>>(), 4);
    assert_eq!(Node::new(0), None);
    assert_eq!(NonZeroU32::from(node(7)).get(), 7);
    assert_eq!(Node::from(NonZeroU32::MAX).get(), u32::MAX);
    assert_eq!((u32::from(node(7)), node(7).get(), node(7).index()), (7, 7, 6));
    assert_eq!(Node::try_from(1), Ok(Node::ROOT));
    const SEVENTH: Option<Node> = Node::from_index(6);
    assert_eq!(SEVENTH, Some(node(7)));
    for index in [0, 6, u32::MAX as usize - 1] {
        assert_eq!(Node::from_index(index).unwrap().index(), index);
    }
    assert_eq!(Node::from_index(u32::MAX as usize - 1), Node::new(u32::MAX));
    for index in [u32::MAX as usize, u32::MAX as usize + 1, usize::MAX] {
        assert_eq!(Node::from_index(index), None);
    }
    assert_eq!((node(7).to_string(), format!("{:>3}", node(7))), ("7".to_string(), "  7".to_string()));
    assert_eq!(format!("{:?}", node(7)), "Node(7)");
    assert!(node(2) < node(10) && Node::ROOT <= Node::ROOT);
    let found: std::collections::HashSet<Node> = [node(2), node(2), node(3)].into();
    assert_eq!(found.len(), 2);
}
