//! "Trees as parenthesis text": "a node is `(`, its children, `)`".

use super::answers::{number, Refusal};
use super::listing::listing_from;
use super::trees::Tree;
use std::collections::VecDeque;

/// "Code 2 first for a text over 1,048,576 bytes".
pub const MOST_TEXT_BYTES: usize = 1_048_576;
/// "Nested at most 64 levels"; the root is the first.
pub const MOST_LEVELS: usize = 64;

pub const OPENS: u8 = b'(';
pub const CLOSES: u8 = b')';

/// "Bytes 32, 10 and 13 may stand anywhere and mean nothing."
pub const BLANKS: [u8; 3] = [32, 10, 13];

const ROOT: usize = 1;

/// "A node holds a list of nodes".
pub struct Node {
    pub children: Vec<Node>,
}

impl Node {
    /// "Read it into a parent list": the nodes get their numbers as they come out of a queue, which is level order.
    pub fn parent_list(&self) -> Vec<u32> {
        let mut parents = Vec::new();
        let mut queue = VecDeque::from([(0, self)]);
        while let Some((parent, node)) = queue.pop_front() {
            parents.push(parent);
            let own_number = number(parents.len());
            queue.extend(node.children.iter().map(|child| (own_number, child)));
        }
        parents
    }
}

/// The tree that a text of so many levels at most is.
pub fn tree_of_text(text: &[u8], most_levels: usize) -> Result<Node, Refusal> {
    let mut reader = Reader { text, passed: 0, most_levels };
    let root = reader.node(1)?;
    match reader.next() {
        None => Ok(root),
        // the tree is over, so that nothing but blanks goes on
        Some(_) => Err(reader.not_a_text()),
    }
}

/// A text, and how many of its bytes have been read. It stops at the first byte that has no way on, or that opens a
/// level too many, so that "the earlier byte wins".
struct Reader<'t> {
    text: &'t [u8],
    passed: usize,
    most_levels: usize,
}

impl Reader<'_> {
    /// The next byte that means something, not yet read; none at the end.
    fn next(&mut self) -> Option<u8> {
        while self.text.get(self.passed).is_some_and(|byte| BLANKS.contains(byte)) {
            self.passed += 1;
        }
        self.text.get(self.passed).copied()
    }

    /// Reads a node and all below it.
    fn node(&mut self, level: usize) -> Result<Node, Refusal> {
        if self.next() != Some(OPENS) {
            return Err(self.not_a_text());
        }
        if level > self.most_levels {
            return Err(Refusal::TooManyLevels { byte: self.passed + 1 });
        }
        self.passed += 1;
        let mut children = Vec::new();
        while self.next() == Some(OPENS) {
            children.push(self.node(level + 1)?);
        }
        if self.next() != Some(CLOSES) {
            return Err(self.not_a_text());
        }
        self.passed += 1;
        Ok(Node { children })
    }

    /// "With the first byte at which it can't be continued, or the length + 1".
    fn not_a_text(&self) -> Refusal {
        Refusal::NotAText { byte: self.passed + 1 }
    }
}

/// "Write it back as brackets only." "Writing a tree of more than 64 levels is code 9, as for the listing of its root."
pub fn text_of_tree(tree: &Tree) -> Result<Vec<u8>, Refusal> {
    listing_from(tree, ROOT)?;
    let mut text = Vec::new();
    write_node(tree, ROOT, &mut text);
    Ok(text)
}

fn write_node(tree: &Tree, node: usize, text: &mut Vec<u8>) {
    text.push(OPENS);
    for &child in tree.children(node) {
        write_node(tree, child, text);
    }
    text.push(CLOSES);
}
