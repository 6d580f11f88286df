//! "The outline program".

use super::answers::{Answer, Refusal};
use super::images::{block_count, content_of_image, m_of, Content};
use super::listing::listing_from;

/// "Images of up to 96 blocks".
pub const MOST_BLOCKS_READ: usize = 96;
/// "If n is at most 4,000, one line for each node".
pub const MOST_NODES_LISTED: usize = 4_000;
const ROOT: usize = 1;

/// What the program prints for these bytes on standard input: "After a refusal, listing included, it prints only
/// `refused CODE PLACE`."
pub fn outline(input: &[u8]) -> String {
    match lines(input) {
        Ok(lines) => lines.join("\n") + "\n",
        Err(refusal) => {
            let answer = Answer::of(Err(refusal));
            format!("refused {} {}\n", answer.code, answer.place)
        }
    }
}

fn lines(input: &[u8]) -> Result<Vec<String>, Refusal> {
    let blocks = block_count(input)?;
    if blocks > MOST_BLOCKS_READ {
        // "code 2 .. in the program for more than 96 blocks"
        return Err(Refusal::WrongSize);
    }
    let Content { tree, metres } = content_of_image(input)?;
    let n = tree.node_count();
    let mut lines = vec![format!("n {n} m {} blocks {blocks}", m_of(&tree))];
    if n <= MOST_NODES_LISTED {
        for entry in listing_from(&tree, ROOT)? {
            // "number, depth, degree, with one space between", and "where metres are present, ends each node's line
            // with them"
            let degree = tree.children(entry.node).len();
            let metres = metres.as_ref().map_or(String::new(), |metres| format!(" {}", metres[entry.node - 1]));
            lines.push(format!("{} {} {degree}{metres}", entry.node, entry.depth));
        }
    }
    Ok(lines)
}
