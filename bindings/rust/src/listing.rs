use core::fmt;
use core::iter::FusedIterator;
use core::ops::Range;

use crate::{size, Error, Node, Result};

/// A node of a listing.
///
/// ```
/// use parlaqen::{Listed, Node};
///
/// let listed = Listed { node: Node::ROOT, depth: 0 };
/// assert_eq!(format!("{}{}", "  ".repeat(listed.depth as usize), listed.node), "1");
/// ```
#[derive(Clone, Copy, Debug, PartialEq, Eq, Hash)]
pub struct Listed {
    /// The node's number.
    pub node: Node,
    /// How far it lies below the node that was listed.
    pub depth: u32,
}

/// A node and everything below it, parents first, children in order: an iterator over numbers that it owns
/// (`Listing<Vec<u32>>`, from [`Image::list`](crate::Image::list)) or borrows (`Listing<&[u32]>`, from
/// [`Image::list_in`](crate::Image::list_in)).
///
/// ```
/// use parlaqen::{size, Image, Node};
///
/// let mut room = [0; size::image_room(7)];
/// let image = Image::seal_in(&[0, 1, 1, 1, 2, 2, 4], &mut room)?;
/// let mut numbers = [0; size::listing_numbers(7)];
/// let listing = image.list_in(Node::ROOT, &mut numbers)?;
/// assert_eq!(listing.len(), 7);
/// let nodes = listing.map(|listed| (listed.node.get(), listed.depth));
/// assert!(nodes.eq([(1, 0), (2, 1), (5, 2), (6, 2), (3, 1), (4, 1), (7, 2)]));
/// # Ok::<(), parlaqen::Error>(())
/// ```
#[derive(Clone)]
#[must_use = "a listing is an iterator, which gives its nodes only when it is asked for them"]
pub struct Listing<N> {
    /// Node and depth, two numbers each.
    numbers: N,
    /// Which nodes are left, counted from 0.
    left: Range<usize>,
}

impl<N: AsRef<[u32]>> Listing<N> {
    /// The first `nodes` nodes of these numbers.
    pub(crate) fn new(numbers: N, nodes: usize) -> Result<Self> {
        if numbers.as_ref().len() < size::listing_numbers(nodes) {
            return Err(Error::UNLISTED_COUNTS);
        }
        Ok(Self { numbers, left: 0..nodes })
    }

    fn listed(&self, which: usize) -> Option<Listed> {
        let pair = self.numbers.as_ref().get(size::listing_numbers(which)..)?;
        let [node, depth, ..] = *pair else { return None };
        Some(Listed { node: Node::new(node)?, depth })
    }
}

impl<N: AsRef<[u32]>> Iterator for Listing<N> {
    type Item = Listed;

    fn next(&mut self) -> Option<Listed> {
        let which = self.left.next()?;
        self.listed(which)
    }

    fn size_hint(&self) -> (usize, Option<usize>) {
        self.left.size_hint()
    }

    fn nth(&mut self, skipped: usize) -> Option<Listed> {
        let which = self.left.nth(skipped)?;
        self.listed(which)
    }
}

impl<N: AsRef<[u32]>> DoubleEndedIterator for Listing<N> {
    fn next_back(&mut self) -> Option<Listed> {
        let which = self.left.next_back()?;
        self.listed(which)
    }
}

impl<N: AsRef<[u32]>> ExactSizeIterator for Listing<N> {}

impl<N: AsRef<[u32]>> FusedIterator for Listing<N> {}

impl<N> fmt::Debug for Listing<N> {
    fn fmt(&self, f: &mut fmt::Formatter<'_>) -> fmt::Result {
        f.debug_struct("Listing").field("nodes_left", &self.left.len()).finish_non_exhaustive()
    }
}

#[cfg(test)]
mod tests {
    use super::Listing;
    use crate::Error;

    #[test]
    fn a_listing_of_more_nodes_than_there_are_numbers_is_refused() {
        let numbers: &[u32] = &[1, 0, 2, 1];
        assert!(Listing::new(numbers, 2).unwrap().map(|listed| listed.node.get()).eq([1, 2]));
        for nodes in [3, u32::MAX as usize, usize::MAX] {
            assert_eq!(Listing::new(numbers, nodes).unwrap_err(), Error::Unlisted { code: 0, place: 0 });
        }
    }
}
