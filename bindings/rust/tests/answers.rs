//! What the calls give back: the tree's own answers, and the same tree again from every form.

mod common;

#[cfg(feature = "alloc")]
use common::{binary, metres, path, star};
use common::{image_of, image_of_t, image_of_t_with_metres, image_with_metres_of, METRES_OF_T, T};
use parlaqen::calls::{
    ask, check_image, list, metres_of_image, parents_of_image, parents_of_string, split, string_of_parents, Counts,
};
#[cfg(feature = "alloc")]
use parlaqen::{
    seal, Listed, Pack, Part, Seal, TreeString, MOST_BITS, MOST_IMAGE_BYTES, MOST_NODES, MOST_TREES,
    MOST_TREE_IMAGE_BYTES,
};
use parlaqen::{Answer, Error, Image, Node, Question, BLOCK_BYTES, MOST_QUESTIONS};

/// Trees of several shapes and sizes, the largest included.
#[cfg(feature = "alloc")]
fn trees() -> Vec<Vec<u32>> {
    let most = MOST_NODES as u32;
    vec![vec![0], T.to_vec(), path(64), star(4_000), binary(8_065), path(most), star(most), binary(most)]
}

fn node(number: u32) -> Node {
    Node::new(number).unwrap()
}

#[cfg(feature = "alloc")]
#[test]
fn every_tree_comes_back_from_its_string_and_from_its_image() {
    for parents in trees() {
        let string = TreeString::of_parents(&parents).unwrap();
        assert_eq!(string.bits(), 2 * parents.len() + 1);
        assert_eq!(string.nodes() as usize, parents.len());
        assert_eq!(string.parents().unwrap(), parents);
        let received = TreeString::received(string.as_bytes().to_vec(), string.bits()).unwrap();
        assert_eq!(received, string);
        assert_eq!(
            (received.as_ref(), received.clone().into_bytes().as_slice()),
            (string.as_bytes(), string.as_bytes())
        );
        assert_eq!(received.parents().unwrap(), parents);

        let image = seal(&parents).unwrap();
        assert_eq!(Image::check(image.as_bytes().to_vec()).unwrap(), image);
        assert_eq!(image.nodes() as usize, parents.len());
        let mut inner = parents.clone();
        inner.dedup();
        assert_eq!(image.nodes_with_children() as usize, inner.len() - 1);
        assert_eq!(image.parents().unwrap(), parents);
        assert_eq!(image.metres().unwrap(), None);

        let metres = metres(parents.len());
        let with_metres = Seal::of(&parents).metres(&metres).image().unwrap();
        assert_eq!(Image::check(with_metres.as_bytes().to_vec()).unwrap(), with_metres);
        assert_ne!(with_metres, image);
        assert_eq!(with_metres.nodes(), image.nodes());
        assert_eq!(with_metres.nodes_with_children(), image.nodes_with_children());
        assert_eq!(with_metres.parents().unwrap(), parents);
        assert_eq!(with_metres.metres().unwrap(), Some(metres));
        assert_eq!(Seal::of(&parents).image().unwrap(), image);
    }
}

/// Of the blocks before the metres only the header differs from that of the image without them.
#[test]
fn metres_come_after_the_blocks_of_the_tree() {
    let (alone, with_metres) = (image_of_t(), image_of_t_with_metres());
    assert_eq!((alone.len(), with_metres.len()), (5 * BLOCK_BYTES, 6 * BLOCK_BYTES));
    assert_eq!(alone[BLOCK_BYTES..], with_metres[BLOCK_BYTES..5 * BLOCK_BYTES]);
    assert_eq!((alone[0], alone[12], with_metres[0], with_metres[12]), (1, 5, 2, 6));
    let words = with_metres[5 * BLOCK_BYTES..].chunks(4).map(|word| u32::from_le_bytes(word.try_into().unwrap()));
    assert!(words.take(8).eq(METRES_OF_T.into_iter().chain([0])));
}

#[test]
fn no_metres_are_not_zero_metres() {
    let (alone, zeros) = (image_of_t(), image_with_metres_of(&T, &[0; 7]));
    let mut metres = [77; 7];
    assert_eq!(metres_of_image(&alone, &mut metres), Err(Error::NoMetres));
    assert_eq!(metres, [77; 7]);
    assert_eq!(metres_of_image(&zeros, &mut metres), Ok(7));
    assert_eq!(metres, [0; 7]);

    let mut answers = [77];
    assert_eq!(ask(&alone, &[11, 1, 0], &mut answers), Err(Error::NotAllowed { question: 1 }));
    assert_eq!(answers, [77]);
    assert_eq!(ask(&zeros, &[11, 1, 0], &mut answers), Ok(1));
    assert_eq!(answers, [0]);
}

#[cfg(feature = "alloc")]
#[test]
fn images_are_as_large_as_the_format_says() {
    let blocks = |parents: &[u32]| seal(parents).unwrap().into_bytes().len() / BLOCK_BYTES;
    assert_eq!(blocks(&[0]), 5);
    assert_eq!(blocks(&path(3_999)), 5);
    assert_eq!(blocks(&path(4_000)), 6);
    assert_eq!(blocks(&path(MOST_NODES as u32)) * BLOCK_BYTES, MOST_TREE_IMAGE_BYTES);
    let with_metres = |parents: &[u32]| Seal::of(parents).metres(&metres(parents.len())).image().unwrap().into_bytes();
    let blocks = |parents: &[u32]| with_metres(parents).len() / BLOCK_BYTES;
    assert_eq!(blocks(&[0]), 6);
    assert_eq!(blocks(&star(126)), 6);
    assert_eq!(blocks(&star(127)), 7);
    assert_eq!(blocks(&star(10_962)), 96);
    assert_eq!(with_metres(&path(MOST_NODES as u32)).len(), MOST_IMAGE_BYTES);
}

#[test]
fn all_eleven_kinds_answer_for_every_node_of_t() {
    let image = Image::check(image_of_t_with_metres()).unwrap();
    let of_each = |question: fn(Node) -> Question| {
        let questions: Vec<Question> = image.all_nodes().map(question).collect();
        let mut answers = [Answer::default(); 7];
        image.ask_into(&questions, &mut answers).unwrap().to_vec()
    };
    let nodes = |numbers: [u32; 7]| numbers.map(|number| Answer::Node(Node::new(number)));
    assert_eq!(of_each(Question::Parent), nodes(T));
    assert_eq!(of_each(Question::FirstChild), nodes([2, 5, 0, 7, 0, 0, 0]));
    assert_eq!(of_each(Question::LastChild), nodes([4, 6, 0, 7, 0, 0, 0]));
    assert_eq!(of_each(Question::NextSibling), nodes([0, 3, 4, 0, 6, 0, 0]));
    assert_eq!(of_each(Question::PreviousSibling), nodes([0, 0, 2, 3, 0, 5, 0]));
    assert_eq!(of_each(Question::Degree), [3, 2, 0, 1, 0, 0, 0].map(Answer::Number));
    let ranks = [None, Some(1), Some(2), Some(3), Some(1), Some(2), Some(1)];
    assert_eq!(of_each(Question::ChildRank), ranks.map(Answer::Rank));
    assert_eq!(of_each(Question::Leaf), [0, 0, 1, 0, 1, 1, 1].map(|leaf| Answer::Leaf(leaf == 1)));
    assert_eq!(of_each(|node| Question::ChildNumber { node, number: 2 }), nodes([3, 6, 0, 0, 0, 0, 0]));
    assert_eq!(of_each(|node| Question::SiblingAt { node, right: -2 }), nodes([0, 0, 0, 2, 0, 0, 0]));
    assert_eq!(of_each(Question::Metres), METRES_OF_T.map(Answer::Number));
}

#[test]
fn any_argument_that_leads_to_no_node_gives_none() {
    let bytes = image_of_t();
    for argument in [i32::MIN, -3, -1, 3, i32::MAX] {
        let mut answers = [77; 2];
        ask(&bytes, &[8, 2, argument, 10, 2, argument], &mut answers).unwrap();
        assert_eq!(answers, [0, 0], "argument {argument}");
    }
    let image = Image::check(bytes).unwrap();
    for number in [0, 3, i32::MAX as u32, 1 << 31, u32::MAX] {
        assert_eq!(image.child(node(2), number).unwrap(), None, "child {number}");
    }
    for right in [i32::MIN, -3, -1, 3, i32::MAX] {
        assert_eq!(image.sibling_at(node(2), right).unwrap(), None, "{right} to the right");
    }
}

#[test]
fn from_none_to_256_questions_are_answered_in_one_call() {
    let image = Image::check(image_of_t()).unwrap();
    let kept = Answer::Leaf(true);
    let mut answers = [kept; MOST_QUESTIONS + 1];
    assert_eq!(image.ask_into(&[], &mut []).unwrap(), []);
    assert_eq!(image.ask_into(&[], &mut answers).unwrap(), []);
    assert_eq!(answers[0], kept);
    let two = [Question::Degree(Node::ROOT); 2];
    assert_eq!(image.ask_into(&two, &mut answers).unwrap(), [Answer::Number(3); 2]);
    assert_eq!(answers[2], kept);
    let many = [Question::Degree(Node::ROOT); MOST_QUESTIONS];
    assert_eq!(image.ask_into(&many, &mut answers).unwrap(), [Answer::Number(3); MOST_QUESTIONS]);
    assert_eq!(answers[MOST_QUESTIONS], kept);
}

#[cfg(feature = "alloc")]
#[test]
fn any_number_of_questions_is_answered() {
    let parents = binary(1_000);
    let image = seal(&parents).unwrap();
    for count in [0, 1, 255, 256, 257, 511, 512, 513, 1_000] {
        let questions: Vec<Question> = image.all_nodes().take(count).map(Question::Parent).collect();
        let answers = image.ask(&questions).unwrap();
        let expected = parents.iter().take(count).map(|parent| Answer::Node(Node::new(*parent)));
        assert!(answers.into_iter().eq(expected), "{count} questions");
    }
    let metres = metres(1_000);
    let image = Seal::of(&parents).metres(&metres).image().unwrap();
    let questions: Vec<Question> = image.all_nodes().map(Question::Metres).collect();
    assert!(image.ask(&questions).unwrap().into_iter().eq(metres.into_iter().map(Answer::Number)));
}

#[cfg(feature = "alloc")]
#[test]
fn a_listing_has_every_node_below_with_its_depth() {
    let image = seal(&T).unwrap();
    let expected = [(1, 0), (2, 1), (5, 2), (6, 2), (3, 1), (4, 1), (7, 2)];
    let expected = expected.map(|(number, depth)| Listed { node: node(number), depth });
    let listing = image.list(Node::ROOT).unwrap();
    assert_eq!(listing.len(), 7);
    assert!(listing.clone().eq(expected));
    assert!(listing.clone().rev().eq(expected.into_iter().rev()));
    assert_eq!(listing.clone().nth(3), Some(expected[3]));

    let mut listing = listing;
    assert_eq!((listing.next(), listing.next_back()), (Some(expected[0]), Some(expected[6])));
    assert_eq!((listing.len(), listing.size_hint()), (5, (5, Some(5))));
    assert_eq!(listing.by_ref().count(), 5);
    assert_eq!((listing.next(), listing.next_back(), listing.len()), (None, None, 0));

    let deepest = seal(&path(64)).unwrap();
    assert_eq!(deepest.list(Node::ROOT).unwrap().next_back(), Some(Listed { node: node(64), depth: 63 }));
    let below = path(65);
    let below = seal(&below).unwrap();
    assert_eq!(below.list(node(2)).unwrap().len(), 64);
}

#[test]
fn a_listing_in_a_lent_slice_is_the_same() {
    let image = Image::check(image_of_t()).unwrap();
    let mut numbers = [77; 15];
    let listing = image.list_in(node(2), &mut numbers).unwrap();
    assert_eq!(listing.len(), 3);
    assert!(listing.map(|listed| (listed.node.get(), listed.depth)).eq([(2, 0), (5, 1), (6, 1)]));
    assert_eq!(numbers[6..], [77; 9]);
    #[cfg(feature = "alloc")]
    for node in image.all_nodes() {
        assert!(image.list_in(node, &mut numbers).unwrap().eq(image.list(node).unwrap()));
    }
}

#[cfg(feature = "alloc")]
#[test]
fn a_pack_gives_its_trees_back() {
    let mut pack = Pack::new();
    assert_eq!(Pack::received(vec![], 0, 0).unwrap(), pack);
    assert_eq!(Pack::default(), pack);
    for day in 0..MOST_TREES as u32 {
        pack.join(&path(day + 1)).unwrap();
    }
    let received = Pack::received(pack.as_bytes().to_vec(), pack.bits(), pack.trees()).unwrap();
    assert_eq!(received, pack);
    assert_eq!((received.as_ref(), received.clone().into_bytes().as_slice()), (pack.as_bytes(), pack.as_bytes()));
    let mut start = 1;
    for (part, nodes) in received.split().unwrap().into_iter().zip(1..) {
        assert_eq!(part, Part { start, nodes });
        start += 2 * nodes + 1;
    }
    let lists = received.parent_lists().unwrap();
    assert_eq!(lists.len(), MOST_TREES);
    for (list, nodes) in lists.iter().zip(1..) {
        assert_eq!(*list, path(nodes));
    }

    let mut full = Pack::new();
    full.join(&path(MOST_NODES as u32)).unwrap();
    assert_eq!(full.bits(), MOST_BITS);
    assert_eq!(full.parent_lists().unwrap(), [path(MOST_NODES as u32)]);
}

#[test]
fn what_lies_after_the_needed_room_stays() {
    let mut bytes = [0xA5; 3];
    string_of_parents(&T, &mut bytes).unwrap();
    assert_eq!(bytes[2], 0xA5);

    let mut parents = [77; 9];
    parents_of_string(&bytes[..2], 15, &mut parents).unwrap();
    assert_eq!(parents[7..], [77, 77]);
    parents = [77; 9];
    parents_of_image(&image_of_t(), &mut parents).unwrap();
    assert_eq!(parents[7..], [77, 77]);
    let mut metres = [77; 9];
    metres_of_image(&image_of_t_with_metres(), &mut metres).unwrap();
    assert_eq!((&metres[..7], &metres[7..]), (&METRES_OF_T[..], &[77, 77][..]));

    let (mut starts, mut sizes) = ([77; 3], [88; 4]);
    split(&bytes[..2], 15, 1, &mut starts, &mut sizes).unwrap();
    assert_eq!((starts, sizes), ([1, 77, 77], [7, 88, 88, 88]));

    let mut pairs = [77; 5];
    assert_eq!(list(&image_of_t(), 4, &mut pairs), Ok(2));
    assert_eq!(pairs, [4, 0, 7, 1, 77]);
    assert_eq!(check_image(&image_of_t()), Ok(Counts { nodes: 7, runs_of_ones: 4 }));
    assert_eq!(check_image(&image_of_t_with_metres()), Ok(Counts { nodes: 7, runs_of_ones: 4 }));
}

#[test]
fn an_image_of_one_node_has_only_its_root() {
    let image = Image::check(image_of(&[0])).unwrap();
    assert_eq!((image.nodes(), image.nodes_with_children()), (1, 0));
    assert!(image.all_nodes().eq([Node::ROOT]));
    assert!(image.is_leaf(Node::ROOT).unwrap());
    assert!(image.children(Node::ROOT).unwrap().is_empty());
    assert!(image.siblings(Node::ROOT).unwrap().eq([Node::ROOT]));
}
