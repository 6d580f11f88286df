//! Each call's refusals, one by one: the error is the one of the code, its place is right, and no lent slice changes.

mod common;

use common::{image_of, image_of_t, image_of_t_with_metres, path, METRES_OF_T, T};
use parlaqen::calls::{
    ask, check_image, image_of_parents, image_with_metres, join, list, metres_of_image, parents_of_image,
    parents_of_string, split, string_of_parents,
};
#[cfg(feature = "alloc")]
use parlaqen::{seal, Pack, TreeString};
use parlaqen::{
    Answer, Error, Image, Node, Question, Result, Seal, WrongSize, BLOCK_BYTES, MOST_BITS, MOST_IMAGE_BYTES,
    MOST_NODES, MOST_QUESTIONS, MOST_TREES,
};

/// Lends `room` elements of `pattern` to a call that is to be refused, and sees that none of them changed.
fn refused<E: Copy + PartialEq + std::fmt::Debug, R: std::fmt::Debug>(
    room: usize,
    pattern: E,
    call: impl FnOnce(&mut [E]) -> Result<R>,
) -> Error {
    let mut lent = vec![pattern; room];
    let error = call(&mut lent).unwrap_err();
    assert!(lent.iter().all(|element| *element == pattern));
    error
}

/// The refusal of a parent list by its number of numbers.
fn wrong_nodes(nodes: usize) -> Error {
    Error::WrongSize(WrongSize::Nodes { nodes })
}

/// The refusal of metres that are not as many as the nodes.
fn wrong_metres(metres: usize, nodes: usize) -> Error {
    Error::WrongSize(WrongSize::Metres { metres, nodes })
}

/// Makes the two sums of every block right again after something in it was changed.
fn mend_sums(image: &mut [u8]) {
    for (number, block) in image.chunks_exact_mut(BLOCK_BYTES).enumerate() {
        let (payload, sums) = block.split_at_mut(BLOCK_BYTES - 8);
        let (mut s, mut t) = (number as u32, 0u32);
        for word in payload.chunks_exact(4) {
            s = s.wrapping_add(u32::from_le_bytes(word.try_into().unwrap()));
            t = t.wrapping_add(s);
        }
        sums[..4].copy_from_slice(&s.to_le_bytes());
        sums[4..].copy_from_slice(&t.to_le_bytes());
    }
}

/// A byte of an image, another value for it, and the refusal.
type Fault = (usize, u8, Error);

const fn at(block: usize, byte: usize) -> usize {
    BLOCK_BYTES * block + byte
}

/// Bytes of T's image, each with another value that leaves it no image once the sums are right again, and the refusal.
/// None of them makes right what another makes wrong.
const FAULTS: [Fault; 22] = [
    (at(0, 0), 0, Error::OtherVersion),
    (at(0, 0), 3, Error::OtherVersion),
    (at(0, 3), 1, Error::OtherVersion),
    (at(0, 0), 2, Error::WrongHeader), // metres, but no block for them
    (at(0, 4), 0, Error::WrongHeader), // no node
    (at(0, 6), 1, Error::WrongHeader), // 65,543 nodes
    (at(0, 8), 1, Error::WrongHeader), // no node with children
    (at(0, 8), 9, Error::WrongHeader), // more nodes with children than there are nodes
    (at(0, 12), 6, Error::WrongHeader),
    (at(0, 16), 1, Error::WrongHeader),
    (at(0, 503), 1, Error::WrongHeader),
    (at(0, 4), 8, Error::WrongStrings { block: 1 }), // a node more than there are bits in the strings
    (at(0, 8), 3, Error::WrongStrings { block: 1 }), // a one fewer
    (at(1, 4), 0x69, Error::WrongStrings { block: 1 }), // R1 with its least significant bit first
    (at(2, 4), 0x8B, Error::WrongStrings { block: 1 }), // a node that would be its own parent
    (at(1, 0), 1, Error::WrongCounts { block: 1 }),
    (at(1, 4), 0x97, Error::WrongCounts { block: 1 }), // the bit after R1
    (at(2, 503), 1, Error::WrongCounts { block: 2 }),
    (at(3, 4), 1, Error::WrongCounts { block: 3 }), // a second sample
    (at(4, 503), 1, Error::WrongCounts { block: 4 }),
    (at(3, 0), 0, Error::WrongSamples { block: 3 }),
    (at(4, 0), 2, Error::WrongSamples { block: 4 }),
];

/// The same of T's image with metres, which are never wrong themselves.
const FAULTS_WITH_METRES: [Fault; 14] = [
    (at(0, 0), 0, Error::OtherVersion),
    (at(0, 0), 3, Error::OtherVersion),
    (at(0, 3), 1, Error::OtherVersion),
    (at(0, 0), 1, Error::WrongHeader),   // no metres, but a block for them
    (at(0, 4), 127, Error::WrongHeader), // two blocks of metres
    (at(0, 12), 5, Error::WrongHeader),
    (at(0, 13), 1, Error::WrongHeader), // 262 blocks
    (at(0, 503), 1, Error::WrongHeader),
    (at(0, 4), 8, Error::WrongStrings { block: 1 }),
    (at(2, 4), 0x8B, Error::WrongStrings { block: 1 }),
    (at(4, 503), 1, Error::WrongCounts { block: 4 }),
    (at(5, 28), 1, Error::WrongCounts { block: 5 }), // the metres of an eighth node
    (at(5, 503), 1, Error::WrongCounts { block: 5 }),
    (at(4, 0), 2, Error::WrongSamples { block: 4 }),
];

/// An image with some of its bytes changed, and the sums made right again.
fn with_faults(mut image: Vec<u8>, faults: &[Fault]) -> Vec<u8> {
    for (at, byte, _) in faults {
        image[*at] = *byte;
    }
    mend_sums(&mut image);
    image
}

/// Damaged images with what every reading of an image says of them.
fn bad_images() -> Vec<(Vec<u8>, Error)> {
    let good = image_of_t();
    let with = |change: fn(&mut Vec<u8>)| {
        let mut image = good.clone();
        change(&mut image);
        image
    };
    let too_long = |bytes| Error::WrongSize(WrongSize::ImageTooLong { bytes });
    let wrong_blocks = |blocks| Error::WrongSize(WrongSize::ImageBlocks { blocks });
    let mut images = vec![
        (vec![], wrong_blocks(0)),
        (with(|image| image.truncate(4 * BLOCK_BYTES)), wrong_blocks(4)),
        (with(|image| image.push(0)), Error::WrongSize(WrongSize::ImageBytes { bytes: 2_561 })),
        (with(|image| image.truncate(1)), Error::WrongSize(WrongSize::ImageBytes { bytes: 1 })),
        (vec![0; MOST_IMAGE_BYTES - 1], Error::WrongSize(WrongSize::ImageBytes { bytes: 293_887 })),
        (vec![0; MOST_IMAGE_BYTES + 1], too_long(293_889)),
        (vec![0; MOST_IMAGE_BYTES + BLOCK_BYTES], too_long(294_400)),
        (vec![0; MOST_IMAGE_BYTES], Error::WrongSums { block: 1 }),
        (image_of_t_with_metres()[..5 * BLOCK_BYTES].to_vec(), Error::WrongHeader),
        (with(|image| image[4] ^= 1), Error::WrongSums { block: 0 }),
        (with(|image| image[2 * BLOCK_BYTES - 1] ^= 0x80), Error::WrongSums { block: 1 }),
        (
            with(|image| {
                image[4 * BLOCK_BYTES] ^= 1;
                image[3 * BLOCK_BYTES + 200] ^= 1;
            }),
            Error::WrongSums { block: 3 },
        ),
        (
            with(|image| {
                image.resize(6 * BLOCK_BYTES, 0); // a block more than the header says
                mend_sums(image);
            }),
            Error::WrongHeader,
        ),
    ];
    images.extend(FAULTS.map(|fault| (with_faults(image_of_t(), &[fault]), fault.2)));
    images.extend(FAULTS_WITH_METRES.map(|fault| (with_faults(image_of_t_with_metres(), &[fault]), fault.2)));
    images
}

#[test]
fn string_of_parents_refuses() {
    let make = |parents: &[u32], room| refused(room, 0xA5, |bytes| string_of_parents(parents, bytes));
    assert_eq!(make(&[], 9), wrong_nodes(0));
    assert_eq!(make(&[0; MOST_NODES + 1], 20_000), wrong_nodes(65_536));
    assert_eq!(make(&[1], 9), Error::NotParents { entry: 1 });
    assert_eq!(make(&[0, 2], 9), Error::NotParents { entry: 2 });
    assert_eq!(make(&[0, 1, 2, 1], 9), Error::NotParents { entry: 4 });
    assert_eq!(make(&[0, u32::MAX], 9), Error::NotParents { entry: 2 });
    assert_eq!(make(&T, 1), Error::NoRoom);
}

#[test]
fn parents_of_string_refuses() {
    let read = |bytes: &[u8], bits, room| refused(room, 77, |parents| parents_of_string(bytes, bits, parents));
    assert_eq!(read(&[0xBB, 0x20], 16 + 1, 9), Error::WrongSize(WrongSize::Bytes { bytes: 2, bits: 17 }));
    assert_eq!(read(&[0xBB, 0x20, 0], 15, 9), Error::WrongSize(WrongSize::Bytes { bytes: 3, bits: 15 }));
    assert_eq!(read(&[0xBB, 0x20], MOST_BITS + 1, 9), Error::WrongSize(WrongSize::Bits { bits: 131_072 }));
    assert_eq!(read(&[0xBB, 0x20], usize::MAX, 9), Error::WrongSize(WrongSize::Bits { bits: usize::MAX }));
    assert_eq!(read(&[0xBB, 0x21], 15, 9), Error::LeftoverSet);
    assert_eq!(read(&[0b1100_0000], 3, 9), Error::NotString { bit: 2 });
    assert_eq!(read(&[0b1000_0000], 2, 9), Error::EndsTooEarly { bits: 2 });
    assert_eq!(read(&[0b1000_0000], 4, 9), Error::NotString { bit: 4 });
    assert_eq!(read(&[], 0, 9), Error::EndsTooEarly { bits: 0 });
    assert_eq!(read(&[0xBB, 0x20], 15, 6), Error::NoRoom);
}

#[test]
fn image_of_parents_refuses() {
    let make = |parents: &[u32], room| refused(room, 0xA5, |image| image_of_parents(parents, image));
    assert_eq!(make(&[], MOST_IMAGE_BYTES), wrong_nodes(0));
    assert_eq!(make(&[0; MOST_NODES + 1], MOST_IMAGE_BYTES), wrong_nodes(65_536));
    assert_eq!(make(&[0, 1, 3], MOST_IMAGE_BYTES), Error::NotParents { entry: 3 });
    assert_eq!(make(&T, 5 * BLOCK_BYTES - 1), Error::NoRoom);
}

#[test]
fn image_with_metres_refuses() {
    let make = |parents: &[u32], metres: &[u32], room| {
        let by_builder = refused(room, 0xA5, |image| {
            Seal::of(parents).metres(metres).image_in(image).map(|image| image.into_bytes().len())
        });
        let by_call = refused(room, 0xA5, |image| image_with_metres(parents, metres, image));
        assert_eq!(by_builder, by_call);
        #[cfg(feature = "alloc")]
        assert!(by_call == Error::NoRoom || Seal::of(parents).metres(metres).image() == Err(by_call));
        by_call
    };
    assert_eq!(make(&[], &[], MOST_IMAGE_BYTES), wrong_nodes(0));
    assert_eq!(make(&[0; MOST_NODES + 1], &[0; MOST_NODES + 1], MOST_IMAGE_BYTES), wrong_nodes(65_536));
    assert_eq!(make(&T, &[], MOST_IMAGE_BYTES), wrong_metres(0, 7));
    assert_eq!(make(&T, &METRES_OF_T[..6], MOST_IMAGE_BYTES), wrong_metres(6, 7));
    assert_eq!(make(&T, &[0; 8], MOST_IMAGE_BYTES), wrong_metres(8, 7));
    // the lengths are looked at before the numbers
    assert_eq!(make(&[0, 1, 3], &[0; 2], MOST_IMAGE_BYTES), wrong_metres(2, 3));
    assert_eq!(make(&[0, 1, 3], &[0; 3], MOST_IMAGE_BYTES), Error::NotParents { entry: 3 });
    assert_eq!(make(&T, &METRES_OF_T, 6 * BLOCK_BYTES - 1), Error::NoRoom);
    assert_eq!(make(&T, &METRES_OF_T, 0), Error::NoRoom);
}

#[test]
fn sealing_in_a_lent_buffer_refuses() {
    let make = |parents: &[u32], room| {
        refused(room, 0xA5, |image| Image::seal_in(parents, image).map(|image| image.into_bytes().len()))
    };
    assert_eq!(make(&[], MOST_IMAGE_BYTES), wrong_nodes(0));
    assert_eq!(make(&[0; MOST_NODES + 1], MOST_IMAGE_BYTES), wrong_nodes(65_536));
    assert_eq!(make(&[0, 1, 3], MOST_IMAGE_BYTES), Error::NotParents { entry: 3 });
    assert_eq!(make(&T, 5 * BLOCK_BYTES - 1), Error::NoRoom);
}

#[cfg(feature = "alloc")]
#[test]
fn sealing_refuses() {
    assert_eq!(seal(&[]), Err(wrong_nodes(0)));
    assert_eq!(seal(&[0; MOST_NODES + 1]), Err(wrong_nodes(65_536)));
    assert_eq!(seal(&[0, 0]), Err(Error::NotParents { entry: 2 }));
}

#[test]
fn every_reading_of_an_image_refuses_what_is_none() {
    for (image, error) in bad_images() {
        assert_eq!(check_image(&image), Err(error));
        assert_eq!(Image::check(&image), Err(error));
        assert_eq!(refused(9, 77, |parents| parents_of_image(&image, parents)), error);
        assert_eq!(refused(9, 77, |metres| metres_of_image(&image, metres)), error);
        assert_eq!(refused(9, 77, |answers| ask(&image, &[1, 1, 0], answers)), error);
        assert_eq!(refused(18, 77, |pairs| list(&image, 1, pairs)), error);
    }
}

#[test]
fn of_several_faults_the_lowest_code_is_given_and_then_the_lowest_block() {
    for (image, faults) in [(image_of_t(), &FAULTS[..]), (image_of_t_with_metres(), &FAULTS_WITH_METRES)] {
        for (number, one) in faults.iter().enumerate() {
            for other in faults[number + 1..].iter().filter(|other| other.0 != one.0) {
                let first = if (other.2.code(), other.2.place()) < (one.2.code(), one.2.place()) { other } else { one };
                let checked = check_image(&with_faults(image.clone(), &[*one, *other]));
                assert_eq!(checked, Err(first.2), "{one:?}, {other:?}");
            }
        }
        // wrong sums go before all of them, in whichever block
        for fault in faults {
            let mut image = with_faults(image.clone(), &[*fault]);
            image[5 * BLOCK_BYTES - 1] ^= 1;
            assert_eq!(check_image(&image), Err(Error::WrongSums { block: 4 }));
        }
    }
}

#[test]
fn parents_of_image_refuses() {
    for image in [image_of_t(), image_of_t_with_metres()] {
        assert_eq!(refused(6, 77, |parents| parents_of_image(&image, parents)), Error::NoRoom);
    }
}

#[test]
fn metres_of_image_refuses() {
    let image = image_of_t_with_metres();
    assert_eq!(refused(6, 77, |metres| metres_of_image(&image, metres)), Error::NoRoom);
    // where there are none that is said, whatever the room is
    for room in [0, 6, 7, 9] {
        let error = refused(room, 77, |metres| metres_of_image(&image_of_t(), metres));
        assert_eq!(error, Error::NoMetres);
        assert_eq!((error.code(), error.place()), (8, 1));
    }
}

#[test]
fn ask_refuses() {
    let image = image_of_t();
    let asked = |questions: &[i32], room| refused(room, 77, |answers| ask(&image, questions, answers));
    assert_eq!(asked(&[1, 1], 9), Error::WrongSize(WrongSize::QuestionNumbers { numbers: 2 }));
    let too_many = Error::WrongSize(WrongSize::Questions { questions: 257 });
    assert_eq!(asked(&[1; 3 * (MOST_QUESTIONS + 1)], 300), too_many);
    assert_eq!(asked(&[0, 1, 0], 9), Error::NotAllowed { question: 1 });
    assert_eq!(asked(&[1, 1, 0, 11, 1, 0], 9), Error::NotAllowed { question: 2 }); // it has no metres
    assert_eq!(asked(&[1, 1, 0, 12, 1, 0], 9), Error::NotAllowed { question: 2 });
    assert_eq!(asked(&[1, 1, 0, 1, 8, 0], 9), Error::NotAllowed { question: 2 });
    assert_eq!(asked(&[1, -1, 0], 9), Error::NotAllowed { question: 1 });
    assert_eq!(asked(&[1, 1, 1], 9), Error::NotAllowed { question: 1 });
    assert_eq!(asked(&[1, 1, 0, 1, 2, 0], 1), Error::NoRoom);

    let image = image_of_t_with_metres();
    let asked = |questions: &[i32], room| refused(room, 77, |answers| ask(&image, questions, answers));
    assert_eq!(asked(&[11, 1, 0, 12, 1, 0], 9), Error::NotAllowed { question: 2 });
    assert_eq!(asked(&[11, 1, 0, 11, 8, 0], 9), Error::NotAllowed { question: 2 });
    assert_eq!(asked(&[11, 1, 0, 11, 1, 1], 9), Error::NotAllowed { question: 2 });
    assert_eq!(asked(&[11, 1, 0, 11, 2, 0], 1), Error::NoRoom);
}

/// Every kind of question about a node.
fn questions_about(node: Node) -> [Question; 11] {
    [
        Question::Parent(node),
        Question::FirstChild(node),
        Question::LastChild(node),
        Question::NextSibling(node),
        Question::PreviousSibling(node),
        Question::Degree(node),
        Question::ChildRank(node),
        Question::ChildNumber { node, number: 1 },
        Question::Leaf(node),
        Question::SiblingAt { node, right: 0 },
        Question::Metres(node),
    ]
}

#[test]
fn metres_asked_for_where_there_are_none_are_not_taken_for_a_missing_node() {
    let image = Image::check(image_of_t()).unwrap();
    let (parent, metres) = (Question::Parent(Node::ROOT), Question::Metres(Node::ROOT));
    let beyond = Question::Leaf(Node::new(8).unwrap());
    let asked = |questions: &[Question]| {
        let error = refused(9, Answer::Number(77), |answers| image.ask_into(questions, answers).map(<[Answer]>::len));
        #[cfg(feature = "alloc")]
        assert_eq!(image.ask(questions), Err(error));
        error
    };
    let error = asked(&[parent, metres, beyond]);
    assert_eq!(error, Error::NoMetresAsked { question: 2 });
    assert_eq!((error.code(), error.place()), (8, 2));
    assert_eq!(asked(&[parent, beyond, metres]), Error::NoSuchNodeAsked { question: 2, node: 8 });
    assert_eq!(asked(&[Question::Metres(Node::new(8).unwrap())]), Error::NoMetresAsked { question: 1 });
    #[cfg(feature = "alloc")]
    for which in [1, 256, 257, 700] {
        let mut questions = vec![parent; 1_000];
        questions[which - 1] = metres;
        assert_eq!(image.ask(&questions), Err(Error::NoMetresAsked { question: which as u32 }));
    }
}

#[test]
fn asking_into_a_lent_slice_refuses() {
    let image = Image::check(image_of_t()).unwrap();
    let pattern = Answer::Number(77);
    let asked = |questions: &[Question], room| {
        refused(room, pattern, |answers| image.ask_into(questions, answers).map(<[Answer]>::len))
    };
    let parent = Question::Parent(Node::ROOT);
    for count in [257, 258, 1_000, 65_536] {
        let too_many = Error::WrongSize(WrongSize::Questions { questions: count });
        assert_eq!(asked(&vec![parent; count], count), too_many);
        assert_eq!(asked(&vec![parent; count], 0), too_many);
    }
    assert_eq!(asked(&[parent; 256], 255), Error::NoRoom);
    assert_eq!(asked(&[parent; 1], 0), Error::NoRoom);
    let no_node = [parent, Question::Leaf(Node::new(8).unwrap())];
    assert_eq!(asked(&no_node, 9), Error::NoSuchNodeAsked { question: 2, node: 8 });
    assert_eq!(asked(&no_node, 0), Error::NoSuchNodeAsked { question: 2, node: 8 });
}

#[test]
fn a_node_that_the_tree_does_not_have_is_refused_in_every_question() {
    let image = Image::check(image_of_t_with_metres()).unwrap();
    for number in [8, 65_536, i32::MAX as u32, 1 << 31, u32::MAX] {
        let node = Node::new(number).unwrap();
        for question in questions_about(node) {
            let mut answers = [Answer::Number(77); 2];
            let error = image.ask_into(&[Question::Parent(Node::ROOT), question], &mut answers).unwrap_err();
            assert_eq!(error, Error::NoSuchNodeAsked { question: 2, node: number });
            assert_eq!((error.code(), error.place()), (8, 2));
            assert_eq!(answers, [Answer::Number(77); 2]);
            #[cfg(feature = "alloc")]
            assert_eq!(image.ask(&[Question::Parent(Node::ROOT), question]), Err(error));
        }
    }
}

#[test]
fn a_node_that_the_tree_does_not_have_is_named() {
    let image = Image::check(image_of_t()).unwrap();
    for number in [8, 65_536, i32::MAX as u32, 1 << 31, u32::MAX] {
        let node = Node::new(number).unwrap();
        let error = Error::NoSuchNode { node: number };
        assert_eq!((error.code(), error.place()), (8, 1));
        assert_eq!(image.parent(node), Err(error));
        assert_eq!(image.first_child(node), Err(error));
        assert_eq!(image.last_child(node), Err(error));
        assert_eq!(image.next_sibling(node), Err(error));
        assert_eq!(image.previous_sibling(node), Err(error));
        assert_eq!(image.degree(node), Err(error));
        assert_eq!(image.child_rank(node), Err(error));
        assert_eq!(image.child(node, 1), Err(error));
        assert_eq!(image.sibling_at(node, 0), Err(error));
        assert_eq!(image.is_leaf(node), Err(error));
        assert_eq!(image.children(node), Err(error));
        assert_eq!(image.siblings(node), Err(error));
        let listed = refused(18, 77, |numbers| image.list_in(node, numbers).map(|listing| listing.len()));
        assert_eq!(listed, error);
        #[cfg(feature = "alloc")]
        assert_eq!(image.list(node).unwrap_err(), error);
    }
    assert_eq!(Node::try_from(0), Err(Error::NoSuchNode { node: 0 }));
}

#[cfg(feature = "alloc")]
#[test]
fn a_refused_question_is_counted_in_the_whole_list() {
    let image = seal(&T).unwrap();
    let wrong = Question::Degree(Node::new(8).unwrap());
    for count in [1, 255, 256, 257, 512, 513, 1_000] {
        for which in [1, 2, 256, 257, 258, 512, 513, 514, 1_000] {
            if which > count {
                continue;
            }
            let mut questions = vec![Question::Degree(Node::ROOT); count];
            questions[which - 1] = wrong;
            *questions.last_mut().unwrap() = wrong; // the lowest is given
            assert_eq!(image.ask(&questions), Err(Error::NoSuchNodeAsked { question: which as u32, node: 8 }));
        }
    }
}

#[test]
fn split_refuses() {
    let parts = |bytes: &[u8], bits, trees, starts_room, sizes_room| {
        let mut sizes = vec![88; sizes_room];
        let error = refused(starts_room, 77, |starts| split(bytes, bits, trees, starts, &mut sizes));
        assert!(sizes.iter().all(|size| *size == 88));
        error
    };
    let wrong_trees = |trees| Error::WrongSize(WrongSize::Trees { trees });
    assert_eq!(parts(&[0b1001_0000], 6, MOST_TREES + 1, 300, 300), wrong_trees(257));
    assert_eq!(parts(&[0b1001_0000], 6, usize::MAX, 9, 9), wrong_trees(usize::MAX));
    assert_eq!(parts(&[0b1001_0000], 9, 2, 9, 9), Error::WrongSize(WrongSize::Bytes { bytes: 1, bits: 9 }));
    assert_eq!(parts(&[0b1001_0000], usize::MAX, 2, 9, 9), Error::WrongSize(WrongSize::Bits { bits: usize::MAX }));
    assert_eq!(parts(&[0b1001_0001], 6, 2, 9, 9), Error::LeftoverSet);
    assert_eq!(parts(&[0b1000_0000], 6, 2, 9, 9), Error::NotString { bit: 4 });
    assert_eq!(parts(&[0b1001_0000], 5, 2, 9, 9), Error::EndsTooEarly { bits: 5 });
    assert_eq!(parts(&[0b1001_0000], 6, 1, 9, 9), Error::OtherTrees { found: 2, given: 1 });
    assert_eq!(parts(&[], 0, 1, 9, 9), Error::OtherTrees { found: 0, given: 1 });
    assert_eq!(parts(&[0b1001_0000], 6, 2, 1, 9), Error::NoRoom);
    assert_eq!(parts(&[0b1001_0000], 6, 2, 9, 1), Error::NoRoom);
}

#[test]
fn join_refuses() {
    let joined = |pack: &[u8], bits, trees, parents: &[u32]| {
        let mut lent = pack.to_vec();
        let error = join(&mut lent, bits, trees, parents).unwrap_err();
        assert_eq!(lent, pack);
        error
    };
    let wrong = Error::WrongSize;
    assert_eq!(joined(&[0; 9], 0, 0, &[]), wrong_nodes(0));
    assert_eq!(joined(&[0; 9], 0, 0, &[0; MOST_NODES + 1]), wrong_nodes(65_536));
    assert_eq!(joined(&[0x90], 9, 1, &[0]), wrong(WrongSize::TooFewBytes { bytes: 1, bits: 9 }));
    assert_eq!(joined(&[0x90], usize::MAX, 1, &[0]), wrong(WrongSize::Bits { bits: usize::MAX }));
    assert_eq!(joined(&[0x90, 0], 3, MOST_TREES, &[0]), wrong(WrongSize::TreesBefore { trees: 256 }));
    assert_eq!(joined(&[0x80], 3, MOST_TREES, &[0]), wrong(WrongSize::TreesBefore { trees: 256 }));
    assert_eq!(joined(&[0x90, 0], 3, usize::MAX, &[0]), wrong(WrongSize::TreesBefore { trees: usize::MAX }));
    assert_eq!(joined(&[0x90; 20_000], MOST_BITS - 1, 1, &[0]), wrong(WrongSize::JoinedBits { bits: 131_073 }));
    assert_eq!(joined(&[0x90, 0], 3, 1, &[0]), Error::LeftoverSet);
    assert_eq!(joined(&[0x00, 0], 3, 1, &[0]), Error::NotString { bit: 1 });
    assert_eq!(joined(&[0x80, 0], 2, 1, &[0]), Error::EndsTooEarly { bits: 2 });
    assert_eq!(joined(&[0x80, 0], 3, 2, &[0]), Error::OtherTrees { found: 1, given: 2 });
    assert_eq!(joined(&[0x80, 0], 3, 1, &[0, 0]), Error::NotParents { entry: 2 });
    assert_eq!(joined(&[0x80], 3, 1, &[0, 1, 1]), Error::NoRoom);
}

#[test]
fn list_refuses() {
    let image = image_of_t();
    for node in [0, 8, u32::MAX] {
        let error = refused(18, 77, |pairs| list(&image, node, pairs));
        assert_eq!(error, Error::NoSuchNode { node });
    }
    assert_eq!(refused(13, 77, |pairs| list(&image, 1, pairs)), Error::NoRoom);
    let deep = Image::check(image_of(&path(65))).unwrap();
    let error = refused(200, 77, |pairs| list(deep.as_bytes(), 1, pairs));
    assert_eq!(error, Error::TooDeep { node: 65 });
    let error = refused(200, 77, |numbers| deep.list_in(Node::ROOT, numbers).map(|listing| listing.len()));
    assert_eq!(error, Error::TooDeep { node: 65 });
    #[cfg(feature = "alloc")]
    assert_eq!(deep.list(Node::ROOT).unwrap_err(), Error::TooDeep { node: 65 });
}

#[cfg(feature = "alloc")]
#[test]
fn a_refused_join_leaves_the_pack_as_it_was() {
    let mut pack = Pack::new();
    pack.join(&T).unwrap();
    let before = pack.clone();
    assert_eq!(pack.join(&[0, 1, 2, 1]), Err(Error::NotParents { entry: 4 }));
    assert_eq!(pack.join(&[]), Err(wrong_nodes(0)));
    assert_eq!(pack.join(&[0; MOST_NODES + 1]), Err(wrong_nodes(65_536)));
    assert_eq!(pack.join(&path(65_535)), Err(Error::WrongSize(WrongSize::JoinedBits { bits: 131_086 })));
    assert_eq!(pack, before);
    pack.join(&[0]).unwrap();
    assert_eq!(pack.parent_lists().unwrap(), [T.to_vec(), vec![0]]);

    let mut full = Pack::new();
    for _ in 0..MOST_TREES {
        full.join(&[0]).unwrap();
    }
    let before = full.clone();
    assert_eq!(full.join(&[0]), Err(Error::WrongSize(WrongSize::TreesBefore { trees: 256 })));
    assert_eq!(full, before);
}

#[cfg(feature = "alloc")]
#[test]
fn strings_and_packs_that_were_received_are_refused_where_they_are_none() {
    let string = |bytes: &[u8], bits| TreeString::received(bytes.to_vec(), bits).unwrap_err();
    assert_eq!(string(&[0xBB, 0x20], usize::MAX), Error::WrongSize(WrongSize::Bits { bits: usize::MAX }));
    assert_eq!(string(&[0xBB], 15), Error::WrongSize(WrongSize::Bytes { bytes: 1, bits: 15 }));
    assert_eq!(string(&[0xBB, 0x21], 15), Error::LeftoverSet);
    assert_eq!(string(&[0xBB, 0x20], 16), Error::NotString { bit: 16 });
    assert_eq!(string(&[0xBB, 0x20], 14), Error::EndsTooEarly { bits: 14 });
    assert_eq!(string(&[], 0), Error::EndsTooEarly { bits: 0 });
    assert_eq!(TreeString::of_parents(&[]), Err(wrong_nodes(0)));
    assert_eq!(TreeString::of_parents(&[0; MOST_NODES + 1]), Err(wrong_nodes(65_536)));

    let pack = |bytes: &[u8], bits, trees| Pack::received(bytes.to_vec(), bits, trees).unwrap_err();
    assert_eq!(pack(&[0b1001_0000], 6, usize::MAX), Error::WrongSize(WrongSize::Trees { trees: usize::MAX }));
    assert_eq!(pack(&[0b1001_0000], 6, 1), Error::OtherTrees { found: 2, given: 1 });
    assert_eq!(pack(&[0b1001_0000], 5, 2), Error::EndsTooEarly { bits: 5 });
}

#[test]
fn every_refusal_is_one_sentence() {
    let sentences = [
        (Error::NoRoom, "an output has too little room"),
        (Error::NotParents { entry: 4 }, "entry 4: no parent list has this number here"),
        (Error::NotString { bit: 7 }, "bit 7: no tree string has these bits up to here"),
        (Error::EndsTooEarly { bits: 0 }, "after 0 bits the tree is not over"),
        (Error::EndsTooEarly { bits: 1 }, "after 1 bit the tree is not over"),
        (Error::LeftoverSet, "a bit after the last one, in the same byte, is set"),
        (Error::WrongSums { block: 3 }, "block 3 of the image has wrong sums"),
        (Error::OtherVersion, "the version in the header is neither 1 nor 2, as with an older or a newer writer"),
        (
            Error::WrongHeader,
            "no tree with an image of this version and length has these header numbers, or a reserved word is not zero",
        ),
        (
            Error::WrongStrings { block: 1 },
            "the strings, from block 1 on, are not those of a tree with the header's n and m",
        ),
        (
            Error::WrongCounts { block: 3 },
            "block 3 of the image has a wrong count of earlier ones, or unused payload that is not zero",
        ),
        (Error::WrongSamples { block: 3 }, "block 3 of the image has wrong samples"),
        (Error::NotAllowed { question: 700 }, "question 700: its kind, node or argument is not allowed"),
        (Error::NoSuchNodeAsked { question: 700, node: 8 }, "question 700: the tree has no node 8"),
        (Error::NoSuchNode { node: 9 }, "the tree has no node 9"),
        (Error::NoMetres, "the image has no metres"),
        (Error::NoMetresAsked { question: 700 }, "question 700: the image has no metres"),
        (Error::TooDeep { node: 65 }, "node 65 is at depth 64, but a listing or a text ends at depth 63"),
        (Error::OtherTrees { found: 1, given: 3 }, "the pack has 1 tree, not 3"),
        (Error::OtherTrees { found: 2, given: 1 }, "the pack has 2 trees, not 1"),
        (Error::NotText { byte: 7 }, "byte 7: no text of one tree goes on, or ends, like this"),
        (Error::TooNested { byte: 65 }, "byte 65: a 65th level is opened, but a text has at most 64"),
        (
            Error::Unlisted { code: 77, place: 5 },
            "code 77, place 5: the archive that was linked is of another version than this crate",
        ),
    ];
    for (error, sentence) in sentences {
        assert_eq!(error.to_string(), sentence);
    }
    let sizes = [
        (WrongSize::Nodes { nodes: 0 }, "a parent list of 0 numbers, but a tree has 1 to 65535 nodes"),
        (WrongSize::Metres { metres: 6, nodes: 7 }, "6 numbers of metres for 7 nodes, but each node has one"),
        (WrongSize::Metres { metres: 0, nodes: 1 }, "0 numbers of metres for 1 node, but each node has one"),
        (WrongSize::Bits { bits: 131_072 }, "131072 bits, but a tree string or a pack has at most 131071"),
        (WrongSize::Bytes { bytes: 3, bits: 15 }, "3 bytes for 15 bits, but they take exactly 2 bytes"),
        (WrongSize::Bytes { bytes: 2, bits: 8 }, "2 bytes for 8 bits, but they take exactly 1 byte"),
        (WrongSize::TooFewBytes { bytes: 1, bits: 9 }, "1 byte for a pack of 9 bits, but it takes 2 bytes"),
        (WrongSize::Trees { trees: 257 }, "257 trees, but a pack has at most 256"),
        (WrongSize::TreesBefore { trees: 256 }, "one more tree after 256, but a pack has at most 256"),
        (
            WrongSize::JoinedBits { bits: 131_073 },
            "the joined pack would have 131073 bits, but a pack has at most 131071",
        ),
        (WrongSize::ImageBytes { bytes: 1 }, "an image of 1 byte, but an image is whole blocks of 512 bytes"),
        (WrongSize::ImageTooLong { bytes: 293_889 }, "an image of 293889 bytes, but an image has at most 293888 bytes"),
        (WrongSize::ImageBlocks { blocks: 4 }, "an image of 4 blocks, but an image has 5 to 574"),
        (WrongSize::QuestionNumbers { numbers: 2 }, "2 numbers, but each question takes 3"),
        (WrongSize::Questions { questions: 257 }, "257 questions, but one call answers at most 256"),
        (WrongSize::TextTooLong { bytes: 1_048_577 }, "a text of 1048577 bytes, but a text has at most 1048576 bytes"),
        (WrongSize::TextNodes { nodes: 65_536 }, "a text of 65536 nodes, but a tree has 1 to 65535 nodes"),
        (WrongSize::Unlisted, "a count or a length is outside its limits, or two do not fit each other"),
    ];
    for (size, sentence) in sizes {
        assert_eq!(size.to_string(), sentence);
        assert_eq!(Error::WrongSize(size).to_string(), sentence);
        assert_eq!((Error::WrongSize(size).code(), Error::WrongSize(size).place()), (2, 0));
    }
}

#[test]
fn a_refusal_is_an_error_of_rust() {
    fn named(node: u32) -> std::result::Result<Node, Box<dyn std::error::Error + Send + Sync>> {
        Ok(Node::try_from(node)?)
    }
    assert_eq!(named(0).unwrap_err().to_string(), "the tree has no node 0");
    assert_eq!(named(1).unwrap(), Node::ROOT);
}
