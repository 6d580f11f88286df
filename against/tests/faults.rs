//! What the model says is wrong with an image: codes and places worked out by hand, and every small header and pair of
//! strings compared with all small trees.

use against::compare::layout::with_words;
use against::compare::random::Random;
use against::compare::shapes::{all_trees, parent_list, Shape};
use against::compare::twelve_cases::{image_of_t, image_of_t_with_metres, T};
use against::model::answers::{number, Answer};
use against::model::calls::check_image;
use against::model::images::{image_of_tree, m_of, partition, seal, BLOCK_BYTES};
use against::model::outline::outline;
use against::model::strings::string_of_tree;
use against::model::trees::Tree;

/// Block, word in it, and its new value.
type Edit = (usize, usize, u32);

fn tree_of(shape: Shape, n: usize) -> Tree {
    Tree::of_parent_list(&parent_list(shape, n, &mut Random::new(1))).expect("made as a tree")
}

fn image_of(shape: Shape, n: usize) -> Vec<u8> {
    image_of_tree(&tree_of(shape, n), None)
}

fn code_and_place(image: &[u8]) -> (u32, u32) {
    let Answer { code, place, .. } = Answer::of(check_image(image));
    (code, place)
}

/// Each list of edits, with the sums made right again, gives this code and place.
fn expect(image: &[u8], cases: &[(&[Edit], (u32, u32))]) {
    for (edits, expected) in cases {
        let image = with_words(image, edits);
        assert_eq!(code_and_place(&image), *expected, "{edits:?}");
        if expected.0 != 0 {
            assert_eq!(outline(&image), format!("refused {} {}\n", expected.0, expected.1), "{edits:?}");
        }
    }
}

/// The first word of bits, most significant bit first in each byte.
fn bits(text: &str) -> u32 {
    u32::from_str_radix(&format!("{text:0<32}"), 2).expect("bits").swap_bytes()
}

#[test]
fn one_fault_in_the_image_of_t() {
    expect(
        &image_of_t(),
        &[
            (&[], (0, 0)),
            (&[(1, 1, bits("1001011")), (2, 1, bits("11010001"))], (0, 0)), // as it was
            (&[(0, 0, 0)], (11, 0)),
            (&[(0, 0, 2)], (12, 0)), // with metres it takes 6 blocks
            (&[(0, 0, 3)], (11, 0)),
            (&[(0, 0, 0x0100_0001)], (11, 0)),
            (&[(0, 1, 0)], (12, 0)),
            (&[(0, 2, 0)], (12, 0)),
            (&[(0, 2, 1)], (12, 0)),
            (&[(0, 2, 8)], (12, 0)),
            (&[(0, 1, 4_000)], (12, 0)), // it takes 6 blocks
            (&[(0, 1, 65_536)], (12, 0)),
            (&[(0, 3, 4)], (12, 0)),
            (&[(0, 3, 6)], (12, 0)),
            (&[(0, 4, 1)], (12, 0)),
            (&[(0, 125, 1 << 31)], (12, 0)),
            // some tree has such a header, but not these strings
            (&[(0, 1, 8)], (13, 1)),
            (&[(0, 1, 6)], (13, 1)),
            (&[(0, 1, 3_999)], (13, 1)),
            (&[(0, 2, 3)], (13, 1)),
            (&[(0, 2, 7)], (13, 1)),
            // R1 without its last one; R0 alone wrong; both of a path of 7, whose m is 7
            (&[(1, 1, bits("1001010"))], (13, 1)),
            (&[(2, 1, bits("10001011"))], (13, 1)),
            (&[(1, 1, bits("1111111")), (2, 1, bits("11111101"))], (13, 1)),
            (&[(1, 0, 1)], (14, 1)),
            (&[(2, 0, u32::MAX)], (14, 2)),
            (&[(1, 1, bits("10010111"))], (14, 1)),
            (&[(1, 125, 1 << 24)], (14, 1)), // the last bit of its block
            (&[(2, 1, bits("110100011"))], (14, 2)),
            (&[(2, 125, 1 << 24)], (14, 2)),
            (&[(3, 1, 1)], (14, 3)),
            (&[(3, 125, 1)], (14, 3)),
            (&[(4, 1, 1)], (14, 4)),
            (&[(4, 125, 1)], (14, 4)),
            (&[(3, 0, 0)], (15, 3)),
            (&[(3, 0, 2)], (15, 3)),
            (&[(4, 0, 0)], (15, 4)),
            // R1 1010011 is that of another tree with the same n, m and samples
            (&[(1, 1, bits("1010011"))], (0, 0)),
        ],
    );
}

#[test]
fn two_faults_in_the_image_of_t() {
    expect(
        &image_of_t(),
        &[
            (&[(0, 0, 3), (0, 1, 0)], (11, 0)),
            (&[(0, 0, 3), (1, 1, 0)], (11, 0)),
            (&[(0, 0, 3), (1, 0, 1)], (11, 0)),
            (&[(0, 0, 3), (3, 0, 2)], (11, 0)),
            (&[(0, 4, 1), (1, 1, 0)], (12, 0)),
            (&[(0, 4, 1), (1, 0, 1)], (12, 0)),
            (&[(0, 4, 1), (3, 0, 2)], (12, 0)),
            (&[(1, 1, 0), (1, 0, 1)], (13, 1)),
            (&[(2, 1, 0), (1, 0, 1)], (13, 1)),
            (&[(2, 1, 0), (3, 0, 2)], (13, 1)),
            (&[(1, 0, 1), (2, 0, 1)], (14, 1)),
            (&[(3, 1, 1), (2, 0, 1)], (14, 2)),
            (&[(4, 1, 1), (3, 1, 1)], (14, 3)),
            (&[(3, 0, 2), (4, 1, 1)], (14, 4)), // whatever block the sample is in
            (&[(3, 0, 2), (3, 1, 1)], (14, 3)),
            (&[(4, 0, 2), (3, 1, 1)], (14, 3)),
            (&[(4, 0, 2), (3, 0, 2)], (15, 3)),
        ],
    );
    // all sums come first, and the size before them
    let mut image = with_words(&image_of_t(), &[(0, 0, 3), (1, 1, 0), (3, 0, 2)]);
    image[4 * BLOCK_BYTES] ^= 1;
    assert_eq!(code_and_place(&image), (6, 4));
    image.push(0);
    assert_eq!(code_and_place(&image), (2, 0));
}

#[test]
fn faults_in_the_image_of_t_with_metres() {
    expect(
        &image_of_t_with_metres(),
        &[
            (&[], (0, 0)),
            (&[(0, 0, 0)], (11, 0)),
            (&[(0, 0, 1)], (12, 0)), // without metres it takes 5 blocks
            (&[(0, 0, 3)], (11, 0)),
            (&[(0, 0, 1), (0, 3, 5)], (12, 0)), // the file has 6
            (&[(0, 3, 5)], (12, 0)),
            (&[(0, 3, 7)], (12, 0)),
            (&[(0, 1, 3_999)], (12, 0)), // it takes 37 blocks
            (&[(0, 1, 127)], (12, 0)),   // and it 7
            (&[(0, 1, 126)], (13, 1)),
            (&[(0, 1, 8)], (13, 1)),
            (&[(0, 4, 1)], (12, 0)),
            // no metres are wrong
            (&[(5, 0, 0)], (0, 0)),
            (&[(5, 6, u32::MAX)], (0, 0)),
            (&[(5, 0, 0), (5, 1, 0), (5, 2, 0), (5, 3, 0), (5, 4, 0), (5, 5, 0), (5, 6, 0)], (0, 0)),
            // there are 7 of them
            (&[(5, 7, 1)], (14, 5)),
            (&[(5, 125, 1 << 31)], (14, 5)),
            (&[(5, 7, 1), (4, 1, 1)], (14, 4)),
            (&[(5, 7, 1), (4, 0, 2)], (14, 5)), // whatever block the sample is in
            (&[(5, 7, 1), (1, 1, 0)], (13, 1)),
            (&[(5, 6, 0), (4, 0, 2)], (15, 4)),
        ],
    );
    let mut image = image_of_t_with_metres();
    image[5 * BLOCK_BYTES] ^= 1;
    assert_eq!(code_and_place(&image), (6, 5));
}

/// Blocks: 0 the header, 1 R1, 2 R0, 3 and 4 the samples, 5 and 6 the metres.
#[test]
fn a_star_of_127_nodes_with_metres() {
    let metres: Vec<u32> = (1..=127).collect();
    let image = image_of_tree(&tree_of(Shape::Star, 127), Some(&metres));
    assert_eq!(image.len(), 7 * BLOCK_BYTES);
    expect(
        &image,
        &[
            (&[(5, 0, 1), (5, 125, 126), (6, 0, 127)], (0, 0)), // as it was
            (&[(5, 125, 0), (6, 0, 0)], (0, 0)),
            (&[(6, 1, 1)], (14, 6)),
            (&[(6, 125, 1)], (14, 6)),
            (&[(6, 1, 1), (3, 1, 1)], (14, 3)),
            (&[(0, 1, 126)], (12, 0)), // it takes 6 blocks
            (&[(0, 1, 252)], (13, 1)),
            (&[(0, 1, 253)], (12, 0)), // and it 8
        ],
    );
}

/// "Images not of 5 to 574 blocks" are code 2, whatever their version.
#[test]
fn more_blocks_than_an_image_of_the_version_has() {
    for (blocks, expected) in [(54, 12), (96, 12), (574, 12), (575, 2)] {
        for version in [1, 2] {
            let mut image = with_words(&image_of_t(), &[(0, 0, version), (0, 3, blocks)]);
            image.resize(blocks as usize * BLOCK_BYTES, 0);
            // s of block 5 begins at 5
            let with_zeros = if expected == 2 { (2, 0) } else { (6, 5) };
            assert_eq!(code_and_place(&image), with_zeros, "{blocks} blocks of version {version}");
            seal(&mut image);
            assert_eq!(code_and_place(&image), (expected, 0), "{blocks} blocks of version {version}, right sums");
        }
    }
}

#[test]
fn one_and_two_nodes() {
    let one = image_of(Shape::Path, 1);
    let strings_of_two: [Edit; 2] = [(1, 1, bits("11")), (2, 1, bits("101"))];
    expect(&one, &[(&[(0, 2, 2)], (12, 0)), (&[(0, 2, 0)], (12, 0)), (&[(0, 1, 2)], (12, 0))]);
    // n = 2 and m = 2 are right, but R0 is 01 and not 101
    expect(&one, &[(&[(0, 1, 2), (0, 2, 2)], (13, 1)), (&[(0, 1, 2), (0, 2, 1)], (12, 0))]);
    expect(&one, &[(&strings_of_two, (13, 1))]);
    let two = image_of(Shape::Path, 2);
    expect(&two, &[(&strings_of_two, (0, 0)), (&[(0, 2, 1)], (12, 0)), (&[(0, 2, 3)], (12, 0))]);
    expect(&two, &[(&[(4, 0, 2)], (15, 4)), (&[(3, 0, 2), (4, 125, 1)], (14, 4))]);
}

/// Blocks: 0 the header, 1 R1, 2 and 3 R0, 4 and 5 the samples.
#[test]
fn a_star_of_4000_nodes() {
    let image = image_of(Shape::Star, 4_000);
    assert_eq!(image.len(), 6 * BLOCK_BYTES);
    // R0 has its first and last bit set, the last one alone in block 3
    expect(
        &image,
        &[
            (&[(0, 1, 3_999)], (12, 0)), // it takes 5 blocks
            (&[(0, 1, 4_001)], (12, 0)), // and it 7
            (&[(0, 3, 5)], (12, 0)),
            (&[(0, 2, 3)], (13, 1)),
            (&[(3, 1, 0)], (13, 1)),
            (&[(3, 1, bits("01"))], (13, 1)),
            (&[(1, 0, 1)], (14, 1)),
            (&[(2, 0, 1)], (14, 2)),
            (&[(3, 0, 0)], (14, 3)),
            (&[(3, 0, 2)], (14, 3)),
            (&[(3, 1, bits("11"))], (14, 3)),
            (&[(4, 1, 1)], (14, 4)),
            (&[(5, 125, 1)], (14, 5)),
            (&[(4, 0, 2)], (15, 4)),
            (&[(5, 0, 2)], (15, 5)),
            (&[(3, 0, 2), (4, 0, 2)], (14, 3)),
        ],
    );
}

/// Blocks: 0 the header, 1 to 3 R1, 4 to 6 R0, 7 and 8 the samples of R1, 9 and 10 those of R0.
#[test]
fn a_path_of_8065_nodes() {
    let image = image_of(Shape::Path, 8_065);
    assert_eq!(image.len(), 11 * BLOCK_BYTES);
    expect(
        &image,
        &[
            (&[(0, 2, 8_064)], (12, 0)), // it takes 9 blocks
            (&[(0, 1, 8_066)], (13, 1)),
            (&[(3, 2, 0)], (13, 1)),
            (&[(6, 1, 0)], (13, 1)),
            (&[(2, 0, 4_000)], (0, 0)),
            (&[(2, 0, 3_999)], (14, 2)),
            (&[(3, 0, 8_001)], (14, 3)),
            (&[(5, 0, 0)], (14, 5)),
            (&[(6, 0, 7_999)], (14, 6)),
            (&[(3, 125, 1)], (14, 3)),
            (&[(6, 125, 1)], (14, 6)),
            (&[(8, 1, 8_129)], (14, 8)),
            (&[(10, 125, 1)], (14, 10)),
            (&[(7, 125, 8_001)], (0, 0)),
            (&[(7, 125, 0)], (15, 7)),
            (&[(8, 0, 8_065)], (0, 0)),
            (&[(8, 0, 8_064)], (15, 8)),
            (&[(9, 64, 0)], (15, 9)),
            (&[(10, 0, 8_066)], (0, 0)), // node 8,065 is a leaf: the last one of R0 is its bit 8,066
            (&[(10, 0, 8_065)], (15, 10)),
            (&[(10, 0, 0), (8, 0, 0)], (15, 8)),
            (&[(10, 0, 0), (8, 1, 1)], (14, 8)),
            (&[(7, 0, 0), (10, 1, 1)], (14, 10)),
            (&[(7, 0, 0), (3, 0, 0), (6, 0, 0)], (14, 3)),
        ],
    );
}

/// A tree of a few nodes, its strings as text.
struct Small {
    n: u32,
    m: u32,
    r1: String,
    r0: String,
    /// Without metres, and with 0 for each node.
    images: [Vec<u8>; 2],
}

fn text(string: &[bool]) -> String {
    string.iter().map(|&bit| if bit { '1' } else { '0' }).collect()
}

fn small_trees() -> Vec<Small> {
    let trees = (1..=5).flat_map(all_trees).map(|parents| {
        let tree = Tree::of_parent_list(&parents).expect("a tree");
        let (r1, r0) = partition(&string_of_tree(&tree));
        let (n, m) = (number(parents.len()), number(m_of(&tree)));
        let zeros = vec![0; parents.len()];
        let images = [None, Some(zeros.as_slice())].map(|metres| image_of_tree(&tree, metres));
        Small { n, m, r1: text(&r1), r0: text(&r0), images }
    });
    trees.collect()
}

/// What is answered by documents 01 and 02 where T's image has this n and m, and these bits in its blocks of strings.
fn code_and_place_by_trying(trees: &[Small], n: u32, m: u32, r1: &str, r0: &str) -> (u32, u32) {
    let with_header: Vec<&Small> = trees.iter().filter(|tree| (tree.n, tree.m) == (n, m)).collect();
    if with_header.is_empty() {
        return (12, 0);
    }
    let begins = |bits: &str, string: &str| format!("{bits:0<6}").starts_with(string);
    let Some(tree) = with_header.iter().find(|tree| begins(r1, &tree.r1) && begins(r0, &tree.r0)) else {
        return (13, 1);
    };
    // what is more than the tree's strings is unused payload
    if bits(r1) != bits(&tree.r1) {
        return (14, 1);
    }
    if bits(r0) != bits(&tree.r0) {
        return (14, 2);
    }
    // the first one is at position 1, as in T, in all strings but R0 of a single node
    if n == 1 {
        (15, 4)
    } else {
        (0, 0)
    }
}

/// Every n and m up to 5 with every R1 and R0 of up to 4 nodes, in both versions: compared with all trees of up to 5
/// nodes, one by one.
#[test]
fn every_small_header_and_pair_of_strings() {
    let trees = small_trees();
    let tree = Tree::of_parent_list(&T).expect("a tree");
    let images_of_t = [image_of_t(), image_of_tree(&tree, Some(&[0; 7]))];
    let texts = |length: usize| (0..1 << length).map(move |value: u32| format!("{value:0length$b}"));
    let mut seen = [0; 16];
    for (r1, r0) in (1..=4).flat_map(|n| texts(n).flat_map(move |r1| texts(n + 1).map(move |r0| (r1.clone(), r0)))) {
        for (n, m) in (0..=5).flat_map(|n| (0..=5).map(move |m| (n, m))) {
            let words = [(0, 1, n), (0, 2, m), (1, 1, bits(&r1)), (2, 1, bits(&r0))];
            let expected = code_and_place_by_trying(&trees, n, m, &r1, &r0);
            for (version, image_of_t) in images_of_t.iter().enumerate() {
                let image = with_words(image_of_t, &words);
                assert_eq!(code_and_place(&image), expected, "n {n}, m {m}, R1 {r1}, R0 {r0}");
                let given = trees.iter().any(|tree| tree.images[version] == image);
                assert_eq!(expected.0 == 0, given, "accepted if a tree gives it");
                assert_eq!(code_and_place(&with_words(&image, &[(0, 0, 3)])), (11, 0), "whatever else is wrong");
            }
            seen[expected.0 as usize] += 1;
        }
    }
    assert!([0, 12, 13, 14, 15].iter().all(|&code: &usize| seen[code] > 0), "{seen:?}");
}
