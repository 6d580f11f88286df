//! "Twelve checked by hand", written down by hand once more: each call with the answer and the lists that come back.
//! Then the same for their tree T with metres, for T's root, which has no rank, and for trees as text.

use super::call::Call;
use crate::model::answers::Answer;

/// "T has parents 0 1 1 1 2 2 4."
pub const T: [u32; 7] = [0, 1, 1, 1, 2, 2, 4];

/// Metres for T.
pub const METRES_OF_T: [u32; 7] = [10, 20, 30, 40, 50, 60, 70];

/// A call and what comes back.
pub struct Case {
    /// The number in document 01 of the case that it is, or that is like it but for the metres, the node or the text.
    pub number: usize,
    pub call: Call,
    pub answer: Answer,
    pub after: Call,
}

fn done(first: u32, second: u32) -> Answer {
    Answer { code: 0, place: 0, first, second }
}

fn refused(code: u32, place: u32) -> Answer {
    Answer { code, place, first: 0, second: 0 }
}

/// The bytes of bits written as text.
fn packed(bits: &str) -> Vec<u8> {
    let mut bytes = vec![0; bits.len().div_ceil(8)];
    for (index, bit) in bits.bytes().enumerate() {
        bytes[index / 8] |= (bit - b'0') << (7 - index % 8);
    }
    bytes
}

/// T's image from its few words and bytes that are not zero. `sums` are (s, t) of each block.
fn image_by_hand(version: u32, metres: &[u32], sums: &[(u32, u32)]) -> Vec<u8> {
    let (n, m, r1, r0) = (7, 4, "1001011", "11010001");
    let mut image = vec![0; 512 * sums.len()];
    let mut put = |block: usize, at: usize, bytes: &[u8]| {
        image[512 * block + at..][..bytes.len()].copy_from_slice(bytes);
    };
    for (word, value) in [version, n, m, sums.len() as u32].into_iter().enumerate() {
        put(0, 4 * word, &value.to_le_bytes());
    }
    put(1, 4, &packed(r1));
    put(2, 4, &packed(r0));
    // a single sample each: the position of the first one
    let first_one = |string: &str| 1 + string.find('1').expect("has a one") as u32;
    put(3, 0, &first_one(r1).to_le_bytes());
    put(4, 0, &first_one(r0).to_le_bytes());
    for (word, value) in metres.iter().enumerate() {
        put(5, 4 * word, &value.to_le_bytes());
    }
    for (block, (s, t)) in sums.iter().enumerate() {
        put(block, 504, &s.to_le_bytes());
        put(block, 508, &t.to_le_bytes());
    }
    image
}

/// The sums of blocks 1 to 4 of T's image, by case 2.
const SUMS_AFTER_HEADER: [(u32, u32); 4] = [(151, 18876), (211, 26377), (4, 504), (5, 630)];

/// Case 2: T's image with the sums given there.
pub fn image_of_t() -> Vec<u8> {
    image_by_hand(1, &[], &[&[(17, 2112)], SUMS_AFTER_HEADER.as_slice()].concat())
}

/// The same with metres. In the header s ends at 2 + 7 + 4 + 6 = 19; t adds 2, 9, 13, and 19 for each of 123 words. In
/// block 5 s begins at 5 and ends at 285; t adds 15, 35, 65, 105, 155, 215, and 285 for each of 120 words.
pub fn image_of_t_with_metres() -> Vec<u8> {
    image_by_hand(2, &METRES_OF_T, &[&[(19, 2361)], SUMS_AFTER_HEADER.as_slice(), &[(285, 34790)]].concat())
}

fn string_made(number: usize, parents: &[u32], string: &str) -> [Case; 2] {
    let n = parents.len();
    let (parents, bytes) = (parents.to_vec(), packed(string));
    let there = Case {
        number,
        call: Call::StringOfParents { parents: parents.clone(), bytes: vec![0xEE; bytes.len()] },
        answer: done(string.len() as u32, 1),
        after: Call::StringOfParents { parents: parents.clone(), bytes: bytes.clone() },
    };
    let bits = string.len();
    let back = Case {
        number,
        call: Call::ParentsOfString { bytes: bytes.clone(), bits, parents: vec![99; n] },
        answer: done(n as u32, 0),
        after: Call::ParentsOfString { bytes, bits, parents },
    };
    [there, back]
}

fn image_made(number: usize, parents: &[u32], m: u32, image: Vec<u8>) -> [Case; 3] {
    let n = parents.len();
    let parents = parents.to_vec();
    let there = Case {
        number,
        call: Call::ImageOfParents { parents: parents.clone(), image: vec![0xEE; image.len()] },
        answer: done(n as u32, m),
        after: Call::ImageOfParents { parents: parents.clone(), image: image.clone() },
    };
    let back = Case {
        number,
        call: Call::ParentsOfImage { image: image.clone(), parents: vec![99; n] },
        answer: done(n as u32, 0),
        after: Call::ParentsOfImage { image: image.clone(), parents },
    };
    let check = Call::CheckImage { image };
    [there, back, Case { number, call: check.clone(), answer: done(n as u32, m), after: check }]
}

/// A call that is refused and so leaves everything as it was.
fn call_refused(number: usize, call: Call, code: u32, place: u32) -> Case {
    Case { number, call: call.clone(), answer: refused(code, place), after: call }
}

fn parents_refused(number: usize, parents: &[u32], place: u32) -> [Case; 3] {
    let parents = parents.to_vec();
    let string = Call::StringOfParents { parents: parents.clone(), bytes: vec![0xEE; 9] };
    let image = Call::ImageOfParents { parents: parents.clone(), image: vec![0xEE; 2560] };
    let join = Call::Join { pack: vec![0; 9], bits: 0, trees: 0, parents };
    [string, image, join].map(|call| call_refused(number, call, 3, place))
}

fn string_refused(number: usize, string: &str, place: u32) -> Case {
    let call = Call::ParentsOfString { bytes: packed(string), bits: string.len(), parents: vec![99; 9] };
    call_refused(number, call, 4, place)
}

fn split_call(string: &str, trees: usize) -> Call {
    let (starts, sizes) = (vec![99; trees], vec![99; trees]);
    Call::Split { bytes: packed(string), bits: string.len(), trees, starts, sizes }
}

fn split_made(number: usize, string: &str, starts: &[u32], sizes: &[u32]) -> Case {
    let trees = starts.len();
    let (bytes, bits) = (packed(string), string.len());
    Case {
        number,
        call: split_call(string, trees),
        answer: done(bits as u32, trees as u32),
        after: Call::Split { bytes, bits, trees, starts: starts.to_vec(), sizes: sizes.to_vec() },
    }
}

fn asked(number: usize, image: &[u8], questions: &[i32], answers: &[u32]) -> Case {
    let with =
        |answers: &[u32]| Call::Ask { image: image.to_vec(), questions: questions.to_vec(), answers: answers.to_vec() };
    Case { number, call: with(&vec![99; answers.len()]), answer: done(answers.len() as u32, 0), after: with(answers) }
}

/// T with metres: made, read back and asked for; refused where they are not there, or are not 7.
pub fn with_metres() -> Vec<Case> {
    let (image, without) = (image_of_t_with_metres(), image_of_t());
    let sealing =
        |metres: &[u32], image: Vec<u8>| Call::ImageWithMetres { parents: T.to_vec(), metres: metres.to_vec(), image };
    let reading = |image: &[u8], metres: Vec<u32>| Call::MetresOfImage { image: image.to_vec(), metres };
    let asking = |image: &[u8], questions: &[i32]| Call::Ask {
        image: image.to_vec(),
        questions: questions.to_vec(),
        answers: vec![99; 3],
    };
    let (made, read) = (sealing(&METRES_OF_T, image.clone()), reading(&image, METRES_OF_T.to_vec()));
    let (one_less, one_more) = (&METRES_OF_T[..6], [METRES_OF_T.as_slice(), &[80]].concat());
    let to_make = |room: usize| sealing(&METRES_OF_T, vec![0xEE; room]);
    let checked = Call::CheckImage { image: image.clone() };
    vec![
        Case { number: 2, call: to_make(3072), answer: done(7, 4), after: made },
        Case { number: 2, call: reading(&image, vec![99; 7]), answer: done(7, 0), after: read },
        Case { number: 2, call: checked.clone(), answer: done(7, 4), after: checked },
        asked(10, &image, &[11, 1, 0, 1, 7, 0, 11, 7, 0], &[10, 4, 70]),
        call_refused(2, sealing(one_less, vec![0xEE; 3072]), 2, 0),
        call_refused(2, sealing(&one_more, vec![0xEE; 3072]), 2, 0),
        call_refused(2, sealing(&[], vec![0xEE; 3072]), 2, 0),
        call_refused(2, to_make(3071), 1, 0),
        call_refused(2, reading(&image, vec![99; 6]), 1, 0),
        call_refused(2, reading(&without, vec![99; 7]), 8, 1),
        call_refused(2, reading(&without, Vec::new()), 8, 1),
        call_refused(10, asking(&without, &[1, 7, 0, 11, 7, 0]), 8, 2),
        call_refused(10, asking(&image, &[1, 7, 0, 11, 7, 0, 11, 7, 1]), 8, 3),
        call_refused(10, asking(&image, &[12, 7, 0]), 8, 1),
    ]
}

/// The root of T has no rank, in either version, and stays an only child; node 7 is one too and keeps its rank.
pub fn of_the_root() -> Vec<Case> {
    let each = [image_of_t(), image_of_t_with_metres()].map(|image| {
        let with_argument = Call::Ask { image: image.clone(), questions: vec![7, 2, 0, 7, 1, 1], answers: vec![99; 2] };
        let ranks = [7, 1, 0, 7, 2, 0, 7, 3, 0, 7, 4, 0, 7, 5, 0, 7, 6, 0, 7, 7, 0];
        let siblings = [4, 1, 0, 5, 1, 0, 10, 1, 0, 10, 1, 1, 10, 1, -1, 10, 1, i32::MAX, 10, 1, i32::MIN];
        [
            asked(10, &image, &[7, 1, 0], &[0]),
            asked(10, &image, &ranks, &[0, 1, 2, 3, 1, 2, 1]),
            asked(11, &image, &siblings, &[0, 0, 1, 0, 0, 0, 0]),
            call_refused(10, with_argument, 8, 2),
        ]
    });
    each.into_iter().flatten().collect()
}

fn reading(text: &[u8], parents: Vec<u32>) -> Call {
    Call::ParentsOfText { text: text.to_vec(), parents }
}

fn writing(parents: &[u32], text: Vec<u8>) -> Call {
    Call::TextOfParents { parents: parents.to_vec(), text }
}

fn text_read(number: usize, text: &[u8], parents: &[u32]) -> Case {
    let (before, answer) = (vec![99; parents.len()], done(parents.len() as u32, 0));
    Case { number, call: reading(text, before), answer, after: reading(text, parents.to_vec()) }
}

fn text_made(number: usize, parents: &[u32], text: &[u8]) -> [Case; 2] {
    let (before, answer) = (vec![0xEE; text.len()], done(text.len() as u32, 0));
    let there = Case { number, call: writing(parents, before), answer, after: writing(parents, text.to_vec()) };
    [there, text_read(number, text, parents)]
}

fn text_refused(text: &[u8], code: u32, place: u32) -> Case {
    call_refused(7, reading(text, vec![99; 99]), code, place)
}

/// Trees as text, of all limits too: written, read with blanks and without, and refused.
pub fn as_text() -> Vec<Case> {
    let t = b"((()())()(()))";
    let (down, up) = (|levels: usize| b"(".repeat(levels), |levels: usize| b")".repeat(levels));
    let nested = |levels: usize| [down(levels), up(levels)].concat();
    let path_of = |n: u32| (0..n).collect::<Vec<u32>>();
    let mut cases = Vec::new();
    cases.extend(text_made(1, &T, t));
    cases.extend(text_made(3, &[0], b"()"));
    cases.extend(text_made(4, &[0, 1, 2], b"((()))"));
    cases.extend(text_made(5, &[0, 1, 1, 1], b"(()()())"));
    cases.push(text_read(1, b" (\n(\r() ()  )()(()\n)\r\n)\n", &T));
    cases.push(text_read(3, b"\r\n ( \r\n)", &[0]));
    // too little room; and what is after the needed part stays
    cases.push(call_refused(1, reading(t, vec![99; 6]), 1, 0));
    cases.push(call_refused(1, writing(&T, vec![0xEE; 13]), 1, 0));
    let after = reading(t, [T.as_slice(), &[99]].concat());
    cases.push(Case { number: 1, call: reading(t, vec![99; 8]), answer: done(7, 0), after });
    let after = writing(&T, [t.as_slice(), &[0xEE]].concat());
    cases.push(Case { number: 1, call: writing(&T, vec![0xEE; 15]), answer: done(14, 0), after });
    // no tree: the first byte that nothing goes on with
    let no_trees: [(&[u8], u32); 16] = [
        (b"", 1),
        (b" ", 2),
        (b"\r\n ", 4),
        (b")", 1),
        (b"(", 2),
        (b"( ", 3),
        (b"(()", 4),
        (b"()(", 3),
        (b"()()", 3),
        (b"() )", 4),
        (b"( )x", 4),
        (b"(x)", 2),
        (b"x()", 1),
        (b"(\t)", 2),
        (b"(\0)", 2),
        (b"()\t", 3),
    ];
    cases.extend(no_trees.map(|(text, place)| text_refused(text, 16, place)));
    // 64 levels, and a 65th one
    cases.extend(text_made(4, &path_of(64), &nested(64)));
    cases.push(text_refused(&nested(65), 17, 65));
    cases.push(text_refused(&b" (".repeat(65), 17, 130));
    cases.push(text_refused(&down(64), 16, 65));
    cases.push(text_refused(&down(65), 17, 65));
    cases.push(text_refused(&[&down(64), b"x(".as_slice()].concat(), 16, 65));
    cases.push(text_refused(&[&down(65), b"x".as_slice()].concat(), 17, 65));
    // the root is byte 1, a branch of 63 levels takes bytes 2 to 127, and the next one is too deep at its 64th byte
    cases.push(text_refused(&[down(1), nested(63), nested(64), up(1)].concat(), 17, 191));
    cases.push(call_refused(4, writing(&path_of(65), vec![0xEE; 130]), 9, 65));
    cases.push(call_refused(4, writing(&path_of(65), Vec::new()), 9, 65));
    // two branches from the root: nodes 2 d and 2 d + 1 are at depth d
    let two_branches: Vec<u32> = [0, 1, 1].into_iter().chain(2..=127).collect();
    cases.push(call_refused(4, writing(&two_branches, vec![0xEE; 258]), 9, 128));
    // no parent lists
    cases.push(call_refused(6, writing(&[0, 1, 2, 1], vec![0xEE; 8]), 3, 4));
    cases.push(call_refused(6, writing(&[0, 2], Vec::new()), 3, 2));
    cases.push(call_refused(6, writing(&[], vec![0xEE; 8]), 2, 0));
    cases.push(call_refused(6, writing(&[0; 65_536], Vec::new()), 2, 0));
    cases.extend(limits_of_text());
    cases
}

/// 65,535 nodes, one more, and one more with a byte that stands in no text; 1,048,576 bytes, and one more.
fn limits_of_text() -> [Case; 7] {
    let star = |n: usize| [b"(".as_slice(), &b"()".repeat(n - 1), b")"].concat();
    let with_blanks = |text: &[u8], length: usize| [text, &b" ".repeat(length - text.len())].concat();
    let parents_of_star: Vec<u32> = [0].into_iter().chain([1; 65_534]).collect();
    [
        text_read(5, &star(65_535), &parents_of_star),
        call_refused(5, reading(&star(65_536), vec![99; 65_536]), 2, 0),
        call_refused(5, reading(&star(65_536), Vec::new()), 2, 0),
        call_refused(5, reading(&[&star(65_536), b"x".as_slice()].concat(), vec![99; 65_536]), 16, 131_073),
        text_read(3, &with_blanks(b"()", 1_048_576), &[0]),
        call_refused(3, reading(&with_blanks(b"()", 1_048_577), vec![99]), 2, 0),
        call_refused(3, reading(&with_blanks(b"x", 1_048_577), vec![99]), 2, 0),
    ]
}

/// All cases, in order; what is left of case 1, R1 and R0 by themselves, is inside the image of case 2.
pub fn table() -> Vec<Case> {
    let t_image = image_of_t();
    let mut cases = Vec::new();
    cases.extend(string_made(1, &T, "101110110010000"));
    cases.extend(image_made(2, &T, 4, t_image.clone()));
    cases.extend(string_made(3, &[0], "100"));
    cases.extend(string_made(4, &[0, 1, 2], "1010100"));
    cases.extend(string_made(5, &[0, 1, 1, 1], "101110000"));
    cases.extend(parents_refused(6, &[0, 1, 2, 1], 4));
    cases.extend(parents_refused(6, &[0, 2], 2));
    cases.push(string_refused(7, "110", 2));
    cases.push(string_refused(7, "10", 3));
    cases.push(string_refused(7, "1000", 4));
    cases.push(string_refused(7, "", 1));
    cases.push(split_made(8, "100100", &[1, 4], &[1, 1]));
    cases.push(call_refused(8, split_call("100100", 1), 10, 2));
    cases.push(split_made(9, "101100100", &[1], &[4]));
    cases.push(call_refused(9, split_call("100100100", 1), 10, 3));
    cases.push(asked(10, &t_image, &[1, 7, 0], &[4]));
    cases.push(asked(10, &t_image, &[2, 2, 0, 3, 2, 0, 8, 2, 2, 9, 3, 0], &[5, 6, 6, 1]));
    cases.push(asked(11, &t_image, &[10, 2, 2, 10, 2, 3, 10, 2, -1], &[4, 0, 0]));
    cases.push(split_made(12, "", &[], &[]));
    cases
}

#[cfg(test)]
mod tests {
    use super::*;
    use crate::compare::random::Random;
    use crate::compare::shapes::{parent_list, Shape};
    use crate::model::answers::Refusal;
    use crate::model::bits::bits_of_bytes;
    use crate::model::calls;
    use crate::model::images::{image_of_tree, partition};
    use crate::model::outline::outline;
    use crate::model::strings::string_of_tree;
    use crate::model::trees::Tree;

    fn text(bits: &[bool]) -> String {
        bits.iter().map(|&bit| if bit { '1' } else { '0' }).collect()
    }

    #[test]
    fn the_model_gives_every_case() {
        let tables = [table(), with_metres(), of_the_root(), as_text()];
        for Case { number, mut call, answer, after } in tables.into_iter().flatten() {
            assert_eq!(call.by_model(), answer, "case {number}");
            assert_eq!(call, after, "case {number}");
        }
    }

    #[test]
    fn the_model_gives_the_partitioned_strings_of_cases_1_and_3_to_5() {
        let cases: [(&[u32], &str, &str); 4] = [
            (&T, "1001011", "11010001"),
            (&[0], "1", "01"),
            (&[0, 1, 2], "111", "1101"),
            (&[0, 1, 1, 1], "1001", "10001"),
        ];
        for (parents, r1, r0) in cases {
            let tree = Tree::of_parent_list(parents).expect("a tree");
            let (found_r1, found_r0) = partition(&string_of_tree(&tree));
            assert_eq!((text(&found_r1).as_str(), text(&found_r0).as_str()), (r1, r0));
            // and they are in the image after the counts of blocks 1 and 2
            let image = image_of_tree(&tree, None);
            let string_in =
                |block: usize, length: usize| text(&bits_of_bytes(&image[512 * block + 4..][..1])[..length]);
            assert_eq!((string_in(1, r1.len()).as_str(), string_in(2, r0.len()).as_str()), (r1, r0));
        }
    }

    fn tree_of(shape: Shape, n: usize) -> Tree {
        Tree::of_parent_list(&parent_list(shape, n, &mut Random::new(1))).expect("a tree")
    }

    fn image_of(shape: Shape, n: usize) -> Vec<u8> {
        image_of_tree(&tree_of(shape, n), None)
    }

    fn image_with_zeros(shape: Shape, n: usize) -> Vec<u8> {
        image_of_tree(&tree_of(shape, n), Some(&vec![0; n]))
    }

    #[test]
    fn the_model_keeps_the_limits() {
        // "n = 4,000 takes 1 block of R1 and 2 of R0", beside the header and a block for each list of samples
        assert_eq!(image_of(Shape::Star, 3_999).len(), 5 * 512);
        assert_eq!(image_of(Shape::Star, 4_000).len(), 6 * 512);
        // "One node takes 5 blocks; the largest image is 53 blocks, 27,136 bytes."
        assert_eq!(image_of(Shape::Path, 1).len(), 5 * 512);
        assert_eq!(image_of(Shape::Path, 65_535).len(), 27_136);
        // "126 to a block"; "5 to 574 blocks"
        assert_eq!(image_with_zeros(Shape::Path, 1).len(), 6 * 512);
        assert_eq!(image_with_zeros(Shape::Path, 126).len(), 6 * 512);
        assert_eq!(image_with_zeros(Shape::Path, 127).len(), 7 * 512);
        assert_eq!(image_with_zeros(Shape::Path, 65_535).len(), 574 * 512);
        assert_eq!(calls::check_image(&image_with_zeros(Shape::Path, 65_535)), Ok((65_535, 65_535)));
        // "n = 65,535 accepted, 65,536 not"
        assert_eq!(calls::check_image(&image_of(Shape::Path, 65_535)), Ok((65_535, 65_535)));
        assert_eq!(calls::check_image(&image_of(Shape::Star, 65_536)), Err(Refusal::WrongHeader));
        assert_eq!(calls::string_of_parents(&[0; 65_536], &mut []), Err(Refusal::WrongSize));
        // "listing a path of 64 nodes works, of 65 gives code 9 with place 65"
        let mut pairs = [0; 130];
        assert_eq!(calls::list(&image_of(Shape::Path, 64), 1, &mut pairs), Ok((64, 0)));
        let too_deep = Err(Refusal::TooDeep { node: 65 });
        assert_eq!(calls::list(&image_of(Shape::Path, 65), 1, &mut pairs), too_deep);
    }

    #[test]
    fn the_model_does_not_fall_into_the_trap_of_the_balance() {
        // "10010, which has two ones and three zeros: a tree is over at the first bit where no node is pending, here
        // bit 3"
        let mut read = Call::ParentsOfString { bytes: packed("10010"), bits: 5, parents: vec![0; 5] };
        assert_eq!(read.by_model(), refused(4, 4));
    }

    #[test]
    fn the_model_prints_the_outline_of_t() {
        let printed = "n 7 m 4 blocks 5\n1 0 3\n2 1 2\n5 2 0\n6 2 0\n3 1 0\n4 1 1\n7 2 0\n";
        assert_eq!(outline(&image_of_t()), printed);
        let printed = "n 7 m 4 blocks 6\n1 0 3 10\n2 1 2 20\n5 2 0 50\n6 2 0 60\n3 1 0 30\n4 1 1 40\n7 2 0 70\n";
        assert_eq!(outline(&image_of_t_with_metres()), printed);
        assert_eq!(outline(&[]), "refused 2 0\n");
    }
}
