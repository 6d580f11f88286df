//! The numbers of this crate are those of the C header, and its sizes those of the header's macros and of the library.

mod common;

use common::{binary, path, star};
use parlaqen::calls::{
    check_image, image_of_parents, image_with_metres, list, metres_of_image, parents_of_text, string_of_parents,
    text_of_parents, Counts,
};
use parlaqen::{
    size, Error, Node, Question, WrongSize, BLOCK_BYTES, MOST_BITS, MOST_IMAGE_BYTES, MOST_NODES, MOST_QUESTIONS,
    MOST_TEXT, MOST_TREES, MOST_TREE_IMAGE_BYTES, VERSION,
};

const HEADER: &str = include_str!("../../../include/parlaqen.h");

/// The number that the header gives to a name in an enum.
fn header(name: &str) -> usize {
    let start = format!("    {name} = ");
    let line = HEADER.lines().find_map(|line| line.strip_prefix(&start));
    let rest = line.unwrap_or_else(|| panic!("{name} is not in the header"));
    let end = rest.find(|c: char| !c.is_ascii_digit()).unwrap_or(rest.len());
    rest[..end].parse().unwrap()
}

/// What the header defines a name as, without its parameters and in one line.
fn defined(name: &str) -> (Vec<String>, String) {
    let text = HEADER.replace("\\\n", " ");
    let start = format!("#define {name}");
    let rest = text.lines().find_map(|line| line.strip_prefix(&start).filter(|rest| rest.starts_with(['(', ' '])));
    let rest = rest.unwrap_or_else(|| panic!("{name} is not in the header"));
    match rest.strip_prefix('(') {
        Some(rest) => {
            let (parameters, body) = rest.split_once(')').unwrap();
            (parameters.split(',').map(|parameter| parameter.trim().to_string()).collect(), body.trim().to_string())
        }
        None => (vec![], rest.trim().to_string()),
    }
}

/// The value of a macro of the header, computed from its text.
fn value(name: &str, arguments: &[usize]) -> usize {
    if name == "PLQ_SIZE_" {
        return arguments[0]; // a cast, which the two languages of the header write in two ways
    }
    if arguments.is_empty() {
        return header(name);
    }
    let (parameters, body) = defined(name);
    assert_eq!(parameters.len(), arguments.len(), "{name}");
    let names = parameters.into_iter().zip(arguments.iter().copied()).collect();
    let mut reader = Reader { rest: &body, names };
    let value = reader.unequal();
    assert_eq!(reader.rest, "", "{name} was not read to its end");
    value
}

/// Reads the few kinds of expression that the macros for sizes are made of, loosest operator first.
struct Reader<'a> {
    rest: &'a str,
    names: Vec<(String, usize)>,
}

impl Reader<'_> {
    fn takes(&mut self, sign: &str) -> bool {
        let rest = self.rest.trim_start().strip_prefix(sign);
        self.rest = rest.unwrap_or(self.rest).trim_start();
        rest.is_some()
    }

    fn unequal(&mut self) -> usize {
        let left = self.sum();
        if self.takes("!=") {
            usize::from(left != self.sum())
        } else {
            left
        }
    }

    fn sum(&mut self) -> usize {
        let mut sum = self.product();
        while self.takes("+") {
            sum += self.product();
        }
        sum
    }

    fn product(&mut self) -> usize {
        let mut product = self.single();
        loop {
            if self.takes("*") {
                product *= self.single();
            } else if self.takes("/") {
                product /= self.single();
            } else if self.takes("%") {
                product %= self.single();
            } else {
                return product;
            }
        }
    }

    fn single(&mut self) -> usize {
        if self.takes("(") {
            let inner = self.unequal();
            assert!(self.takes(")"));
            return inner;
        }
        let end = self.rest.find(|c: char| !c.is_ascii_alphanumeric() && c != '_').unwrap_or(self.rest.len());
        let word = self.rest[..end].to_string();
        self.rest = &self.rest[end..];
        if let Ok(number) = word.parse() {
            return number;
        }
        if let Some((_, value)) = self.names.iter().find(|(name, _)| *name == word) {
            return *value;
        }
        let mut arguments = vec![];
        if self.takes("(") {
            arguments.push(self.unequal());
            while self.takes(",") {
                arguments.push(self.unequal());
            }
            assert!(self.takes(")"));
        }
        value(&word, &arguments)
    }
}

#[test]
fn limits() {
    assert_eq!(header("PLQ_MOST_NODES"), MOST_NODES);
    assert_eq!(header("PLQ_MOST_BITS"), MOST_BITS);
    assert_eq!(header("PLQ_MOST_TREES"), MOST_TREES);
    assert_eq!(header("PLQ_MOST_QUESTIONS"), MOST_QUESTIONS);
    assert_eq!(header("PLQ_MOST_TEXT"), MOST_TEXT);
    assert_eq!(header("PLQ_BLOCK_BYTES"), BLOCK_BYTES);
    assert_eq!(header("PLQ_MOST_TREE_IMAGE_BYTES"), MOST_TREE_IMAGE_BYTES);
    assert_eq!(header("PLQ_MOST_IMAGE_BYTES"), MOST_IMAGE_BYTES);
}

#[test]
fn version() {
    assert_eq!(VERSION, env!("CARGO_PKG_VERSION"));
    assert_eq!(defined("PLQ_VERSION_STRING").1, format!("{VERSION:?}"));
    let parts = ["MAJOR", "MINOR", "PATCH"].map(|part| defined(&format!("PLQ_VERSION_{part}")).1);
    assert_eq!(parts.join("."), VERSION);
}

#[test]
fn kinds() {
    let node = Node::ROOT;
    for (name, question) in [
        ("PLQ_PARENT", Question::Parent(node)),
        ("PLQ_FIRST_CHILD", Question::FirstChild(node)),
        ("PLQ_LAST_CHILD", Question::LastChild(node)),
        ("PLQ_NEXT_SIBLING", Question::NextSibling(node)),
        ("PLQ_PREVIOUS_SIBLING", Question::PreviousSibling(node)),
        ("PLQ_DEGREE", Question::Degree(node)),
        ("PLQ_CHILD_RANK", Question::ChildRank(node)),
        ("PLQ_CHILD_NUMBER", Question::ChildNumber { node, number: 1 }),
        ("PLQ_LEAF", Question::Leaf(node)),
        ("PLQ_SIBLING_AT", Question::SiblingAt { node, right: 1 }),
        ("PLQ_METRES", Question::Metres(node)),
    ] {
        assert_eq!(header(name), question.numbers()[0] as usize, "{name}");
    }
}

/// The names of the codes in the header.
fn names_of_codes() -> Vec<&'static str> {
    let lines = HEADER.lines().skip_while(|line| *line != "enum plq_code {").skip(1).take_while(|line| *line != "};");
    lines.filter_map(|line| line.trim_start().split_once(" = ")).map(|(name, _)| name).collect()
}

#[test]
fn codes() {
    let codes = [
        ("PLQ_NO_ROOM", Error::NoRoom),
        ("PLQ_WRONG_SIZE", Error::WrongSize(WrongSize::Unlisted)),
        ("PLQ_NOT_PARENTS", Error::NotParents { entry: 1 }),
        ("PLQ_NOT_STRING", Error::NotString { bit: 1 }),
        ("PLQ_NOT_STRING", Error::EndsTooEarly { bits: 1 }),
        ("PLQ_LEFTOVER_SET", Error::LeftoverSet),
        ("PLQ_WRONG_SUMS", Error::WrongSums { block: 1 }),
        ("PLQ_NOT_ALLOWED", Error::NotAllowed { question: 1 }),
        ("PLQ_NOT_ALLOWED", Error::NoSuchNode { node: 1 }),
        ("PLQ_NOT_ALLOWED", Error::NoSuchNodeAsked { question: 1, node: 1 }),
        ("PLQ_NOT_ALLOWED", Error::NoMetres),
        ("PLQ_NOT_ALLOWED", Error::NoMetresAsked { question: 1 }),
        ("PLQ_TOO_DEEP", Error::TooDeep { node: 1 }),
        ("PLQ_OTHER_TREES", Error::OtherTrees { found: 1, given: 2 }),
        ("PLQ_OTHER_VERSION", Error::OtherVersion),
        ("PLQ_WRONG_HEADER", Error::WrongHeader),
        ("PLQ_WRONG_STRINGS", Error::WrongStrings { block: 1 }),
        ("PLQ_WRONG_COUNTS", Error::WrongCounts { block: 1 }),
        ("PLQ_WRONG_SAMPLES", Error::WrongSamples { block: 3 }),
        ("PLQ_NOT_TEXT", Error::NotText { byte: 1 }),
        ("PLQ_TOO_NESTED", Error::TooNested { byte: 65 }),
    ];
    for (name, error) in codes {
        assert_eq!(header(name), error.code() as usize, "{name}");
    }
    let names = names_of_codes();
    assert_eq!(names.len(), 17);
    for name in names {
        assert!(name == "PLQ_DONE" || codes.iter().any(|(known, _)| *known == name), "no error has the code {name}");
        assert_ne!(header(name), 7, "{name} has the number of a code that is retired");
    }
}

/// Numbers of nodes at which some size changes, and their neighbours.
const NODES: [u32; 17] =
    [1, 2, 3, 125, 126, 127, 3_999, 4_000, 4_001, 7_999, 8_000, 8_001, 8_063, 8_064, 8_065, 65_534, 65_535];

#[test]
fn sizes_are_those_of_the_macros() {
    for nodes in NODES {
        let n = nodes as usize;
        for m in [1, 2, 63, 64, 65, 8_063, 8_064, 8_065, 16_128, 16_129, n].into_iter().filter(|m| *m <= n) {
            assert_eq!(size::image_bytes(n, m), value("PLQ_IMAGE_BYTES", &[n, m]), "n {n}, m {m}");
            let counts = Counts { nodes, runs_of_ones: m as u32 };
            assert_eq!(counts.image_bytes(), size::image_bytes(n, m));
            assert_eq!(counts.image_bytes_with_metres(), size::image_bytes(n, m) + size::metres_bytes(n));
        }
        assert_eq!(size::image_room(n), value("PLQ_IMAGE_ROOM", &[n]));
        assert_eq!(size::metres_bytes(n), value("PLQ_METRES_BYTES", &[n]));
        assert_eq!(size::string_bits(n), value("PLQ_STRING_BITS", &[n]));
        assert_eq!(size::string_bytes(n), value("PLQ_STRING_BYTES", &[n]));
        assert_eq!(size::bytes_of_bits(n), value("PLQ_BYTES_OF_BITS", &[n]));
        assert_eq!(size::listing_numbers(n), value("PLQ_LISTING_NUMBERS", &[n]));
        assert_eq!(size::text_bytes(n), value("PLQ_TEXT_BYTES", &[n]));
    }
    assert_eq!(size::image_room(MOST_NODES), MOST_TREE_IMAGE_BYTES);
    assert_eq!(size::image_room(MOST_NODES) + size::metres_bytes(MOST_NODES), MOST_IMAGE_BYTES);
    assert_eq!(size::string_bits(MOST_NODES), MOST_BITS);
    assert_eq!(size::bytes_of_bits(0), 0);
}

#[test]
fn sizes_are_those_of_the_library() {
    for nodes in NODES {
        let n = nodes as usize;
        for parents in [path(nodes), star(nodes), binary(nodes)] {
            let mut image = vec![0xEE; size::image_room(n) + 1];
            let counts = image_of_parents(&parents, &mut image).unwrap();
            let bytes = counts.image_bytes();
            assert!(bytes <= size::image_room(n));
            assert!(image[bytes..].iter().all(|byte| *byte == 0xEE));
            assert_eq!(check_image(&image[..bytes]), Ok(counts));
            assert_eq!(image_of_parents(&parents, &mut image[..bytes]), Ok(counts));
            assert_eq!(image_of_parents(&parents, &mut image[..bytes - 1]), Err(Error::NoRoom));

            let metres = common::metres(n);
            let mut image = vec![0xEE; size::image_room(n) + size::metres_bytes(n) + 1];
            assert_eq!(image_with_metres(&parents, &metres, &mut image), Ok(counts));
            let bytes = counts.image_bytes_with_metres();
            assert!(image[bytes..].iter().all(|byte| *byte == 0xEE));
            assert_eq!(check_image(&image[..bytes]), Ok(counts));
            assert_eq!(image_with_metres(&parents, &metres, &mut image[..bytes]), Ok(counts));
            assert_eq!(image_with_metres(&parents, &metres, &mut image[..bytes - 1]), Err(Error::NoRoom));
            let mut back = vec![0; n];
            assert_eq!(metres_of_image(&image[..bytes], &mut back), Ok(n));
            assert_eq!(back, metres);
            assert_eq!(metres_of_image(&image[..bytes], &mut back[..n - 1]), Err(Error::NoRoom));

            let mut string = vec![0; size::string_bytes(n)];
            assert_eq!(string_of_parents(&parents, &mut string), Ok(size::string_bits(n)));
            let shorter = string.len() - 1;
            assert_eq!(string_of_parents(&parents, &mut string[..shorter]), Err(Error::NoRoom));
        }

        // a path needs all of the room that is enough for any tree
        let mut image = vec![0; size::image_room(n)];
        image_of_parents(&path(nodes), &mut image).unwrap();
        let one_less = image.len() - 1;
        assert_eq!(image_of_parents(&path(nodes), &mut image[..one_less]), Err(Error::NoRoom));

        // and a star, which is not deep, can be listed whole
        let star = common::image_of(&star(nodes));
        let mut numbers = vec![0; size::listing_numbers(n)];
        assert_eq!(list(&star, 1, &mut numbers), Ok(n));
        let one_less = numbers.len() - 1;
        assert_eq!(list(&star, 1, &mut numbers[..one_less]), Err(Error::NoRoom));

        // and has a text
        let star = common::star(nodes);
        let mut text = vec![0; size::text_bytes(n)];
        assert_eq!(text_of_parents(&star, &mut text), Ok(size::text_bytes(n)));
        let one_less = text.len() - 1;
        assert_eq!(text_of_parents(&star, &mut text[..one_less]), Err(Error::NoRoom));
        let mut back = vec![0; n];
        assert_eq!(parents_of_text(&text, &mut back), Ok(n));
        assert_eq!(back, star);
        assert_eq!(parents_of_text(&text, &mut back[..n - 1]), Err(Error::NoRoom));
    }
}

#[test]
fn no_size_wraps_to_a_small_one() {
    for wrong in [usize::MAX, usize::MAX / 2 + 1] {
        assert!(size::image_room(wrong) > MOST_IMAGE_BYTES);
        assert!(size::metres_bytes(wrong) > MOST_IMAGE_BYTES);
        assert!(size::string_bits(wrong) > MOST_BITS);
        assert!(size::string_bytes(wrong) > MOST_BITS);
        assert!(size::bytes_of_bits(wrong) > MOST_BITS);
        assert!(size::listing_numbers(wrong) > 2 * MOST_NODES);
        assert!(size::text_bytes(wrong) > MOST_TEXT);
    }
}
