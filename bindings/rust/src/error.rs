use core::fmt;

use crate::{
    size, Question, BLOCK_BYTES, MOST_BITS, MOST_IMAGE_BYTES, MOST_NODES, MOST_QUESTIONS, MOST_TEXT, MOST_TREES,
};

/// The blocks of the smallest image and of the largest.
const LEAST_BLOCKS: usize = size::image_bytes(1, 1) / BLOCK_BYTES;
const MOST_BLOCKS: usize = MOST_IMAGE_BYTES / BLOCK_BYTES;
/// The numbers of a question: kind, node, argument.
pub(crate) const NUMBERS_OF_QUESTION: usize = 3;

/// Why a call was refused, and where. A refused call has changed nothing in any slice lent to it.
///
/// Where several hold, the one further up in this list is given:
///
/// 1. [`WrongSize`](Self::WrongSize)
/// 2. [`WrongSums`](Self::WrongSums)
/// 3. [`OtherVersion`](Self::OtherVersion)
/// 4. [`WrongHeader`](Self::WrongHeader)
/// 5. [`WrongStrings`](Self::WrongStrings)
/// 6. [`WrongCounts`](Self::WrongCounts)
/// 7. [`WrongSamples`](Self::WrongSamples)
/// 8. [`LeftoverSet`](Self::LeftoverSet)
/// 9. [`NotString`](Self::NotString), [`EndsTooEarly`](Self::EndsTooEarly)
/// 10. [`OtherTrees`](Self::OtherTrees)
/// 11. [`NotText`](Self::NotText), [`TooNested`](Self::TooNested): of these two, the one with the
///     earlier byte
/// 12. [`NotParents`](Self::NotParents)
/// 13. [`NotAllowed`](Self::NotAllowed), [`NoSuchNode`](Self::NoSuchNode), [`NoSuchNodeAsked`](Self::NoSuchNodeAsked),
///     [`NoMetres`](Self::NoMetres), [`NoMetresAsked`](Self::NoMetresAsked)
/// 14. [`TooDeep`](Self::TooDeep)
/// 15. [`NoRoom`](Self::NoRoom)
///
/// One size comes later than the list has it: a text of too many nodes is a
/// [`WrongSize`](Self::WrongSize) only where it is one tree on at most 64 levels.
///
/// The variants below are in the order of their codes. Code 7 is retired: no call answers it, and its number is never
/// used again. Codes 11 to 15 say what is wrong with an image whose sums are right and that no tree gives; the parts of
/// an image are in `docs/FORMAT.md` of the repository.
///
/// ```
/// use parlaqen::calls::{check_image, string_of_parents};
/// use parlaqen::{Error, WrongSize};
///
/// // node 4, a child of node 1, comes after a child of node 2
/// let refused = string_of_parents(&[0, 1, 2, 1], &mut [0; 9]).unwrap_err();
/// assert_eq!(refused, Error::NotParents { entry: 4 });
/// assert_eq!((refused.code(), refused.place()), (3, 4));
/// assert_eq!(refused.to_string(), "entry 4: no parent list has this number here");
///
/// let refused = check_image(&[0; 2_559]).unwrap_err();
/// assert_eq!(refused, Error::WrongSize(WrongSize::ImageBytes { bytes: 2_559 }));
/// assert_eq!(refused.to_string(), "an image of 2559 bytes, but an image is whole blocks of 512 bytes");
/// ```
#[derive(Clone, Copy, Debug, PartialEq, Eq, Hash)]
#[non_exhaustive]
pub enum Error {
    /// Code 1: an output has too little room.
    NoRoom,
    /// Code 2: a count or a length is outside its limits, or two do not fit each other.
    WrongSize(WrongSize),
    /// Code 3: the numbers are no parent list, in which the first number is 0; number i, for each later node i, is from
    /// 1 to i - 1 and not below the one before it.
    NotParents {
        /// The lowest offending entry, counted from 1.
        entry: u32,
    },
    /// Code 4: a bit is wrong, so that the bits are no tree string; in a pack, no tree strings end to end.
    NotString {
        /// The first bit, counted from 1, up to which the bits begin no tree string.
        bit: u32,
    },
    /// Code 4 too: no bit is wrong, but the tree, in a pack the last tree, is not over where the bits end.
    EndsTooEarly {
        /// The number of bits; the place of the library is one more, and there is no such bit.
        bits: u32,
    },
    /// Code 5: a bit after the last one, in the same byte, is set.
    LeftoverSet,
    /// Code 6: a block of the image has wrong sums.
    WrongSums {
        /// The lowest such block, counted from 0.
        block: u32,
    },
    /// Code 8, of questions as numbers: the kind, node or argument of one is not allowed.
    NotAllowed {
        /// The lowest such question, counted from 1.
        question: u32,
    },
    /// Code 8, of a list of [`Question`]s: the tree does not have the node of one.
    NoSuchNodeAsked {
        /// The lowest such question, counted from 1.
        question: u32,
        /// Its node.
        node: u32,
    },
    /// Code 8, of a listing or of a question about one node: the tree does not have that node.
    NoSuchNode {
        /// The node as it was given.
        node: u32,
    },
    /// Code 8, of metres that are read back: the image has none, which is not 0 metres.
    NoMetres,
    /// Code 8, of a list of [`Question`]s: one asks for metres, and the image has none.
    NoMetresAsked {
        /// The lowest such question, counted from 1.
        question: u32,
    },
    /// Code 9: the listing, or the text, would go below depth 63.
    TooDeep {
        /// The first node, in the order of the listing, at depth 64.
        node: u32,
    },
    /// Code 10: the pack has another number of trees than was given.
    OtherTrees {
        /// The number of trees found.
        found: u32,
        /// The number of trees given.
        given: usize,
    },
    /// Code 11: all sums of the image are right, but the version in its header is neither 1 nor 2, as with an older or
    /// a newer writer.
    OtherVersion,
    /// Code 12: no tree with an image of this version and length has these header numbers, taken together, or a
    /// reserved word is not zero.
    WrongHeader,
    /// Code 13: the header is right, but no tree with its n and m gives these strings, R1 and R0.
    WrongStrings {
        /// The first block of R1, which is 1, wherever the fault is.
        block: u32,
    },
    /// Code 14: the strings are those of a tree, but a block has a wrong count of earlier ones, or unused payload that
    /// is not zero.
    WrongCounts {
        /// The lowest such block, counted from 0.
        block: u32,
    },
    /// Code 15: all else of the image is right, but a block has wrong samples.
    WrongSamples {
        /// The lowest such block, counted from 0.
        block: u32,
    },
    /// Code 16: the text is not one tree, of whatever depth and size.
    NotText {
        /// The first byte, counted from 1 and with blanks, up to which the text begins no tree. Where
        /// it ends before its tree is over, or has no bracket, this is one more than it has bytes.
        byte: u32,
    },
    /// Code 17: the text opens a 65th level.
    TooNested {
        /// The byte that does, counted from 1 and with blanks.
        byte: u32,
    },
    /// A code that this crate does not know, or code 0, which is no refusal, with counts that cannot be: the archive
    /// that was linked is of another version than this crate.
    Unlisted {
        /// The code as it came.
        code: u32,
        /// The place as it came.
        place: u32,
    },
}

/// Which size is outside its limits, or which two do not fit each other, with their numbers, in an
/// [`Error::WrongSize`].
///
/// The library alone decides that a size is wrong. It does not say which, so this is found afterwards from what it was
/// handed. Where several are wrong, one of them is given.
///
/// ```
/// use parlaqen::{calls::parents_of_string, Error, WrongSize};
///
/// let refused = parents_of_string(&[0xBB, 0x20, 0], 15, &mut [0; 7]).unwrap_err();
/// let size = WrongSize::Bytes { bytes: 3, bits: 15 };
/// assert_eq!(refused, Error::WrongSize(size));
/// assert_eq!(size.to_string(), "3 bytes for 15 bits, but they take exactly 2 bytes");
/// ```
#[derive(Clone, Copy, Debug, PartialEq, Eq, Hash)]
#[non_exhaustive]
pub enum WrongSize {
    /// A parent list of no numbers, or of more than 65,535.
    Nodes {
        /// How many numbers it has.
        nodes: usize,
    },
    /// Metres that are not as many as the nodes of the parent list that was given with them.
    Metres {
        /// How many numbers there are of metres.
        metres: usize,
        /// How many numbers the parent list has.
        nodes: usize,
    },
    /// More bits than 131,071.
    Bits {
        /// How many bits were given.
        bits: usize,
    },
    /// Bytes that are more or fewer than the bits take.
    Bytes {
        /// How many bytes were given.
        bytes: usize,
        /// How many bits were given.
        bits: usize,
    },
    /// Joining: a buffer of fewer bytes than the bits of the pack take.
    TooFewBytes {
        /// How many bytes the buffer has.
        bytes: usize,
        /// How many bits were given.
        bits: usize,
    },
    /// More trees than 256.
    Trees {
        /// How many trees were given.
        trees: usize,
    },
    /// Joining: more trees than 255 in the pack that one more is to be added to.
    TreesBefore {
        /// How many trees were given.
        trees: usize,
    },
    /// Joining: the pack would have more bits than 131,071 with the new tree.
    JoinedBits {
        /// How many bits it would have.
        bits: usize,
    },
    /// An image of more bytes than 293,888.
    ImageTooLong {
        /// How many bytes it has.
        bytes: usize,
    },
    /// An image that is not of whole blocks of 512 bytes.
    ImageBytes {
        /// How many bytes it has.
        bytes: usize,
    },
    /// An image of whole blocks, but of fewer than 5 of them.
    ImageBlocks {
        /// How many blocks it has.
        blocks: usize,
    },
    /// Questions that are not in threes of kind, node and argument.
    QuestionNumbers {
        /// How many numbers there are in all.
        numbers: usize,
    },
    /// More questions than 256 in one call.
    Questions {
        /// How many questions there are.
        questions: usize,
    },
    /// A text of more bytes than 1,048,576.
    TextTooLong {
        /// How many bytes it has.
        bytes: usize,
    },
    /// A text that is one tree, but of more nodes than 65,535.
    TextNodes {
        /// How many nodes it has.
        nodes: usize,
    },
    /// None of these: the archive that was linked is of another version than this crate, with other limits.
    Unlisted,
}

/// What a call was handed, as far as a refusal can be explained from it.
#[derive(Clone, Copy)]
pub(crate) enum Handed<'a> {
    Parents { nodes: usize },
    ParentsAndMetres { nodes: usize, metres: usize },
    String { bytes: usize, bits: usize },
    Pack { bytes: usize, bits: usize, trees: usize },
    PackAndParents { bytes: usize, bits: usize, trees: usize, nodes: usize },
    Image { bytes: usize },
    ImageForMetres { bytes: usize },
    ImageAndNumbers { bytes: usize, numbers: usize },
    ImageAndQuestions { bytes: usize, questions: &'a [Question] },
    ImageAndNode { bytes: usize, node: u32 },
    Text { text: &'a [u8] },
}

impl Handed<'_> {
    /// The first of its sizes that is wrong.
    fn wrong_size(self) -> WrongSize {
        let wrong = match self {
            Self::Parents { nodes } => wrong_nodes(nodes),
            Self::ParentsAndMetres { nodes, metres } => {
                wrong_nodes(nodes).or_else(|| (metres != nodes).then_some(WrongSize::Metres { metres, nodes }))
            }
            Self::String { bytes, bits } => wrong_bits(bits).or_else(|| wrong_bytes(bytes, bits)),
            Self::Pack { bytes, bits, trees } => wrong_bits(bits)
                .or_else(|| wrong_bytes(bytes, bits))
                .or_else(|| (trees > MOST_TREES).then_some(WrongSize::Trees { trees })),
            Self::PackAndParents { bytes, bits, trees, nodes } => wrong_nodes(nodes)
                .or_else(|| wrong_bits(bits))
                .or_else(|| (bytes < size::bytes_of_bits(bits)).then_some(WrongSize::TooFewBytes { bytes, bits }))
                .or_else(|| (trees >= MOST_TREES).then_some(WrongSize::TreesBefore { trees }))
                .or_else(|| {
                    let bits = bits + size::string_bits(nodes);
                    (bits > MOST_BITS).then_some(WrongSize::JoinedBits { bits })
                }),
            Self::Image { bytes } | Self::ImageForMetres { bytes } | Self::ImageAndNode { bytes, .. } => {
                wrong_image(bytes)
            }
            Self::ImageAndNumbers { bytes, numbers } => wrong_image(bytes).or_else(|| wrong_numbers(numbers)),
            Self::ImageAndQuestions { bytes, questions } => {
                wrong_image(bytes).or_else(|| wrong_questions(questions.len()))
            }
            Self::Text { text } => wrong_text(text),
        };
        wrong.unwrap_or(WrongSize::Unlisted)
    }

    /// The number of bits, where bits were handed over.
    fn bits(self) -> Option<usize> {
        match self {
            Self::String { bits, .. } | Self::Pack { bits, .. } | Self::PackAndParents { bits, .. } => Some(bits),
            _ => None,
        }
    }
}

fn wrong_nodes(nodes: usize) -> Option<WrongSize> {
    (!(1..=MOST_NODES).contains(&nodes)).then_some(WrongSize::Nodes { nodes })
}

fn wrong_bits(bits: usize) -> Option<WrongSize> {
    (bits > MOST_BITS).then_some(WrongSize::Bits { bits })
}

fn wrong_bytes(bytes: usize, bits: usize) -> Option<WrongSize> {
    (bytes != size::bytes_of_bits(bits)).then_some(WrongSize::Bytes { bytes, bits })
}

fn wrong_image(bytes: usize) -> Option<WrongSize> {
    let blocks = bytes / BLOCK_BYTES;
    if bytes > MOST_IMAGE_BYTES {
        Some(WrongSize::ImageTooLong { bytes })
    } else if bytes % BLOCK_BYTES != 0 {
        Some(WrongSize::ImageBytes { bytes })
    } else {
        (blocks < LEAST_BLOCKS).then_some(WrongSize::ImageBlocks { blocks })
    }
}

fn wrong_numbers(numbers: usize) -> Option<WrongSize> {
    if numbers % NUMBERS_OF_QUESTION != 0 {
        Some(WrongSize::QuestionNumbers { numbers })
    } else {
        wrong_questions(numbers / NUMBERS_OF_QUESTION)
    }
}

fn wrong_questions(questions: usize) -> Option<WrongSize> {
    (questions > MOST_QUESTIONS).then_some(WrongSize::Questions { questions })
}

fn wrong_text(text: &[u8]) -> Option<WrongSize> {
    let bytes = text.len();
    if bytes > MOST_TEXT {
        return Some(WrongSize::TextTooLong { bytes });
    }
    // it is one tree, and then each of these opens a node
    let nodes = text.iter().filter(|byte| **byte == b'(').count();
    (nodes > MOST_NODES).then_some(WrongSize::TextNodes { nodes })
}

impl Error {
    /// What is said of counts that no call of this crate's version gives, so that they lead to no panic.
    pub(crate) const UNLISTED_COUNTS: Self = Self::Unlisted { code: 0, place: 0 };

    /// The refusal of the library, in the words of a caller who handed this over.
    pub(crate) fn new(code: u32, place: u32, handed: Handed<'_>) -> Self {
        match (code, handed) {
            (1, _) => Self::NoRoom,
            (2, _) => Self::WrongSize(handed.wrong_size()),
            (3, _) => Self::NotParents { entry: place },
            (4, _) => match place.checked_sub(1) {
                Some(bits) if handed.bits() == Some(bits as usize) => Self::EndsTooEarly { bits },
                _ => Self::NotString { bit: place },
            },
            (5, _) => Self::LeftoverSet,
            (6, _) => Self::WrongSums { block: place },
            (8, Handed::ImageAndNode { node, .. }) if place == 1 => Self::NoSuchNode { node },
            (8, Handed::ImageForMetres { .. }) if place == 1 => Self::NoMetres,
            (8, Handed::ImageAndQuestions { questions, .. }) => match question_at(questions, place) {
                Some(question) => Self::NoSuchNodeAsked { question: place, node: question.node().get() },
                None => Self::NotAllowed { question: place },
            },
            (8, _) => Self::NotAllowed { question: place },
            (9, _) => Self::TooDeep { node: place },
            (10, Handed::Pack { trees, .. } | Handed::PackAndParents { trees, .. }) => {
                Self::OtherTrees { found: place, given: trees }
            }
            (11, _) => Self::OtherVersion,
            (12, _) => Self::WrongHeader,
            (13, _) => Self::WrongStrings { block: place },
            (14, _) => Self::WrongCounts { block: place },
            (15, _) => Self::WrongSamples { block: place },
            (16, _) => Self::NotText { byte: place },
            (17, _) => Self::TooNested { byte: place },
            _ => Self::Unlisted { code, place },
        }
    }

    /// The same refusal where so many questions were asked before those that it counts.
    #[cfg(feature = "alloc")]
    pub(crate) fn after_questions(self, asked: usize) -> Self {
        let asked = u32::try_from(asked).unwrap_or(u32::MAX);
        match self {
            Self::NotAllowed { question } => Self::NotAllowed { question: asked.saturating_add(question) },
            Self::NoSuchNodeAsked { question, node } => {
                Self::NoSuchNodeAsked { question: asked.saturating_add(question), node }
            }
            Self::NoMetresAsked { question } => Self::NoMetresAsked { question: asked.saturating_add(question) },
            other => other,
        }
    }

    /// The library's number for this refusal.
    ///
    /// ```
    /// use parlaqen::Error;
    ///
    /// assert_eq!(Error::NotString { bit: 7 }.code(), 4);
    /// assert_eq!(Error::EndsTooEarly { bits: 6 }.code(), 4);
    /// assert_eq!(Error::OtherVersion.code(), 11);
    /// ```
    #[must_use]
    pub const fn code(self) -> u32 {
        match self {
            Self::NoRoom => 1,
            Self::WrongSize(_) => 2,
            Self::NotParents { .. } => 3,
            Self::NotString { .. } | Self::EndsTooEarly { .. } => 4,
            Self::LeftoverSet => 5,
            Self::WrongSums { .. } => 6,
            Self::NotAllowed { .. }
            | Self::NoSuchNodeAsked { .. }
            | Self::NoSuchNode { .. }
            | Self::NoMetres
            | Self::NoMetresAsked { .. } => 8,
            Self::TooDeep { .. } => 9,
            Self::OtherTrees { .. } => 10,
            Self::OtherVersion => 11,
            Self::WrongHeader => 12,
            Self::WrongStrings { .. } => 13,
            Self::WrongCounts { .. } => 14,
            Self::WrongSamples { .. } => 15,
            Self::NotText { .. } => 16,
            Self::TooNested { .. } => 17,
            Self::Unlisted { code, .. } => code,
        }
    }

    /// The library's place for this refusal; 0 where it has none.
    ///
    /// ```
    /// use parlaqen::Error;
    ///
    /// assert_eq!(Error::NoRoom.place(), 0);
    /// assert_eq!(Error::EndsTooEarly { bits: 6 }.place(), 7);
    /// assert_eq!(Error::WrongSamples { block: 4 }.place(), 4);
    /// assert_eq!(Error::NoSuchNode { node: 9 }.place(), 1);
    /// assert_eq!(Error::NoSuchNodeAsked { question: 700, node: 8 }.place(), 700);
    /// ```
    #[must_use]
    pub const fn place(self) -> u32 {
        match self {
            Self::NoRoom | Self::WrongSize(_) | Self::LeftoverSet | Self::OtherVersion | Self::WrongHeader => 0,
            Self::EndsTooEarly { bits } => bits.saturating_add(1),
            Self::NoSuchNode { .. } | Self::NoMetres => 1,
            Self::NotParents { entry: place }
            | Self::NotString { bit: place }
            | Self::WrongSums { block: place }
            | Self::WrongStrings { block: place }
            | Self::WrongCounts { block: place }
            | Self::WrongSamples { block: place }
            | Self::NotAllowed { question: place }
            | Self::NoSuchNodeAsked { question: place, .. }
            | Self::NoMetresAsked { question: place }
            | Self::TooDeep { node: place }
            | Self::OtherTrees { found: place, .. }
            | Self::NotText { byte: place }
            | Self::TooNested { byte: place }
            | Self::Unlisted { place, .. } => place,
        }
    }
}

/// The question of that number, from 1.
pub(crate) fn question_at(questions: &[Question], number: u32) -> Option<Question> {
    questions.get(number.checked_sub(1)? as usize).copied()
}

/// A number of things, in words: `1 byte`, `2 bytes`.
struct Count(usize, &'static str);

impl fmt::Display for Count {
    fn fmt(&self, f: &mut fmt::Formatter<'_>) -> fmt::Result {
        let Self(number, thing) = self;
        write!(f, "{number} {thing}{}", if *number == 1 { "" } else { "s" })
    }
}

impl fmt::Display for Error {
    fn fmt(&self, f: &mut fmt::Formatter<'_>) -> fmt::Result {
        match *self {
            Self::NoRoom => write!(f, "an output has too little room"),
            Self::WrongSize(size) => size.fmt(f),
            Self::NotParents { entry } => write!(f, "entry {entry}: no parent list has this number here"),
            Self::NotString { bit } => write!(f, "bit {bit}: no tree string has these bits up to here"),
            Self::EndsTooEarly { bits } => write!(f, "after {} the tree is not over", Count(bits as usize, "bit")),
            Self::LeftoverSet => write!(f, "a bit after the last one, in the same byte, is set"),
            Self::WrongSums { block } => write!(f, "block {block} of the image has wrong sums"),
            Self::NotAllowed { question } => {
                write!(f, "question {question}: its kind, node or argument is not allowed")
            }
            Self::NoSuchNodeAsked { question, node } => {
                write!(f, "question {question}: the tree has no node {node}")
            }
            Self::NoSuchNode { node } => write!(f, "the tree has no node {node}"),
            Self::NoMetres => write!(f, "the image has no metres"),
            Self::NoMetresAsked { question } => write!(f, "question {question}: the image has no metres"),
            Self::TooDeep { node } => {
                write!(f, "node {node} is at depth 64, but a listing or a text ends at depth 63")
            }
            Self::OtherTrees { found, given } => {
                write!(f, "the pack has {}, not {given}", Count(found as usize, "tree"))
            }
            Self::OtherVersion => {
                write!(f, "the version in the header is neither 1 nor 2, as with an older or a newer writer")
            }
            Self::WrongHeader => {
                write!(
                    f,
                    "no tree with an image of this version and length has these header numbers, or a reserved word is \
                     not zero"
                )
            }
            Self::WrongStrings { block } => {
                write!(f, "the strings, from block {block} on, are not those of a tree with the header's n and m")
            }
            Self::WrongCounts { block } => {
                write!(
                    f,
                    "block {block} of the image has a wrong count of earlier ones, or unused payload that is not zero"
                )
            }
            Self::WrongSamples { block } => write!(f, "block {block} of the image has wrong samples"),
            Self::NotText { byte } => write!(f, "byte {byte}: no text of one tree goes on, or ends, like this"),
            Self::TooNested { byte } => write!(f, "byte {byte}: a 65th level is opened, but a text has at most 64"),
            Self::Unlisted { code, place } => {
                write!(
                    f,
                    "code {code}, place {place}: the archive that was linked is of another version than this crate"
                )
            }
        }
    }
}

impl fmt::Display for WrongSize {
    fn fmt(&self, f: &mut fmt::Formatter<'_>) -> fmt::Result {
        match *self {
            Self::Nodes { nodes } => {
                write!(f, "a parent list of {}, but a tree has 1 to {MOST_NODES} nodes", Count(nodes, "number"))
            }
            Self::Metres { metres, nodes } => {
                write!(f, "{} of metres for {}, but each node has one", Count(metres, "number"), Count(nodes, "node"))
            }
            Self::Bits { bits } => {
                write!(f, "{}, but a tree string or a pack has at most {MOST_BITS}", Count(bits, "bit"))
            }
            Self::Bytes { bytes, bits } => {
                let taken = Count(size::bytes_of_bits(bits), "byte");
                write!(f, "{} for {}, but they take exactly {taken}", Count(bytes, "byte"), Count(bits, "bit"))
            }
            Self::TooFewBytes { bytes, bits } => {
                let taken = Count(size::bytes_of_bits(bits), "byte");
                write!(f, "{} for a pack of {}, but it takes {taken}", Count(bytes, "byte"), Count(bits, "bit"))
            }
            Self::Trees { trees } => write!(f, "{}, but a pack has at most {MOST_TREES}", Count(trees, "tree")),
            Self::TreesBefore { trees } => {
                write!(f, "one more tree after {trees}, but a pack has at most {MOST_TREES}")
            }
            Self::JoinedBits { bits } => {
                write!(f, "the joined pack would have {}, but a pack has at most {MOST_BITS}", Count(bits, "bit"))
            }
            Self::ImageTooLong { bytes } => {
                write!(f, "an image of {}, but an image has at most {MOST_IMAGE_BYTES} bytes", Count(bytes, "byte"))
            }
            Self::ImageBytes { bytes } => {
                write!(f, "an image of {}, but an image is whole blocks of {BLOCK_BYTES} bytes", Count(bytes, "byte"))
            }
            Self::ImageBlocks { blocks } => {
                write!(f, "an image of {}, but an image has {LEAST_BLOCKS} to {MOST_BLOCKS}", Count(blocks, "block"))
            }
            Self::QuestionNumbers { numbers } => {
                write!(f, "{}, but each question takes {NUMBERS_OF_QUESTION}", Count(numbers, "number"))
            }
            Self::Questions { questions } => {
                write!(f, "{}, but one call answers at most {MOST_QUESTIONS}", Count(questions, "question"))
            }
            Self::TextTooLong { bytes } => {
                write!(f, "a text of {}, but a text has at most {MOST_TEXT} bytes", Count(bytes, "byte"))
            }
            Self::TextNodes { nodes } => {
                write!(f, "a text of {}, but a tree has 1 to {MOST_NODES} nodes", Count(nodes, "node"))
            }
            Self::Unlisted => write!(f, "a count or a length is outside its limits, or two do not fit each other"),
        }
    }
}

impl core::error::Error for Error {}

#[cfg(test)]
mod tests {
    use std::string::ToString;

    use super::{Error, Handed, WrongSize};
    use crate::{Node, Question};

    const QUESTIONS: [Question; 2] = [Question::Parent(Node::ROOT), Question::Leaf(Node::ROOT)];

    const HANDED: [Handed; 12] = [
        Handed::Parents { nodes: 7 },
        Handed::ParentsAndMetres { nodes: 7, metres: 7 },
        Handed::String { bytes: 2, bits: 15 },
        Handed::String { bytes: 0, bits: usize::MAX },
        Handed::Pack { bytes: 2, bits: 65_534, trees: 2 },
        Handed::PackAndParents { bytes: 2, bits: u32::MAX as usize - 1, trees: 2, nodes: 7 },
        Handed::Image { bytes: 2_560 },
        Handed::ImageForMetres { bytes: 2_560 },
        Handed::ImageAndNumbers { bytes: 2_560, numbers: 6 },
        Handed::ImageAndQuestions { bytes: 2_560, questions: &QUESTIONS },
        Handed::ImageAndNode { bytes: 2_560, node: 9 },
        Handed::Text { text: b"(()" },
    ];

    #[test]
    fn each_code_and_place_comes_back_as_it_came() {
        for handed in HANDED {
            for code in 1..30 {
                let with_place = !matches!(code, 1 | 2 | 5 | 11 | 12);
                for place in [0, 1, 16, 65_535, u32::MAX] {
                    let error = Error::new(code, place, handed);
                    assert_eq!(error.code(), code);
                    assert_eq!(error.place(), if with_place { place } else { 0 });
                    let said = match error {
                        Error::EndsTooEarly { bits } => bits,
                        Error::NoSuchNode { node } => node,
                        _ => place,
                    };
                    let says_place = with_place && error != Error::NoMetres;
                    assert!(!says_place || error.to_string().contains(&said.to_string()));
                    let of_a_pack = matches!(handed, Handed::Pack { .. } | Handed::PackAndParents { .. });
                    let unlisted = code == 7 || code > 17 || code == 10 && !of_a_pack;
                    assert_eq!(matches!(error, Error::Unlisted { .. }), unlisted, "code {code}");
                }
            }
        }
    }

    #[test]
    fn a_place_after_the_last_bit_is_no_bit() {
        let string = Handed::String { bytes: 2, bits: 15 };
        assert_eq!(Error::new(4, 15, string), Error::NotString { bit: 15 });
        assert_eq!(Error::new(4, 16, string), Error::EndsTooEarly { bits: 15 });
        assert_eq!(Error::new(4, 1, Handed::String { bytes: 0, bits: 0 }), Error::EndsTooEarly { bits: 0 });
    }

    #[test]
    fn a_node_is_named_only_where_there_is_one() {
        let node = Handed::ImageAndNode { bytes: 2_560, node: 9 };
        assert_eq!(Error::new(8, 1, node), Error::NoSuchNode { node: 9 });
        let numbers = Handed::ImageAndNumbers { bytes: 2_560, numbers: 3 };
        assert_eq!(Error::new(8, 1, numbers), Error::NotAllowed { question: 1 });
        assert_eq!(Error::new(8, 1, Handed::ImageForMetres { bytes: 2_560 }), Error::NoMetres);
        let questions = [Question::Parent(Node::ROOT), Question::Leaf(Node::try_from(8).unwrap())];
        let questions = Handed::ImageAndQuestions { bytes: 2_560, questions: &questions };
        assert_eq!(Error::new(8, 2, questions), Error::NoSuchNodeAsked { question: 2, node: 8 });
        for place in [0, 3, u32::MAX] {
            assert_eq!(Error::new(8, place, questions), Error::NotAllowed { question: place });
        }
    }

    /// Sizes at their limits are right to this crate. If a library refused them, its limits would be others.
    #[test]
    fn a_size_that_is_right_is_not_said_to_be_wrong() {
        for handed in [
            Handed::Parents { nodes: 1 },
            Handed::Parents { nodes: 65_535 },
            Handed::ParentsAndMetres { nodes: 1, metres: 1 },
            Handed::ParentsAndMetres { nodes: 65_535, metres: 65_535 },
            Handed::String { bytes: 0, bits: 0 },
            Handed::String { bytes: 16_384, bits: 131_071 },
            Handed::Pack { bytes: 16_384, bits: 131_071, trees: 256 },
            Handed::PackAndParents { bytes: 1, bits: 3, trees: 255, nodes: 1 },
            Handed::PackAndParents { bytes: 99_999, bits: 131_068, trees: 0, nodes: 1 },
            Handed::Image { bytes: 2_560 },
            Handed::Image { bytes: 293_888 },
            Handed::ImageForMetres { bytes: 293_888 },
            Handed::ImageAndNumbers { bytes: 2_560, numbers: 0 },
            Handed::ImageAndNumbers { bytes: 293_888, numbers: 768 },
            Handed::ImageAndQuestions { bytes: 2_560, questions: &[] },
            Handed::ImageAndQuestions { bytes: 293_888, questions: &[QUESTIONS[0]; 256] },
            Handed::ImageAndNode { bytes: 2_560, node: 0 },
            Handed::Text { text: b"" },
            Handed::Text { text: b"(())" },
            Handed::Text { text: &[b'('; 65_535] },
            Handed::Text { text: &[b' '; 1_048_576] },
        ] {
            assert_eq!(Error::new(2, 0, handed), Error::WrongSize(WrongSize::Unlisted));
        }
    }

    #[test]
    fn a_text_is_too_long_before_it_has_too_many_nodes() {
        let size = |text| Error::new(2, 0, Handed::Text { text });
        assert_eq!(size(&[b'('; 1_048_577]), Error::WrongSize(WrongSize::TextTooLong { bytes: 1_048_577 }));
        assert_eq!(size(&[b'('; 1_048_576]), Error::WrongSize(WrongSize::TextNodes { nodes: 1_048_576 }));
        assert_eq!(size(&[b'('; 65_536]), Error::WrongSize(WrongSize::TextNodes { nodes: 65_536 }));
    }

    #[cfg(feature = "alloc")]
    #[test]
    fn a_question_is_counted_from_the_first_one_asked() {
        assert_eq!(Error::NotAllowed { question: 3 }.after_questions(512), Error::NotAllowed { question: 515 });
        let most = Error::NotAllowed { question: u32::MAX };
        assert_eq!(Error::NotAllowed { question: 3 }.after_questions(usize::MAX), most);
        let asked = Error::NoSuchNodeAsked { question: 3, node: 8 };
        assert_eq!(asked.after_questions(512), Error::NoSuchNodeAsked { question: 515, node: 8 });
        assert_eq!(asked.after_questions(usize::MAX), Error::NoSuchNodeAsked { question: u32::MAX, node: 8 });
        let metres = Error::NoMetresAsked { question: 3 };
        assert_eq!(metres.after_questions(512), Error::NoMetresAsked { question: 515 });
        assert_eq!(Error::NoMetres.after_questions(512), Error::NoMetres);
        assert_eq!(Error::WrongHeader.after_questions(512), Error::WrongHeader);
        assert_eq!(Error::WrongCounts { block: 3 }.after_questions(512), Error::WrongCounts { block: 3 });
    }
}
