//! "Numbers a caller gets back".

/// "Each answer is a code, a place and two counts."
#[repr(C)]
#[derive(Clone, Copy, Debug, PartialEq, Eq)]
pub struct Answer {
    pub code: u32,
    pub place: u32,
    pub first: u32,
    pub second: u32,
}

/// The two counts of an answer with code 0.
pub type Counts = (usize, usize);

/// The table of codes, one variant a row and in its order, with document 02's "11, 12, 13, 14, 15 in that order, all
/// where 7 stood", and with 16 and 17, of which "both stand after 10". "Where several hold, the upper row wins": every
/// call of the model asks for them in this order, but for what document 02 says of texts.
#[derive(Clone, Copy, Debug, PartialEq, Eq)]
pub enum Refusal {
    /// A count, a length or a number of blocks is outside its limits.
    WrongSize,
    /// "A block's s or t is wrong"; place: "lowest such block".
    WrongSums { block: usize },
    /// "Versions other than 1 and 2".
    OtherVersion,
    /// "Header numbers, taken together, or a reserved word that no tree of this image length has".
    WrongHeader,
    /// "Strings that no tree with this n and m gives".
    WrongStrings,
    /// "A wrong count of earlier ones or unused payload not zero"; place: "the block, the lowest one of that kind".
    WrongCounts { block: usize },
    /// "Wrong samples"; place as for the counts.
    WrongSamples { block: usize },
    /// "A leftover bit is set".
    LeftoverSet,
    /// "Bits are no tree string (pack: no strings end to end)".
    NotAString { bit: usize },
    /// "The trees in a pack aren't k"; place: "the number found".
    OtherTrees { found: usize },
    /// "Text that is no tree of any depth or size"; place: "the first byte at which it can't be continued, or the
    /// length + 1".
    NotAText { byte: usize },
    /// "A 65th level"; place: "its byte".
    TooManyLevels { byte: usize },
    /// "Not a parent list"; place: "lowest offending entry, from 1".
    NotAParentList { entry: usize },
    /// "Kind, node or argument not allowed"; place: "lowest such question, counted from 1; for a listing 1". And
    /// "question 11 on version 1, and reading its metres back (place 1), are code 8".
    NotAllowed { question: usize },
    /// "Listing too deep"; place: "first node in listing order at depth 64". And "writing a tree of more than 64
    /// levels is code 9, as for the listing of its root".
    TooDeep { node: usize },
    /// "An output has too little room".
    NoRoom,
}

impl Refusal {
    fn code_and_place(self) -> (u32, usize) {
        match self {
            Refusal::WrongSize => (2, 0),
            Refusal::WrongSums { block } => (6, block),
            // "the place is the block", and both are about the header
            Refusal::OtherVersion => (11, 0),
            Refusal::WrongHeader => (12, 0),
            // "for the strings it is the first R1 block"
            Refusal::WrongStrings => (13, 1),
            Refusal::WrongCounts { block } => (14, block),
            Refusal::WrongSamples { block } => (15, block),
            Refusal::LeftoverSet => (5, 0),
            Refusal::NotAString { bit } => (4, bit),
            Refusal::OtherTrees { found } => (10, found),
            Refusal::NotAText { byte } => (16, byte),
            Refusal::TooManyLevels { byte } => (17, byte),
            Refusal::NotAParentList { entry } => (3, entry),
            Refusal::NotAllowed { question } => (8, question),
            Refusal::TooDeep { node } => (9, node),
            Refusal::NoRoom => (1, 0),
        }
    }
}

impl Answer {
    /// "On refusal the counts are 0", "On 0 the place is 0".
    pub fn of(result: Result<Counts, Refusal>) -> Answer {
        let (code, place, (first, second)) = match result {
            Ok(counts) => (0, 0, counts),
            Err(refusal) => {
                let (code, place) = refusal.code_and_place();
                (code, place, (0, 0))
            }
        };
        Answer { code, place: number(place), first: number(first), second: number(second) }
    }
}

/// A count of the model as a number of 32 bits; every one of them fits.
pub fn number(count: usize) -> u32 {
    u32::try_from(count).expect("counts and places of the model stay far below 2^32")
}
