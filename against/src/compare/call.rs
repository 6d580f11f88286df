//! A call of the library with everything lent to it.

use crate::model::answers::Answer;
use crate::model::calls;
use std::fmt;

/// One call. Every list is owned, so a copy of the call can be made before it and compared with it afterwards.
#[derive(Clone, Debug, PartialEq, Eq)]
pub enum Call {
    StringOfParents { parents: Vec<u32>, bytes: Vec<u8> },
    ParentsOfString { bytes: Vec<u8>, bits: usize, parents: Vec<u32> },
    ImageOfParents { parents: Vec<u32>, image: Vec<u8> },
    ImageWithMetres { parents: Vec<u32>, metres: Vec<u32>, image: Vec<u8> },
    ParentsOfImage { image: Vec<u8>, parents: Vec<u32> },
    MetresOfImage { image: Vec<u8>, metres: Vec<u32> },
    CheckImage { image: Vec<u8> },
    Ask { image: Vec<u8>, questions: Vec<i32>, answers: Vec<u32> },
    Split { bytes: Vec<u8>, bits: usize, trees: usize, starts: Vec<u32>, sizes: Vec<u32> },
    Join { pack: Vec<u8>, bits: usize, trees: usize, parents: Vec<u32> },
    List { image: Vec<u8>, node: u32, pairs: Vec<u32> },
    ParentsOfText { text: Vec<u8>, parents: Vec<u32> },
    TextOfParents { parents: Vec<u32>, text: Vec<u8> },
}

/// Something lent or passed with a call.
pub enum Part<'a> {
    Bytes(&'a [u8]),
    Words(&'a [u32]),
    Signed(&'a [i32]),
    Number(usize),
}

impl Call {
    /// What the model answers; afterwards the lists hold what the model leaves in them.
    pub fn by_model(&mut self) -> Answer {
        Answer::of(match self {
            Call::StringOfParents { parents, bytes } => calls::string_of_parents(parents, bytes),
            Call::ParentsOfString { bytes, bits, parents } => calls::parents_of_string(bytes, *bits, parents),
            Call::ImageOfParents { parents, image } => calls::image_of_parents(parents, image),
            Call::ImageWithMetres { parents, metres, image } => calls::image_with_metres(parents, metres, image),
            Call::ParentsOfImage { image, parents } => calls::parents_of_image(image, parents),
            Call::MetresOfImage { image, metres } => calls::metres_of_image(image, metres),
            Call::CheckImage { image } => calls::check_image(image),
            Call::Ask { image, questions, answers } => calls::ask(image, questions, answers),
            Call::Split { bytes, bits, trees, starts, sizes } => calls::split(bytes, *bits, *trees, starts, sizes),
            Call::Join { pack, bits, trees, parents } => calls::join(pack, *bits, *trees, parents),
            Call::List { image, node, pairs } => calls::list(image, *node, pairs),
            Call::ParentsOfText { text, parents } => calls::parents_of_text(text, parents),
            Call::TextOfParents { parents, text } => calls::text_of_parents(parents, text),
        })
    }

    /// Its name in the library.
    pub fn name(&self) -> &'static str {
        match self {
            Call::StringOfParents { .. } => "plq_string_of_parents",
            Call::ParentsOfString { .. } => "plq_parents_of_string",
            Call::ImageOfParents { .. } => "plq_image_of_parents",
            Call::ImageWithMetres { .. } => "plq_image_with_metres",
            Call::ParentsOfImage { .. } => "plq_parents_of_image",
            Call::MetresOfImage { .. } => "plq_metres_of_image",
            Call::CheckImage { .. } => "plq_check_image",
            Call::Ask { .. } => "plq_ask",
            Call::Split { .. } => "plq_split",
            Call::Join { .. } => "plq_join",
            Call::List { .. } => "plq_list",
            Call::ParentsOfText { .. } => "plq_parents_of_text",
            Call::TextOfParents { .. } => "plq_text_of_parents",
        }
    }

    /// All that goes with it, in the order of the library's header.
    pub fn parts(&self) -> Vec<(&'static str, Part<'_>)> {
        use Part::{Bytes, Number, Signed, Words};
        match self {
            Call::StringOfParents { parents, bytes } => {
                vec![("parents", Words(parents)), ("bytes", Bytes(bytes))]
            }
            Call::ParentsOfString { bytes, bits, parents } => {
                vec![("bytes", Bytes(bytes)), ("bits", Number(*bits)), ("parents", Words(parents))]
            }
            Call::ImageOfParents { parents, image } => {
                vec![("parents", Words(parents)), ("image", Bytes(image))]
            }
            Call::ImageWithMetres { parents, metres, image } => {
                vec![("parents", Words(parents)), ("metres", Words(metres)), ("image", Bytes(image))]
            }
            Call::ParentsOfImage { image, parents } => {
                vec![("image", Bytes(image)), ("parents", Words(parents))]
            }
            Call::MetresOfImage { image, metres } => {
                vec![("image", Bytes(image)), ("metres", Words(metres))]
            }
            Call::CheckImage { image } => vec![("image", Bytes(image))],
            Call::Ask { image, questions, answers } => {
                let questions = ("questions", Signed(questions));
                vec![("image", Bytes(image)), questions, ("answers", Words(answers))]
            }
            Call::Split { bytes, bits, trees, starts, sizes } => vec![
                ("bytes", Bytes(bytes)),
                ("bits", Number(*bits)),
                ("trees", Number(*trees)),
                ("starts", Words(starts)),
                ("sizes", Words(sizes)),
            ],
            Call::Join { pack, bits, trees, parents } => vec![
                ("pack", Bytes(pack)),
                ("bits", Number(*bits)),
                ("trees", Number(*trees)),
                ("parents", Words(parents)),
            ],
            Call::List { image, node, pairs } => {
                let node = ("node", Number(*node as usize));
                vec![("image", Bytes(image)), node, ("pairs", Words(pairs))]
            }
            Call::ParentsOfText { text, parents } => {
                vec![("text", Bytes(text)), ("parents", Words(parents))]
            }
            Call::TextOfParents { parents, text } => {
                vec![("parents", Words(parents)), ("text", Bytes(text))]
            }
        }
    }
}

/// The call as text, long lists shortened.
impl fmt::Display for Call {
    fn fmt(&self, out: &mut fmt::Formatter<'_>) -> fmt::Result {
        let parts: Vec<String> = self.parts().iter().map(|(name, part)| format!("{name} {part}")).collect();
        write!(out, "{}({})", self.name(), parts.join(", "))
    }
}

impl fmt::Display for Part<'_> {
    fn fmt(&self, out: &mut fmt::Formatter<'_>) -> fmt::Result {
        match self {
            Part::Bytes(bytes) => out.write_str(&shortened(bytes, |byte| format!("{byte:02X}"))),
            Part::Words(words) => out.write_str(&shortened(words, u32::to_string)),
            Part::Signed(numbers) => out.write_str(&shortened(numbers, i32::to_string)),
            Part::Number(number) => write!(out, "{number}"),
        }
    }
}

/// The first elements of a list and its length.
fn shortened<T>(list: &[T], text: impl Fn(&T) -> String) -> String {
    const SHOWN: usize = 12;
    let first: Vec<String> = list.iter().take(SHOWN).map(text).collect();
    let more = if list.len() > SHOWN { " .." } else { "" };
    format!("[{}{more}; {}]", first.join(" "), list.len())
}
