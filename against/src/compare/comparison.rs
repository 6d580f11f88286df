//! Holds what the library does against what the model says.

use super::call::{Call, Part};
use crate::library::Returned;
use crate::model::answers::Answer;
use std::collections::BTreeMap;

/// What is compared with the model: the library, or a wrong function around it.
pub type Subject<'a> = dyn FnMut(&mut Call) -> Returned + 'a;

/// How often each call, by its name, answered with each code.
pub type CodeCounts = BTreeMap<(&'static str, u32), u64>;

/// Said when a group need not go on.
pub struct Enough;

/// How long a group goes on.
#[derive(Clone, Copy)]
pub struct Limits {
    pub differences: usize,
    pub comparisons: u64,
}

/// What the library answered and left in the lists.
pub struct Compared {
    pub answer: Answer,
    pub call: Call,
}

/// The comparisons of one group.
pub struct Comparison<'a> {
    subject: &'a mut Subject<'a>,
    limits: Limits,
    /// One for each call whose answer and lists were all compared.
    pub count: u64,
    /// How many of them had which code.
    pub codes: CodeCounts,
    /// A text for each difference.
    pub differences: Vec<String>,
}

impl<'a> Comparison<'a> {
    pub fn new(subject: &'a mut Subject<'a>, limits: Limits) -> Comparison<'a> {
        Comparison { subject, limits, count: 0, codes: CodeCounts::new(), differences: Vec::new() }
    }

    /// Makes the call both ways and compares every field of the answer and every element of every list, the inputs too.
    pub fn compare(&mut self, call: Call) -> Result<Compared, Enough> {
        let mut by_model = call.clone();
        let answer = by_model.by_model();
        self.expect(call, answer, by_model)
    }

    /// Makes the call and compares with the answer and the lists given.
    pub fn expect(&mut self, call: Call, answer: Answer, after: Call) -> Result<Compared, Enough> {
        if self.count == self.limits.comparisons {
            return Err(Enough);
        }
        let mut by_library = call.clone();
        let returned = (self.subject)(&mut by_library);
        self.count += 1;
        *self.codes.entry((call.name(), returned.answer.code)).or_default() += 1;
        if returned.answer != answer || by_library != after || !returned.neighbours_kept {
            let mut text = format!(
                "  call     {call}\n  library  {}\n  model    {}",
                answer_text(returned.answer),
                answer_text(answer)
            );
            text += &lists_text(&by_library, &after);
            if !returned.neighbours_kept {
                text += "\n  the library changed bytes next to a lent list";
            }
            self.note(text)?;
        }
        Ok(Compared { answer: returned.answer, call: by_library })
    }

    /// Something that demands 1 to 3 say about the library itself. It is no comparison and is not counted as one.
    pub fn demand(&mut self, holds: bool, what: &str, compared: &Compared) -> Result<(), Enough> {
        if !holds {
            let answer = answer_text(compared.answer);
            self.note(format!("  demand   {what}\n  after    {}\n  answer   {answer}", compared.call))?;
        }
        Ok(())
    }

    fn note(&mut self, text: String) -> Result<(), Enough> {
        self.differences.push(format!("difference at comparison {}\n{text}", self.count));
        if self.differences.len() == self.limits.differences {
            return Err(Enough);
        }
        Ok(())
    }
}

fn answer_text(answer: Answer) -> String {
    let Answer { code, place, first, second } = answer;
    format!("code {code} place {place} counts {first} {second}")
}

/// For each list that differs, its name and the first place where it does.
fn lists_text(library: &Call, model: &Call) -> String {
    let mut text = String::new();
    for ((name, left), (_, right)) in library.parts().iter().zip(&model.parts()) {
        let place = match (left, right) {
            (Part::Bytes(left), Part::Bytes(right)) => first_difference(left, right),
            (Part::Words(left), Part::Words(right)) => first_difference(left, right),
            (Part::Signed(left), Part::Signed(right)) => first_difference(left, right),
            _ => None,
        };
        if let Some(place) = place {
            text += &format!("\n  after it {name} {place}");
        }
    }
    text
}

fn first_difference<T: PartialEq + std::fmt::Display>(left: &[T], right: &[T]) -> Option<String> {
    let index = (0..left.len()).find(|&index| left[index] != right[index])?;
    Some(format!("[{index}]: library {}, model {}", left[index], right[index]))
}
