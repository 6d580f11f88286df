//! The thirteen calls of the linked library.

use crate::compare::call::Call;
use crate::model::answers::Answer;
use crate::pages::{Pages, Placement};
use std::cell::Cell;
use std::ffi::c_int;

extern "C" {
    fn plq_string_of_parents(parents: *const u32, n: usize, bytes: *mut u8, room: usize) -> Answer;
    fn plq_parents_of_string(bytes: *const u8, nbytes: usize, bits: usize, parents: *mut u32, room: usize) -> Answer;
    fn plq_image_of_parents(parents: *const u32, n: usize, image: *mut u8, room: usize) -> Answer;
    fn plq_image_with_metres(
        parents: *const u32,
        n: usize,
        metres: *const u32,
        metres_count: usize,
        image: *mut u8,
        room: usize,
    ) -> Answer;
    fn plq_parents_of_image(image: *const u8, nbytes: usize, parents: *mut u32, room: usize) -> Answer;
    fn plq_metres_of_image(image: *const u8, nbytes: usize, metres: *mut u32, room: usize) -> Answer;
    fn plq_check_image(image: *const u8, nbytes: usize) -> Answer;
    fn plq_ask(
        image: *const u8,
        nbytes: usize,
        questions: *const i32,
        numbers: usize,
        answers: *mut u32,
        room: usize,
    ) -> Answer;
    fn plq_split(
        bytes: *const u8,
        nbytes: usize,
        bits: usize,
        trees: usize,
        starts: *mut u32,
        starts_room: usize,
        sizes: *mut u32,
        sizes_room: usize,
    ) -> Answer;
    fn plq_join(pack: *mut u8, nbytes: usize, bits: usize, trees: usize, parents: *const u32, n: usize) -> Answer;
    fn plq_list(image: *const u8, nbytes: usize, node: u32, pairs: *mut u32, room: usize) -> Answer;
    fn plq_parents_of_text(text: *const u8, nbytes: usize, parents: *mut u32, room: usize) -> Answer;
    fn plq_text_of_parents(parents: *const u32, n: usize, text: *mut u8, room: usize) -> Answer;

    fn signal(number: c_int, handler: extern "C" fn(c_int)) -> usize;
}

/// Reading or writing an unreadable page.
const FAULT: c_int = 11;

thread_local! {
    /// The call being made, for the report if it leaves its lists.
    static NOW_CALLED: Cell<*const Call> = const { Cell::new(std::ptr::null()) };
}

/// What came back from a call.
pub struct Returned {
    pub answer: Answer,
    /// Whether the bytes next to the lent lists are as they were.
    pub neighbours_kept: bool,
}

/// The library, with the memory its lists are lent from.
pub struct Library {
    memory: [Pages; 3],
    calls: usize,
}

impl Library {
    pub fn new() -> Library {
        // SAFETY: the handler only reads what is in `NOW_CALLED`, prints and ends.
        unsafe { signal(FAULT, report_fault) };
        Library { memory: [Pages::new(), Pages::new(), Pages::new()], calls: 0 }
    }

    /// Makes the call; afterwards its lists hold what the library left in them, the inputs too. The placements take
    /// turns, so the same call made three times in a row has seen them all.
    pub fn run(&mut self, call: &mut Call) -> Returned {
        self.calls += 1;
        let placement = match self.calls % 3 {
            0 => Placement::EndsAtPage,
            1 => Placement::StartsAtPage,
            _ => Placement::Between(self.calls / 3),
        };
        NOW_CALLED.set(call);
        let returned = self.run_at(call, placement);
        NOW_CALLED.set(std::ptr::null());
        returned
    }

    /// Reads one byte after an image, as a wrong library could; it shows that this ends the program.
    pub fn read_after(&mut self, image: Vec<u8>) -> u8 {
        let call = Call::CheckImage { image };
        NOW_CALLED.set(&call);
        let Call::CheckImage { image } = &call else { unreachable!("just made") };
        let lent = self.memory[0].lend(image, Placement::EndsAtPage);
        // SAFETY: there is none. The byte is unreadable by design, and the handler ends the program.
        unsafe { lent.add(image.len()).read_volatile() }
    }

    // SAFETY, for each call below: every pointer comes from `lend`, goes with the length of the same list, and
    // stays good until the memory's next use; the three stretches of memory do not overlap.
    fn run_at(&mut self, call: &mut Call, placement: Placement) -> Returned {
        let [first, second, third] = &mut self.memory;
        match call {
            Call::StringOfParents { parents, bytes } => {
                let lent_parents = first.lend(parents, placement);
                let lent_bytes = second.lend(bytes, placement);
                let answer = unsafe { plq_string_of_parents(lent_parents, parents.len(), lent_bytes, bytes.len()) };
                Returned { answer, neighbours_kept: first.take_back(parents) & second.take_back(bytes) }
            }
            Call::ParentsOfString { bytes, bits, parents } => {
                let lent_bytes = first.lend(bytes, placement);
                let lent_parents = second.lend(parents, placement);
                let answer =
                    unsafe { plq_parents_of_string(lent_bytes, bytes.len(), *bits, lent_parents, parents.len()) };
                Returned { answer, neighbours_kept: first.take_back(bytes) & second.take_back(parents) }
            }
            Call::ImageOfParents { parents, image } => {
                let lent_parents = first.lend(parents, placement);
                let lent_image = second.lend(image, placement);
                let answer = unsafe { plq_image_of_parents(lent_parents, parents.len(), lent_image, image.len()) };
                Returned { answer, neighbours_kept: first.take_back(parents) & second.take_back(image) }
            }
            Call::ImageWithMetres { parents, metres, image } => {
                let lent_parents = first.lend(parents, placement);
                let lent_metres = second.lend(metres, placement);
                let lent_image = third.lend(image, placement);
                let answer = unsafe {
                    plq_image_with_metres(
                        lent_parents,
                        parents.len(),
                        lent_metres,
                        metres.len(),
                        lent_image,
                        image.len(),
                    )
                };
                let inputs_kept = first.take_back(parents) & second.take_back(metres);
                Returned { answer, neighbours_kept: inputs_kept & third.take_back(image) }
            }
            Call::ParentsOfImage { image, parents } => {
                let lent_image = first.lend(image, placement);
                let lent_parents = second.lend(parents, placement);
                let answer = unsafe { plq_parents_of_image(lent_image, image.len(), lent_parents, parents.len()) };
                Returned { answer, neighbours_kept: first.take_back(image) & second.take_back(parents) }
            }
            Call::MetresOfImage { image, metres } => {
                let lent_image = first.lend(image, placement);
                let lent_metres = second.lend(metres, placement);
                let answer = unsafe { plq_metres_of_image(lent_image, image.len(), lent_metres, metres.len()) };
                Returned { answer, neighbours_kept: first.take_back(image) & second.take_back(metres) }
            }
            Call::CheckImage { image } => {
                let lent_image = first.lend(image, placement);
                let answer = unsafe { plq_check_image(lent_image, image.len()) };
                Returned { answer, neighbours_kept: first.take_back(image) }
            }
            Call::Ask { image, questions, answers } => {
                let lent_image = first.lend(image, placement);
                let lent_questions = second.lend(questions, placement);
                let lent_answers = third.lend(answers, placement);
                let answer = unsafe {
                    plq_ask(lent_image, image.len(), lent_questions, questions.len(), lent_answers, answers.len())
                };
                let inputs_kept = first.take_back(image) & second.take_back(questions);
                Returned { answer, neighbours_kept: inputs_kept & third.take_back(answers) }
            }
            Call::Split { bytes, bits, trees, starts, sizes } => {
                let lent_bytes = first.lend(bytes, placement);
                let lent_starts = second.lend(starts, placement);
                let lent_sizes = third.lend(sizes, placement);
                let answer = unsafe {
                    plq_split(
                        lent_bytes,
                        bytes.len(),
                        *bits,
                        *trees,
                        lent_starts,
                        starts.len(),
                        lent_sizes,
                        sizes.len(),
                    )
                };
                let outputs_kept = second.take_back(starts) & third.take_back(sizes);
                Returned { answer, neighbours_kept: first.take_back(bytes) & outputs_kept }
            }
            Call::Join { pack, bits, trees, parents } => {
                let lent_pack = first.lend(pack, placement);
                let lent_parents = second.lend(parents, placement);
                let answer = unsafe { plq_join(lent_pack, pack.len(), *bits, *trees, lent_parents, parents.len()) };
                Returned { answer, neighbours_kept: first.take_back(pack) & second.take_back(parents) }
            }
            Call::List { image, node, pairs } => {
                let lent_image = first.lend(image, placement);
                let lent_pairs = second.lend(pairs, placement);
                let answer = unsafe { plq_list(lent_image, image.len(), *node, lent_pairs, pairs.len()) };
                Returned { answer, neighbours_kept: first.take_back(image) & second.take_back(pairs) }
            }
            Call::ParentsOfText { text, parents } => {
                let lent_text = first.lend(text, placement);
                let lent_parents = second.lend(parents, placement);
                let answer = unsafe { plq_parents_of_text(lent_text, text.len(), lent_parents, parents.len()) };
                Returned { answer, neighbours_kept: first.take_back(text) & second.take_back(parents) }
            }
            Call::TextOfParents { parents, text } => {
                let lent_parents = first.lend(parents, placement);
                let lent_text = second.lend(text, placement);
                let answer = unsafe { plq_text_of_parents(lent_parents, parents.len(), lent_text, text.len()) };
                Returned { answer, neighbours_kept: first.take_back(parents) & second.take_back(text) }
            }
        }
    }
}

impl Default for Library {
    fn default() -> Library {
        Library::new()
    }
}

/// Ends the program, after a report of the call that touched an unreadable page.
extern "C" fn report_fault(_: c_int) {
    // SAFETY: the pointer is either null or that of a call which `run` is still busy with.
    match unsafe { NOW_CALLED.get().as_ref() } {
        Some(call) => println!("\nthis call touched memory that was not lent to it:\n  {call}"),
        None => println!("\nthe comparison itself touched memory that it must not"),
    }
    std::process::exit(1);
}
