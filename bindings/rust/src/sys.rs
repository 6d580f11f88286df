//! The thirteen calls as `include/parlaqen.h` declares them, and all of this crate's unsafe code.

#[repr(C)]
pub(crate) struct Answer {
    pub code: u32,
    pub place: u32,
    pub first: u32,
    pub second: u32,
}

mod c {
    use super::Answer;

    extern "C" {
        pub fn plq_string_of_parents(parents: *const u32, n: usize, bytes: *mut u8, room: usize) -> Answer;
        pub fn plq_parents_of_string(
            bytes: *const u8,
            nbytes: usize,
            bits: usize,
            parents: *mut u32,
            room: usize,
        ) -> Answer;
        pub fn plq_image_of_parents(parents: *const u32, n: usize, image: *mut u8, room: usize) -> Answer;
        pub fn plq_image_with_metres(
            parents: *const u32,
            n: usize,
            metres: *const u32,
            metres_count: usize,
            image: *mut u8,
            room: usize,
        ) -> Answer;
        pub fn plq_parents_of_image(image: *const u8, nbytes: usize, parents: *mut u32, room: usize) -> Answer;
        pub fn plq_metres_of_image(image: *const u8, nbytes: usize, metres: *mut u32, room: usize) -> Answer;
        pub fn plq_check_image(image: *const u8, nbytes: usize) -> Answer;
        pub fn plq_ask(
            image: *const u8,
            nbytes: usize,
            questions: *const i32,
            numbers: usize,
            answers: *mut u32,
            room: usize,
        ) -> Answer;
        pub fn plq_split(
            bytes: *const u8,
            nbytes: usize,
            bits: usize,
            trees: usize,
            starts: *mut u32,
            starts_room: usize,
            sizes: *mut u32,
            sizes_room: usize,
        ) -> Answer;
        pub fn plq_join(
            pack: *mut u8,
            nbytes: usize,
            bits: usize,
            trees: usize,
            parents: *const u32,
            n: usize,
        ) -> Answer;
        pub fn plq_list(image: *const u8, nbytes: usize, node: u32, pairs: *mut u32, room: usize) -> Answer;
        pub fn plq_parents_of_text(text: *const u8, nbytes: usize, parents: *mut u32, room: usize) -> Answer;
        pub fn plq_text_of_parents(parents: *const u32, n: usize, text: *mut u8, room: usize) -> Answer;
    }
}

// Each call takes any bytes and numbers, reads and writes only the lists it is lent, and keeps none of them.
// What it asks of its caller are lists that are there, as long as said, and do not overlap.
macro_rules! lent {
    ($call:ident($($argument:expr),* $(,)?)) => {
        // SAFETY: every pointer comes from a slice and goes with the slice's own length; a slice that is
        // written to is borrowed mutably and so overlaps no other.
        unsafe { c::$call($($argument),*) }
    };
}

pub(crate) fn string_of_parents(parents: &[u32], bytes: &mut [u8]) -> Answer {
    lent!(plq_string_of_parents(parents.as_ptr(), parents.len(), bytes.as_mut_ptr(), bytes.len()))
}

pub(crate) fn parents_of_string(bytes: &[u8], bits: usize, parents: &mut [u32]) -> Answer {
    lent!(plq_parents_of_string(bytes.as_ptr(), bytes.len(), bits, parents.as_mut_ptr(), parents.len()))
}

pub(crate) fn image_of_parents(parents: &[u32], image: &mut [u8]) -> Answer {
    lent!(plq_image_of_parents(parents.as_ptr(), parents.len(), image.as_mut_ptr(), image.len()))
}

pub(crate) fn image_with_metres(parents: &[u32], metres: &[u32], image: &mut [u8]) -> Answer {
    lent!(plq_image_with_metres(
        parents.as_ptr(),
        parents.len(),
        metres.as_ptr(),
        metres.len(),
        image.as_mut_ptr(),
        image.len(),
    ))
}

pub(crate) fn parents_of_image(image: &[u8], parents: &mut [u32]) -> Answer {
    lent!(plq_parents_of_image(image.as_ptr(), image.len(), parents.as_mut_ptr(), parents.len()))
}

pub(crate) fn metres_of_image(image: &[u8], metres: &mut [u32]) -> Answer {
    lent!(plq_metres_of_image(image.as_ptr(), image.len(), metres.as_mut_ptr(), metres.len()))
}

pub(crate) fn check_image(image: &[u8]) -> Answer {
    lent!(plq_check_image(image.as_ptr(), image.len()))
}

pub(crate) fn ask(image: &[u8], questions: &[i32], answers: &mut [u32]) -> Answer {
    lent!(plq_ask(
        image.as_ptr(),
        image.len(),
        questions.as_ptr(),
        questions.len(),
        answers.as_mut_ptr(),
        answers.len(),
    ))
}

pub(crate) fn split(bytes: &[u8], bits: usize, trees: usize, starts: &mut [u32], sizes: &mut [u32]) -> Answer {
    lent!(plq_split(
        bytes.as_ptr(),
        bytes.len(),
        bits,
        trees,
        starts.as_mut_ptr(),
        starts.len(),
        sizes.as_mut_ptr(),
        sizes.len(),
    ))
}

pub(crate) fn join(pack: &mut [u8], bits: usize, trees: usize, parents: &[u32]) -> Answer {
    lent!(plq_join(pack.as_mut_ptr(), pack.len(), bits, trees, parents.as_ptr(), parents.len()))
}

pub(crate) fn list(image: &[u8], node: u32, pairs: &mut [u32]) -> Answer {
    lent!(plq_list(image.as_ptr(), image.len(), node, pairs.as_mut_ptr(), pairs.len()))
}

pub(crate) fn parents_of_text(text: &[u8], parents: &mut [u32]) -> Answer {
    lent!(plq_parents_of_text(text.as_ptr(), text.len(), parents.as_mut_ptr(), parents.len()))
}

pub(crate) fn text_of_parents(parents: &[u32], text: &mut [u8]) -> Answer {
    lent!(plq_text_of_parents(parents.as_ptr(), parents.len(), text.as_mut_ptr(), text.len()))
}
