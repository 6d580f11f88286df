//! What several tests need. Each of them uses only a part of it.
#![allow(dead_code)]

/// The tree T of `docs/FORMAT.md`.
pub const T: [u32; 7] = [0, 1, 1, 1, 2, 2, 4];

/// The metres of T's nodes, as there.
pub const METRES_OF_T: [u32; 7] = [10, 20, 30, 40, 50, 60, 70];

/// T's image.
pub fn image_of_t() -> Vec<u8> {
    image_of(&T)
}

/// T's image with metres.
pub fn image_of_t_with_metres() -> Vec<u8> {
    image_with_metres_of(&T, &METRES_OF_T)
}

/// The image of a parent list.
pub fn image_of(parents: &[u32]) -> Vec<u8> {
    let mut image = vec![0; parlaqen::size::image_room(parents.len())];
    let counts = parlaqen::calls::image_of_parents(parents, &mut image).unwrap();
    image.truncate(counts.image_bytes());
    image
}

/// The image of a parent list and of metres.
pub fn image_with_metres_of(parents: &[u32], metres: &[u32]) -> Vec<u8> {
    let nodes = parents.len();
    let mut image = vec![0; parlaqen::size::image_room(nodes) + parlaqen::size::metres_bytes(nodes)];
    let counts = parlaqen::calls::image_with_metres(parents, metres, &mut image).unwrap();
    image.truncate(counts.image_bytes_with_metres());
    image
}

/// A number of metres for each of so many nodes: no two are the same, and all of the 32 bits are used.
pub fn metres(nodes: usize) -> Vec<u32> {
    (0..nodes as u32).map(|i| u32::MAX - i.wrapping_mul(2_654_435_761)).collect()
}

/// Each node below the one before it.
pub fn path(nodes: u32) -> Vec<u32> {
    (0..nodes).collect()
}

/// All other nodes below the first one.
pub fn star(nodes: u32) -> Vec<u32> {
    (0..nodes).map(|i| u32::from(i > 0)).collect()
}

/// Two nodes below each, as long as there are nodes.
pub fn binary(nodes: u32) -> Vec<u32> {
    (0..nodes).map(|i| i.div_ceil(2)).collect()
}

/// Some tree of so many nodes, the same for the same seed.
pub fn random(nodes: u32, seed: u64) -> Vec<u32> {
    let mut state = seed;
    let mut below = |end: u32| {
        state = state.wrapping_mul(6_364_136_223_846_793_005).wrapping_add(1_442_695_040_888_963_407);
        ((state >> 33) % u64::from(end)) as u32
    };
    let mut parents = vec![0];
    let mut parent = 1;
    for node in 2..=nodes {
        // mostly the same parent again or the next one, seldom one further on, and never the node itself
        let step = [0, 0, 0, 1, 1, 1, 2, 3][below(8) as usize];
        parent = (parent + step).min(node - 1);
        parents.push(parent);
    }
    parents
}
