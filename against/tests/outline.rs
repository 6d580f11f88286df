//! The program `outline`, started on images that the model made, compared with what the model prints.

use against::compare::layout::{with_words, Layout};
use against::compare::random::Random;
use against::compare::shapes::{parent_list, Shape, SHAPES};
use against::compare::twelve_cases::{image_of_t, image_of_t_with_metres};
use against::model::images::{image_of_tree, seal, BLOCK_BYTES};
use against::model::outline::outline;
use against::model::trees::Tree;
use std::io::{ErrorKind, Write};
use std::path::{Path, PathBuf};
use std::process::{Command, Stdio};
use std::thread;

fn root() -> PathBuf {
    Path::new(env!("CARGO_MANIFEST_DIR")).join("..")
}

/// What the program prints for this input.
fn printed(input: &[u8]) -> String {
    let mut program = Command::new(root().join("tools/run-program"))
        .arg("outline")
        .stdin(Stdio::piped())
        .stdout(Stdio::piped())
        .spawn()
        .expect("tools/run-program starts");
    let mut standard_input = program.stdin.take().expect("piped");
    let output = thread::scope(|scope| {
        scope.spawn(move || match standard_input.write_all(input) {
            // it need not read on when there is too much
            Err(problem) if problem.kind() == ErrorKind::BrokenPipe => {}
            other => other.expect("the program reads its input"),
        });
        program.wait_with_output().expect("the program ends")
    });
    assert!(output.status.code().is_some(), "ended by a signal: {}", output.status);
    String::from_utf8(output.stdout).expect("plain text")
}

fn tree(shape: Shape, n: usize) -> Tree {
    Tree::of_parent_list(&parent_list(shape, n, &mut Random::new(n as u64))).expect("made as a tree")
}

fn image(shape: Shape, n: usize) -> Vec<u8> {
    image_of_tree(&tree(shape, n), None)
}

/// An image with metres that are made from the numbers of the nodes.
fn measured(shape: Shape, n: usize, metres: fn(u32) -> u32) -> Vec<u8> {
    let metres: Vec<u32> = (1..).take(n).map(metres).collect();
    image_of_tree(&tree(shape, n), Some(&metres))
}

/// Metres of ten digits, the greatest among them.
fn ten_digits(node: u32) -> u32 {
    u32::MAX - (node - 1) * 50_000
}

/// The first star whose image with metres has so many blocks.
fn star_of_blocks(blocks: usize) -> usize {
    (2..).find(|&n| Layout::of(n, 2, true).blocks() == blocks).expect("images grow block by block")
}

/// Images with metres: what is printed of them, and how many blocks are read.
fn images_with_metres() -> Vec<(String, Vec<u8>)> {
    let mut images = vec![("T with metres".to_string(), image_of_t_with_metres())];
    for shape in SHAPES {
        images.push((format!("{shape:?} of 50 with metres"), measured(shape, 50, |node| node * node)));
    }
    for (shape, n) in [
        (Shape::Path, 1),
        (Shape::Path, 64),
        (Shape::Path, 65),
        (Shape::Star, 125),
        (Shape::Star, 126),
        (Shape::Star, 127),
        (Shape::Regular, 3_999),
        (Shape::Regular, 4_000),
        (Shape::Star, 4_000),
        (Shape::Regular, 4_001),
        (Shape::Path, 4_000),
        (Shape::Even, 65_535),
    ] {
        images.push((format!("{shape:?} of {n} with metres of ten digits"), measured(shape, n, ten_digits)));
        images.push((format!("{shape:?} of {n} with 0 metres each"), measured(shape, n, |_| 0)));
    }
    let over = star_of_blocks(97);
    for (n, blocks) in [(star_of_blocks(96), 96), (over - 1, 96), (over, 97)] {
        let star = measured(Shape::Star, n, ten_digits);
        assert_eq!(star.len(), blocks * BLOCK_BYTES, "a star of {n} with metres");
        images.push((format!("a star of {n} with metres, {blocks} blocks"), star));
    }
    images
}

/// Images with a word or two changed and the sums made right: each code from 11 to 15.
fn images_with_faults() -> Vec<(String, Vec<u8>)> {
    let (t, star, path) = (image_of_t(), image(Shape::Star, 4_000), image(Shape::Path, 8_065));
    let measured = image_of_t_with_metres();
    let images = [
        ("T of version 0", with_words(&t, &[(0, 0, 0)])),
        ("T of version 2 without metres", with_words(&t, &[(0, 0, 2)])),
        ("T of version 3", with_words(&t, &[(0, 0, 3)])),
        ("T of version 1 with metres", with_words(&measured, &[(0, 0, 1)])),
        ("T of version 3 with metres", with_words(&measured, &[(0, 0, 3)])),
        ("T with metres that are not counted", with_words(&measured, &[(0, 3, 5)])),
        ("T with metres and a word after them", with_words(&measured, &[(5, 7, 1)])),
        ("T with metres and the last word after them", with_words(&measured, &[(5, 125, 1)])),
        ("T with other metres", with_words(&measured, &[(5, 0, u32::MAX), (5, 6, 0)])),
        ("T with metres and a wrong sample", with_words(&measured, &[(3, 0, 2)])),
        ("T with m = 1", with_words(&t, &[(0, 2, 1)])),
        ("T with a reserved word set", with_words(&t, &[(0, 125, 1)])),
        ("T without R1", with_words(&t, &[(1, 1, 0)])),
        ("T with a wrong count", with_words(&t, &[(2, 0, 1)])),
        ("T with a word after the samples", with_words(&t, &[(4, 125, 1)])),
        ("T with a wrong sample", with_words(&t, &[(3, 0, 2)])),
        ("T with a wrong sample, and a word after those in the next block", with_words(&t, &[(3, 0, 2), (4, 1, 1)])),
        ("T without R0 and with a wrong count", with_words(&t, &[(2, 1, 0), (1, 0, 1)])),
        ("a star with 3,999 nodes in its header", with_words(&star, &[(0, 1, 3_999)])),
        ("a star with a wrong count in the second block of R0", with_words(&star, &[(3, 0, 0)])),
        ("a path with 8,064 for m in its header", with_words(&path, &[(0, 2, 8_064)])),
        ("a path with wrong samples in both second blocks", with_words(&path, &[(10, 0, 0), (8, 0, 0)])),
        ("a path with a wrong sample, and a word after the last", with_words(&path, &[(7, 0, 0), (10, 1, 1)])),
    ];
    images.map(|(name, image)| (name.to_string(), image)).to_vec()
}

/// Some hundred inputs: every shape, the limits of the listing and of the input, with metres and without, and every
/// refusal.
fn inputs() -> Vec<(String, Vec<u8>)> {
    let mut inputs = vec![("T".to_string(), image_of_t())];
    let any_shape = SHAPES.map(|shape| (shape, 50));
    let limits = [
        (Shape::Path, 1),
        (Shape::Path, 63),
        (Shape::Path, 64),
        (Shape::Path, 65),
        (Shape::Comb, 300),
        (Shape::Regular, 3_999),
        (Shape::Star, 4_000),
        (Shape::Regular, 4_000),
        (Shape::Regular, 4_001),
        (Shape::Path, 4_000),
        (Shape::Path, 4_001),
        (Shape::Path, 65_535),
        (Shape::Even, 65_535),
    ];
    for (shape, n) in any_shape.into_iter().chain(limits) {
        inputs.push((format!("{shape:?} of {n}"), image(shape, n)));
    }
    let below = [0, 1, 511, 512, 2_048, 2_559, 2_560, 2_561, 27_136, 27_648];
    let above = [49_151, 49_152, 49_153, 49_664, 65_536, 293_888, 294_400];
    for length in below.into_iter().chain(above) {
        let mut zeros = vec![0; length];
        inputs.push((format!("{length} zeros"), zeros.clone()));
        if length % BLOCK_BYTES == 0 {
            seal(&mut zeros);
            inputs.push((format!("{length} zeros with right sums"), zeros));
        }
    }
    for (name, image) in [
        ("the largest image without metres", image(Shape::Path, 65_535)),
        ("an image of 96 blocks", measured(Shape::Star, star_of_blocks(96), ten_digits)),
    ] {
        inputs.push((format!("{name} and a byte"), [image, vec![0]].concat()));
    }
    for (name, whole, block) in [("T", image_of_t(), 3), ("T with metres", image_of_t_with_metres(), 5)] {
        let mut damaged = whole.clone();
        damaged[block * BLOCK_BYTES + 100] ^= 4;
        inputs.push((format!("{name} with a bit changed in block {block}"), damaged.clone()));
        seal(&mut damaged);
        inputs.push((format!("{name} with that bit and right sums"), damaged));
        inputs.push((format!("{name} twice"), whole.repeat(2)));
    }
    inputs.extend(images_with_metres());
    inputs.extend(images_with_faults());
    inputs
}

#[test]
fn outline_prints_what_the_model_prints() {
    let program = root().join("crates/outline/out/outline");
    assert!(program.is_file(), "{} is missing: `rt ci` makes it, and `rt run` in crates/outline", program.display());
    let inputs = inputs();
    for (name, input) in &inputs {
        let (program, model) = (printed(input), outline(input));
        // the first line that differs, not thousands of them
        let differing = program.lines().zip(model.lines()).find(|(one, other)| one != other);
        assert_eq!(differing, None, "outline of {name}: a line of the program and of the model");
        assert!(
            program == model,
            "outline of {name}: the program printed {} bytes, the model {}",
            program.len(),
            model.len()
        );
    }
    println!("outline: {} inputs, differences 0", inputs.len());
}
