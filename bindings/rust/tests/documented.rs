//! Every public item of the crate has an example in its documentation, methods and constants too.

use std::fs;
use std::path::Path;

/// How the line of a public item begins, up to its name.
const ITEMS: [&str; 7] =
    ["pub fn ", "pub const fn ", "pub const ", "pub struct ", "pub enum ", "pub type ", "pub mod "];

/// Has the comment above line `at` an example?
fn has_example(lines: &[&str], at: usize) -> bool {
    let above = lines[..at].iter().rev().map(|line| line.trim());
    let mut comment = above.take_while(|line| line.starts_with("///") || line.starts_with("#["));
    comment.any(|line| line == "/// ```")
}

#[test]
fn every_public_item_has_an_example() {
    let src = Path::new(env!("CARGO_MANIFEST_DIR")).join("src");
    let mut items = 0;
    for file in fs::read_dir(&src).unwrap() {
        let path = file.unwrap().path();
        if path.ends_with("sys.rs") {
            continue; // nothing in it is public
        }
        let text = fs::read_to_string(&path).unwrap();
        let lines: Vec<&str> = text.lines().collect();
        for (at, line) in lines.iter().enumerate() {
            let Some(rest) = ITEMS.iter().find_map(|start| line.trim_start().strip_prefix(start)) else { continue };
            let documented = if line.contains("pub mod ") {
                let module = src.join(rest.trim_end_matches(';')).with_extension("rs");
                fs::read_to_string(module).unwrap().lines().any(|line| line == "//! ```")
            } else {
                has_example(&lines, at)
            };
            assert!(documented, "{}:{}: no example: {line}", path.display(), at + 1);
            items += 1;
        }
    }
    assert!(items > 80, "only {items} items were found");
}
