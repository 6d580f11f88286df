//! What is stored as the output of the program `cases` is what the model prints for its script. The gate holds the
//! program itself against the stored output.

use against::script::printed;
use std::fs;
use std::path::Path;

fn read(name: &str) -> String {
    let path = Path::new(env!("CARGO_MANIFEST_DIR")).join("../crates/cases").join(name);
    fs::read_to_string(&path).unwrap_or_else(|problem| panic!("{}: {problem}", path.display()))
}

#[test]
fn the_stored_output_is_the_models() {
    let (stored, model) = (read("stdout"), printed(&read("stdin")));
    for (index, (one, other)) in stored.lines().zip(model.lines()).enumerate() {
        assert_eq!(one, other, "line {} of crates/cases/stdout, as stored and by the model", index + 1);
    }
    assert_eq!(stored.len(), model.len(), "bytes of crates/cases/stdout, as stored and by the model");
}
