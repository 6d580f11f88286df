//! Every deliberately wrong function is found, and so is a call that reads one byte after a list.

use against::compare::twelve_cases::image_of_t;
use against::compare::wrong::find_all_wrong;
use against::library::Library;
use std::env;
use std::process::{Command, ExitCode};

/// With this word the program is the one that reads after a list.
const READ_AFTER: &str = "read-after-a-list";

fn main() -> ExitCode {
    if env::args().any(|word| word == READ_AFTER) {
        println!("read {}", Library::new().read_after(image_of_t()));
        return ExitCode::SUCCESS;
    }
    let missed = find_all_wrong() + usize::from(!reading_after_is_noticed());
    ExitCode::from(u8::from(missed > 0))
}

fn reading_after_is_noticed() -> bool {
    let this_program = env::current_exe().expect("has a path");
    let output = Command::new(this_program).arg(READ_AFTER).output().expect("starts");
    let text = String::from_utf8_lossy(&output.stdout);
    let noticed = output.status.code() == Some(1) && text.contains("touched memory that was not lent");
    println!("reading one byte after a list: {}{text}", if noticed { "found" } else { "NOT FOUND" });
    noticed
}
