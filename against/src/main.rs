//! Longer runs with a seed of one's choice, the wrong functions, and what the program `cases` must print.

use against::compare::call::Call;
use against::compare::run::{run_for, DEFAULT_SEED};
use against::compare::wrong::{find_all_wrong, wrong_named, WRONG};
use against::library::Library;
use against::script::printed;
use std::fs;
use std::process::ExitCode;

const USAGE: &str = "\
usage: against [--seed NUMBER] [--minutes NUMBER] [--wrong NAME]
       against --wrong all
       against --cases SCRIPT
Compares the library with the model: all groups once, then with the seeds that follow until the minutes are over.
--wrong puts a deliberately wrong function in the library's place; 'all' tries each and says whether it was found.
--cases prints what the program 'cases' must print for a script, by the model alone.";

struct Wishes {
    seed: u64,
    minutes: f64,
    wrong: Option<String>,
    cases: Option<String>,
}

fn wishes_of(mut words: impl Iterator<Item = String>) -> Option<Wishes> {
    let mut wishes = Wishes { seed: DEFAULT_SEED, minutes: 0.0, wrong: None, cases: None };
    while let Some(word) = words.next() {
        let value = words.next()?;
        match word.as_str() {
            "--seed" => wishes.seed = value.parse().ok()?,
            "--minutes" => wishes.minutes = value.parse().ok()?,
            "--wrong" => wishes.wrong = Some(value),
            "--cases" => wishes.cases = Some(value),
            _ => return None,
        }
    }
    Some(wishes)
}

fn main() -> ExitCode {
    let Some(Wishes { seed, minutes, wrong, cases }) = wishes_of(std::env::args().skip(1)) else {
        eprintln!("{USAGE}");
        return ExitCode::from(2);
    };
    if let Some(path) = cases {
        return match fs::read_to_string(&path) {
            Ok(script) => {
                print!("{}", printed(&script));
                ExitCode::SUCCESS
            }
            Err(problem) => {
                eprintln!("{path}: {problem}");
                ExitCode::from(2)
            }
        };
    }
    if wrong.as_deref() == Some("all") {
        return ExitCode::from(u8::from(find_all_wrong() > 0));
    }
    let wrong = match wrong.map(|name| wrong_named(&name)) {
        Some(None) => {
            let names: Vec<&str> = WRONG.iter().map(|wrong| wrong.name).collect();
            eprintln!("the wrong functions are: {}", names.join(", "));
            return ExitCode::from(2);
        }
        chosen => chosen.flatten(),
    };
    let mut library = Library::new();
    let mut subject = |call: &mut Call| match wrong {
        Some(wrong) => wrong.run(&mut library, call),
        None => library.run(call),
    };
    let totals = run_for(&mut subject, seed, minutes);
    let all_right = totals.differences == 0 && totals.print_codes();
    ExitCode::from(u8::from(!all_right))
}
