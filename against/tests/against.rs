//! The gate's run: all groups once, with the seed AGAINST_SEED or the usual one. Fails on any difference, if a call
//! never answered with one of its codes, and if there was too little to compare. AGAINST_WRONG puts the wrong
//! function of that name in the library's place, so that one can see it fail.

use against::compare::call::Call;
use against::compare::run::{run_groups, DEFAULT_SEED};
use against::compare::wrong::wrong_named;
use against::library::Library;
use std::env;
use std::process::ExitCode;

const FEWEST_COMPARISONS: u64 = 200_000;

fn main() -> ExitCode {
    let seed = match env::var("AGAINST_SEED") {
        Ok(text) => text.parse().expect("AGAINST_SEED is a number"),
        Err(_) => DEFAULT_SEED,
    };
    let wrong = env::var("AGAINST_WRONG").ok();
    let wrong = wrong.map(|name| wrong_named(&name).expect("AGAINST_WRONG is the name of a wrong function"));
    let mut library = Library::new();
    let mut subject = |call: &mut Call| match wrong {
        Some(wrong) => wrong.run(&mut library, call),
        None => library.run(call),
    };
    let totals = run_groups(&mut subject, seed, |_| true);
    if totals.differences > 0 {
        return ExitCode::FAILURE;
    }
    let all_codes_seen = totals.print_codes();
    let enough = totals.comparisons >= FEWEST_COMPARISONS;
    if !enough {
        println!("fewer than {FEWEST_COMPARISONS} comparisons");
    }
    ExitCode::from(u8::from(!all_codes_seen || !enough))
}
