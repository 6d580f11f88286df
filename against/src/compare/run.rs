//! Runs the groups and prints what they found.

use super::comparison::{CodeCounts, Comparison, Limits, Subject};
use super::groups::{Group, GROUPS};
use super::random::Random;
use std::io::Write;
use std::time::Instant;

/// The seed where none is chosen.
pub const DEFAULT_SEED: u64 = 1;

/// How many differences are printed before the run ends.
const MOST_DIFFERENCES: usize = 10;

/// What came of some groups.
#[derive(Default)]
pub struct Totals {
    pub comparisons: u64,
    pub differences: usize,
    pub codes: CodeCounts,
}

impl Totals {
    fn add(&mut self, other: Totals) {
        self.comparisons += other.comparisons;
        self.differences += other.differences;
        for (call_and_code, count) in other.codes {
            *self.codes.entry(call_and_code).or_default() += count;
        }
    }

    /// Prints how often each call answered with each code, as the table of docs/AGAINST.md; says whether each call had
    /// all of its codes and no others.
    pub fn print_codes(&self) -> bool {
        println!("| call | {} |", CODES.map(|code| code.to_string()).join(" | "));
        println!("|---|{}", "--:|".repeat(CODES.len()));
        for (call, _) in CODES_OF_CALLS {
            let cells = CODES.map(|code| self.codes.get(&(*call, code)).map_or(String::new(), |&count| grouped(count)));
            println!("| `{call}` | {} |", cells.join(" | "));
        }
        let mut as_listed = true;
        for (call, listed) in CODES_OF_CALLS {
            let answered: Vec<u32> =
                self.codes.keys().filter(|(name, _)| name == call).map(|(_, code)| *code).collect();
            if answered != *listed {
                println!("{call} answered with codes {answered:?}, but its codes are {listed:?}");
                as_listed = false;
            }
        }
        as_listed
    }
}

/// A number with commas, as in 65,535.
fn grouped(number: u64) -> String {
    if number < 1_000 {
        number.to_string()
    } else {
        format!("{},{:03}", grouped(number / 1_000), number % 1_000)
    }
}

/// All codes, in the order of the table of codes.
const CODES: [u32; 17] = [0, 2, 6, 11, 12, 13, 14, 15, 5, 4, 10, 16, 17, 3, 8, 9, 1];

/// The codes that the library's header has for each call, in increasing order.
const CODES_OF_CALLS: &[(&str, &[u32])] = &[
    ("plq_string_of_parents", &[0, 1, 2, 3]),
    ("plq_parents_of_string", &[0, 1, 2, 4, 5]),
    ("plq_image_of_parents", &[0, 1, 2, 3]),
    ("plq_image_with_metres", &[0, 1, 2, 3]),
    ("plq_parents_of_image", &[0, 1, 2, 6, 11, 12, 13, 14, 15]),
    ("plq_metres_of_image", &[0, 1, 2, 6, 8, 11, 12, 13, 14, 15]),
    ("plq_check_image", &[0, 2, 6, 11, 12, 13, 14, 15]),
    ("plq_ask", &[0, 1, 2, 6, 8, 11, 12, 13, 14, 15]),
    ("plq_split", &[0, 1, 2, 4, 5, 10]),
    ("plq_join", &[0, 1, 2, 3, 4, 5, 10]),
    ("plq_list", &[0, 1, 2, 6, 8, 9, 11, 12, 13, 14, 15]),
    ("plq_parents_of_text", &[0, 1, 2, 16, 17]),
    ("plq_text_of_parents", &[0, 1, 2, 3, 9]),
];

/// Each group has random numbers of its own, by its name, so that what it draws does not depend on which groups there
/// are and in which order.
fn random_of_group(seed: u64, group: &Group) -> Random {
    Random::new(group.name.bytes().fold(seed, |state, byte| Random::new(state ^ u64::from(byte)).draw()))
}

/// Runs one group and prints a line for it, and a few lines for each difference.
fn run_group(subject: &mut Subject, seed: u64, group: &Group, differences: usize) -> Totals {
    // the name first: it is all there is if the library never comes back
    print!("{}: ", group.name);
    std::io::stdout().flush().expect("standard output is there");
    let began = Instant::now();
    let mut comparison = Comparison::new(subject, Limits { differences, comparisons: u64::MAX });
    // the number of differences says whether the group was left early
    let _ = (group.run)(&mut comparison, &mut random_of_group(seed, group));
    let Comparison { count, codes, differences, .. } = comparison;
    let seconds = began.elapsed().as_secs_f64();
    println!("{count} comparisons, differences {} ({seconds:.1} s)", differences.len());
    for difference in &differences {
        println!("seed {seed}, group '{}', {difference}", group.name);
    }
    Totals { comparisons: count, differences: differences.len(), codes }
}

/// Runs all groups that are wanted and prints a total; ends early at the tenth difference.
pub fn run_groups(subject: &mut Subject, seed: u64, wanted: fn(&Group) -> bool) -> Totals {
    let mut totals = Totals::default();
    for group in GROUPS.iter().filter(|group| wanted(group)) {
        totals.add(run_group(subject, seed, group, MOST_DIFFERENCES - totals.differences));
        if totals.differences == MOST_DIFFERENCES {
            break;
        }
    }
    println!("total, seed {seed}: {} comparisons, differences {}", totals.comparisons, totals.differences);
    totals
}

/// Runs all groups, then the drawn ones with the seeds that follow, until the time is over or something differs.
pub fn run_for(subject: &mut Subject, seed: u64, minutes: f64) -> Totals {
    let began = Instant::now();
    let mut totals = run_groups(subject, seed, |_| true);
    let mut next_seed = seed;
    while totals.differences == 0 && began.elapsed().as_secs_f64() < 60.0 * minutes {
        next_seed = next_seed.wrapping_add(1);
        totals.add(run_groups(subject, next_seed, |group| group.drawn));
    }
    println!(
        "all, seeds {seed} to {next_seed}: {} comparisons, differences {}",
        totals.comparisons, totals.differences
    );
    totals
}

/// The first difference that any group finds in its first so many comparisons.
pub fn first_difference(subject: &mut Subject, seed: u64, comparisons: u64) -> Option<String> {
    let limits = Limits { differences: 1, comparisons };
    for group in GROUPS {
        let mut comparison = Comparison::new(subject, limits);
        let _ = (group.run)(&mut comparison, &mut random_of_group(seed, group));
        if let Some(difference) = comparison.differences.pop() {
            return Some(format!("group '{}', {difference}", group.name));
        }
    }
    None
}
