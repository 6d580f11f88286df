//! "Calls may run at the same time on different buffers" (the library's header): two threads, each with lists of
//! its own.

use against::compare::call::Call;
use against::compare::run::first_difference;
use against::library::Library;
use std::thread;

#[test]
fn two_threads_call_at_the_same_time() {
    thread::scope(|scope| {
        for seed in [2, 3] {
            scope.spawn(move || {
                let mut library = Library::new();
                let difference = first_difference(&mut |call: &mut Call| library.run(call), seed, 1_000);
                assert_eq!(difference, None, "seed {seed}");
            });
        }
    });
}
