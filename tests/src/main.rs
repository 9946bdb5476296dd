//! Compares the proved library, through its C interface, with the engine.
//!
//!     compare                        all groups
//!     compare --only GROUP [INDEX]   one group, or one case of it
//!
//! The seed is fixed; BAY_SEED gives another. Every case has random numbers of its own, from the seed, its group and its index, so
//! that a failure can be run again alone. BAY_TRACE=1 says each index before its case, should a case not come back.

mod compare;
mod ffi;

use std::cell::RefCell;
use std::io::Write;
use std::panic;

use bay_tests::random::Random;

const SEED: u64 = 20_240_607;
/// A group stops after so many failures.
const MOST_FAILURES: usize = 3;

thread_local! {
    static MESSAGE: RefCell<String> = const { RefCell::new(String::new()) };
}

/// Runs one case and gives what went wrong.
fn failure_of(group: &compare::Group, seed: u64, index: u64) -> Option<String> {
    let mut random = Random::for_case(seed, &group.name, index);
    let outcome = panic::catch_unwind(panic::AssertUnwindSafe(|| (group.run)(&mut random, index)));
    outcome.err().map(|_| MESSAGE.with(|message| message.borrow().clone()))
}

fn main() {
    let seed = match std::env::var("BAY_SEED") {
        Ok(text) => text.parse().expect("BAY_SEED is a number"),
        Err(_) => SEED,
    };
    let trace = std::env::var_os("BAY_TRACE").is_some();
    let arguments: Vec<String> = std::env::args().skip(1).collect();
    let (only, case) = match arguments.as_slice() {
        [] => (None, None),
        [word, group] if word == "--only" => (Some(group.clone()), None),
        [word, group, index] if word == "--only" => {
            (Some(group.clone()), Some(index.parse::<u64>().expect("INDEX is a number")))
        }
        _ => {
            eprintln!("compare [--only GROUP [INDEX]]");
            std::process::exit(2);
        }
    };

    panic::set_hook(Box::new(|information| {
        MESSAGE.with(|message| *message.borrow_mut() = information.to_string());
    }));

    println!("seed {seed}");
    let (mut passed, mut failed) = (0, 0);
    for group in compare::groups() {
        if only.as_ref().is_some_and(|name| *name != group.name) {
            continue;
        }
        // The name goes out first: should the library crash, it says where.
        print!("{}: ", group.name);
        std::io::stdout().flush().expect("standard output");
        let before = ffi::calls();
        let indices = match case {
            Some(index) => index..index + 1,
            None => 0..group.cases,
        };
        let mut failures = Vec::new();
        for index in indices {
            if trace {
                eprintln!("{} {index}", group.name);
            }
            if let Some(message) = failure_of(&group, seed, index) {
                failures.push((index, message));
                if failures.len() == MOST_FAILURES {
                    break;
                }
            }
        }
        let calls = ffi::calls() - before;
        if failures.is_empty() {
            println!("{calls} calls, ok");
            passed += 1;
        } else {
            println!("{calls} calls, FAILED");
            for (index, message) in failures {
                println!("  again: BAY_SEED={seed} compare --only {} {index}", group.name);
                println!("  {message}");
            }
            failed += 1;
        }
    }
    if only.is_none() {
        println!("every_number_is_given:");
        match compare::checks::every_number_reached() {
            Ok(()) => passed += 1,
            Err(message) => {
                println!("  FAILED {message}");
                failed += 1;
            }
        }
    }
    println!("{} calls into the library", ffi::calls());
    println!("{passed} passed, {failed} failed");
    std::process::exit(if failed == 0 && passed > 0 { 0 } else { 1 });
}
