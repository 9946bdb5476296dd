//! The groups of the comparison.

pub mod checks;
pub mod groups_batches;
pub mod groups_cards;
pub mod groups_distances;
pub mod groups_migration;
pub mod groups_plans;
pub mod groups_recovery;
pub mod groups_searches;
pub mod groups_shift;
pub mod groups_tables;
pub mod groups_teams;
pub mod groups_ticks;
pub mod lent;

use bay_tests::make::Jobs;
use bay_tests::random::Random;

/// One test: so many cases, each from its own random numbers and its index.
pub struct Group {
    pub name: String,
    pub cases: u64,
    pub run: Box<dyn Fn(&mut Random, u64)>,
}

/// A group alone.
fn one(name: &str, cases: u64, run: fn(&mut Random, u64)) -> Vec<Group> {
    vec![Group { name: name.to_string(), cases, run: Box::new(run) }]
}

/// Two groups, so many cases each, one of tables without 0x21 and one of tables with it.
fn both(name: &str, cases: u64, run: fn(&mut Random, u64, Jobs)) -> Vec<Group> {
    let group = |name: String, kind: Jobs| Group {
        name,
        cases,
        run: Box::new(move |random: &mut Random, index: u64| run(random, index, kind)),
    };
    vec![group(name.to_string(), Jobs::Plain), group(format!("{name}_pairs"), Jobs::Paired)]
}

pub fn groups() -> Vec<Group> {
    let all = [
        groups_tables::groups(),
        groups_searches::groups(),
        groups_plans::groups(),
        groups_shift::groups(),
        groups_ticks::groups(),
        groups_batches::groups(),
        groups_teams::groups(),
        groups_recovery::groups(),
        groups_distances::groups(),
        groups_cards::groups(),
        groups_migration::groups(),
    ];
    all.into_iter().flatten().flatten().collect()
}
