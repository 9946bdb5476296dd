//! The distances of all states (document 02, W13), also against brute force and against the library's own plans for the whole shift.

use bay_tests::brute::{self, check_depths, check_distances};
use bay_tests::engine::*;
use bay_tests::make;
use bay_tests::make::Jobs::{self, Paired, Plain};
use bay_tests::random::Random;
use bay_tests::trailer::{self, one_fact_less};

use super::checks;
use super::lent::full;
use super::{both, one, Group};
use crate::ffi;

pub fn groups() -> Vec<Vec<Group>> {
    vec![
        one("distances_of_the_trailer", 1, of_the_trailer),
        both("distances_of_few_facts", 20_000, few_facts),
        both("distances_of_many_facts", 400, many_facts),
        both("distances_of_marked_tables", 15, marked_tables),
        both("distances_with_jobs_that_change_nothing", 1_500, jobs_that_change_nothing),
        one("distances_of_counters", 28, counters),
        one("distances_of_counters_both_ways", 11, counters_both_ways),
        one("distances_of_counters_with_two_facts_a_bit", 7, counters_with_two_facts_a_bit),
        both("distances_over_any_row", 1_000, over_any_row),
        both("distances_into_every_length", 600, every_length),
        both("distances_of_too_many_facts", 147, too_many_facts),
        both("distances_every_cut", 60, every_cut),
        both("distances_of_bytes_changed", 400, bytes_changed),
        both("distances_refused", 20_000, refused),
        both("distances_agree_with_shifts", 4_000, agree_with_shifts),
        both("distances_agree_with_shifts_of_many_facts", 180, agree_with_shifts_of_many_facts),
        one("distances_agree_with_long_shifts", 8, agree_with_long_shifts),
        one("distances_on_a_small_stack", 1, small_stack),
    ]
}

const TOO_MANY_FACTS: Result<usize, Refusal> = Err(Refusal { number: 25, place: 0 });
const BAD_ROW_LENGTH: Result<usize, Refusal> = Err(Refusal { number: 26, place: 0 });

/// The states of a table that is measured.
fn states(table: &Table) -> usize {
    1 << table.facts
}

/// A row of any numbers.
fn any_row(random: &mut Random, length: usize) -> Vec<u16> {
    Lent::filled([0, 0, 0, 0, length, 0], random.next()).depths
}

/// What the call gives with a row of this length.
fn into_length(random: &mut Random, table: &[u8], length: usize) -> Result<usize, Refusal> {
    let row = any_row(random, length);
    checks::measure_distances(table, &row, random.next()).0
}

/// The row of a sound table of at most 15 facts.
fn measured(random: &mut Random, table: &Table) -> Vec<u16> {
    let row = any_row(random, states(table));
    let (result, row) = checks::measure_distances(&table.bytes(), &row, random.next());
    assert_eq!(result, Ok(states(table)));
    row
}

/// The same, against brute force.
fn measured_by_brute_force(random: &mut Random, table: &Table) -> Vec<u16> {
    let row = measured(random, table);
    check_distances(&brute::distances(table), &row);
    row
}

/// A sound table of so many facts. Some have jobs enough for ways of some length, some have few or none; the goal is often all that the jobs bring about.
fn table_of(random: &mut Random, facts: u32, kind: Jobs) -> Table {
    let mut table = make::busy_table(random, facts, kind);
    if random.one_in(3) {
        let count = random.below(2 * facts as usize);
        table.jobs = make::jobs(random, facts, count, kind);
    }
    let added = table.jobs.iter().fold(0, |mask, job| mask | job.adds);
    table.goal = match random.below(8) {
        0 => 0,
        1 => all_facts(facts),
        2 | 3 => added,
        4 => added & random.state(facts),
        5 => random.state(facts),
        _ => table.goal,
    };
    table
}

/// Both trailers, by hand.
fn of_the_trailer(random: &mut Random, _: u64) {
    let table = read_table(&trailer::table()).expect("sound");
    assert_eq!(measured_by_brute_force(random, &table), trailer::DISTANCES);
    let table = read_table(&one_fact_less::table()).expect("sound");
    assert_eq!(measured_by_brute_force(random, &table), one_fact_less::DISTANCES);
    for (bytes, states) in [(trailer::table(), 32), (one_fact_less::table(), 16)] {
        for length in 0..70 {
            let result = into_length(random, &bytes, length);
            assert_eq!(result, if length == states { Ok(states) } else { BAD_ROW_LENGTH });
        }
        // The table first, with a row of any length.
        for length in [0, 16, 32] {
            let longer = [&bytes[..], &[END_OF_TABLE]].concat();
            let after_end = Err(Refusal { number: 7, place: bytes.len() });
            assert_eq!(into_length(random, &longer, length), after_end);
            let cut = Err(Refusal { number: 1, place: bytes.len() - 1 });
            assert_eq!(into_length(random, &bytes[..bytes.len() - 1], length), cut);
        }
    }
}

/// Random tables of 1 to 8 facts.
fn few_facts(random: &mut Random, index: u64, kind: Jobs) {
    let table = table_of(random, 1 + (index % 8) as u32, kind);
    measured_by_brute_force(random, &table);
}

/// Random tables of 9 to 15 facts, of which those with more are fewer.
fn many_facts(random: &mut Random, index: u64, kind: Jobs) {
    let facts = match index % 25 {
        0 => 15,
        1 => 14,
        2 | 3 => 13,
        4..=6 => 12,
        7..=11 => 11,
        12..=17 => 10,
        _ => 9,
    };
    let table = table_of(random, facts, kind);
    measured_by_brute_force(random, &table);
}

/// Tables of each number of facts from 1 to 15 whose distances can be told by hand.
fn marked_tables(random: &mut Random, index: u64, kind: Jobs) {
    let facts = index as u32 + 1;
    let last = 1u64 << index;
    let job = |needs: u64, adds: u64, deletes: u64| match kind {
        Plain => Job::plain(needs, adds, deletes, 60),
        // It needs absent what it adds.
        Paired => Job::paired(needs, adds, adds, deletes, 60),
    };
    let mut expect = |jobs: &[Job], goal: u64, jobs_from: &dyn Fn(u64) -> Option<u32>| {
        let table = Table { facts, jobs: jobs.to_vec(), goal };
        for (state, jobs) in measured(random, &table).into_iter().enumerate() {
            let fewest = jobs_from(state as u64).map_or(NO_DISTANCE, |jobs| jobs as u16);
            assert_eq!(jobs, fewest, "{state:x} of {table:x?}");
        }
    };
    let all = all_facts(facts);
    let each: Vec<Job> = (0..facts).map(|fact| job(0, 1 << fact, 0)).collect();
    let goal_alone = |goal: u64| move |state: u64| is_part(goal, state).then_some(0);
    // No jobs; and an empty goal, whatever the jobs.
    for goal in [0, 1, last, all] {
        expect(&[], goal, &goal_alone(goal));
    }
    expect(&each, 0, &|_| Some(0));
    // One job for each fact: as many jobs as facts are missing.
    expect(&each, all, &|state| Some((all & !state).count_ones()));
    expect(&each, last, &|state| Some((last & !state).count_ones()));
    // A job for each fact but the last: no way where that is missing and wanted.
    let but_last = &each[..facts as usize - 1];
    expect(but_last, all, &|state| (state & last != 0).then(|| (all & !state).count_ones()));
    expect(but_last, last, &goal_alone(last));
    // Jobs that only take facts away.
    let deleting: Vec<Job> = (0..facts).map(|fact| job(1 << fact, 0, 1 << fact)).collect();
    expect(&deleting, last, &goal_alone(last));
    if facts > 1 {
        // The only job for the last fact needs all others and takes them away: then each has to be brought about again.
        let others = all & !last;
        let jobs = [but_last, &[job(others, last, others)]].concat();
        let missing = |state: u64| (others & !state).count_ones();
        let fewest = |state: u64| if state & last != 0 { missing(state) } else { missing(state) + facts };
        expect(&jobs, all, &|state| Some(fewest(state)));
        // One job brings about all but the first fact at once, with a 0x21 only where none of them is held. It stands last, or first.
        let at_once = job(1, all & !1, 0);
        let fewest = |state: u64| match (kind, all & !state) {
            (Plain, 0) => Some(0),
            (Plain, missing) => Some(if missing == 1 || missing & 1 == 0 { 1 } else { 2 }),
            (Paired, missing) if state & last != 0 => Some(missing.count_ones()),
            (Paired, _) => [Some(2), Some(1)].get(state as usize).copied().flatten(),
        };
        expect(&[but_last, &[at_once]].concat(), all, &fewest);
        expect(&[&[at_once], but_last].concat(), all, &fewest);
    }
}

/// Jobs that change nothing change no distance, wherever they stand in the table; often so many that there are 128.
fn jobs_that_change_nothing(random: &mut Random, index: u64, kind: Jobs) {
    let table = table_of(random, 1 + (index % 7) as u32, kind);
    let row = measured_by_brute_force(random, &table);
    let mut longer = table.clone();
    let more = if index % 4 == 0 { MOST_JOBS - table.jobs.len() } else { random.between(1, 4) };
    for _ in 0..more {
        let mask = random.facts(table.facts, 2);
        let empty = match kind {
            Plain => Job::plain(mask, 0, 0, 60),
            // It takes away what is not there.
            Paired => Job::paired(random.state(table.facts) & !mask, mask, 0, mask, 60),
        };
        longer.jobs.insert(random.below(longer.jobs.len() + 1), empty);
    }
    assert_eq!(measured(random, &longer), row);
    // The order of the jobs is no matter either, and neither are their seconds.
    longer.jobs.reverse();
    for job in &mut longer.jobs {
        job.seconds = random.below(5_401) as u16;
    }
    assert_eq!(measured(random, &longer), row);
}

/// Counters of 8 to 11 facts, up and down, with the least bit first or last, and with the bits in any order: from the farthest state the way leads through
/// all others. The library's list for the shift, with an entry for each state, agrees.
fn counters(random: &mut Random, index: u64) {
    let facts = 8 + (index % 4) as u32;
    let all = all_facts(facts);
    let mut order: Vec<u32> = (0..facts).collect();
    let (flipped, farthest) = match index / 4 {
        0 | 2 => (0, Some(0)),
        1 => (all, Some(all - 1)),
        3 => (all, Some(all >> 1)),
        _ => (random.state(facts), None),
    };
    match index / 4 {
        0 | 1 => {}
        2 | 3 => order.reverse(),
        _ => (1..order.len()).for_each(|i| order.swap(i, random.below(i + 1))),
    }
    let table = make::ring_table(&order, flipped);
    let row = measured(random, &table);
    let count_of = |state: u64| {
        let bit = |(i, fact): (usize, &u32)| ((state ^ flipped) >> fact & 1) << i;
        order.iter().enumerate().map(bit).sum::<u64>()
    };
    for state in 0..=all {
        let jobs = count_of(all).wrapping_sub(count_of(state)) & all;
        assert_eq!(u64::from(row[state as usize]), jobs, "jobs from {state:x} by {order:?}, {flipped:x} flipped");
    }
    if let Some(farthest) = farthest {
        assert_eq!(u64::from(row[farthest as usize]), all, "jobs from the farthest state");
    }
    if facts < 10 {
        check_distances(&brute::distances(&table), &row);
    }
    let list = shift_list(random, &table).expect("room enough");
    assert_eq!(list.len(), states(&table));
    check_depths(&table, &list, &row);
    // Without the two jobs that change the highest bit, half of the states have no way, or more.
    let mut shorter = table.clone();
    shorter.jobs.truncate(order.len() - 1);
    let row = measured(random, &shorter);
    let without_a_way = row.iter().filter(|jobs| **jobs == NO_DISTANCE).count();
    assert!(without_a_way >= states(&shorter) / 2, "{without_a_way} have no way");
}

/// Counters of 1 to 11 facts that count up or down, as one likes: every state has a way in either direction, and the shorter one counts. A way that is found
/// is not yet the fewest jobs.
fn counters_both_ways(random: &mut Random, index: u64) {
    let facts = index as u32 + 1;
    let all = all_facts(facts);
    let order: Vec<u32> = (0..facts).collect();
    let [up, down] = [0, all].map(|flipped| make::ring_table(&order, flipped));
    let table = Table { jobs: [&up.jobs[..], &down.jobs].concat(), ..up };
    let row = measured(random, &table);
    for (state, jobs) in row.iter().enumerate() {
        let (above, below) = (all as usize - state, (state + 1) % row.len());
        assert_eq!(usize::from(*jobs), above.min(below), "jobs from {state:x}");
    }
    let list = shift_list(random, &table).expect("room enough");
    check_depths(&table, &list, &row);
}

/// Counters with a fact for set and one for clear, of tables without 0x21: most states have no way, and one has 2^bits - 1 jobs.
fn counters_with_two_facts_a_bit(random: &mut Random, index: u64) {
    let bits = index as usize + 1;
    let (table, start) = make::counter_table(bits, 60);
    let row = measured_by_brute_force(random, &table);
    assert_eq!(usize::from(row[start as usize]), (1 << bits) - 1);
    assert_eq!(row[0], NO_DISTANCE);
    let list = shift_list(random, &table).expect("room enough");
    check_depths(&table, &list, &row);
}

/// What the row held before is no matter: all states at the goal, none on a way, the distances themselves, and others.
fn over_any_row(random: &mut Random, index: u64, kind: Jobs) {
    let table = table_of(random, 1 + (index % 8) as u32, kind);
    let bytes = table.bytes();
    let right = measured(random, &table);
    let backward: Vec<u16> = right.iter().rev().copied().collect();
    let other = |change: fn(u16) -> u16| right.iter().map(|jobs| change(*jobs)).collect::<Vec<u16>>();
    for before in [
        vec![0; right.len()],
        vec![1; right.len()],
        vec![NO_DISTANCE; right.len()],
        vec![NO_DISTANCE - 1; right.len()],
        right.clone(),
        backward,
        other(|jobs| jobs.wrapping_add(1)),
        other(|jobs| jobs.wrapping_sub(1)),
        other(|jobs| if jobs == NO_DISTANCE { 0 } else { NO_DISTANCE }),
    ] {
        let (result, row) = checks::measure_distances(&bytes, &before, random.next());
        assert_eq!((result, row), (Ok(right.len()), right.clone()));
    }
}

/// Rows that are too short and too long: "a row of another length than the states".
fn every_length(random: &mut Random, index: u64, kind: Jobs) {
    let facts = if index % 40 == 0 { 13 + (index / 40 % 3) as u32 } else { 1 + (index % 12) as u32 };
    let table = table_of(random, facts, kind);
    let (bytes, states) = (table.bytes(), states(&table));
    let any = random.below(2 * states);
    for length in [0, 1, 2, states / 2, states - 1, states, states + 1, 2 * states - 1, 2 * states, any] {
        let result = into_length(random, &bytes, length);
        assert_eq!(result, if length == states { Ok(states) } else { BAD_ROW_LENGTH }, "a row of {length}");
    }
    if facts == 15 {
        for length in [65_535, 65_536, 65_536 + states] {
            assert_eq!(into_length(random, &bytes, length), BAD_ROW_LENGTH, "a row of {length}");
        }
    }
}

/// 16 to 64 facts, each with rows of many lengths: for 16 one that has a number for each state, and for others as many as the number of states leaves where
/// it is cut to fewer bits.
fn too_many_facts(random: &mut Random, index: u64, kind: Jobs) {
    let facts = 16 + (index % 49) as u32;
    let mut table = table_of(random, facts, kind);
    match index / 49 {
        0 => {}
        1 => table.jobs.clear(),
        _ => table.goal = 0,
    }
    let bytes = table.bytes();
    let narrower = [1 << (facts % 16), 1 << (facts % 32).min(16), 1 << (facts % 64).min(16)];
    for length in [0, 1, 2, 16, 32_767, 32_768, 32_769, 65_535, 65_536].into_iter().chain(narrower) {
        assert_eq!(into_length(random, &bytes, length), TOO_MANY_FACTS, "a row of {length} for {facts} facts");
    }
    // The table comes first.
    let longer = [&bytes[..], &[END_OF_TABLE]].concat();
    let after_end = Err(Refusal { number: 7, place: bytes.len() });
    for length in [0, 32_768, 65_536] {
        assert_eq!(into_length(random, &longer, length), after_end);
    }
}

/// A sound table of so many facts with at most eight jobs.
fn short_table(random: &mut Random, facts: u32, kind: Jobs) -> Table {
    let count = random.below(9);
    Table { facts, jobs: make::jobs(random, facts, count, kind), goal: random.facts(facts, 3) }
}

/// One of 1 to 20 facts, few more often than not.
fn table_to_refuse(random: &mut Random, kind: Jobs) -> Table {
    let facts = if random.one_in(3) { random.between(1, 20) } else { random.between(1, 6) };
    short_table(random, facts as u32, kind)
}

/// A row as long as the states, and of other lengths.
fn lengths_to_refuse(random: &mut Random, table: &Table) -> [usize; 3] {
    let own = 1 << table.facts.min(16);
    [own, 0, random.below(own + 4)]
}

/// Every cut of a table, and bytes after its END: they come before the number of facts and the length of the row.
fn every_cut(random: &mut Random, _: u64, kind: Jobs) {
    let table = table_to_refuse(random, kind);
    let bytes = table.bytes();
    for length in lengths_to_refuse(random, &table) {
        for cut in 0..bytes.len() {
            let result = into_length(random, &bytes[..cut], length);
            assert_eq!(result.expect_err("a cut table").number, 1);
        }
        for _ in 0..20 {
            let longer = [&bytes[..], &[random.byte()]].concat();
            let after_end = Err(Refusal { number: 7, place: bytes.len() });
            assert_eq!(into_length(random, &longer, length), after_end);
        }
    }
}

/// Every byte of a table changed in one of several ways. Many such tables are sound and have other distances.
fn bytes_changed(random: &mut Random, index: u64, kind: Jobs) {
    let table = short_table(random, 1 + (index % 9) as u32, kind);
    let bytes = table.bytes();
    let states = states(&table);
    for at in 0..bytes.len() {
        let mut changed = bytes.clone();
        changed[at] = match random.below(4) {
            0 => changed[at] ^ 1 << random.below(8),
            1 => changed[at].wrapping_add(1),
            2 => changed[at].wrapping_sub(1),
            _ => random.byte(),
        };
        let length = if random.one_in(4) { random.below(2 * states) } else { states };
        expect_first(random, &changed, length);
    }
}

/// The stops in their order: the table's, 25, 26.
fn expect_first(random: &mut Random, bytes: &[u8], length: usize) {
    let expected = match read_table(bytes) {
        Err(of_table) => Err(of_table),
        Ok(table) if table.facts > 15 => TOO_MANY_FACTS,
        Ok(table) if length != states(&table) => BAD_ROW_LENGTH,
        Ok(table) => Ok(states(&table)),
    };
    assert_eq!(into_length(random, bytes, length), expected);
}

/// Several faults at once: of the table, too many facts, a row of another length. The first of them is told.
fn refused(random: &mut Random, index: u64, kind: Jobs) {
    let table = table_to_refuse(random, kind);
    let bytes = match index % 8 {
        0 => table.bytes(),
        1 => make::table_like(random),
        _ => make::damaged_bytes(random, &table),
    };
    let lengths = lengths_to_refuse(random, &table);
    let length = *random.pick(&lengths);
    expect_first(random, &bytes, length);
}

/// The whole shift's list, as the library itself plans it; None where that is full.
fn shift_list(random: &mut Random, table: &Table) -> Option<Vec<Entry>> {
    let mut lent = Lent::filled(full(), random.next());
    let [number, entries, _, paired] = ffi::plan_shift(&table.bytes(), &mut lent);
    assert!(number == 0 || number == 10, "the plan is refused as {number}");
    (number == 0).then(|| lent.list(paired == 1, entries as usize))
}

/// "Where a whole-shift tree is built the two must agree": the library's row and the library's list, in every state.
fn agree_with_shifts(random: &mut Random, index: u64, kind: Jobs) {
    let table = match index % 3 {
        0 => make::small_table(random, index / 3, kind),
        _ => table_of(random, 1 + (index / 3 % 6) as u32, kind),
    };
    let row = measured(random, &table);
    let list = shift_list(random, &table).expect("a small table's list is not full");
    check_depths(&table, &list, &row);
}

/// The same with 7 to 15 facts, where the list is not full.
fn agree_with_shifts_of_many_facts(random: &mut Random, index: u64, kind: Jobs) {
    let table = table_of(random, 7 + (index % 9) as u32, kind);
    let row = measured(random, &table);
    if let Some(list) = shift_list(random, &table) {
        check_depths(&table, &list, &row);
    }
}

/// Lists of a hundred entries and of a thousand.
fn agree_with_long_shifts(random: &mut Random, index: u64) {
    let (table, entries, greatest) = match index {
        0 => (make::long_table(7, 0, Plain), 128, 7),
        1 => (make::long_table(7, 121, Plain), 128, 7),
        2 => (make::long_table(7, 0, Paired), 128, 7),
        3 => (make::long_table(7, 121, Paired), 128, 7),
        4 => (make::counter_table(7, 60).0, 128, 127),
        5 => (make::pair_counter_table(10, 700, 1), 702, 701),
        6 => (make::pair_counter_table(10, 1_023, 1), 1_025, 1_024),
        _ => (make::ring_table(&[3, 1, 4, 0, 5, 9, 2, 6, 8, 7], 0x155), 1_024, 1_023),
    };
    let row = measured(random, &table);
    let list = shift_list(random, &table).expect("room enough");
    assert_eq!(list.len(), entries);
    check_depths(&table, &list, &row);
    assert_eq!(row.into_iter().filter(|jobs| *jobs != NO_DISTANCE).max(), Some(greatest));
}

/// As many facts and jobs as are taken, on a stack of 256 KiB, by the library alone: the engine's stack is no matter.
fn small_stack(random: &mut Random, _: u64) {
    let mut table = make::busy_table(random, 15, Paired);
    let more = make::jobs(random, 15, 128 - table.jobs.len(), Paired);
    table.jobs.extend(more);
    let bytes = table.bytes();
    let mut expected = vec![0; 32_768];
    assert_eq!(distances(&bytes, &mut expected), Ok(32_768));
    let on_small_stack = move || {
        let mut row = vec![0; 32_768];
        (ffi::measure_distances(&bytes, &mut row), row)
    };
    let thread = std::thread::Builder::new().stack_size(256 * 1024).spawn(on_small_stack).expect("a thread");
    let (answer, row) = thread.join().expect("the thread ends");
    assert_eq!(answer, [0, 32_768]);
    assert_eq!(row, expected);
}
