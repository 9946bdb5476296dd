//! The plan, and whole runs against brute force.

use bay_tests::brute::{check_no_dead_lines, check_runs, distances, run};
use bay_tests::engine::*;
use bay_tests::make::Jobs::{self, Paired, Plain};
use bay_tests::random::Random;
use bay_tests::{make, trailer};

use super::checks;
use super::lent::{self, full, lists, tree_bytes};
use super::{both, one, Group};

pub fn groups() -> Vec<Vec<Group>> {
    vec![
        one("marked_cases", 11, marked_cases),
        one("trailer_with_one_fact_less", 1, one_fact_less),
        both("plans_small", 60_000, small),
        both("plans_at_each_capacity", 4_000, each_capacity),
        both("plans_of_many_jobs", 600, many_jobs),
        one("plans_long", 12, long),
        one("plans_long_pairs", 30, long_pairs),
        one("plans_of_every_time", 65_536, every_time),
        both("plans_refused", 40_000, refused),
        both("runs_have_fewest_jobs", 700, fewest_jobs),
        one("runs_long", 12, long_runs),
        one("runs_long_pairs", 12, long_pair_runs),
        both("no_way_means_none", 1_500, no_way),
    ]
}

/// The cases that the paper prints, with its numbers.
fn marked_cases(_: &mut Random, index: u64) {
    let table = trailer::table();
    let plan = |held, capacity| {
        let (result, lent) = checks::plan(&table, held, 0, lists(capacity, MOST_TREE_BYTES), index);
        (result.map_err(|refusal| (refusal.number, refusal.place)), lent)
    };
    let (p1, lent) = plan(0x02, 4096);
    let p1 = p1.expect("P1 is a plan");
    let tree = lent.tree[..p1.tree_bytes].to_vec();
    let tick = |held, unread| checks::tick(&table, &tree, held, unread).expect("P1's tree is sound").status;
    match index {
        0 => assert_eq!(plan_text(&p1, &lent), trailer::PRINTED),
        1 => {
            let p2 = plan(0x01, 4096).0.expect("P2 is a plan");
            assert_eq!((p2.entries, p2.way_jobs), (9, 4));
        }
        2 => assert_eq!(plan(0x08, 9).0, Err((11, 9))),
        3 => assert_eq!(plan(0x08, 8).0, Err((10, 8))),
        4 => {
            let p5 = plan(0x10, 4096).0.expect("P5 is a plan");
            assert_eq!((p5.entries, p5.tree_bytes, p5.way_jobs), (1, 13, 0));
        }
        5 => assert_eq!(plan(0x02, 0).0, Err((10, 0))),
        6 => assert_eq!(tick(0x02, 0x01), Status::Unsettled(0x01)),
        7 => assert_eq!(tick(0x02, 0x08), Status::Unsettled(0x08)),
        8 => assert_eq!(tick(0x03, 0), Status::Running(3)),
        9 => assert_eq!(tick(0x08, 0), Status::Failure),
        _ => {
            let parsed = read_table(&table).expect("sound");
            let worked = run(&parsed, 0x02, |state| checks::tick(&table, &tree, state, 0));
            assert_eq!(worked, (vec![3, 1, 2, 4], true));
        }
    }
}

/// The text of the trailer with one fact less, and the day of a vehicle on it.
fn one_fact_less(random: &mut Random, _: u64) {
    let table = trailer::one_fact_less::table();
    let parsed = checks::read_table(&table).expect("sound");
    let (result, lent) = checks::plan(&table, 0x01, 0, lists(7, 153), random.next());
    let planned = result.expect("a plan");
    assert_eq!(plan_text(&planned, &lent), trailer::one_fact_less::PRINTED);
    assert_eq!(run(&parsed, 0x01, |state| checks::tick(&table, &lent.tree, state, 0)), (vec![3, 1, 2, 4], true));
    for (held, unread, status) in [
        (0x00, 0x00, Status::Failure),
        (0x04, 0x00, Status::Running(2)),
        (0x04, 0x01, Status::Unsettled(0x01)),
        (0x00, 0x01, Status::Unsettled(0x01)),
        (0x06, 0x01, Status::Running(4)),
        (0x08, 0x07, Status::Success),
    ] {
        assert_eq!(checks::tick(&table, &lent.tree, held, unread).expect("sound").status, status);
    }
    let (shift, _) = checks::plan_shift(&table, lists(8, 175), random.next());
    assert_eq!(shift, Ok(ShiftPlanned { entries: 8, tree_bytes: 175, paired: true }));
}

fn any_table(random: &mut Random, index: u64, kind: Jobs) -> Table {
    let facts = random.between(3, 8) as u32;
    if index % 2 == 0 {
        make::busy_table(random, facts, kind)
    } else {
        make::table(random, 9, 9, kind)
    }
}

/// Random small tables into slices of any length.
fn small(random: &mut Random, index: u64, kind: Jobs) {
    let table = any_table(random, index, kind);
    let bytes = table.bytes();
    let start = random.state(table.facts);
    let most = *random.pick(&[3, 10, 40]);
    let lengths = lent::any(random, &table, most);
    let _ = checks::plan(&bytes, start, 0, lengths, random.next());
    let spare = random.below(9);
    let _ = checks::plan(&bytes, start, 0, lists(120 + spare, 2_000), random.next());
}

/// Every capacity around the need, each table the shortest in turn, and the tree around its need.
fn each_capacity(random: &mut Random, index: u64, kind: Jobs) {
    let table = any_table(random, index, kind);
    let bytes = table.bytes();
    let start = random.state(table.facts);
    let (list, ending) = expand(&table, Some(start), table.most_entries());
    let n = list.len();
    lent::around(random, &table, n, |random, capacity, lengths| {
        let (result, _) = checks::plan(&bytes, start, 0, lengths, random.next());
        if let (Err(refusal), Ending::Covered) = (result, ending) {
            assert_eq!((refusal.number, refusal.place), (10, capacity));
            assert!(capacity < n);
        }
    });
    for tree in lent::trees_around(&table, n) {
        let (result, _) = checks::plan(&bytes, start, 0, lists(n + random.below(3), tree), random.next());
        if ending == Ending::Covered {
            assert_eq!(result.is_ok(), tree >= tree_bytes(&table, n));
            assert!(result.is_ok() || result.unwrap_err() == Refusal { number: 12, place: n });
        }
    }
    let _ = checks::plan(&bytes, start, 0, lists(0, 0), 0);
}

/// Tables of up to 128 jobs over many facts.
fn many_jobs(random: &mut Random, _: u64, kind: Jobs) {
    let facts = random.between(6, 64) as u32;
    let count = random.between(20, 128);
    let table = Table { facts, jobs: make::jobs(random, facts, count, kind), goal: random.facts(facts, 3) };
    let bytes = table.bytes();
    for capacity in [300, 150] {
        let start = random.state(facts) & random.state(facts);
        let _ = checks::plan(&bytes, start, 0, lent::exactly(&table, capacity), random.next());
    }
}

fn number(result: Result<Planned, Refusal>) -> Result<Planned, (u64, usize)> {
    result.map_err(|refusal| (refusal.number, refusal.place))
}

/// Lists of 4,096 entries, and those that would be longer.
fn long(random: &mut Random, index: u64) {
    let table = make::long_table(12, 4 * (index as usize % 3), Plain);
    let (bytes, start) = (table.bytes(), make::long_start(&table));
    let longer = make::long_table(13, 0, Plain);
    let (longer_bytes, longer_start) = (longer.bytes(), make::long_start(&longer));
    let need = tree_bytes(&table, MOST_ENTRIES);
    match index {
        0 => {
            let (result, _) = checks::plan(&bytes, start, 0, full(), random.next());
            let planned = result.expect("a plan of 4,096 entries");
            assert_eq!((planned.entries, planned.tree_bytes, planned.way_jobs), (4096, 57_343, 12));
        }
        1 => {
            // The bound of 4,096 counts even where more is lent.
            let (result, _) = checks::plan(&longer_bytes, longer_start, 0, lists(5_000, 70_000), random.next());
            assert_eq!(number(result), Err((10, 4096)));
        }
        2 => {
            let (result, _) = checks::plan(&bytes, 0, 0, lists(4_100, need), random.next());
            assert_eq!(number(result), Err((11, 4096)));
        }
        3 => {
            let (result, _) = checks::plan(&bytes, start, 0, lists(4_095, need), random.next());
            assert_eq!(number(result), Err((10, 4095)));
        }
        4 => {
            let (result, _) = checks::plan(&bytes, start, 0, lists(4_096, need - 1), random.next());
            assert_eq!(number(result), Err((12, 4096)));
        }
        5 => {
            let (result, _) = checks::plan(&bytes, start, 0, lists(4_096, need), random.next());
            assert!(result.is_ok());
        }
        _ => {
            let mut lengths = lists(4_096, need + 3);
            lengths[[0, 2, 3, 4][index as usize % 4]] = random.between(4_000, 4_200);
            let _ = checks::plan(&bytes, start, 0, lengths, random.next());
            let _ = checks::plan(&longer_bytes, random.state(longer.facts), 0, lengths, random.next());
        }
    }
}

/// Lists of 2,978 pairs, and those that would be longer: with so many, one less, one more and more lent, each list table the shortest in turn, and
/// all of them.
fn long_pairs(random: &mut Random, index: u64) {
    let table = make::long_table(12, 4 * (index as usize % 3), Paired);
    let bytes = table.bytes();
    let whole = expand(&table, None, MOST_ENTRIES).0;
    assert_eq!(whole.len(), 4_096);
    let capacity = [2_977, 2_978, 2_979, 4_096, 5_000][index as usize % 5];
    let mut lengths = lists(capacity, 70_000);
    if index < 25 {
        lengths = full();
        lengths[index as usize / 5] = capacity;
    }
    let most = capacity.min(MOST_PAIR_ENTRIES);
    let need = tree_bytes(&table, most);
    let mut plan = |entries: usize, tree: usize| {
        lengths[5] = tree;
        let start = make::long_state(&table, &whole[entries - 1]);
        let (result, _) = checks::plan(&bytes, start, 0, lengths, random.next());
        result.map(|planned| (planned.entries, planned.tree_bytes)).map_err(|refusal| (refusal.number, refusal.place))
    };
    assert_eq!(plan(most, need), Ok((most, need)));
    assert_eq!(plan(most, need - 1), Err((12, most)));
    assert_eq!(plan(most + 1, MOST_TREE_BYTES), Err((10, most)));
}

/// Tables and readings with faults, one or several at once.
fn refused(random: &mut Random, _: u64, kind: Jobs) {
    let table = make::table(random, 8, 6, kind);
    let bytes = if random.one_in(2) { make::damaged_bytes(random, &table) } else { table.bytes() };
    let (held, unread) = make::any_reading(random, table.facts);
    let lengths = lists(random.below(20), random.below(200));
    let _ = checks::plan(&bytes, held, unread, lengths, random.next());
}

/// A way of one job, once for each time that a table can list; and each longer time, which it cannot.
fn every_time(random: &mut Random, index: u64) {
    let (table, start) = make::counter_table(1, index as u16);
    let (result, _) = checks::plan(&table.bytes(), start, 0, lists(2, 27), random.next());
    if index > u64::from(MOST_SECONDS) {
        assert_eq!(result, Err(Refusal { number: 19, place: 2 }));
        return;
    }
    let planned = result.expect("one job leads to the goal");
    assert_eq!((planned.way_jobs, planned.way_minutes), (1, minutes(index as i64)));
}

/// Demand 3: from every state that a plan covers, the run ends with Success after the fewest jobs.
fn fewest_jobs(random: &mut Random, index: u64, kind: Jobs) {
    let table = make::small_table(random, index, kind);
    let bytes = table.bytes();
    let distance = distances(&table);
    let lengths = lent::whole(&table);
    for start in 0..1u64 << table.facts {
        let (result, lent) = checks::plan(&bytes, start, 0, lengths, start);
        let planned = match result {
            Ok(planned) => planned,
            Err(refusal) => {
                assert_eq!(refusal.number, 11);
                assert_eq!(distance[start as usize], None, "no way is said, but there is one from {start:x}");
                continue;
            }
        };
        let list = lent.list(planned.paired, planned.entries);
        let tree = &lent.tree[..planned.tree_bytes];
        let tick = |state| checks::tick(&bytes, tree, state, 0);
        check_runs(&table, &list, &distance, tick);
        if kind == Plain {
            check_no_dead_lines(&table, &list);
        }
        let (jobs, _) = run(&table, start, tick);
        assert_eq!(planned.way_jobs, jobs.len());
        assert_eq!(planned.way_minutes, minutes(seconds_of(&table, &jobs)));
    }
}

/// Ways of up to 1,023 jobs, worked to the end, and one of 4,095, the longest that a list can hold.
fn long_runs(random: &mut Random, index: u64) {
    let bits = index as usize + 1;
    let (table, start) = make::counter_table(bits, random.between(5_300, 5_400) as u16);
    long_run(random, &table, start, (1 << bits) - 1);
}

/// The same with pairs; the longest way has 2,977 jobs.
fn long_pair_runs(random: &mut Random, index: u64) {
    let bits = index as usize + 1;
    let last = if bits == 12 { 2_976 } else { (1 << bits) - 1 - random.below(1 << (bits - 1)) as u64 };
    let table = make::pair_counter_table(bits, last, random.between(5_300, 5_400) as u16);
    long_run(random, &table, 0, last as usize + 1);
}

/// The one way of a counter.
fn long_run(random: &mut Random, table: &Table, start: u64, way: usize) {
    let bytes = table.bytes();
    let (result, lent) = checks::plan(&bytes, start, 0, full(), random.next());
    let planned = result.expect("a counter can be counted up");
    assert_eq!((planned.entries, planned.way_jobs), (way + 1, way));
    assert_eq!(planned.way_minutes, minutes(i64::from(table.jobs[0].seconds) * way as i64));
    let tree = &lent.tree[..planned.tree_bytes];
    if way <= 1_024 {
        let (jobs, success) = run(table, start, |state| checks::tick(&bytes, tree, state, 0));
        assert_eq!((jobs.len(), success), (way, true));
    } else {
        let ticked = checks::tick(&bytes, tree, start, 0).expect("a sound tree");
        assert_eq!(ticked.status, Status::Running(lent.jobs[way]));
    }
}

/// A plan is refused as no way exactly where brute force finds none.
fn no_way(random: &mut Random, index: u64, kind: Jobs) {
    let facts = random.between(3, 7) as u32;
    let table = if index % 2 == 0 { make::busy_table(random, facts, kind) } else { make::table(random, 7, 8, kind) };
    let bytes = table.bytes();
    let distance = distances(&table);
    let lengths = lent::whole(&table);
    for start in 0..1u64 << table.facts {
        let (result, _) = checks::plan(&bytes, start, 0, lengths, start);
        let jobs = match result {
            Ok(planned) => Some(planned.way_jobs),
            Err(refusal) => {
                assert_eq!(refusal.number, 11);
                None
            }
        };
        assert_eq!(jobs, distance[start as usize], "from {start:x}");
    }
}
