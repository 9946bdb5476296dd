//! The plan for the whole shift (document 02, W2), also against brute force.

use bay_tests::brute::{check_cover, check_no_dead_lines, check_runs, distances};
use bay_tests::engine::*;
use bay_tests::make::Jobs::{self, Paired, Plain};
use bay_tests::random::Random;
use bay_tests::{make, trailer};

use super::checks;
use super::lent::{self, full, lists, tree_bytes};
use super::{both, one, Group};

pub fn groups() -> Vec<Vec<Group>> {
    vec![
        both("shifts_small", 40_000, small),
        both("shifts_at_each_capacity", 2_000, each_capacity),
        one("shifts_long", 5, long),
        one("shifts_long_pairs", 9, long_pairs),
        both("shifts_refused", 20_000, refused),
        both("shifts_cover_what_has_a_way", 2_500, cover),
        both("shifts_begin_as_plans", 600, begin_as_plans),
    ]
}

/// Random small tables into slices of any length.
fn small(random: &mut Random, index: u64, kind: Jobs) {
    let facts = random.between(3, 8) as u32;
    let table = if index % 2 == 0 { make::busy_table(random, facts, kind) } else { make::table(random, 9, 9, kind) };
    let most = *random.pick(&[3, 10, 40, 120]);
    let lengths = lent::any(random, &table, most);
    let _ = checks::plan_shift(&table.bytes(), lengths, random.next());
}

/// Every capacity around the need, each table the shortest in turn, and the tree around its need.
fn each_capacity(random: &mut Random, index: u64, kind: Jobs) {
    let table = make::small_table(random, index, kind);
    let bytes = table.bytes();
    let entries = expand(&table, None, table.most_entries()).0.len();
    let need = tree_bytes(&table, entries);
    let planned = Ok(ShiftPlanned { entries, tree_bytes: need, paired: table.is_paired() });
    lent::around(random, &table, entries, |random, capacity, lengths| {
        let (result, _) = checks::plan_shift(&bytes, lengths, random.next());
        let full = Err(Refusal { number: 10, place: capacity });
        assert_eq!(result, if capacity < entries { full } else { planned });
    });
    for tree in lent::trees_around(&table, entries) {
        let (result, _) = checks::plan_shift(&bytes, lists(entries + random.below(3), tree), random.next());
        let short = Err(Refusal { number: 12, place: entries });
        assert_eq!(result, if tree < need { short } else { planned });
    }
}

/// A list of 4,096 entries, and those that would be longer.
fn long(random: &mut Random, index: u64) {
    let full_at = |place| Err(Refusal { number: 10, place });
    let planned = Ok(ShiftPlanned { entries: 4_096, tree_bytes: 57_343, paired: false });
    let (goals, lengths, expected) = match index {
        0 => (12, full(), planned),
        1 => (12, lists(5_000, 70_000), planned),
        2 => (13, lists(5_000, 70_000), full_at(4_096)),
        3 => (12, lists(4_095, 57_343), full_at(4_095)),
        _ => (12, lists(4_096, 57_342), Err(Refusal { number: 12, place: 4_096 })),
    };
    let bytes = make::long_table(goals, 0, Plain).bytes();
    assert_eq!(checks::plan_shift(&bytes, lengths, random.next()).0, expected);
}

/// A list of 2,978 pairs, and those that would be longer: counters up to 2,976 and 2,977, and a table whose list would have 4,096.
fn long_pairs(random: &mut Random, index: u64) {
    let just = make::pair_counter_table(12, 2_976, 1);
    let full_at = |place| Err(Refusal { number: 10, place });
    let planned = Ok(ShiftPlanned { entries: 2_978, tree_bytes: 65_515, paired: true });
    let mut shorter = full();
    shorter[1] = 2_977;
    let (table, lengths, expected) = match index {
        0 => (just, full(), planned),
        1 => (just, lists(5_000, 70_000), planned),
        2 => (just, lists(2_978, 65_515), planned),
        3 => (just, lists(2_978, 65_514), Err(Refusal { number: 12, place: 2_978 })),
        4 => (just, lists(2_977, 65_515), full_at(2_977)),
        5 => (just, shorter, full_at(2_977)),
        6 => (make::pair_counter_table(12, 2_977, 1), full(), full_at(2_978)),
        7 => (make::pair_counter_table(12, 4_095, 1), lists(5_000, 70_000), full_at(2_978)),
        _ => (make::long_table(12, 0, Paired), full(), full_at(2_978)),
    };
    assert_eq!(checks::plan_shift(&table.bytes(), lengths, random.next()).0, expected);
}

/// Tables with faults.
fn refused(random: &mut Random, _: u64, kind: Jobs) {
    let table = make::table(random, 8, 6, kind);
    let bytes = make::damaged_bytes(random, &table);
    let _ = checks::plan_shift(&bytes, lists(random.below(20), random.below(200)), random.next());
}

/// The cover of the whole shift; demand 3 from each state of it; and of tables without 0x21 no dead lines.
fn cover(random: &mut Random, index: u64, kind: Jobs) {
    let table = make::small_table(random, index, kind);
    let bytes = table.bytes();
    let distance = distances(&table);
    let (result, lent) = checks::plan_shift(&bytes, full(), random.next());
    let planned = result.expect("a small table's list is not full");
    if bytes == trailer::table() {
        assert_eq!((planned.entries, planned.tree_bytes), (9, 125));
    }
    let list = lent.list(planned.paired, planned.entries);
    check_cover(&table, &list, &distance);
    let tree = &lent.tree[..planned.tree_bytes];
    check_runs(&table, &list, &distance, |state| checks::tick(&bytes, tree, state, 0));
    if kind == Plain {
        check_no_dead_lines(&table, &list);
    }
}

/// A plan for a start lists the first entries of the shift's list.
fn begin_as_plans(random: &mut Random, index: u64, kind: Jobs) {
    let table = make::small_table(random, index, kind);
    let bytes = table.bytes();
    let (result, lent) = checks::plan_shift(&bytes, full(), random.next());
    let shift = result.expect("a small table's list is not full");
    let list = lent.list(shift.paired, shift.entries);
    for start in 0..1u64 << table.facts {
        let (result, lent) = checks::plan(&bytes, start, 0, full(), start);
        let entries = match result {
            Ok(planned) => planned.entries,
            Err(refusal) => refusal.place,
        };
        assert_eq!(lent.list(shift.paired, entries), list[..entries], "the plan from {start:x}");
    }
}
