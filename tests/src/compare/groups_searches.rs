//! The search for a listed part of a condition.

use bay_tests::engine::*;
use bay_tests::make;
use bay_tests::make::Jobs::{self, Plain};
use bay_tests::random::Random;

use super::checks;
use super::{both, one, Group};

pub fn groups() -> Vec<Vec<Group>> {
    vec![
        one("searches_of_any_list", 100_000, any_list),
        one("searches_of_every_small_list", 1, every_small_list),
        one("searches_of_every_small_list_of_pairs", 1, every_small_list_of_pairs),
        both("searches_of_planned_lists", 400, planned_list),
        one("searches_of_long_lists", 40, long_list),
    ]
}

/// A mask of a foreign list: often empty, or one that stands there already.
fn foreign(random: &mut Random, listed: &[u64], facts: u32) -> u64 {
    match random.below(8) {
        0 => 0,
        1 | 2 if !listed.is_empty() => *random.pick(listed),
        3 => random.next(),
        _ => random.facts(facts, 4),
    }
}

fn foreign_list(random: &mut Random, length: usize, facts: u32) -> Vec<u64> {
    let mut listed = Vec::new();
    while listed.len() < length {
        let mask = foreign(random, &listed, facts);
        listed.push(mask);
    }
    listed
}

/// What is answered says what document 02 asks of it, by its own words: of the pairs of both rows, where second masks that are not there are 0.
fn is_right(listed: &[u64], absences: &[u64], condition: Condition) {
    let second = |entry: usize| if entry < absences.len() { absences[entry] } else { 0 };
    let is_part = |entry: usize| listed[entry] & !condition.present == 0 && second(entry) & !condition.absent == 0;
    match checks::newest_weaker(listed, absences, condition) {
        Some(entry) => {
            assert!(is_part(entry), "no part");
            assert!(!(entry + 1..listed.len()).any(is_part), "a newer part");
        }
        None => assert!(!(0..listed.len()).any(is_part), "a part"),
    }
}

/// Lists of any conditions, with as many second masks, with fewer, with more, and with none.
fn any_list(random: &mut Random, _: u64) {
    let facts = *random.pick(&[2, 3, 6, 12, 64]);
    let length: usize = *random.pick(&[0, 1, 2, 3, 8, 30]);
    let seconds = *random.pick(&[0, length / 2, length.saturating_sub(1), length, length + 2]);
    let listed = foreign_list(random, length, facts);
    let absences = foreign_list(random, seconds, facts);
    let absent = if random.one_in(3) { 0 } else { foreign(random, &absences, facts) };
    is_right(&listed, &absences, Condition { present: foreign(random, &listed, facts), absent });
}

/// The masks of so many entries, each of so many bits, out of one number.
fn masks(code: u64, bits: usize, length: usize) -> Vec<u64> {
    (0..length).map(|entry| code >> (bits * entry) & ((1 << bits) - 1)).collect()
}

/// Every list of up to four conditions over two facts without second masks, and every condition.
fn every_small_list(_: &mut Random, _: u64) {
    for length in 0..=4 {
        for code in 0..1u64 << (2 * length) {
            for mask in 0..4 {
                is_right(&masks(code, 2, length), &[], Condition::plain(mask));
            }
        }
    }
}

/// Every list of up to three pairs over one fact with every number of second masks, up to one too many, and every pair.
fn every_small_list_of_pairs(_: &mut Random, _: u64) {
    for length in 0..=3 {
        for seconds in 0..=length + 1 {
            for code in 0..1u64 << (length + seconds) {
                let (listed, absences) = (masks(code, 1, length), masks(code >> length, 1, seconds));
                for condition in 0..4 {
                    is_right(&listed, &absences, Condition { present: condition & 1, absent: condition >> 1 });
                }
            }
        }
    }
}

/// The lists that plans make, each condition of them, and what jobs make of them.
fn planned_list(random: &mut Random, _: u64, kind: Jobs) {
    let facts = random.between(3, 12) as u32;
    let table = make::busy_table(random, facts, kind);
    let list = expand(&table, None, 300).0;
    let listed: Vec<u64> = list.iter().map(|entry| entry.condition.present).collect();
    let absences: Vec<u64> = list.iter().map(|entry| entry.condition.absent).collect();
    let lent = if kind == Plain { &[] } else { absences.as_slice() };
    for entry in &list {
        is_right(&listed, lent, entry.condition);
        for job in &table.jobs {
            is_right(&listed, lent, condition_before(job, entry.condition));
        }
    }
}

/// Lists of a plan's longest and of one entry more and less, with one part at a place, and one that is a part but for its second mask.
fn long_list(random: &mut Random, index: u64) {
    let length = 4_095 + index as usize % 3;
    let mut listed = vec![1 << 63; length];
    let condition = Condition::plain(0xff);
    assert_eq!(checks::newest_weaker(&listed, &[], condition), None);
    let entry = *random.pick(&[0, 1, length / 2, length - 2, length - 1]);
    listed[entry] = random.next() & 0xff;
    assert_eq!(checks::newest_weaker(&listed, &[], condition), Some(entry));
    let mut absences = vec![0; entry + 1];
    assert_eq!(checks::newest_weaker(&listed, &absences, condition), Some(entry));
    absences[entry] = 0x10;
    assert_eq!(checks::newest_weaker(&listed, &absences, condition), None);
    assert_eq!(checks::newest_weaker(&listed, &absences, Condition { absent: 0x30, ..condition }), Some(entry));
    assert_eq!(checks::newest_weaker(&listed, &absences[..entry], condition), Some(entry));
}
