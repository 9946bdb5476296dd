//! The corpus of the digests: tables, readings, lent slices, trees and folders. Its seed and its generators are its own, so that no change
//! of another test moves it; whoever changes this file makes the stored digests anew.
//!
//! No damaged byte is a command of document 02 (0x21 in a table, 0x45 and 0x46 in a tree), so that the digests hold before and after it.

use bay_tests::engine::{Card, Lent};
use bay_tests::random::Random;

const SEED: u64 = 20_241_117;
pub const CASES: u64 = 10_000;

const FACTS: u8 = 0x10;
const JOB: u8 = 0x20;
const GOAL: u8 = 0x30;
const END_OF_TABLE: u8 = 0x3f;
const FALLBACK: u8 = 0x41;
const SEQUENCE: u8 = 0x42;
const CONDITION: u8 = 0x43;
const JOB_LEAF: u8 = 0x44;
const END_OF_TREE: u8 = 0x4f;
const TABLE_COMMANDS: [u8; 4] = [FACTS, JOB, GOAL, END_OF_TABLE];
const TREE_COMMANDS: [u8; 5] = [FALLBACK, SEQUENCE, CONDITION, JOB_LEAF, END_OF_TREE];
const OF_DOCUMENT_02: [u8; 3] = [0x21, 0x45, 0x46];

/// A table's bytes, sound or not, and a start. The numbers are those of the sound table that it was made from.
pub struct Case {
    pub facts: u32,
    pub jobs: usize,
    pub table: Vec<u8>,
    pub held: u64,
    pub unread: u64,
}

/// Needs, adds, deletes and seconds.
type Job = (u64, u64, u64, u16);

pub fn random_for(index: u64) -> Random {
    Random::for_case(SEED, "digests", index)
}

fn all(facts: u32) -> u64 {
    u64::MAX >> (64 - facts)
}

fn mask(random: &mut Random, facts: u32, count: usize) -> u64 {
    (0..random.below(count + 1)).map(|_| 1u64 << random.below(facts as usize)).fold(0, |mask, fact| mask | fact)
}

fn job(random: &mut Random, facts: u32) -> Job {
    let mut adds = mask(random, facts, 2);
    if !random.one_in(12) {
        adds |= 1 << random.below(facts as usize);
    }
    let (needs, deletes) = (mask(random, facts, 3) & !adds, mask(random, facts, 2) & !adds);
    let usual = random.below(2_000) as u16;
    (needs, adds, deletes, *random.pick(&[0, 1, 30, 90, 5_399, 5_400, usual]))
}

fn table_bytes(facts: u32, jobs: &[Job], goal: u64) -> Vec<u8> {
    let mut bytes = vec![FACTS, facts as u8];
    for (needs, adds, deletes, seconds) in jobs {
        bytes.push(JOB);
        for mask in [needs, adds, deletes] {
            bytes.extend(mask.to_le_bytes());
        }
        bytes.extend(seconds.to_le_bytes());
    }
    bytes.push(GOAL);
    bytes.extend(goal.to_le_bytes());
    bytes.push(END_OF_TABLE);
    bytes
}

/// Facts to reach, each with one job from a fact of its own, so that the list has 2^pairs entries; and a start that meets its last.
fn long_case(pairs: usize) -> Case {
    let jobs: Vec<Job> = (0..pairs).map(|i| (1 << (pairs + i), 1 << i, 0, 60 + i as u16)).collect();
    let goal = (1 << pairs) - 1;
    let facts = 2 * pairs as u32;
    Case { facts, jobs: pairs, table: table_bytes(facts, &jobs, goal), held: goal << pairs, unread: 0 }
}

fn damage(random: &mut Random, bytes: &mut Vec<u8>, commands: &[u8]) {
    let at = random.below(bytes.len());
    match random.below(9) {
        0 => bytes[at] = random.byte(),
        1 => bytes[at] = *random.pick(commands),
        2 => bytes[at] ^= 1 << random.below(8),
        3 => bytes[at] = bytes[at].wrapping_add(*random.pick(&[1, 255])),
        4 => bytes.truncate(at),
        5 => drop(bytes.remove(at)),
        6 => bytes.insert(at, *random.pick(commands)),
        7 => bytes.push(*random.pick(commands)),
        _ => {
            let places: Vec<usize> = (0..bytes.len()).filter(|i| commands.contains(&bytes[*i])).collect();
            let place = *random.pick(&places);
            bytes[place] = *random.pick(commands);
        }
    }
    for byte in bytes {
        if OF_DOCUMENT_02.contains(byte) {
            *byte ^= 0x80;
        }
    }
}

fn damaged_table(random: &mut Random, facts: u32, jobs: &[Job], goal: u64) -> Vec<u8> {
    let mut jobs = jobs.to_vec();
    match random.below(12) {
        0 => {
            jobs = vec![job(random, facts); 129];
        }
        1 | 2 if !jobs.is_empty() => random.pick_mut(&mut jobs).3 = random.between(5_401, 65_535) as u16,
        3 if !jobs.is_empty() => {
            let each = random.pick_mut(&mut jobs);
            each.0 |= each.1;
        }
        4 => {
            let mut bytes = table_bytes(facts, &jobs, goal);
            bytes[1] = *random.pick(&[0, 65, 255]);
            return bytes;
        }
        _ => {
            let mut bytes = table_bytes(facts, &jobs, goal);
            damage(random, &mut bytes, &TABLE_COMMANDS);
            return bytes;
        }
    }
    table_bytes(facts, &jobs, goal)
}

/// One case in four is damaged, one in a hundred has many jobs, one in a thousand a list of 4,096 entries or more.
pub fn case(random: &mut Random, index: u64) -> Case {
    if index % 1_000 == 500 {
        return long_case(12 + random.below(2));
    }
    let (facts, count) = match index % 100 {
        50 => (random.between(6, 64) as u32, random.between(20, 128)),
        place if place % 3 == 0 => (random.between(1, 64) as u32, random.below(13)),
        _ => {
            let facts = random.between(2, 8);
            (facts as u32, random.between(facts, 2 * facts))
        }
    };
    let jobs: Vec<Job> = (0..count).map(|_| job(random, facts)).collect();
    let goal = if random.one_in(20) { 0 } else { mask(random, facts, 2) | 1 << random.below(facts as usize) };
    let table =
        if index % 4 == 3 { damaged_table(random, facts, &jobs, goal) } else { table_bytes(facts, &jobs, goal) };
    let mut held = random.next() & all(facts);
    let mut unread = 0;
    match random.below(16) {
        0 => held |= 1 << random.below(64),
        1 => unread = random.next() & all(facts) & !held,
        2 => unread = random.next(),
        3 | 4 => held = 0,
        _ => {}
    }
    Case { facts, jobs: count, table, held, unread }
}

/// A reading, now and then an unsound one.
pub fn reading(random: &mut Random, facts: u32) -> (u64, u64) {
    let held = random.next() & all(facts);
    match random.below(8) {
        0 => (held | 1 << random.below(64), 0),
        1 => (held, random.next()),
        2 | 3 => (held, 0),
        4 | 5 => (held, mask(random, facts, 2) & !held),
        _ => (held, random.next() & all(facts) & !held),
    }
}

/// Slices of these lengths, conditions, jobs, parents, depths and tree, all filled with a pattern. A row that a later request adds is lent
/// empty.
pub fn lent(random: &mut Random, lengths: [usize; 5]) -> Lent {
    let pattern = random.next();
    let fill = |i: usize| (i as u64 ^ pattern).wrapping_mul(0x9e37_79b9_7f4a_7c15);
    Lent {
        conditions: (0..lengths[0]).map(fill).collect(),
        jobs: (0..lengths[1]).map(|i| (fill(i) >> 56) as u8).collect(),
        parents: (0..lengths[2]).map(|i| (fill(i) >> 40) as u16).collect(),
        depths: (0..lengths[3]).map(|i| (fill(i) >> 32) as u16).collect(),
        tree: (0..lengths[4]).map(|i| (fill(i) >> 48) as u8).collect(),
        ..Lent::default()
    }
}

fn is_long(case: &Case) -> bool {
    case.facts >= 24 && case.jobs * 2 == case.facts as usize
}

/// Each list table of any length, and a tree that is too short more often than not.
pub fn any_lengths(random: &mut Random, case: &Case) -> [usize; 5] {
    let most = if is_long(case) { 4_200 } else { *random.pick(&[3, 10, 40]) };
    let mut lengths = [0; 5];
    for length in &mut lengths {
        *length = random.between(most / 4, most);
    }
    lengths[4] = random.below(14 * most);
    lengths
}

/// Room for the lists of most small tables, or for all that a plan can list.
pub fn ample_lengths(random: &mut Random, case: &Case) -> [usize; 5] {
    if is_long(case) {
        return [4_096 + random.below(3), 4_096, 4_097, 4_200, 65_535];
    }
    let most = 120 + random.below(100);
    [most, most + random.below(5), most, most + 1, 14 * most + random.below(14)]
}

fn condition(mask: u64) -> Vec<u8> {
    [&[CONDITION][..], &mask.to_le_bytes()].concat()
}

fn inner(random: &mut Random, children: usize) -> Vec<u8> {
    let command = *random.pick(&[FALLBACK, SEQUENCE]);
    [&[command][..], &(children as u16).to_le_bytes()].concat()
}

fn node(random: &mut Random, case: &Case, depth: usize, leaves: &mut usize, bytes: &mut Vec<u8>) {
    if depth == 16 || *leaves == 0 || random.one_in(3) {
        *leaves = leaves.saturating_sub(1);
        if case.jobs > 0 && random.one_in(3) {
            bytes.extend([JOB_LEAF, random.below(case.jobs) as u8]);
        } else {
            bytes.extend(condition(mask(random, case.facts, 2)));
        }
        return;
    }
    let children = random.between(1, 4);
    bytes.extend(inner(random, children));
    for _ in 0..children {
        node(random, case, depth + 1, leaves, bytes);
    }
}

/// A tree of any shape, sound for the sound table.
pub fn tree(random: &mut Random, case: &Case) -> Vec<u8> {
    let mut leaves = *random.pick(&[1, 4, 10, 30]);
    let mut bytes = Vec::new();
    node(random, case, 1, &mut leaves, &mut bytes);
    bytes.push(END_OF_TREE);
    bytes
}

/// A chain around the deepest that is allowed.
pub fn deep_tree(random: &mut Random) -> Vec<u8> {
    let mut bytes = Vec::new();
    for _ in 0..random.between(13, 18) {
        bytes.extend(inner(random, 1));
    }
    bytes.extend(if random.one_in(2) {
        condition(1 << random.below(64))
    } else {
        vec![JOB_LEAF, random.below(9) as u8]
    });
    bytes.push(END_OF_TREE);
    bytes
}

pub fn damaged_tree(random: &mut Random, tree: &[u8]) -> Vec<u8> {
    let mut bytes = tree.to_vec();
    damage(random, &mut bytes, &TREE_COMMANDS);
    bytes
}

fn sum(random: &mut Random, reports: u16, most: u16) -> u32 {
    let bound = u32::from(most) * u32::from(reports);
    match random.below(6) {
        0 => bound.saturating_add(1),
        1 => random.next() as u32,
        2 => bound,
        _ => bound / 2,
    }
}

pub fn card(random: &mut Random, case: &Case) -> Card {
    let (held, unread) = if random.one_in(2) { (all(case.facts), 0) } else { reading(random, case.facts) };
    let any = random.next() as u16;
    let reports = *random.pick(&[0, 1, 2, 65_534, 65_535, any]);
    Card { held, unread, reports, taken: sum(random, reports, 65_535), planned: sum(random, reports, 5_400) }
}

/// What stands in a folder that `bayplan` is run in, `bay.tab` and `start.bay`; None is a file that is not there.
type Folder = (Option<Vec<u8>>, Option<Vec<u8>>);

pub fn folders() -> Vec<Folder> {
    let start_of = |case: &Case| [case.held.to_le_bytes(), case.unread.to_le_bytes()].concat();
    let mut folders = Vec::new();
    for index in 0..600 {
        let case = case(&mut random_for(index), index);
        folders.push((Some(case.table.clone()), Some(start_of(&case))));
        if index % 60 == 0 {
            let start: Vec<u8> = start_of(&case).into_iter().cycle().take(index as usize / 3).collect();
            folders.push((Some(case.table.clone()), Some(start)));
            folders.push((
                Some([case.table.clone(), vec![END_OF_TABLE; 70 * index as usize]].concat()),
                Some(start_of(&case)),
            ));
        }
    }
    for pairs in [11, 12, 13] {
        let case = long_case(pairs);
        folders.push((Some(case.table.clone()), Some(start_of(&case))));
        folders.push((Some(case.table.clone()), Some(vec![0; 16])));
        folders.push((Some(case.table.clone()), None));
        folders.push((None, Some(start_of(&case))));
    }
    folders.push((None, None));
    folders
}
