//! From the tree back to the list (document 02, W7), also against the library's own plans for every start.

use std::collections::BTreeMap;

use bay_tests::engine::*;
use bay_tests::make;
use bay_tests::make::Jobs::{self, Paired, Plain};
use bay_tests::random::Random;
use bay_tests::trailer::{self, one_fact_less};

use super::checks;
use super::groups_teams::{table_of_few_jobs, team};
use super::groups_ticks::most_leaves;
use super::lent::{self, full};
use super::{both, one, Group};
use crate::ffi;

pub fn groups() -> Vec<Vec<Group>> {
    vec![
        one("recovery_of_the_trailer", 1, of_the_trailer),
        one("recovery_of_every_beginning", 600, every_beginning),
        both("recovery_of_every_plan", 400, every_plan),
        both("recovery_exactly_of_plans", 800, exactly_of_plans),
        one("recovery_of_every_flat_tree", 150, every_flat_tree),
        both("recovery_every_byte_changed", 175, every_byte_changed),
        both("recovery_of_bytes_changed", 4_000, bytes_changed),
        one("recovery_every_cut", 300, every_cut),
        one("recovery_of_another_job", 250, another_job),
        one("recovery_of_jobs_listed_twice", 800, jobs_listed_twice),
        one("recovery_of_entries_swapped", 500, entries_swapped),
        one("recovery_of_parents", 3_000, parents),
        one("recovery_under_other_tables", 10_000, other_tables),
        both("recovery_of_fitters", 150, fitters),
        both("recovery_of_any_shape", 20_000, any_shape),
        both("recovery_of_marked_shapes", 1, marked_shapes),
        both("recovery_of_any_bytes", 30_000, any_bytes),
        both("recovery_of_a_paired_table", 1_500, of_a_paired_table),
        both("recovery_refused", 30_000, refused),
        one("recovery_long", 12, long),
        one("recovery_on_a_small_stack", 1, small_stack),
    ]
}

/// The entries of the list, or number and place; into list tables of these lengths.
fn recover_into(
    random: &mut Random,
    table: &[u8],
    tree: &[u8],
    lengths: ListLengths,
) -> Result<Vec<Entry>, (u64, usize)> {
    let (result, lent) = checks::recover_list(table, tree, lengths, random.next());
    result.map(|entries| lent.list(false, entries)).map_err(|refusal| (refusal.number, refusal.place))
}

/// The same, into list tables that have room for as many entries as such a tree can have, or for a few more.
fn recover(random: &mut Random, table: &[u8], tree: &[u8]) -> Result<Vec<Entry>, (u64, usize)> {
    let lengths = [0; 4].map(|_| tree.len() / 14 + 1 + random.below(3));
    recover_into(random, table, tree, lengths)
}

const OTHER_ORIGIN: Result<Vec<Entry>, (u64, usize)> = Err((20, 0));
const TOO_SHORT: Result<Vec<Entry>, (u64, usize)> = Err((10, 0));

/// A table without 0x21, and the first entries of its whole list, at most so many.
fn listed(random: &mut Random, index: u64, most: usize) -> (Table, Vec<Entry>) {
    let (few, many) = (random.between(3, 8) as u32, random.between(6, 20) as u32);
    let (goals, more) = (random.between(2, 6), random.below(9));
    let table = match index % 5 {
        0 => make::small_table(random, index / 5, Plain),
        1 => make::busy_table(random, few, Plain),
        2 => make::busy_table(random, many, Plain),
        3 => make::long_table(goals, more, Plain),
        _ => make::table(random, 64, 12, Plain),
    };
    let list = expand(&table, None, most).0;
    (table, list)
}

/// The trees that the papers print, with their lists, by hand.
fn of_the_trailer(random: &mut Random, _: u64) {
    let table = trailer::table();
    let whole = trailer::whole_list();
    // P1, P2 and P5.
    for (start, entries) in [(0x02, 8), (0x01, 9), (0x10, 1)] {
        let (result, lent) = checks::plan(&table, start, 0, full(), random.next());
        let tree = &lent.tree[..result.expect("a plan").tree_bytes];
        assert_eq!(tree.len(), 14 * entries - 1);
        assert_eq!(recover_into(random, &table, tree, [entries; 4]), Ok(whole[..entries].to_vec()));
        assert_eq!(recover_into(random, &table, tree, [4_096; 4]), Ok(whole[..entries].to_vec()));
        for shortest in 0..4 {
            for length in [0, entries - 1] {
                let lengths = lent::list_shortest(entries, shortest, length);
                assert_eq!(recover_into(random, &table, tree, lengths), TOO_SHORT);
            }
        }
        // 13 and 15 come first, then 20, and then 10.
        for lengths in [[0; 4], [entries; 4]] {
            assert_eq!(recover_into(random, &table, &tree[..tree.len() - 1], lengths), Err((13, tree.len() - 1)));
            assert_eq!(recover_into(random, &table, &[tree, &[0]].concat(), lengths), Err((13, tree.len())));
            let mut other = tree.to_vec();
            other[4] = 0x30;
            assert_eq!(recover_into(random, &table, &other, lengths), Err((15, 3)));
            other[4] = 0x08;
            assert_eq!(recover_into(random, &table, &other, lengths), OTHER_ORIGIN);
        }
    }
    // The whole shift's tree is P2's.
    let (result, lent) = checks::plan_shift(&table, full(), random.next());
    let tree = &lent.tree[..result.expect("a plan").tree_bytes];
    assert_eq!(recover_into(random, &table, tree, [9; 4]), Ok(whole));
    // With one fact less the plan's own tree is refused, however much is lent.
    let (result, lent) = checks::plan(&one_fact_less::table(), 0x01, 0, full(), random.next());
    let tree = &lent.tree[..result.expect("a plan").tree_bytes];
    for entries in [0, 7, 4_096] {
        assert_eq!(recover_into(random, &one_fact_less::table(), tree, [entries; 4]), OTHER_ORIGIN);
    }
}

/// Every beginning of a whole list: with just enough lent, with more, and with each list table too short in its turn.
fn every_beginning(random: &mut Random, index: u64) {
    let (table, whole) = if index % 8 == 7 {
        let table = make::busy_table(random, 64, Plain);
        let whole = expand(&table, None, 40).0;
        (table, whole)
    } else {
        listed(random, index, 70)
    };
    let bytes = table.bytes();
    for entries in 1..=whole.len() {
        let list = Ok(whole[..entries].to_vec());
        let tree = tree_bytes(&table, &whole[..entries]);
        assert_eq!(recover_into(random, &bytes, &tree, [entries; 4]), list);
        let longer = [0; 4].map(|_| entries + random.below(6));
        assert_eq!(recover_into(random, &bytes, &tree, longer), list);
        for shortest in 0..4 {
            for length in [0, entries - 1] {
                let lengths = lent::list_shortest(entries, shortest, length);
                assert_eq!(recover_into(random, &bytes, &tree, lengths), TOO_SHORT);
            }
        }
        let any = [0; 4].map(|_| random.below(2 * entries + 1));
        let enough = any.iter().all(|length| *length >= entries);
        assert_eq!(recover_into(random, &bytes, &tree, any), if enough { list } else { TOO_SHORT });
    }
    assert_eq!(recover_into(random, &bytes, &tree_bytes(&table, &whole), [0; 4]), TOO_SHORT);
}

/// The trees of the plan for every start, and of the plan for the whole shift, come back as the lists that those plans wrote.
fn every_plan(random: &mut Random, index: u64, kind: Jobs) {
    let table = table_of_few_facts(random, index, kind);
    let bytes = table.bytes();
    let lengths = lent::whole(&table);
    let mut planned = Vec::new();
    for start in 0..1u64 << table.facts {
        let (result, lent) = checks::plan(&bytes, start, 0, lengths, start);
        planned.extend(result.map(|planned| (planned.entries, planned.tree_bytes, lent)));
    }
    let (result, lent) = checks::plan_shift(&bytes, lengths, random.next());
    planned.extend(result.map(|planned| (planned.entries, planned.tree_bytes, lent)));
    for (entries, tree_bytes, lent) in planned {
        let list = lent.list(false, entries);
        let recovered = recover(random, &bytes, &lent.tree[..tree_bytes]);
        assert_eq!(recovered, if table.is_paired() { OTHER_ORIGIN } else { Ok(list) });
    }
}

/// What the library itself plans with a table: for every start the tree and the list.
struct Plans {
    table: Vec<u8>,
    lists: BTreeMap<Vec<u8>, Vec<Entry>>,
    /// The most entries that one of them has.
    most: usize,
}

impl Plans {
    /// Of a table with a 0x21 none counts.
    fn of(table: &Table) -> Plans {
        let mut plans = Plans { table: table.bytes(), lists: BTreeMap::new(), most: 0 };
        for start in 0..1u64 << table.facts {
            let mut lent = Lent::filled(lent::whole(table), start);
            let [number, entries, tree_bytes, ..] = ffi::plan(&plans.table, start, 0, &mut lent);
            if number == 0 && !table.is_paired() {
                let list = lent.list(false, entries as usize);
                plans.most = plans.most.max(list.len());
                plans.lists.insert(lent.tree[..tree_bytes as usize].to_vec(), list);
            }
        }
        plans
    }

    /// Against the library's plans and ticks alone: a plan's tree gives its list, and any other 20, or what a tick refuses it with.
    fn check(&self, tree: &[u8]) {
        let mut lent = Lent::filled([self.most, 0, self.most, self.most, self.most, 0], tree.len() as u64);
        let unwritten = lent.clone();
        let answer = ffi::recover_list(&self.table, tree, lent.lists());
        if let Some(list) = self.lists.get(tree) {
            assert_eq!(answer, [0, list.len() as u64], "a plan's tree {tree:02x?}");
            assert_eq!(lent.list(false, list.len()), *list);
            return;
        }
        let [number, place, _] = ffi::tick(&self.table, tree, 0, 0);
        assert_eq!(answer, if number == 0 { [20, 0] } else { [number, place] }, "no plan's tree {tree:02x?}");
        assert_eq!(lent, unwritten);
    }
}

/// A table whose states can all be tried; every other one has lists of some length.
fn table_of_few_facts(random: &mut Random, index: u64, kind: Jobs) -> Table {
    let facts = random.between(6, 7) as u32;
    if index % 2 == 0 {
        make::small_table(random, index / 2, kind)
    } else {
        make::busy_table(random, facts, kind)
    }
}

/// "accepted exactly when document 01's plan would write those bytes for some start": every start's plan, each of its trees changed in many ways, and
/// trees that are made of the same entries.
fn exactly_of_plans(random: &mut Random, index: u64, kind: Jobs) {
    let table = table_of_few_facts(random, index, kind);
    let plans = Plans::of(&table);
    let whole = expand(&table, None, table.most_entries()).0;
    for entries in 1..=whole.len() {
        let tree = tree_bytes(&table, &whole[..entries]);
        assert_eq!(plans.lists.contains_key(&tree), !table.is_paired(), "a start for every beginning");
        plans.check(&tree);
        for _ in 0..20 {
            let mut changed = tree.clone();
            make::damage(random, &mut changed, &make::TREE_COMMANDS);
            plans.check(&changed);
        }
    }
    for _ in 0..60 {
        let mut list = whole[..random.between(1, whole.len())].to_vec();
        change_list(random, &table, &mut list);
        plans.check(&tree_bytes(&table, &list));
    }
}

/// Changes a list so that its tree stays sound: an entry left out, listed again, moved, or with another mask or job.
fn change_list(random: &mut Random, table: &Table, list: &mut Vec<Entry>) {
    let (at, other) = (random.below(list.len()), random.below(list.len()));
    match random.below(6) {
        0 if list.len() > 1 => {
            list.remove(at);
        }
        1 if at > 0 => list.insert(at, list[other]),
        2 => list[at].condition = Condition::plain(random.state(table.facts)),
        3 => list[at].condition = list[other].condition,
        4 if at > 0 => list[at].job = random.below(table.jobs.len()) as u8,
        _ if at > 0 && other > 0 => list.swap(at, other),
        _ => {}
    }
    // Entry 0, listed again, has a job there.
    for entry in list.iter_mut().skip(1).filter(|entry| entry.job == NO_JOB) {
        entry.job = 0;
    }
}

/// Every tree of the plan's shape with up to four entries, over all masks and jobs of a table of two facts, or up to three of one of three facts.
fn every_flat_tree(random: &mut Random, index: u64) {
    let (facts, most) = if index % 3 == 0 { (3, 3) } else { (2, 4) };
    let count = random.between(1, if facts == 3 { 2 } else { 3 });
    let mut table = make::busy_table(random, facts, Plain);
    table.jobs.truncate(count);
    let plans = Plans::of(&table);
    let masks = || (0..1u64 << facts).map(Condition::plain);
    let jobs = 0..table.jobs.len() as u8;
    let entry = |condition, job| Entry { condition, job, parent: 0, depth: 0 };
    let rows: Vec<Entry> = masks().flat_map(|mask| jobs.clone().map(move |job| entry(mask, job))).collect();
    let mut lists: Vec<Vec<Entry>> = masks().map(|mask| vec![entry(mask, NO_JOB)]).collect();
    for entries in 1..=most {
        let mut accepted = 0;
        for list in &lists {
            let tree = tree_bytes(&table, list);
            plans.check(&tree);
            accepted += usize::from(plans.lists.contains_key(&tree));
        }
        assert_eq!(accepted, usize::from(entries <= plans.most), "one tree of {entries} entries, if there is one");
        if entries < most {
            lists = lists.iter().flat_map(|list| rows.iter().map(|row| [&list[..], &[*row]].concat())).collect();
        }
    }
}

/// Every value of one byte of the trailer's trees.
fn every_byte_changed(random: &mut Random, index: u64, kind: Jobs) {
    let table = make::small_table(random, 0, kind);
    let bytes = table.bytes();
    let whole = expand(&table, None, MOST_ENTRIES).0;
    for entries in [1, 2, whole.len() - 1, whole.len()] {
        let mut tree = tree_bytes(&table, &whole[..entries]);
        let at = index as usize;
        if at >= tree.len() {
            continue;
        }
        let own = tree[at];
        for value in 0..=255 {
            tree[at] = value;
            let recovered = recover(random, &bytes, &tree);
            assert_eq!(recovered.is_ok(), value == own && kind == Plain, "no other tree of this length is a plan's");
        }
    }
}

/// Some values of some bytes of longer trees, the last entry's among them.
fn bytes_changed(random: &mut Random, index: u64, kind: Jobs) {
    let (table, list) = match kind {
        Plain => listed(random, index, 120),
        Paired => {
            let table = make::busy_table(random, 6, Paired);
            let list = expand(&table, None, 120).0;
            (table, list)
        }
    };
    let bytes = table.bytes();
    let tree = tree_bytes(&table, &list);
    for time in 0..8 {
        let from_the_end = random.below(if time % 2 == 0 { tree.len() } else { tree.len().min(14) });
        let at = tree.len() - 1 - from_the_end;
        let own = tree[at];
        // Most often another fact or job that the table has.
        let other = *random.pick(&[own ^ 1, own ^ 2, own.wrapping_add(1), !own]);
        let changed = [&tree[..at], &[other], &tree[at + 1..]].concat();
        assert!(recover(random, &bytes, &changed).is_err(), "no other tree of this length is a plan's");
    }
    assert_eq!(recover(random, &bytes, &tree), if kind == Plain { Ok(list) } else { OTHER_ORIGIN });
}

/// Every cut of a built tree, every byte after its END; entries taken off its end and put there, with the count and without it.
fn every_cut(random: &mut Random, index: u64) {
    let (table, list) = listed(random, index, 20);
    let bytes = table.bytes();
    let (shorter, next) = list.split_at(list.len() - 1);
    let tree = tree_bytes(&table, &list);
    for length in 0..tree.len() {
        let recovered = recover(random, &bytes, &tree[..length]);
        assert_eq!(recovered.expect_err("a cut tree").0, 13);
    }
    for extra in 0..=255 {
        assert_eq!(recover(random, &bytes, &[&tree[..], &[extra]].concat()), Err((13, tree.len())));
    }
    // The count alone.
    for children in [0, list.len() - 1, list.len() + 1, list.len() + 256, 4_096, 4_097] {
        let counted = [&make::inner(FALLBACK, children)[..], &tree[3..]].concat();
        assert_eq!(recover(random, &bytes, &counted).expect_err("another count").0, 13);
    }
    if shorter.is_empty() || table.jobs.is_empty() {
        return;
    }
    // One entry after the others: it is the list's own next, or no plan lists it there.
    for _ in 0..30 {
        let any = *random.pick(&list[1..]);
        let condition = if random.one_in(2) { next[0].condition } else { any.condition };
        let job = if random.one_in(2) { next[0].job } else { random.below(table.jobs.len()) as u8 };
        let longer = [shorter, &[Entry { condition, job, parent: 0, depth: 0 }]].concat();
        let own = (condition, job) == (next[0].condition, next[0].job);
        let recovered = recover(random, &bytes, &tree_bytes(&table, &longer));
        assert_eq!(recovered, if own { Ok(list.clone()) } else { OTHER_ORIGIN });
    }
    assert_eq!(recover(random, &bytes, &tree_bytes(&table, shorter)), Ok(shorter.to_vec()));
}

/// Each entry's job made another, which may serve its parent too, with the condition as it is and with the one that the other job gives.
fn another_job(random: &mut Random, index: u64) {
    let (table, list) = listed(random, index, 25);
    let bytes = table.bytes();
    for at in 1..list.len() {
        for (number, job) in table.jobs.iter().enumerate() {
            let parent = list[usize::from(list[at].parent)].condition;
            for condition in [list[at].condition, condition_before(job, parent)] {
                let mut other = list.clone();
                other[at] = Entry { condition, job: number as u8, ..other[at] };
                let recovered = recover(random, &bytes, &tree_bytes(&table, &other));
                assert_eq!(recovered, if other == list { Ok(other) } else { OTHER_ORIGIN });
            }
        }
    }
}

/// Every job stands in the table twice, with other seconds: a plan names the first, and a tree that names the second anywhere is no plan's.
fn jobs_listed_twice(random: &mut Random, _: u64) {
    let facts = random.between(3, 6) as u32;
    let mut table = make::busy_table(random, facts, Plain);
    let count = table.jobs.len();
    table.jobs.extend_from_within(..);
    for job in &mut table.jobs[count..] {
        job.seconds = random.below(5_401) as u16;
    }
    let bytes = table.bytes();
    let list = expand(&table, None, 40).0;
    assert!(list[1..].iter().all(|entry| usize::from(entry.job) < count));
    assert_eq!(recover(random, &bytes, &tree_bytes(&table, &list)), Ok(list.clone()));
    for at in 1..list.len() {
        let mut other = list.clone();
        other[at].job += count as u8;
        assert_eq!(recover(random, &bytes, &tree_bytes(&table, &other)), OTHER_ORIGIN);
    }
}

/// Two entries that have changed places, of one depth and of two.
fn entries_swapped(random: &mut Random, index: u64) {
    let (table, list) = listed(random, index, 18);
    let bytes = table.bytes();
    for first in 1..list.len() {
        for second in first + 1..list.len() {
            let mut other = list.clone();
            other.swap(first, second);
            assert_eq!(recover(random, &bytes, &tree_bytes(&table, &other)), OTHER_ORIGIN);
        }
    }
}

/// The entries from which the job of this one gives its condition.
fn fitting_parents(table: &Table, list: &[Entry], at: usize) -> Vec<usize> {
    let job = &table.jobs[usize::from(list[at].job)];
    let fits = |parent: Condition| serves(job, parent) && condition_before(job, parent) == list[at].condition;
    (0..list.len()).filter(|other| fits(list[*other].condition)).collect()
}

/// The parent is the entry that was expanded. Newer ones may fit as well.
fn parents(random: &mut Random, index: u64) {
    let facts = random.between(4, 6) as u32;
    let table = if index == 0 { many_parents() } else { make::busy_table(random, facts, Plain) };
    let list = expand(&table, None, 60).0;
    let recovered = recover(random, &table.bytes(), &tree_bytes(&table, &list)).expect("a plan's tree");
    for (at, entry) in recovered.iter().enumerate().skip(1) {
        let parent = usize::from(entry.parent);
        assert_eq!(parent, fitting_parents(&table, &list, at)[0]);
        assert_eq!(entry.depth, recovered[parent].depth + 1);
    }
    if index == 0 {
        // One that fits is newer and as deep as its parent, and another is deeper.
        assert_eq!(fitting_parents(&table, &list, 5), [2, 3, 4]);
        assert_eq!([2, 3, 4, 5].map(|at: usize| recovered[at].depth), [1, 1, 2, 2]);
        assert_eq!(recovered[5].parent, 2);
    }
}

/// The goal is fact 0. A job brings it about from fact 1, others from the facts 2 and 3, and fact 4 leads to fact 1. The last job adds the facts 2, 3 and 4
/// and gives the same condition for each.
fn many_parents() -> Table {
    let jobs = vec![
        Job::plain(0x02, 0x01, 0, 60),
        Job::plain(0x04, 0x01, 0, 60),
        Job::plain(0x08, 0x01, 0, 60),
        Job::plain(0x10, 0x02, 0, 60),
        Job::plain(0x20, 0x1c, 0, 60),
    ];
    Table { facts: 6, jobs, goal: 0x01 }
}

/// Trees under tables that they were not planned with: other seconds are no matter, and other jobs or another goal are unless the list is the same.
fn other_tables(random: &mut Random, index: u64) {
    let (table, list) = listed(random, index, 30);
    let tree = tree_bytes(&table, &list);
    let mut other = table.clone();
    let facts = other.facts;
    match random.below(7) {
        0 => {
            for job in &mut other.jobs {
                job.seconds = random.below(5_401) as u16;
            }
            assert_eq!(recover(random, &other.bytes(), &tree), Ok(list), "seconds are no part of a tree");
            return;
        }
        1 if other.jobs.len() < MOST_JOBS => {
            let more = make::jobs(random, facts, 1, Plain);
            other.jobs.extend(more);
        }
        2 => {
            other.jobs.pop();
        }
        3 if !other.jobs.is_empty() => {
            let (first, second) = (random.below(other.jobs.len()), random.below(other.jobs.len()));
            other.jobs.swap(first, second);
        }
        4 if !other.jobs.is_empty() => {
            let at = random.below(other.jobs.len());
            other.jobs[at] = make::jobs(random, facts, 1, Plain)[0];
        }
        5 => other.goal = random.facts(facts, 3),
        _ => other = make::table(random, facts.max(2), 12, Plain),
    }
    // The library and the engine agree on it; where it is accepted it is the other table's own list.
    if let Ok(recovered) = recover(random, &other.bytes(), &tree) {
        assert_eq!(recovered, expand(&other, None, recovered.len()).0);
        assert_eq!(tree_bytes(&other, &recovered), tree);
    }
}

/// The trees of two fitters, with every row of licences: one in which nothing waits is the plan's, and any other is of another origin.
fn fitters(random: &mut Random, index: u64, kind: Jobs) {
    let table = table_of_few_jobs(random, index, kind);
    let bytes = table.bytes();
    let whole = expand(&table, None, table.most_entries()).0;
    for licences in make::every_row_of_licences(table.jobs.len()) {
        let start = random.pick(&whole).condition.present;
        let team = team(random, &table, &licences, start).expect("the start meets an entry");
        for fitter in FITTERS {
            let waits = team.list[1..].iter().any(|entry| owner(licences[usize::from(entry.job)]) != fitter);
            let recovered = recover(random, &bytes, team.tree(fitter));
            assert_eq!(recovered, if waits || table.is_paired() { OTHER_ORIGIN } else { Ok(team.list.clone()) });
        }
    }
}

/// A tree under one node more, with waiting leaves beside it, so that it is as long as a plan's.
fn as_long_as_a_plans(tree: &[u8]) -> Vec<u8> {
    let node = &tree[..tree.len() - 1];
    let leaves = (14 - (node.len() + 5) % 14) % 14;
    let longer = [&make::inner(FALLBACK, 1 + leaves)[..], node, &vec![WAITING_LEAF; leaves], &[END_OF_TREE]].concat();
    assert_eq!((longer.len() + 1) % 14, 0);
    longer
}

/// Sound trees of any shape, as they are and as long as a plan's; and those of lists that no plan made.
fn any_shape(random: &mut Random, _: u64, kind: Jobs) {
    let table = make::table(random, 12, 5, kind);
    let bytes = table.bytes();
    let tree = make::tree(random, &table);
    let entries = random.between(1, 6);
    let mut foreign = make::foreign_list(random, &table, entries);
    if random.one_in(2) {
        foreign[0].condition = Condition::plain(table.goal);
    }
    for sound in [&tree, &tree_bytes(&table, &foreign)] {
        let recovered = recover(random, &bytes, sound);
        assert!(recovered == OTHER_ORIGIN || recovered.is_ok() && !table.is_paired());
    }
    // One node more may be too deep.
    let recovered = recover(random, &bytes, &as_long_as_a_plans(&tree));
    assert!(matches!(recovered, Err((20, 0) | (14, _))) || recovered.is_ok() && !table.is_paired());
}

/// Shapes that come close to a plan's, of the same length or nearly so.
fn marked_shapes(random: &mut Random, _: u64, kind: Jobs) {
    let bytes = match kind {
        Plain => trailer::table(),
        // Document 01's trailer but for the command of a job, which needs nothing absent.
        Paired => {
            let mut jobs = trailer::jobs();
            jobs[4].command = PAIRED_JOB;
            table_bytes(trailer::FACTS, &jobs, trailer::GOAL)
        }
    };
    let (goal, seal) = (make::condition(0x10), make::condition(0x0c));
    let entry = |leaf: &[u8]| [&make::inner(SEQUENCE, 2)[..], &seal, leaf].concat();
    let under = |command: u8, children: &[&[u8]]| {
        [&make::inner(command, children.len())[..], &children.concat(), &[END_OF_TREE]].concat()
    };
    let job = &[JOB_LEAF, 4][..];
    let plans = [under(FALLBACK, &[&goal]), under(FALLBACK, &[&goal, &entry(job)])];
    let mut check_shape = |tree: &[u8]| {
        for lengths in [[2; 4], [0; 4]] {
            let recovered = recover_into(random, &bytes, tree, lengths);
            let of_a_plan = kind == Plain && plans.iter().any(|plan| plan == tree);
            assert_eq!(recovered == OTHER_ORIGIN, !of_a_plan, "the tree {tree:02x?}");
            assert_eq!(recovered == TOO_SHORT, of_a_plan && lengths[0] == 0);
        }
    };
    for plan in &plans {
        check_shape(plan);
    }
    let leaf_alone = |leaf: &[u8]| [leaf, &[END_OF_TREE]].concat();
    for tree in [
        // A leaf as root, of every kind.
        leaf_alone(&goal),
        leaf_alone(job),
        leaf_alone(&make::pair_condition(0x10, 0)),
        leaf_alone(&[WAITING_LEAF]),
        // The goal under another node, under two, and by two masks.
        under(SEQUENCE, &[&goal]),
        under(FALLBACK, &[&under(FALLBACK, &[&goal])[..12]]),
        under(FALLBACK, &[&make::pair_condition(0x10, 0)]),
        under(FALLBACK, &[job]),
        under(FALLBACK, &[&[WAITING_LEAF][..]; 9]),
        // The second entry: a fallback, a job before its condition, three children, one, no sequence, a waiting leaf, two masks.
        under(SEQUENCE, &[&goal, &entry(job)]),
        under(FALLBACK, &[&goal, &[&make::inner(FALLBACK, 2)[..], &seal, job].concat()]),
        under(FALLBACK, &[&goal, &[&make::inner(SEQUENCE, 2)[..], job, &seal].concat()]),
        under(FALLBACK, &[&goal, &[&make::inner(SEQUENCE, 3)[..], &seal, job, &[WAITING_LEAF]].concat()]),
        under(FALLBACK, &[&goal, &[&make::inner(SEQUENCE, 1)[..], &seal].concat()]),
        under(FALLBACK, &[&goal, &seal, job]),
        under(FALLBACK, &[&goal, &entry(&[WAITING_LEAF])]),
        under(FALLBACK, &[&goal, &entry(&seal)]),
        under(FALLBACK, &[&goal, &[&make::inner(SEQUENCE, 2)[..], &make::pair_condition(0x0c, 0), job].concat()]),
        // The entries alone, the other way round, and the first one twice.
        under(FALLBACK, &[&entry(job)]),
        under(FALLBACK, &[&entry(job), &goal]),
        under(FALLBACK, &[&goal, &goal]),
    ] {
        check_shape(&tree);
        check_shape(&as_long_as_a_plans(&tree));
    }
    // As deep as a tree may be, and deeper.
    for above in [14, 15, 16] {
        let tree = [make::inner(FALLBACK, 1).repeat(above), goal.clone(), vec![END_OF_TREE]].concat();
        let recovered = recover_into(random, &bytes, &tree, [0; 4]);
        assert_eq!(recovered, if above < 16 { OTHER_ORIGIN } else { Err((14, 48)) });
    }
    // As long as a plan's of 4,096 entries, as one of 4,097 or 4,681 would be, and as long as a tree may be.
    for (length, number) in [(57_343, 20), (57_357, 20), (65_533, 20), (65_535, 20), (65_536, 13)] {
        let tree = most_leaves(length - 52);
        assert_eq!(tree.len(), length);
        assert_eq!(recover_into(random, &bytes, &tree, [0; 4]), Err((number, 0)));
    }
}

/// Damaged trees and any bytes.
fn any_bytes(random: &mut Random, index: u64, kind: Jobs) {
    let table = make::table(random, 12, 5, kind);
    let bytes = table.bytes();
    let list = expand(&table, None, 12).0;
    let mut tree = match index % 3 {
        0 => tree_bytes(&table, &list),
        1 => make::tree(random, &table),
        _ => {
            let length = random.below(60);
            (0..length)
                .map(|_| if random.one_in(2) { random.byte() } else { *random.pick(&make::TREE_COMMANDS) })
                .collect()
        }
    };
    for _ in 0..random.between(1, 3) {
        make::damage(random, &mut tree, &make::TREE_COMMANDS);
    }
    let recovered = recover(random, &bytes, &tree);
    assert!(recovered.is_err() || !table.is_paired());
}

/// Under a table with a 0x21 every sound tree is of another origin, that of its own plan too, with lists of any length. The same table without it takes its
/// own.
fn of_a_paired_table(random: &mut Random, index: u64, kind: Jobs) {
    let mut table = make::small_table(random, index, Plain);
    if table.jobs.is_empty() {
        return;
    }
    let list = expand(&table, None, 40).0;
    let plain_tree = tree_bytes(&table, &list);
    if kind == Paired {
        // One job or more by the other command, with nothing that it needs absent: the list stays the same.
        let surely = random.below(table.jobs.len());
        for (number, job) in table.jobs.iter_mut().enumerate() {
            if number == surely || random.one_in(4) {
                job.command = PAIRED_JOB;
            }
        }
        assert_eq!(expand(&table, None, 40).0, list);
    }
    let bytes = table.bytes();
    let own_tree = tree_bytes(&table, &list);
    for tree in [&plain_tree, &own_tree] {
        let recovered = recover(random, &bytes, tree);
        assert_eq!(recovered, if kind == Paired { OTHER_ORIGIN } else { Ok(list.clone()) });
        for length in [0, 1, list.len() - 1, list.len(), 50] {
            let lengths = lent::list_shortest(list.len(), random.below(4), length);
            let recovered = recover_into(random, &bytes, tree, lengths);
            assert_eq!(recovered == OTHER_ORIGIN, kind == Paired);
            assert_eq!(recovered == TOO_SHORT, kind == Plain && length < list.len());
        }
        let cut = recover_into(random, &bytes, &tree[..tree.len() - 1], [0; 4]);
        assert_eq!(cut, Err((13, tree.len() - 1)));
    }
}

/// Several faults at once: of the table, of the tree, another origin, list tables that are too short. The first of them is told.
fn refused(random: &mut Random, _: u64, kind: Jobs) {
    let table = make::table(random, 8, 6, kind);
    let bytes = if random.one_in(3) { make::damaged_bytes(random, &table) } else { table.bytes() };
    let mut list = expand(&table, None, 12).0;
    if random.one_in(2) {
        change_list(random, &table, &mut list);
    }
    let mut tree = tree_bytes(&table, &list);
    match random.below(8) {
        0 => make::damage(random, &mut tree, &make::TREE_COMMANDS),
        1 => tree = make::chain(random, &table, 16, &[WAITING_LEAF]),
        2 => {
            let beyond = 1u64 << random.between(table.facts as usize - 1, 63);
            random.pick_mut(&mut list).condition.present |= beyond;
            tree = tree_bytes(&table, &list);
        }
        3 if list.len() > 1 => {
            let at = random.between(1, list.len() - 1);
            list[at].job = random.between(table.jobs.len(), 255) as u8;
            tree = tree_bytes(&table, &list);
        }
        _ => {}
    }
    let lengths = [0; 4].map(|_| random.below(list.len() + 6));
    let recovered = recover_into(random, &bytes, &tree, lengths);
    let first = match read_table(&bytes) {
        Err(of_table) => Some((of_table.number, of_table.place)),
        Ok(table) => read_tree(&tree, &table).err().map(|of_tree| (of_tree.number, of_tree.place)),
    };
    match first {
        Some(first) => assert_eq!(recovered, Err(first), "the table's stops come first, and then the tree's"),
        None => assert!(recovered.is_ok() || recovered == OTHER_ORIGIN || recovered == TOO_SHORT),
    }
}

/// Lists of 4,096 entries, also of a table whose whole list is longer; and trees of so many entries that no plan writes.
fn long(random: &mut Random, index: u64) {
    let table = match index {
        0..=3 => make::long_table(12, 4, Plain),
        4..=8 => make::long_table(13, 0, Plain),
        _ => make::counter_table(12, 60).0,
    };
    let bytes = table.bytes();
    let (list, ending) = expand(&table, None, MOST_ENTRIES);
    assert_eq!((list.len(), ending == Ending::Full), (4_096, (4..=8).contains(&index)));
    let last = list.len() - 1;
    let foreign = make::foreign_list(random, &table, 4_096);
    let mut recover = |list: &[Entry], lengths: ListLengths| {
        let tree = tree_bytes(&table, list);
        assert_eq!(tree.len(), 14 * list.len() - 1);
        recover_into(random, &bytes, &tree, lengths)
    };
    let changed = |change: &dyn Fn(&mut Vec<Entry>)| {
        let mut other = list.clone();
        change(&mut other);
        other
    };
    match index {
        0 | 4 | 9 => assert_eq!(recover(&list, [4_096; 4]), Ok(list)),
        1 | 5 => assert_eq!(recover(&list, lent::list_shortest(4_096, index as usize % 4, 4_095)), TOO_SHORT),
        2 | 6 => assert_eq!(recover(&list[..last], [5_000; 4]), Ok(list[..last].to_vec())),
        3 => assert_eq!(recover(&changed(&|list| list[last].job -= 1), [4_096; 4]), OTHER_ORIGIN),
        7 => assert_eq!(recover(&changed(&|list| list.swap(last - 1, last)), [0; 4]), OTHER_ORIGIN),
        // One entry more is more than a tree may have, though the whole list has it.
        8 => assert_eq!(recover(&expand(&table, None, 4_097).0, [5_000; 4]), Err((13, 0))),
        10 => assert_eq!(recover(&foreign, [4_096; 4]), OTHER_ORIGIN),
        // The last condition stays, so that the plan for it has as many entries.
        _ => assert_eq!(recover(&changed(&|list| list[1].job ^= 1), [4_096; 4]), OTHER_ORIGIN),
    }
}

/// The longest list with 128 jobs, and a tree of so many entries that no plan writes, on a stack of 256 KiB, by the library alone: the engine's stack is no
/// matter.
fn small_stack(_: &mut Random, _: u64) {
    let table = make::long_table(12, 116, Plain);
    let bytes = table.bytes();
    let list = expand(&table, None, MOST_ENTRIES).0;
    let tree = tree_bytes(&table, &list);
    let mut other = tree.clone();
    // The job of the last entry.
    let at = tree.len() - 2;
    other[at] ^= 1;
    let on_small_stack = move || {
        let mut lent = Lent::full();
        let of_a_plan = ffi::recover_list(&bytes, &tree, lent.lists());
        (of_a_plan, ffi::recover_list(&bytes, &other, lent.lists()), lent)
    };
    let thread = std::thread::Builder::new().stack_size(256 * 1024).spawn(on_small_stack).expect("a thread");
    let (of_a_plan, of_none, lent) = thread.join().expect("the thread ends");
    assert_eq!((of_a_plan, of_none), ([0, 4_096], [20, 0]));
    assert_eq!(lent.list(false, list.len()), list);
}
